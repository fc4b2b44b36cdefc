/* Tirnouch's own functions (c/include/tirnouch.h), over the faked bus. */
#include "faked.h"

#include "libusb.h"

#include <stdio.h>
#include <stdlib.h>
#include <string.h>

static char *text;
/* Of which devices the program has a function that computes their answers. */
static bool computes[DEVICES];

void begin_devices(void);

int tirnouch_plug(const char *given, size_t length)
{
    char *copy = malloc(length + 1);
    if (!copy)
        return LIBUSB_ERROR_NO_MEM;
    memcpy(copy, given, length);
    copy[length] = 0;
    pthread_mutex_lock(&faked_lock);
    bool is_open = is_watched();
    char *old = is_open ? copy : text;
    text = is_open ? text : copy;
    pthread_mutex_unlock(&faked_lock);
    free(old);
    return is_open ? LIBUSB_ERROR_BUSY : 0;
}

/* What the file of TIRNOUCH_DEVICES has, in memory that is kept; NULL without one. */
static char *text_of_file(void)
{
    const char *name = getenv("TIRNOUCH_DEVICES");
    FILE *file = name ? fopen(name, "r") : NULL;
    char *read = NULL;
    size_t room = 0;
    if (!file)
        return NULL;
    if (getdelim(&read, &room, 0, file) < 0) {
        free(read);
        read = NULL;
    }
    fclose(file);
    return read;
}

/* With libusb's first context: of the text that was plugged, or of the file. */
void begin_devices(void)
{
    char *given = text ? NULL : text_of_file();
    pthread_mutex_lock(&faked_lock);
    read_devices(text ? text : given ? given : "");
    pthread_mutex_unlock(&faked_lock);
    free(given);
}

static struct device *find(int number)
{
    return number >= 0 && number < DEVICES && faked_devices[number].is_there ? &faked_devices[number] : NULL;
}

int tirnouch_pull(int number)
{
    int result = 0;
    pthread_mutex_lock(&faked_lock);
    struct device *device = find(number);
    if (!device || device->is_hidden)
        result = LIBUSB_ERROR_NOT_FOUND;
    else if (device->is_gone)
        result = LIBUSB_ERROR_NO_DEVICE;
    else
        pull_device(device);
    pthread_mutex_unlock(&faked_lock);
    if (!result)
        wait_until_told();
    return result;
}

/* A hidden one is there from now on. One that is gone comes back, where a function computes its answers. */
int tirnouch_show(int number)
{
    int result = 0;
    pthread_mutex_lock(&faked_lock);
    struct device *device = find(number);
    if (device && device->is_hidden)
        show_device(device);
    else if (device && device->is_gone && computes[number] && !is_present(device->becomes))
        come_back(device);
    else
        result = LIBUSB_ERROR_NOT_FOUND;
    pthread_mutex_unlock(&faked_lock);
    if (!result)
        wait_until_told();
    return result;
}

/* Of a scripted device that is there. */
int tirnouch_replug(int number)
{
    int result = tirnouch_pull(number);
    if (result)
        return result;
    pthread_mutex_lock(&faked_lock);
    come_back(&faked_devices[number]);
    pthread_mutex_unlock(&faked_lock);
    wait_until_told();
    return 0;
}

/* The function isn't called: here it is one that is never ready, for a device that may come back. */
int tirnouch_on_packet(int number, uint8_t endpoint, tirnouch_packet answer, void *user)
{
    (void)endpoint;
    (void)user;
    if (number < 0 || number >= DEVICES)
        return LIBUSB_ERROR_NOT_FOUND;
    pthread_mutex_lock(&faked_lock);
    computes[number] = answer != NULL;
    pthread_mutex_unlock(&faked_lock);
    return 0;
}

int tirnouch_took(int number, uint8_t endpoint, size_t index, uint8_t *data, size_t room)
{
    int length = -1;
    pthread_mutex_lock(&faked_lock);
    const struct device *device = find(number);
    const struct pipe *pipe = device ? &device->pipes[place_of(endpoint)] : NULL;
    if (pipe && index < pipe->taken_count) {
        const struct packet *it = &pipe->taken[index];
        length = it->length;
        memcpy(data, it->bytes, (size_t)length < room ? (size_t)length : room);
    }
    pthread_mutex_unlock(&faked_lock);
    return length;
}

int tirnouch_requests(int number, size_t index, uint8_t out[64])
{
    pthread_mutex_lock(&faked_lock);
    const struct device *device = find(number);
    int count = device ? (int)device->request_count : 0;
    if (out && device && index < device->request_count && index < MOST_REQUESTS)
        memcpy(out, device->requests[index], 64);
    pthread_mutex_unlock(&faked_lock);
    return count;
}

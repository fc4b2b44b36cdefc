/* What tirnouch.h has beside libusb's own functions. */
#include "bus.h"

#include <stdlib.h>
#include <string.h>

/* Of a packet that was taken in a session before. */
#define NOT_KEPT (-2)

int tirnouch_plug(const char *text, size_t length)
{
    char *copy = malloc(length ? length : 1);
    if (!copy)
        return LIBUSB_ERROR_NO_MEM;
    if (length)
        memcpy(copy, text, length);
    if (!lock_unless_asked()) {
        free(copy);
        return LIBUSB_ERROR_BUSY;
    }
    bool is_used = process.bus.is_there;
    if (!is_used) {
        free_text(&process.text);
        process.text = (struct text){ .at = copy, .end = copy + length };
        process.text_name = "the text of tirnouch_plug";
    }
    unlock();
    if (is_used)
        free(copy);
    return is_used ? LIBUSB_ERROR_BUSY : 0;
}

static struct device *device_of(int number)
{
    bool is_one = process.bus.is_there && number >= 0 && number < DEVICES && process.bus.devices[number]->is_there;
    return is_one ? process.bus.devices[number] : NULL;
}

int tirnouch_on_control(int number, tirnouch_control answer, void *user)
{
    if (number < 0 || number >= DEVICES)
        return LIBUSB_ERROR_NOT_FOUND;
    if (!lock_unless_asked())
        return LIBUSB_ERROR_BUSY;
    process.controls[number].answer = answer;
    process.controls[number].user = user;
    process.controls[number].is_of_bus = process.has_begun;
    unlock();
    return 0;
}

/* Of an endpoint but 0. A device that is there moves into a core of its own with its first function. */
int tirnouch_on_packet(int number, uint8_t ep, tirnouch_packet answer, void *user)
{
    if (number < 0 || number >= DEVICES || !(ep & 15) || ep & 0x70)
        return LIBUSB_ERROR_NOT_FOUND;
    if (!lock_unless_asked())
        return LIBUSB_ERROR_BUSY;
    struct device *device = device_of(number);
    int r = device && answer ? come_alive(device) : 0;
    if (!r) {
        process.packets[number][place_of(ep)].answer = answer;
        process.packets[number][place_of(ep)].user = user;
        process.packets[number][place_of(ep)].is_of_bus = process.has_begun;
    }
    if (!r && device)
        learn_living(device);
    if (!r && device)
        ask_at_once(device);
    unlock();
    return r;
}

int tirnouch_on_event(int number, tirnouch_listener listener, void *user)
{
    if (number < 0 || number >= DEVICES)
        return LIBUSB_ERROR_NOT_FOUND;
    if (!lock_unless_asked())
        return LIBUSB_ERROR_BUSY;
    process.listeners[number].tell = listener;
    process.listeners[number].user = user;
    process.listeners[number].is_of_bus = process.has_begun;
    unlock();
    return 0;
}

/* What was set while the bus was there, which has ended: what it stands on may end with the test that set it. */
void take_back_functions(void)
{
    for (int i = 0; i < DEVICES; i++) {
        if (process.controls[i].is_of_bus)
            memset(&process.controls[i], 0, sizeof process.controls[i]);
        if (process.listeners[i].is_of_bus)
            memset(&process.listeners[i], 0, sizeof process.listeners[i]);
        for (int k = 0; k < ENDPOINTS; k++)
            if (process.packets[i][k].is_of_bus)
                memset(&process.packets[i][k], 0, sizeof process.packets[i][k]);
    }
}

/* Within a device's function too: then whoever asks it looks once more at all devices. */
int tirnouch_ready(int number)
{
    bool is_locked = lock_to_read();
    struct device *device = device_of(number);
    if (device)
        ask_at_once(device);
    process.bus.is_readied |= device && !is_locked;
    unlock_read(is_locked);
    return device ? 0 : LIBUSB_ERROR_NOT_FOUND;
}

int tirnouch_pull(int number)
{
    if (!lock_unless_asked())
        return LIBUSB_ERROR_BUSY;
    struct device *device = device_of(number);
    int r = device && !device->is_hidden ? pull_out(device) : LIBUSB_ERROR_NOT_FOUND;
    unlock();
    return r;
}

int tirnouch_show(int number)
{
    if (!lock_unless_asked())
        return LIBUSB_ERROR_BUSY;
    struct device *device = device_of(number);
    int r = device && !is_present(device) ? plug_in(device) : LIBUSB_ERROR_NOT_FOUND;
    unlock();
    return r;
}

/* A scripted one has a core of its own from then on: the one that is shared plugs none in again. */
int tirnouch_replug(int number)
{
    if (!lock_unless_asked())
        return LIBUSB_ERROR_BUSY;
    struct device *device = device_of(number);
    int r = device ? 0 : LIBUSB_ERROR_NOT_FOUND;
    if (!r && is_present(device)) {
        r = come_alive(device);
        learn_living(device);
        if (!r)
            r = pull_out(device);
    }
    if (!r)
        r = plug_in(device);
    unlock();
    return r;
}

int tirnouch_took(int number, uint8_t ep, size_t index, uint8_t *data, size_t room)
{
    uint8_t none[1];
    bool is_locked = lock_to_read();
    const struct device *device = device_of(number);
    uint64_t before = device ? device->pipes[place_of(ep)].took : 0;
    int r = -1;
    if (device && index >= before)
        r = tirnouch_taken(&device->core->slot, device->number_there, ep, index - (size_t)before, room ? data : none, room);
    unlock_read(is_locked);
    return r >= 0 ? r : index < before ? NOT_KEPT : -1;
}

int tirnouch_requests(int number, size_t index, uint8_t out[64])
{
    bool is_locked = lock_to_read();
    const struct device *device = device_of(number);
    int count = device ? (int)device->request_count : 0;
    if (device && out && device->requests && index < device->request_count && index < MOST_REQUESTS)
        memcpy(out, device->requests[index], 64);
    unlock_read(is_locked);
    return count;
}

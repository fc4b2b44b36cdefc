/* What the scenes of this folder share (scene.h). */
#include "scene.h"

#include <stdio.h>
#include <stdlib.h>
#include <string.h>
#include <time.h>
#include <unistd.h>

#define ROUNDS 20

libusb_context *context;
libusb_device_handle *handle;
int calls;

static void require(int is_so, const char *what)
{
    if (is_so)
        return;
    printf("  the scene can't begin: %s\n", what);
    exit(1);
}

void begin_text(const char *name, const char *text)
{
    static int is_set;
    if (!is_set)
        setvbuf(stdout, NULL, _IOLBF, 0);
    is_set = 1;
    puts(name);
    handle = NULL;
    context = NULL;
    calls = 0;
    require(tirnouch_plug(text, strlen(text)) == 0, "plug");
    require(libusb_init(&context) == 0, "init");
}

libusb_device_handle *open_standard(libusb_context *of)
{
    libusb_device_handle *opened = libusb_open_device_with_vid_pid(of, VENDOR, PRODUCT);
    require(opened != NULL, "open");
    return opened;
}

void begin_unclaimed(const char *name, const char *more)
{
    size_t length = sizeof STANDARD + strlen(more);
    char *text = malloc(length);
    require(text != NULL, "memory");
    snprintf(text, length, "%s%s", STANDARD, more);
    begin_text(name, text);
    free(text);
    handle = open_standard(context);
}

void begin(const char *name, const char *more)
{
    begin_unclaimed(name, more);
    require(libusb_claim_interface(handle, 0) == 0, "claim of 0");
    require(libusb_claim_interface(handle, 1) == 0, "claim of 1");
}

void end(void)
{
    if (handle)
        libusb_close(handle);
    libusb_exit(context);
    handle = NULL;
    context = NULL;
}

int is_hub(libusb_device *device)
{
    struct libusb_device_descriptor it;
    return libusb_get_device_descriptor(device, &it) == 0 && it.bDeviceClass == LIBUSB_CLASS_HUB && it.idVendor == 0x1d6b;
}

ssize_t list_devices(libusb_context *of, libusb_device ***list)
{
    ssize_t count = libusb_get_device_list(of, list), kept = 0;
    for (ssize_t i = 0; i < count; i++) {
        if (is_hub((*list)[i]))
            libusb_unref_device((*list)[i]);
        else
            (*list)[kept++] = (*list)[i];
    }
    if (count < 0)
        return count;
    (*list)[kept] = NULL;
    return kept;
}

libusb_device *first_device(void)
{
    libusb_device **list, *device;
    require(list_devices(context, &list) > 0, "device list");
    device = libusb_ref_device(list[0]);
    libusb_free_device_list(list, 1);
    return device;
}

void answer(const char *call, int result)
{
    if (result < 0)
        printf("  %s: %s\n", call, libusb_error_name(result));
    else
        printf("  %s: %d\n", call, result);
}

void say(const char *line)
{
    printf("  %s\n", line);
}

void number(const char *what, long long value)
{
    printf("  %s: %lld\n", what, value);
}

void bytes(const char *what, const unsigned char *data, int count)
{
    printf("  %s:", what);
    for (int i = 0; i < count; i++)
        printf(" %02x", data[i]);
    printf("\n");
}

const char *status_name(int status)
{
    static const char *const names[] = { "COMPLETED", "ERROR", "TIMED_OUT", "CANCELLED", "STALL", "NO_DEVICE", "OVERFLOW" };
    return status >= 0 && status < 7 ? names[status] : "no status";
}

void tell(struct libusb_transfer *transfer)
{
    const unsigned char *data = transfer->buffer;
    calls++;
    printf("  called %ld %s %d", (long)(intptr_t)transfer->user_data, status_name((int)transfer->status), transfer->actual_length);
    if (transfer->endpoint & LIBUSB_ENDPOINT_IN && transfer->actual_length > 0)
        printf(" %02x..%02x", data[0], data[transfer->actual_length - 1]);
    printf("\n");
}

struct libusb_transfer *make(long id, unsigned char ep, int length)
{
    struct libusb_transfer *transfer = libusb_alloc_transfer(0);
    unsigned char *buffer = calloc(1, (size_t)length + 1);
    require(transfer != NULL && buffer != NULL, "transfer");
    for (int i = 0; i < length && !(ep & LIBUSB_ENDPOINT_IN); i++)
        buffer[i] = (unsigned char)i;
    libusb_fill_bulk_transfer(transfer, handle, ep, buffer, length, tell, (void *)(intptr_t)id, 0);
    if (ep == 0x83)
        transfer->type = LIBUSB_TRANSFER_TYPE_INTERRUPT;
    return transfer;
}

int send_off(struct libusb_transfer *transfer)
{
    int result = libusb_submit_transfer(transfer);
    if (result)
        printf("  submit %ld: %s\n", (long)(intptr_t)transfer->user_data, libusb_error_name(result));
    return result;
}

struct libusb_transfer *submit_with(long id, unsigned char ep, int length, int flags, unsigned timeout)
{
    struct libusb_transfer *transfer = make(id, ep, length);
    transfer->flags = (uint8_t)flags;
    transfer->timeout = timeout;
    send_off(transfer);
    return transfer;
}

struct libusb_transfer *submit(long id, unsigned char ep, int length)
{
    return submit_with(id, ep, length, 0, 0);
}

void discard(struct libusb_transfer *transfer)
{
    free(transfer->buffer);
    transfer->buffer = NULL;
    libusb_free_transfer(transfer);
}

static void handle_once(long seconds)
{
    struct timeval wait = { seconds, 0 };
    int result = libusb_handle_events_timeout(context, &wait);
    if (result)
        answer("events", result);
}

void work(void)
{
    int before;
    do {
        before = calls;
        handle_once(0);
    } while (calls != before);
}

void wait_for(int count)
{
    for (int i = 0; i < ROUNDS && calls < count; i++)
        handle_once(1);
    if (calls < count)
        say("waited in vain");
}

void took(unsigned char ep)
{
    unsigned char packet[64];
    int length;
    printf("  took:");
    for (size_t i = 0; (length = tirnouch_took(0, ep, i, packet, sizeof packet)) >= 0; i++)
        printf(" %d", length);
    printf("\n");
}

static FILE *errors;
static int errors_before;

void hear_errors(void)
{
    fflush(stderr);
    errors_before = dup(STDERR_FILENO);
    errors = tmpfile();
    require(errors && errors_before >= 0 && dup2(fileno(errors), STDERR_FILENO) >= 0, "errors");
}

void show_errors(void)
{
    char line[1000];
    fflush(stderr);
    dup2(errors_before, STDERR_FILENO);
    close(errors_before);
    rewind(errors);
    while (fgets(line, sizeof line, errors))
        if (!strncmp(line, "libusb: ", 8))
            printf("  %s", line);
    fclose(errors);
}

void refuse_text(const char *what, const char *text)
{
    libusb_context *own = NULL;
    puts(what);
    require(tirnouch_plug(text, strlen(text)) == 0, "plug");
    hear_errors();
    int result = libusb_init(&own);
    show_errors();
    answer("init", result);
    if (!result)
        libusb_exit(own);
}

size_t read_digits(const char *digits, unsigned char *data)
{
    unsigned byte;
    size_t count = 0;
    for (; *digits && sscanf(digits, "%2x", &byte) == 1; digits += 2)
        data[count++] = (unsigned char)byte;
    return count;
}

long long clock_now(void)
{
    struct timespec now;
    clock_gettime(CLOCK_MONOTONIC, &now);
    return (long long)now.tv_sec * 1000 + now.tv_nsec / 1000000;
}

void virtual_time(int is_on)
{
    if (is_on)
        setenv("TIRNOUCH_TIME", "virtual", 1);
    else
        unsetenv("TIRNOUCH_TIME");
}

/* A driver on libusb that does what it is told, and prints what its callbacks are told: tools/captures runs it over umockdev.

       play VENDOR PRODUCT COUNT     the device, in hexadecimal digits, and how many transfers there are at most

   Lines of standard input:

       submit N EP TYPE LENGTH FLAGS HEX   transfer N, from 0 on, to an endpoint; FLAGS are libusb's; HEX is - where nothing is written
       wait N                              events are handled until transfer N is called back
       cancel N                            it is cancelled first
       clear EP                            the endpoint's halt is cleared

   A callback's line is `N EP STATUS ACTUAL HEX`; HEX is - where nothing was read. Status 1: a line that isn't understood, or no memory;
   2: libusb or the device isn't there; 3: a transfer isn't accepted; 4: a transfer isn't called back in some seconds. */
#include <libusb.h>
#include <stdbool.h>
#include <stdio.h>
#include <stdlib.h>
#include <string.h>

enum { BAD_LINE = 1, NO_DEVICE, NOT_ACCEPTED, NOT_CALLED };
enum { INTERFACES = 32, MOMENTS = 5000, MOMENT = 1000 };

struct transfer {
    struct libusb_transfer *libusb;
    long number;
    bool is_out;
};

static libusb_context *context;
static libusb_device_handle *handle;
static struct transfer *transfers;
static long count;

static const char *status_name(enum libusb_transfer_status status) {
    static const char *const names[] = {"COMPLETED", "ERROR", "TIMED_OUT", "CANCELLED", "STALL", "NO_DEVICE", "OVERFLOW"};
    return (unsigned)status < sizeof names / sizeof *names ? names[status] : "UNKNOWN";
}

static _Noreturn void stop(int status, const char *why) {
    fflush(stdout);
    fprintf(stderr, "play: %s\n", why);
    exit(status);
}

static void called(struct libusb_transfer *it) {
    struct transfer *transfer = it->user_data;
    bool has_read = (it->endpoint & LIBUSB_ENDPOINT_IN) && it->actual_length;
    printf("%ld %02x %s %d ", transfer->number, it->endpoint, status_name(it->status), it->actual_length);
    for (int i = 0; has_read && i < it->actual_length; i++) printf("%02x", it->buffer[i]);
    puts(has_read ? "" : "-");
    transfer->is_out = false;
}

static void handle_events(int microseconds) {
    struct timeval time = {.tv_sec = 0, .tv_usec = microseconds};
    libusb_handle_events_timeout(context, &time);
}

/* The transfer of a number, where there may be one. */
static struct transfer *at(long n) {
    if (n < 0 || n >= count) stop(BAD_LINE, "a number that isn't one of a transfer");
    return &transfers[n];
}

/* Memory of so many bytes, with those of `hex` in it. */
static unsigned char *buffer_of(size_t length, const char *hex) {
    unsigned char *buffer = calloc(1, length + 1);
    if (!buffer) stop(BAD_LINE, "no memory");
    for (size_t i = 0; hex[0] != '-' && i < length; i++) {
        unsigned byte;
        if (sscanf(hex + 2 * i, "%2x", &byte) != 1) stop(BAD_LINE, "too few digits");
        buffer[i] = (unsigned char)byte;
    }
    return buffer;
}

static void submit(const char *line) {
    long n;
    unsigned ep, type, length, flags;
    int behind = 0;
    if (sscanf(line, "submit %ld %x %u %u %u %n", &n, &ep, &type, &length, &flags, &behind) < 5 || !behind) stop(BAD_LINE, line);
    struct transfer *it = at(n);
    it->libusb = libusb_alloc_transfer(0);
    if (!it->libusb) stop(BAD_LINE, "no memory");
    unsigned char *buffer = buffer_of(length, line + behind);
    libusb_fill_bulk_transfer(it->libusb, handle, (unsigned char)ep, buffer, (int)length, called, it, 0);
    it->libusb->type = (unsigned char)type;
    it->libusb->flags = (uint8_t)flags;
    it->number = n;
    it->is_out = true;
    int refused = libusb_submit_transfer(it->libusb);
    if (refused) stop(NOT_ACCEPTED, libusb_error_name(refused));
    handle_events(0);
}

static void wait_for(long n, bool is_cancelled) {
    struct transfer *it = at(n);
    if (is_cancelled && it->is_out) libusb_cancel_transfer(it->libusb);
    for (int i = 0; it->is_out && i < MOMENTS; i++) handle_events(MOMENT);
    if (it->is_out) stop(NOT_CALLED, "a transfer isn't called back");
}

static void obey(const char *line) {
    long n;
    unsigned ep;
    if (sscanf(line, "wait %ld", &n) == 1) wait_for(n, false);
    else if (sscanf(line, "cancel %ld", &n) == 1) wait_for(n, true);
    else if (sscanf(line, "clear %x", &ep) == 1) libusb_clear_halt(handle, (unsigned char)ep);
    else submit(line);
}

int main(int words, char **word) {
    if (words != 4) stop(BAD_LINE, "play VENDOR PRODUCT COUNT");
    count = strtol(word[3], NULL, 10);
    transfers = calloc((size_t)count + 1, sizeof *transfers);
    if (!transfers) stop(BAD_LINE, "no memory");
    if (libusb_init(&context)) stop(NO_DEVICE, "libusb doesn't begin");
    handle = libusb_open_device_with_vid_pid(context, (uint16_t)strtoul(word[1], NULL, 16), (uint16_t)strtoul(word[2], NULL, 16));
    if (!handle) stop(NO_DEVICE, "the device isn't there");
    for (int i = 0; i < INTERFACES; i++) libusb_claim_interface(handle, i);
    char *line = NULL;
    size_t size = 0;
    while (getline(&line, &size, stdin) > 0) obey(line);
    free(line);
    return 0;
}

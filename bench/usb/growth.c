/* Whether reads of 8 bytes take more time, or leave more memory in use, as a session grows old: the last million of ten beside the first.
 *
 *     growth [MILLIONS]
 *
 * Each is resubmitted in the callback; where the device gave all its packets, it begins anew, and that is measured with them. */
#include "device.h"
#include "measure.h"

#include <malloc.h>

#define LENGTH 8
#define MILLION 1000000

static libusb_context *context;
static libusb_device_handle *handle;
static struct libusb_transfer *transfer;
/* How many reads the device has packets for yet, and whether one is in flight. */
static int left;
static bool is_flying;

static void must(bool is_so, const char *what)
{
    must_of("growth", is_so, what);
}

static void submit(void)
{
    must(!libusb_submit_transfer(transfer), "a submission is refused");
    is_flying = true;
    left--;
}

static void called(struct libusb_transfer *it)
{
    size_t position = (size_t)(PACKETS - left - 1) * LENGTH;
    must(it->status == LIBUSB_TRANSFER_COMPLETED && it->actual_length == LENGTH, "a read failed");
    must(it->buffer[0] == byte_at(position) && it->buffer[7] == byte_at(position + 7), "a byte is another one");
    is_flying = false;
    if (left)
        submit();
}

/* Nanoseconds a read. */
static double million(void)
{
    struct timeval none = { 0, 0 };
    double start = now();
    for (int done = 0; done < MILLION; done += PACKETS) {
        left = PACKETS;
        submit();
        while (is_flying)
            must(!libusb_handle_events_timeout(context, &none), "events aren't handled");
        must(!libusb_reset_device(handle), "the device doesn't begin anew");
    }
    return (now() - start) / MILLION;
}

static size_t memory(void)
{
    struct mallinfo2 it = mallinfo2();
    return it.uordblks + it.hblkhd;
}

int main(int count, char **words)
{
    int millions = count > 1 ? atoi(words[1]) : 10;
    unsigned char buffer[LENGTH];
    handle = attach(LENGTH, NULL, &context);
    transfer = libusb_alloc_transfer(0);
    must(handle && transfer && !libusb_claim_interface(handle, 0), "there is no device");
    libusb_fill_bulk_transfer(transfer, handle, ENDPOINT, buffer, LENGTH, called, NULL, 0);
    setvbuf(stdout, NULL, _IONBF, 0);
    for (int i = 1; i <= millions; i++) {
        double took = million();
        if (i == 1 || i == millions)
            printf("reads of 8 bytes, million %d: %.1f ns each, then %zu bytes in use\n", i, took, memory());
    }
    libusb_free_transfer(transfer);
    libusb_close(handle);
    libusb_exit(context);
    return 0;
}

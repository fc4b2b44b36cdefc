/* What a transfer takes by libusb's functions, from its submission to its callback: one source over Tirnouch's library, with scripted.c,
 * and over libusb's own, with usbfs.c.
 *
 *     transfers [ROUNDS [WORD]]     nanoseconds, the least of so many rounds; the word is one that usbfs.c has
 *
 * In a round the device gives all its packets. It begins anew between rounds, and that isn't measured; nor is a round before them, in
 * which each byte is looked at. */
#include "device.h"
#include "measure.h"

#define MOST_AT_ONCE 16

struct work {
    const char *name;
    int length, packet, at_once;
    unsigned timeout;
    bool resubmits;
};

static const struct work works[] = {
    { "8 bytes, and an event call", 8, 8, 1, 0, false },
    { "8 bytes, resubmitted in the callback", 8, 8, 1, 0, true },
    { "8 bytes, a timeout of 1000 ms", 8, 8, 1, 1000, false },
    { "8 bytes, 16 in flight", 8, 8, 16, 0, false },
    { "8 bytes, 16 in flight, resubmitted", 8, 8, 16, 0, true },
    { "512 bytes", 512, 512, 1, 0, false },
    { "4,096 bytes", 4096, 512, 1, 0, false },
    { "65,536 bytes", 65536, 512, 1, 0, false },
};

static libusb_context *context;
static struct libusb_transfer *transfers[MOST_AT_ONCE];

/* A round: how many are to be submitted yet, and are in flight; the bytes that came, and whether each is looked at. */
static struct {
    const struct work *work;
    int left, flying;
    size_t came;
    bool looks;
} state;

static void must(bool is_so, const char *what)
{
    must_of(state.work->name, is_so, what);
}

static void submit(struct libusb_transfer *transfer)
{
    if (state.looks)
        memset(transfer->buffer, 0, (size_t)transfer->length);
    must(!libusb_submit_transfer(transfer), "a submission is refused");
    state.left--;
    state.flying++;
}

static void called(struct libusb_transfer *transfer)
{
    must(transfer->status == LIBUSB_TRANSFER_COMPLETED && transfer->actual_length == transfer->length, "a transfer failed");
    for (size_t i = 0; state.looks && i < (size_t)transfer->length; i++)
        must(transfer->buffer[i] == byte_at(state.came + i), "a byte is another one");
    state.came += (size_t)transfer->actual_length;
    state.flying--;
    if (state.work->resubmits && state.left)
        submit(transfer);
}

/* What a transfer took in one round. */
static double one_round(int count)
{
    struct timeval none = { 0, 0 };
    state.left = count;
    state.came = 0;
    double start = now();
    while (state.left) {
        for (int i = 0; i < state.work->at_once && state.left; i++)
            submit(transfers[i]);
        while (state.flying)
            must(!libusb_handle_events_timeout(context, &none), "events aren't handled");
    }
    double took = now() - start;
    must(state.came == (size_t)count * (size_t)state.work->length, "bytes are missing");
    return took / count;
}

static double least_of(int rounds, libusb_device_handle *handle)
{
    const struct work *work = state.work;
    int count = PACKETS / (work->length / work->packet);
    double least = 1e18;
    for (int round = 0; round <= rounds; round++) {
        state.looks = !round;
        double took = one_round(count);
        if (round && took < least)
            least = took;
        must(!libusb_reset_device(handle), "the device doesn't begin anew");
    }
    return least;
}

static void measure(const struct work *work, int rounds, const char *word)
{
    state.work = work;
    libusb_device_handle *handle = attach(work->packet, word, &context);
    must(handle && !libusb_claim_interface(handle, 0), "there is no device");
    for (int i = 0; i < work->at_once; i++) {
        unsigned char *buffer = malloc((size_t)work->length);
        transfers[i] = libusb_alloc_transfer(0);
        must(buffer && transfers[i], "there is no memory");
        libusb_fill_bulk_transfer(transfers[i], handle, ENDPOINT, buffer, work->length, called, NULL, work->timeout);
    }
    printf("%-40s %10.1f\n", work->name, least_of(rounds, handle));
    fflush(stdout);
    for (int i = 0; i < work->at_once; i++) {
        free(transfers[i]->buffer);
        libusb_free_transfer(transfers[i]);
    }
    libusb_close(handle);
    libusb_exit(context);
}

int main(int count, char **words)
{
    int rounds = count > 1 ? atoi(words[1]) : 50;
    for (size_t i = 0; i < sizeof works / sizeof *works; i++)
        measure(&works[i], rounds, count > 2 ? words[2] : NULL);
    return 0;
}

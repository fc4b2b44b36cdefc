/* What a transfer takes by libusb's functions where one thread submits and another handles events, with 16 in line: one source over
 * Tirnouch's library, with scripted.c, and over libusb's own, with usbfs.c.
 *
 *     threads [ROUNDS [WORD]]     nanoseconds, the middle of so many rounds; the word is one that usbfs.c has
 *
 * In a round the device gives all its packets. It begins anew between rounds, and that isn't measured; nor is a round before them. */
#include "device.h"
#include "measure.h"

#include <pthread.h>
#include <sched.h>
#include <stdatomic.h>

#define IN_LINE 16
#define LENGTH 8
#define MOST_ROUNDS 1000

static libusb_context *context;
static struct libusb_transfer *transfers[IN_LINE];
static unsigned char buffers[IN_LINE][LENGTH];

/* How many callbacks were called in the round, and whether events are handled any longer. */
static atomic_int called_back;
static atomic_bool is_over;

static void must(bool is_so, const char *what)
{
    must_of("16 in line, two threads", is_so, what);
}

/* The transfers end in the order in which they were submitted, so the count says which one this is, and what it read. */
static void called(struct libusb_transfer *transfer)
{
    int count = atomic_load_explicit(&called_back, memory_order_relaxed);
    must(transfer == transfers[count % IN_LINE], "a transfer ended out of order");
    must(transfer->status == LIBUSB_TRANSFER_COMPLETED && transfer->actual_length == LENGTH, "a transfer failed");
    must(transfer->buffer[0] == byte_at((size_t)count * LENGTH), "a byte is another one");
    atomic_store_explicit(&called_back, count + 1, memory_order_release);
}

static void *handle_events(void *nothing)
{
    struct timeval soon = { 0, 100000 };
    while (!atomic_load(&is_over))
        must(!libusb_handle_events_timeout(context, &soon), "events aren't handled");
    return nothing;
}

/* Waits until at most so many callbacks are missing. */
static void wait_for(int submitted, int missing)
{
    while (submitted - atomic_load_explicit(&called_back, memory_order_acquire) > missing)
        sched_yield();
}

/* What a transfer took in one round. */
static double one_round(void)
{
    atomic_store(&called_back, 0);
    double start = now();
    for (int i = 0; i < PACKETS; i++) {
        wait_for(i, IN_LINE - 1);
        must(!libusb_submit_transfer(transfers[i % IN_LINE]), "a submission is refused");
    }
    wait_for(PACKETS, 0);
    return (now() - start) / PACKETS;
}

static int by_size(const void *a, const void *b)
{
    double x = *(const double *)a, y = *(const double *)b;
    return (x > y) - (x < y);
}

int main(int count, char **words)
{
    static double took[MOST_ROUNDS];
    int rounds = count > 1 ? atoi(words[1]) : 50;
    must(rounds > 0 && rounds <= MOST_ROUNDS, "so many rounds there can't be");
    libusb_device_handle *handle = attach(LENGTH, count > 2 ? words[2] : NULL, &context);
    must(handle && !libusb_claim_interface(handle, 0), "there is no device");
    for (int i = 0; i < IN_LINE; i++) {
        transfers[i] = libusb_alloc_transfer(0);
        must(transfers[i], "there is no memory");
        libusb_fill_bulk_transfer(transfers[i], handle, ENDPOINT, buffers[i], LENGTH, called, NULL, 0);
    }
    pthread_t events;
    must(!pthread_create(&events, NULL, handle_events, NULL), "there is no thread");
    for (int round = 0; round <= rounds; round++) {
        double it = one_round();
        if (round)
            took[round - 1] = it;
        must(!libusb_reset_device(handle), "the device doesn't begin anew");
    }
    atomic_store(&is_over, true);
    pthread_join(events, NULL);
    qsort(took, (size_t)rounds, sizeof *took, by_size);
    printf("%-40s %10.1f\n", "8 bytes, 16 in line, two threads", took[rounds / 2]);
    for (int i = 0; i < IN_LINE; i++)
        libusb_free_transfer(transfers[i]);
    libusb_close(handle);
    libusb_exit(context);
    return 0;
}

/* Races in one thread: with TIRNOUCH_SEED devices and controller go on by single steps before each call. For each of many seeds reads of
 * three packets are cancelled now and then; whatever comes of it, each is called back once, their bytes in order of submission are the
 * device's, and the same seed makes the same run. */
#include "scene.h"

#include <poll.h>
#include <stdio.h>
#include <stdlib.h>
#include <string.h>

#define SEEDS 300
#define READS 24
#define LENGTH 24
#define PACKETS 80
#define WAITED 200

struct end {
    int status, length, order, is_asked;
};

static struct libusb_transfer *transfers[READS];
static struct end ends[READS], before[READS];
static int ended, late_cancels, partial_cancels, failures;
static unsigned state;

static unsigned dice(unsigned sides)
{
    state = state * 1103515245u + 12345u;
    return (state >> 16) % sides;
}

static void require(int is_so, unsigned seed, const char *what)
{
    if (is_so)
        return;
    printf("  seed %u: %s\n", seed, what);
    failures++;
}

static void on_call(struct libusb_transfer *transfer)
{
    struct end *end = &ends[(intptr_t)transfer->user_data];
    end->status = (int)transfer->status;
    end->length = transfer->actual_length;
    end->order = end->order ? -1 : ++ended;
}

static void begin_with(unsigned seed, const char *text)
{
    char number_of_seed[16];
    sprintf(number_of_seed, "%u", seed);
    setenv("TIRNOUCH_SEED", number_of_seed, 1);
    if (tirnouch_plug(text, strlen(text)) || libusb_init(&context))
        exit(1);
    handle = open_standard(context);
    if (libusb_claim_interface(handle, 0))
        exit(1);
}

/* By a loop of its own: what it polls is readable as long as something is to be done. */
static void poll_for_one(unsigned seed)
{
    const struct libusb_pollfd **list = libusb_get_pollfds(context);
    struct pollfd it = { .fd = list && list[0] ? list[0]->fd : -1, .events = POLLIN };
    struct timeval none = { 0, 0 };
    struct libusb_transfer *transfer = make(0, 0x81, 8);
    libusb_free_pollfds(list);
    memset(ends, 0, sizeof ends);
    ended = 0;
    transfer->callback = on_call;
    send_off(transfer);
    while (!ended && poll(&it, 1, 5000) > 0)
        libusb_handle_events_timeout(context, &none);
    require(ended && ends[0].length == 2, seed, "a read that is polled for");
    discard(transfer);
}

static void begin_seed(unsigned seed)
{
    static char text[sizeof STANDARD + 64 + PACKETS * 24];
    size_t length = (size_t)sprintf(text, "%sscript 0 81", STANDARD);
    for (unsigned i = 0; i < PACKETS; i++) {
        length += (size_t)sprintf(text + length, i % 5 == 2 ? " n d:" : " d:");
        for (unsigned j = 0; j < 8; j++)
            length += (size_t)sprintf(text + length, "%02x", (8 * i + j) % 251);
    }
    strcpy(text + length, "\n");
    begin_with(seed, text);
}

static void cancel(int i)
{
    int result = libusb_cancel_transfer(transfers[i]);
    ends[i].is_asked |= result == 0;
}

static void run(unsigned seed)
{
    struct timeval none = { 0, 0 };
    memset(ends, 0, sizeof ends);
    ended = 0;
    state = seed;
    begin_seed(seed);
    for (int i = 0; i < READS; i++) {
        transfers[i] = make(i, 0x81, LENGTH);
        transfers[i]->callback = on_call;
        send_off(transfers[i]);
        if (dice(2))
            cancel((int)dice((unsigned)i + 1));
        if (dice(8) == 0)
            libusb_handle_events_timeout(context, &none);
    }
    for (int i = 0; i < READS; i++)
        cancel(i);
    for (int i = 0; i < 50 && ended < READS; i++)
        libusb_handle_events_timeout(context, &none);
}

static void check(unsigned seed)
{
    int total = 0, last = 0;
    for (int i = 0; i < READS; i++) {
        const struct end *it = &ends[i];
        int is_completed = it->status == LIBUSB_TRANSFER_COMPLETED;
        require(it->order > 0, seed, "not called back, or twice");
        require(is_completed || it->status == LIBUSB_TRANSFER_CANCELLED, seed, "another status");
        require(!is_completed || it->length == LENGTH, seed, "completed with fewer bytes");
        require(is_completed || (it->is_asked && it->length < LENGTH), seed, "cancelled unasked, or whole");
        require(!is_completed || it->order > last, seed, "completed out of order");
        last = is_completed ? it->order : last;
        for (int j = 0; j < it->length; j++, total++)
            require(transfers[i]->buffer[j] == total % 251, seed, "another byte");
        late_cancels += is_completed && it->is_asked;
        partial_cancels += !is_completed && it->length > 0;
    }
}

static void finish(void)
{
    libusb_close(handle);
    libusb_exit(context);
    for (int i = 0; i < READS; i++)
        discard(transfers[i]);
}

/* Devices that aren't ready at first, by seeds: a read that is waited for ends, and so does one that is polled for. */
static void wait_by_seeds(void)
{
    unsigned char data[8];
    for (unsigned seed = 1; seed <= WAITED; seed++) {
        int moved = 0, result;
        begin_with(seed, STANDARD "script 0 81 n d:0001 n n d:0002\n");
        result = libusb_bulk_transfer(handle, 0x81, data, sizeof data, &moved, 5000);
        require(result == 0 && moved == 2, seed, "a read that is waited for");
        poll_for_one(seed);
        libusb_close(handle);
        libusb_exit(context);
    }
}

int main(void)
{
    puts("reads that are cancelled, by seeds");
    for (unsigned seed = 1; seed <= SEEDS && failures < 10; seed++) {
        run(seed);
        check(seed);
        finish();
        memcpy(before, ends, sizeof ends);
        run(seed);
        finish();
        require(!memcmp(before, ends, sizeof ends), seed, "another run of the same seed");
    }
    wait_by_seeds();
    number("failures", failures);
    say(late_cancels ? "a cancel came too late, and its transfer was completed" : "no cancel came too late");
    say(partial_cancels ? "one that was cancelled had some bytes" : "none that was cancelled had bytes");
    return 0;
}

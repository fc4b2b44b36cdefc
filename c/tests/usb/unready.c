/* Races of devices that compute, by seeds in virtual time: one that isn't ready is asked again before any call, and time goes on to where
 * it is, or to a deadline. The same races come out as at a script. The ends that there have to be are written from docs/DEVICES.md. */
#include "scene.h"

#include <stdio.h>
#include <stdlib.h>
#include <string.h>

#define SEEDS 20
#define MANY_SEEDS 100
#define DEADLINE 5
/* How often events are handled for a driver that closes: more than it takes. */
#define ROUNDS 50
#define BY_PROGRAM(answer) "program 0 sh programs/unready.sh '" answer "'\n"

/* What the function answers each other time that it is asked, and between that a packet; and how it ended, by statuses. */
static int unready, asked, last, count_of[8];

static int give(void *user, uint8_t ep, uint8_t *data, int length)
{
    (void)user;
    (void)ep;
    (void)length;
    if (unready && ++asked % 2)
        return unready;
    data[0] = 42;
    return 1;
}

static void on_end(struct libusb_transfer *transfer)
{
    last = (int)transfer->status;
    count_of[last]++;
    calls++;
}

static void begin_seed(unsigned seed, const char *text)
{
    char number_of_seed[16];
    sprintf(number_of_seed, "%u", seed);
    asked = calls = 0;
    if (seed)
        setenv("TIRNOUCH_SEED", number_of_seed, 1);
    else
        unsetenv("TIRNOUCH_SEED");
    if (tirnouch_plug(text, strlen(text)) || libusb_init(&context))
        exit(1);
    handle = open_standard(context);
    if (libusb_claim_interface(handle, 0))
        exit(1);
}

static void finish(void)
{
    libusb_close(handle);
    libusb_exit(context);
}

/* A read is submitted, and perhaps cancelled at once: how it ended. */
static int read_once(unsigned seed, const char *text, unsigned timeout)
{
    begin_seed(seed, text);
    struct libusb_transfer *read = make(0, 0x81, 8);
    read->callback = on_end;
    read->timeout = timeout;
    send_off(read);
    if (!timeout)
        libusb_cancel_transfer(read);
    while (!calls)
        libusb_handle_events(context);
    discard(read);
    finish();
    return last;
}

/* Which ends there are, over some seeds; the same seed has the same. */
static void ends_of(const char *name, const char *text, unsigned timeout)
{
    const char *between = "";
    memset(count_of, 0, sizeof count_of);
    for (unsigned seed = 1; seed <= SEEDS; seed++)
        if (read_once(seed, text, timeout) != read_once(seed, text, timeout))
            printf("  seed %u: another run ends otherwise\n", seed);
    printf("  %s: ", name);
    for (int status = 0; status < 8; status++)
        if (count_of[status]) {
            printf("%s%s", between, status_name(status));
            between = " and ";
        }
    puts("");
}

static void of_function(const char *name, int answer, unsigned timeout)
{
    unready = answer;
    tirnouch_on_packet(0, 0x81, give, NULL);
    ends_of(name, STANDARD, timeout);
    tirnouch_on_packet(0, 0x81, NULL, NULL);
}

static void cancels(void)
{
    puts("a read and its cancel");
    ends_of("a script that is ready", STANDARD "script 0 81 d:2a\n", 0);
    ends_of("a script that isn't ready at first", STANDARD "script 0 81 n d:2a\n", 0);
    of_function("a function that is ready", 0, 0);
    of_function("a function that isn't ready at first", TIRNOUCH_NOT_READY, 0);
    of_function("a function that is ready later", TIRNOUCH_LATER(1), 0);
    ends_of("a program that isn't ready at first", BY_PROGRAM("n"), 0);
    ends_of("a program that is ready later", BY_PROGRAM("later 1"), 0);
}

/* An answer that is there before the deadline is taken; one behind it is, where who handles events comes late. */
static void deadlines(void)
{
    puts("a deadline, and an answer before it, at it, and behind it");
    of_function("before", TIRNOUCH_LATER(DEADLINE - 1), DEADLINE);
    of_function("at it", TIRNOUCH_LATER(DEADLINE), DEADLINE);
    of_function("behind it", TIRNOUCH_LATER(DEADLINE + 1), DEADLINE);
    of_function("long behind it", TIRNOUCH_LATER(1000), DEADLINE);
}

static int is_stopped;

/* What is wrong in the driver below: a read that was done as it was cancelled is submitted again. */
static void on_report(struct libusb_transfer *transfer)
{
    calls++;
    is_stopped = transfer->status != LIBUSB_TRANSFER_COMPLETED || libusb_submit_transfer(transfer);
}

/* A driver of a sensor with an interval reads a report, cancels the next read, and closes once that has ended. Whether it comes to that. */
static int closes(unsigned seed)
{
    struct timeval none = { 0, 0 };
    begin_seed(seed, STANDARD);
    struct libusb_transfer *reports = make(0, 0x81, 8);
    reports->callback = on_report;
    is_stopped = 0;
    send_off(reports);
    while (!calls)
        libusb_handle_events(context);
    libusb_cancel_transfer(reports);
    for (int i = 0; i < ROUNDS && !is_stopped; i++)
        libusb_handle_events_timeout(context, &none);
    int is_closed = is_stopped;
    while (!is_stopped) {
        libusb_cancel_transfer(reports);
        libusb_handle_events_timeout(context, &none);
    }
    discard(reports);
    finish();
    return is_closed;
}

static void a_wrong_driver(void)
{
    unsigned seed = 1;
    unready = TIRNOUCH_LATER(10);
    tirnouch_on_packet(0, 0x81, give, NULL);
    puts("a driver that submits again while it closes");
    say(closes(0) ? "without a seed it closes" : "without a seed it doesn't close");
    while (seed <= MANY_SEEDS && closes(seed))
        seed++;
    say(seed <= MANY_SEEDS ? "with one it doesn't" : "no seed finds that");
    tirnouch_on_packet(0, 0x81, NULL, NULL);
}

int main(void)
{
    virtual_time(1);
    cancels();
    deadlines();
    a_wrong_driver();
    return 0;
}

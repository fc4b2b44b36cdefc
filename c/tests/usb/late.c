/* Events that are handled late: what a device would have answered before a deadline is COMPLETED, and what it wouldn't is TIMED_OUT
 * (docs/C.md, "How it works"). Time is virtual, and goes past the deadline in one step, but in the last scene. */
#include "scene.h"

#include <pthread.h>
#include <stdatomic.h>
#include <stdio.h>
#include <stdlib.h>
#include <string.h>
#include <unistd.h>

#define LATE 300
#define READS 20
#define LONG 300000

/* How many ended with each status, and what the last one moved. */
static struct {
    int of[8], moved;
} ends;

static void LIBUSB_CALL count_end(struct libusb_transfer *transfer)
{
    calls++;
    ends.of[transfer->status]++;
    ends.moved = transfer->actual_length;
}

static void tell_ends(const char *what)
{
    printf("  %s: %d COMPLETED, %d TIMED_OUT, %d bytes\n", what, ends.of[LIBUSB_TRANSFER_COMPLETED],
           ends.of[LIBUSB_TRANSFER_TIMED_OUT], ends.moved);
    memset(&ends, 0, sizeof ends);
    calls = 0;
}

static struct libusb_transfer *request_of(unsigned timeout)
{
    struct libusb_transfer *transfer = libusb_alloc_transfer(0);
    unsigned char *buffer = calloc(1, 16);
    libusb_fill_control_setup(buffer, 0xc0, 1, 0, 0, 8);
    libusb_fill_control_transfer(transfer, handle, buffer, count_end, NULL, timeout);
    send_off(transfer);
    return transfer;
}

static struct libusb_transfer *counted(unsigned char ep, int length, unsigned timeout)
{
    struct libusb_transfer *transfer = make(0, ep, length);
    transfer->callback = count_end;
    transfer->timeout = timeout;
    send_off(transfer);
    return transfer;
}

/* More reads than have a place in the core, and a write that goes in pieces. */
static void ready(void)
{
    struct libusb_transfer *reads[READS], *one;
    virtual_time(1);
    begin("a device that is ready, and events 300 ms late",
          "script 0 81 d:01*20\nscript 0 02 a*37500\ncontrol 0 c0 01 0000 0000 d:0102\n");
    one = request_of(100);
    tirnouch_advance(LATE);
    wait_for(1);
    tell_ends("a request");
    discard(one);
    for (int i = 0; i < READS; i++)
        reads[i] = counted(0x81, 8, 100);
    tirnouch_advance(LATE);
    wait_for(READS);
    tell_ends("twenty reads");
    one = counted(0x02, LONG, 100);
    tirnouch_advance(LATE);
    wait_for(1);
    tell_ends("a write in pieces");
    discard(one);
    for (int i = 0; i < READS; i++)
        discard(reads[i]);
    end();
    virtual_time(0);
}

/* A device that names the moment at which it is ready. */
static int wait_of, is_waiting, is_ready;

static int answer_later(uint8_t *data)
{
    if (is_waiting++)
        return data[0] = 0x2a, 1;
    return TIRNOUCH_LATER(wait_of);
}

static int later_packet(void *user, uint8_t ep, uint8_t *data, int length)
{
    (void)user, (void)ep, (void)length;
    return answer_later(data);
}

static int later_request(void *user, const uint8_t setup[8], uint8_t *data, int length)
{
    (void)user, (void)length;
    return setup[0] == 0xc0 ? answer_later(data) : TIRNOUCH_AS_TEXT;
}

static void named_moments(void)
{
    virtual_time(1);
    tirnouch_on_packet(0, 0x81, later_packet, NULL);
    tirnouch_on_control(0, later_request, NULL);
    begin("a device that is ready after 4 and 6 ms, and a deadline at 5", "");
    for (wait_of = 4; wait_of <= 6; wait_of += 2) {
        for (int is_request = 0; is_request < 2; is_request++) {
            is_waiting = 0;
            struct libusb_transfer *one = is_request ? request_of(5) : counted(0x81, 8, 5);
            tirnouch_advance(LATE);
            wait_for(1);
            tell_ends(is_request ? "a request" : "a read");
            discard(one);
        }
    }
    end();
    tirnouch_on_packet(0, 0x81, NULL, NULL);
    tirnouch_on_control(0, NULL, NULL);
    virtual_time(0);
}

static int ready_packet(void *user, uint8_t ep, uint8_t *data, int length)
{
    (void)user, (void)ep, (void)length;
    return is_ready ? data[0] = 0x2a, 1 : TIRNOUCH_NOT_READY;
}

/* A read is asked for in time, and its device becomes ready at this moment: so it says, or something else is sent to it. The deadline is
 * 100. */
static void ready_at(unsigned moment, int is_told)
{
    is_ready = 0;
    struct libusb_transfer *read = counted(0x81, 8, 100), *write = NULL;
    work();
    tirnouch_advance(moment);
    is_ready = 1;
    if (is_told)
        tirnouch_ready(0);
    else
        write = counted(0x02, 8, 0);
    tirnouch_advance(LATE);
    wait_for(is_told ? 1 : 2);
    tell_ends(is_told ? "the device says so" : "something is sent to it, and ends");
    discard(read);
    if (write)
        discard(write);
}

static void not_in_time(void)
{
    virtual_time(1);
    tirnouch_on_packet(0, 0x81, ready_packet, NULL);
    begin("a device that becomes ready before its deadline", "script 0 02 a a\n");
    ready_at(50, 1);
    ready_at(50, 0);
    end();
    begin("and behind it", "script 0 02 a a\n");
    ready_at(150, 1);
    ready_at(150, 0);
    end();
    tirnouch_on_packet(0, 0x81, NULL, NULL);
    begin("an answer of the text that waits for a packet, which comes in time", "script 0 81 d:01\nscript 0 02 a\nafter 0 81 0 02 1\n");
    ready_at(50, 0);
    end();
    begin("or doesn't", "script 0 81 d:01\nscript 0 02 a\nafter 0 81 0 02 1\n");
    ready_at(150, 0);
    end();
    virtual_time(0);
}

/* Random programs, each of which is run twice: with events handled at each millisecond, and only when all is over. A device needs so many
 * milliseconds for an answer as its endpoint and the answer's number say. */
#define PROGRAMS 300
#define MOST 40
enum { IN_PACKETS, OUT_PACKETS, REQUESTS, KINDS };

static unsigned dice_state, program;
static struct {
    int was_asked;
    unsigned number;
} answers[KINDS];
static int outcomes[2][MOST];

static unsigned dice(unsigned sides)
{
    dice_state = dice_state * 1103515245u + 12345u;
    return (dice_state >> 16) % sides;
}

static int ask(int kind)
{
    unsigned wait = ((program * 7919u + (unsigned)kind * 131u + answers[kind].number * 31u) * 2654435761u >> 20) % 9;
    if (wait && !answers[kind].was_asked) {
        answers[kind].was_asked = 1;
        return TIRNOUCH_LATER(wait);
    }
    answers[kind].was_asked = 0;
    return (int)++answers[kind].number;
}

static int compute_packet(void *user, uint8_t ep, uint8_t *data, int length)
{
    int is_in = ep & LIBUSB_ENDPOINT_IN, number = ask(is_in ? IN_PACKETS : OUT_PACKETS);
    (void)user;
    if (number < 0 || !is_in)
        return number < 0 ? number : length;
    data[0] = (uint8_t)number;
    return 1;
}

static int compute_request(void *user, const uint8_t setup[8], uint8_t *data, int length)
{
    int number = setup[0] == 0xc0 ? ask(REQUESTS) : TIRNOUCH_AS_TEXT;
    (void)user, (void)length;
    if (number < 0)
        return number;
    data[0] = (uint8_t)number;
    return 1;
}

/* Status, length and first byte in one number. */
static void LIBUSB_CALL keep_outcome(struct libusb_transfer *transfer)
{
    int *outcome = transfer->user_data;
    const unsigned char *data = transfer->buffer + (transfer->endpoint ? 0 : LIBUSB_CONTROL_SETUP_SIZE);
    int shown = transfer->endpoint == 0x02 ? 0 : data[0];
    *outcome = (int)transfer->status << 16 | transfer->actual_length << 8 | shown;
    calls++;
}

static struct libusb_transfer *send_some(int *outcome)
{
    int kind = (int)dice(KINDS);
    unsigned timeout = 1 + dice(15);
    struct libusb_transfer *it = make(0, kind == IN_PACKETS ? 0x81 : 0x02, 16);
    memset(it->buffer, 0, 16);
    it->length = 8;
    if (kind == REQUESTS) {
        libusb_fill_control_setup(it->buffer, 0xc0, 1, 0, 0, 8);
        libusb_fill_control_transfer(it, handle, it->buffer, keep_outcome, outcome, timeout);
    } else {
        libusb_fill_bulk_transfer(it, handle, it->endpoint, it->buffer, 8, keep_outcome, outcome, timeout);
    }
    send_off(it);
    return it;
}

static void pass(unsigned milliseconds, int is_late)
{
    for (; milliseconds; milliseconds--) {
        tirnouch_advance(1);
        if (!is_late)
            work();
    }
}

/* How many transfers it has. */
static int run_program(int is_late)
{
    struct tirnouch_options options = { .size = sizeof options, .devices = STANDARD, .devices_length = sizeof STANDARD - 1, .is_virtual = 1 };
    struct libusb_transfer *all[MOST];
    dice_state = program;
    memset(answers, 0, sizeof answers);
    calls = 0;
    int count = 1 + (int)dice(MOST);
    if (tirnouch_begin(&options) || libusb_init(&context))
        return 0;
    handle = open_standard(context);
    libusb_claim_interface(handle, 0);
    for (int i = 0; i < count; i++) {
        all[i] = send_some(&outcomes[is_late][i]);
        if (!is_late)
            work();
        pass(dice(4) ? dice(3) : dice(12), is_late);
    }
    pass(LATE, is_late);
    work();
    int left = count - calls;
    libusb_close(handle);
    for (int i = 0; i < count; i++)
        discard(all[i]);
    libusb_exit(context);
    tirnouch_end();
    return left ? 0 : count;
}

static void as_in_time(void)
{
    int differ = 0, unfinished = 0, transfers[8] = { 0 };
    puts("programs whose events are handled at once, and late");
    tirnouch_on_packet(0, 0x81, compute_packet, NULL);
    tirnouch_on_packet(0, 0x02, compute_packet, NULL);
    tirnouch_on_control(0, compute_request, NULL);
    for (program = 1; program <= PROGRAMS; program++) {
        int count = run_program(0), late = run_program(1);
        unfinished += !count || count != late;
        differ += memcmp(outcomes[0], outcomes[1], (size_t)count * sizeof outcomes[0][0]) != 0;
        for (int i = 0; i < count; i++)
            transfers[outcomes[1][i] >> 16]++;
    }
    number("unfinished", unfinished);
    number("differ", differ);
    number("some are COMPLETED", transfers[LIBUSB_TRANSFER_COMPLETED] > PROGRAMS);
    number("some are TIMED_OUT", transfers[LIBUSB_TRANSFER_TIMED_OUT] > PROGRAMS);
    tirnouch_on_packet(0, 0x81, NULL, NULL);
    tirnouch_on_packet(0, 0x02, NULL, NULL);
    tirnouch_on_control(0, NULL, NULL);
}

/* A callback that takes longer than the timeout of what another thread waits for meanwhile. By the clock itself. */
static atomic_int is_within, is_over;

static void LIBUSB_CALL be_slow(struct libusb_transfer *transfer)
{
    (void)transfer;
    is_within = 1;
    usleep(LATE * 1000);
}

static void *handle_all(void *of)
{
    while (!is_over) {
        struct timeval soon = { 0, 20000 };
        libusb_handle_events_timeout(of, &soon);
    }
    return NULL;
}

static void slow_callback(void)
{
    unsigned char data[8];
    int moved;
    pthread_t handler;
    begin("another thread's callback takes longer than a timeout", "script 0 81 d:01 d:02 d:03\ncontrol 0 c0 01 0000 0000 d:0102\n");
    pthread_create(&handler, NULL, handle_all, context);
    struct libusb_transfer *slow = make(0, 0x81, 8);
    slow->callback = be_slow;
    for (int is_bulk = 0; is_bulk < 2; is_bulk++) {
        is_within = 0;
        send_off(slow);
        while (!is_within)
            usleep(1000);
        if (is_bulk)
            answer("a read", libusb_bulk_transfer(handle, 0x81, data, 8, &moved, 100));
        else
            answer("a request", libusb_control_transfer(handle, 0xc0, 1, 0, 0, data, 2, 100));
    }
    is_over = 1;
    pthread_join(handler, NULL);
    discard(slow);
    end();
}

int main(void)
{
    ready();
    named_moments();
    not_in_time();
    as_in_time();
    slow_callback();
    return 0;
}

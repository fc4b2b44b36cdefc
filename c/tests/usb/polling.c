/* Programs with a loop of their own: the descriptors of libusb_get_pollfds are readable where something is to be done or a time is over, and
 * else they aren't, however often they are asked for (libusb's manual, "Polling and timing"). */
#include "scene.h"

#include <poll.h>
#include <stdio.h>
#include <stdlib.h>
#include <string.h>
#include <unistd.h>

#define ROUNDS 1000

/* Whether one of the context's descriptors can be read, within so many milliseconds. */
static int is_ready(int milliseconds)
{
    const struct libusb_pollfd **list = libusb_get_pollfds(context);
    struct pollfd fds[8];
    nfds_t count = 0;
    for (; list && list[count] && count < 8; count++)
        fds[count] = (struct pollfd){ .fd = list[count]->fd, .events = list[count]->events };
    libusb_free_pollfds(list);
    return poll(fds, count, milliseconds) > 0;
}

/* Polls and handles events until nothing is to be done, as a loop does that never calls for a wait. */
static void loop(void)
{
    struct timeval none = { 0, 0 };
    for (int i = 0; i < ROUNDS && is_ready(0); i++)
        libusb_handle_events_timeout(context, &none);
}

static void at_rest(void)
{
    struct libusb_transfer *transfer;
    int ready = 0;
    begin("at rest with a transfer in flight", "");
    transfer = submit(0, 0x81, 8);
    loop();
    for (int i = 0; i < ROUNDS; i++)
        ready += is_ready(0);
    number("ready", ready);
    libusb_cancel_transfer(transfer);
    say(is_ready(2000) ? "ready behind a cancel" : "not ready");
    while (!calls && is_ready(2000))
        loop();
    discard(transfer);
    end();
}

static void times(void)
{
    struct libusb_transfer *early, *late;
    begin("two timeouts, and nobody asks for them", "");
    answer("timeouts by themselves", libusb_pollfds_handle_timeouts(context));
    late = submit_with(1, 0x81, 8, 0, 120);
    early = submit_with(0, 0x83, 8, 0, 40);
    loop();
    say(is_ready(0) ? "ready at once" : "not ready yet");
    while (calls < 2 && is_ready(2000))
        loop();
    say(is_ready(0) ? "ready behind them" : "not ready behind them");
    discard(early);
    discard(late);
    end();
}

static void answers(void)
{
    struct libusb_transfer *transfer;
    begin("an answer that comes behind some that weren't ready", "script 0 81 n n n d:0102 n d:03\n");
    transfer = submit(0, 0x81, 8);
    while (!calls && is_ready(2000))
        loop();
    send_off(transfer);
    while (calls < 2 && is_ready(2000))
        loop();
    discard(transfer);
    end();
}

static libusb_context *other;

/* What one context writes is what the other's device waits for. */
static void two_contexts(void)
{
    struct libusb_transfer *read, *write;
    libusb_device_handle *second;
    struct timeval none = { 0, 0 };
    begin_unclaimed("a device waits for what another context does", "script 0 02 a\nscript 0 83 d:07\nafter 0 83 0 02 1\n");
    libusb_claim_interface(handle, 1);
    answer("init", libusb_init(&other));
    second = open_standard(other);
    answer("claim", libusb_claim_interface(second, 0));
    read = submit(0, 0x83, 8);
    loop();
    say(is_ready(0) ? "ready" : "not ready");
    write = make(1, 0x02, 1);
    write->dev_handle = second;
    send_off(write);
    for (int i = 0; i < 20 && calls < 2; i++) {
        libusb_handle_events_timeout(other, &none);
        if (is_ready(100))
            loop();
    }
    number("calls", calls);
    discard(read);
    discard(write);
    libusb_close(second);
    libusb_exit(other);
    end();
}

int main(void)
{
    at_rest();
    times();
    answers();
    two_contexts();
    return 0;
}

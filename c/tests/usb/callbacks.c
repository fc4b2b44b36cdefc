/* What a callback may do: submit again and another, cancel, release, close, free; and what it may not: handle events, and wait for a
 * transfer. */
#include "scene.h"

#include <pthread.h>
#include <stdatomic.h>
#include <stdlib.h>
#include <unistd.h>

static struct libusb_transfer *other;
static libusb_device_handle *other_handle;
static int rounds;

static struct libusb_transfer *make_with(long id, unsigned char ep, int length, libusb_transfer_cb_fn callback)
{
    struct libusb_transfer *transfer = make(id, ep, length);
    transfer->callback = callback;
    return transfer;
}

static void again(struct libusb_transfer *transfer)
{
    tell(transfer);
    if (rounds-- > 0 && transfer->status != LIBUSB_TRANSFER_CANCELLED)
        answer("submit in the callback", libusb_submit_transfer(transfer));
}

static void resubmission(void)
{
    struct libusb_transfer *transfer;
    begin("submitted again", "script 0 81 d:01 d:02 d:03\n");
    rounds = 5;
    transfer = make_with(0, 0x81, 8, again);
    send_off(transfer);
    work();
    answer("cancel", libusb_cancel_transfer(transfer));
    work();
    discard(transfer);
    end();

    begin("submitted again at a device that is gone", "");
    rounds = 1;
    transfer = make_with(0, 0x81, 8, again);
    send_off(transfer);
    tirnouch_pull(0);
    work();
    discard(transfer);
    end();

    virtual_time(1);
    begin("submitted again with the same timeout", "");
    rounds = 2;
    transfer = make_with(0, 0x81, 8, again);
    transfer->timeout = 3000;
    send_off(transfer);
    wait_for(3);
    discard(transfer);
    end();
    virtual_time(0);
}

static void again_elsewhere(struct libusb_transfer *transfer)
{
    tell(transfer);
    transfer->endpoint = 0x83;
    transfer->type = LIBUSB_TRANSFER_TYPE_INTERRUPT;
    transfer->length = 2;
    transfer->callback = tell;
    answer("submit in the callback", libusb_submit_transfer(transfer));
}

static void submit_other(struct libusb_transfer *transfer)
{
    tell(transfer);
    answer("submit of the other", libusb_submit_transfer(other));
}

static void submissions(void)
{
    struct libusb_transfer *transfer;
    begin("submitted again, filled anew", "script 0 81 d:01\nscript 0 83 d:0b0c\n");
    transfer = make_with(0, 0x81, 8, again_elsewhere);
    send_off(transfer);
    work();
    discard(transfer);
    end();

    begin("another is submitted", "script 0 81 d:01\nscript 0 83 d:0b\n");
    transfer = make_with(0, 0x81, 8, submit_other);
    other = make(1, 0x83, 8);
    send_off(transfer);
    work();
    discard(transfer);
    discard(other);
    end();
}

static void cancel_other(struct libusb_transfer *transfer)
{
    tell(transfer);
    answer("cancel of itself", libusb_cancel_transfer(transfer));
    answer("cancel of the other", libusb_cancel_transfer(other));
}

static void release_other(struct libusb_transfer *transfer)
{
    tell(transfer);
    answer("release of the other's", libusb_release_interface(handle, 1));
}

static void release_own(struct libusb_transfer *transfer)
{
    tell(transfer);
    answer("release", libusb_release_interface(handle, 0));
}

static void with_other(const char *name, libusb_transfer_cb_fn callback)
{
    struct libusb_transfer *transfer;
    begin(name, "script 0 81 d:01\n");
    transfer = make_with(0, 0x81, 8, callback);
    other = submit(1, 0x83, 8);
    send_off(transfer);
    work();
    if (callback == release_own) {
        answer("cancel of the other", libusb_cancel_transfer(other));
        work();
    }
    discard(transfer);
    discard(other);
    end();
}

static void close_own(struct libusb_transfer *transfer)
{
    tell(transfer);
    libusb_close(handle);
    handle = NULL;
    say("closed");
}

static void close_other(struct libusb_transfer *transfer)
{
    tell(transfer);
    libusb_close(other_handle);
    say("closed the other");
}

static void closes_own(void)
{
    struct libusb_transfer *transfer;
    begin("its own handle is closed", "script 0 81 d:01\n");
    transfer = make_with(0, 0x81, 8, close_own);
    other = submit(1, 0x83, 8);
    send_off(transfer);
    work();
    handle = open_standard(context);
    answer("claim by another", libusb_claim_interface(handle, 1));
    discard(transfer);
    discard(other);
    end();
}

static void closes_other(void)
{
    struct libusb_transfer *transfer;
    begin("another handle is closed", "script 0 81 d:01\n");
    answer("release", libusb_release_interface(handle, 1));
    other_handle = open_standard(context);
    answer("claim by the other", libusb_claim_interface(other_handle, 1));
    transfer = make_with(0, 0x81, 8, close_other);
    other = make(1, 0x83, 8);
    other->dev_handle = other_handle;
    send_off(other);
    send_off(transfer);
    work();
    answer("claim", libusb_claim_interface(handle, 1));
    discard(transfer);
    discard(other);
    end();
}

static void cancel_ended(struct libusb_transfer *transfer)
{
    tell(transfer);
    int result = libusb_cancel_transfer(other);
    say(result == 0 || result == LIBUSB_ERROR_NOT_FOUND ? "the cancel comes too late" : "another answer");
}

/* The device answered both before the first is called back. */
static void both_ended(const char *name, libusb_transfer_cb_fn callback)
{
    struct libusb_transfer *transfer;
    begin(name, "script 0 81 d:01 d:02\n");
    transfer = make_with(0, 0x81, 8, callback);
    other = make(1, 0x81, 8);
    send_off(transfer);
    send_off(other);
    work();
    number("calls", calls);
    discard(transfer);
    discard(other);
    end();
}

static atomic_int callback_is_over;

static void *make_calls(void *user)
{
    libusb_device **list;
    struct libusb_transfer *transfer = user;
    libusb_device_handle *another = open_standard(context);
    number("devices", list_devices(context, &list));
    libusb_free_device_list(list, 1);
    answer("claim", libusb_claim_interface(another, 1));
    transfer->dev_handle = another;
    answer("submit", libusb_submit_transfer(transfer));
    answer("cancel", libusb_cancel_transfer(transfer));
    answer("clear_halt", libusb_clear_halt(handle, 0x02));
    answer("release", libusb_release_interface(another, 1));
    libusb_close(another);
    say("closed");
    return NULL;
}

static void let_another_call(struct libusb_transfer *transfer)
{
    pthread_t thread;
    tell(transfer);
    if (pthread_create(&thread, NULL, make_calls, other))
        exit(1);
    pthread_join(thread, NULL);
}

static void beside_a_callback(void)
{
    struct libusb_transfer *transfer;
    begin("another thread calls while a callback runs", "script 0 81 d:01\n");
    libusb_release_interface(handle, 1);
    transfer = make_with(0, 0x81, 8, let_another_call);
    other = make(1, 0x83, 8);
    send_off(transfer);
    work();
    discard(transfer);
    discard(other);
    end();
}

static void *close_it(void *user)
{
    (void)user;
    libusb_close(handle);
    say(atomic_load(&callback_is_over) ? "closed behind its callback" : "closed amid its callback");
    return NULL;
}

static pthread_t closer;

static void let_another_close(struct libusb_transfer *transfer)
{
    tell(transfer);
    if (pthread_create(&closer, NULL, close_it, NULL))
        exit(1);
    usleep(100000);
    atomic_store(&callback_is_over, 1);
}

static void closed_beside_a_callback(void)
{
    struct libusb_transfer *transfer;
    begin("another thread closes the handle whose callback runs", "script 0 81 d:01\n");
    atomic_store(&callback_is_over, 0);
    transfer = make_with(0, 0x81, 8, let_another_close);
    send_off(transfer);
    work();
    pthread_join(closer, NULL);
    handle = NULL;
    discard(transfer);
    end();
}

static void handle_events_inside(struct libusb_transfer *transfer)
{
    struct timeval none = { 0, 0 };
    int completed = 0;
    tell(transfer);
    answer("handle_events_timeout", libusb_handle_events_timeout(context, &none));
    answer("handle_events_timeout_completed", libusb_handle_events_timeout_completed(context, &none, &completed));
    answer("handle_events", libusb_handle_events(context));
    answer("handle_events_completed", libusb_handle_events_completed(context, &completed));
}

static void wait_inside(struct libusb_transfer *transfer)
{
    unsigned char data[18];
    int moved = 0;
    tell(transfer);
    answer("bulk", libusb_bulk_transfer(handle, 0x02, data, 8, &moved, 100));
    answer("interrupt", libusb_interrupt_transfer(handle, 0x83, data, 8, &moved, 100));
    answer("control", libusb_control_transfer(handle, 0x80, 0x06, 0x0100, 0, data, 18, 100));
}

static void handles_events(void)
{
    struct libusb_transfer *transfer;
    begin("events are handled in a callback", "script 0 81 d:01\n");
    transfer = make_with(0, 0x81, 8, handle_events_inside);
    send_off(transfer);
    work();
    discard(transfer);
    end();
}

static void waits(void)
{
    struct libusb_transfer *transfer;
    begin("a callback waits for transfers", "script 0 81 d:01\nscript 0 02 a\nscript 0 83 d:01\n");
    transfer = make_with(0, 0x81, 8, wait_inside);
    send_off(transfer);
    work();
    took(0x02);
    discard(transfer);
    end();
}

static void free_inside(struct libusb_transfer *transfer)
{
    tell(transfer);
    free(transfer->buffer);
    libusb_free_transfer(transfer);
}

static void freed_by(const char *name, int flags, libusb_transfer_cb_fn callback)
{
    struct libusb_transfer *transfer;
    begin(name, "script 0 81 d:01\n");
    transfer = make_with(0, 0x81, 8, callback);
    transfer->flags = (uint8_t)flags;
    other = submit(1, 0x83, 8);
    send_off(transfer);
    work();
    if (flags == LIBUSB_TRANSFER_FREE_BUFFER)
        libusb_free_transfer(transfer);
    libusb_cancel_transfer(other);
    work();
    discard(other);
    end();
}

static void freeing(void)
{
    freed_by("freed by its flags", LIBUSB_TRANSFER_FREE_TRANSFER | LIBUSB_TRANSFER_FREE_BUFFER, tell);
    freed_by("its buffer is freed with it", LIBUSB_TRANSFER_FREE_BUFFER, tell);
    freed_by("freed in its callback", 0, free_inside);
    freed_by("freed by its flags without a callback", LIBUSB_TRANSFER_FREE_TRANSFER | LIBUSB_TRANSFER_FREE_BUFFER, NULL);
}

static void freed_in_flight(void)
{
    struct libusb_transfer *transfer;
    begin("freed in flight", "script 0 81 d:01\n");
    transfer = submit(0, 0x83, 8);
    transfer->flags = LIBUSB_TRANSFER_FREE_BUFFER;
    work();
    libusb_free_transfer(transfer);
    work();
    transfer = submit(1, 0x81, 8);
    work();
    discard(transfer);
    end();
}

static void freed_at_rest(void)
{
    struct libusb_transfer *transfer;
    begin("never submitted, freed with its buffer", "");
    transfer = make(0, 0x81, 8);
    transfer->flags = LIBUSB_TRANSFER_FREE_BUFFER;
    libusb_free_transfer(transfer);
    libusb_free_transfer(NULL);
    end();
}

int main(void)
{
    resubmission();
    submissions();
    with_other("another is cancelled", cancel_other);
    with_other("the other's interface is released", release_other);
    with_other("its own interface is released", release_own);
    closes_own();
    closes_other();
    both_ended("another that has ended is cancelled", cancel_ended);
    both_ended("another that has ended, and their handle is closed", close_own);
    both_ended("another that has ended, and their interface is released", release_own);
    beside_a_callback();
    closed_beside_a_callback();
    handles_events();
    waits();
    freeing();
    freed_in_flight();
    freed_at_rest();
    return 0;
}

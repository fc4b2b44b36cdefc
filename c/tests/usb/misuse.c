/* What libusb's manual forbids is told, where TIRNOUCH_MISUSE asks for it: once each, with the call and the endpoint, at whatever level the
 * log is. What it allows isn't. The rules are those of libusb 1.0's manual: libusb_free_transfer ("It is not legal to free an active
 * transfer"), libusb_cancel_transfer, libusb_close, libusb_exit ("Should be called after closing all open devices"),
 * libusb_control_transfer and libusb_bulk_transfer (LIBUSB_ERROR_BUSY "if called from event handling context"), libusb_claim_interface
 * ("You must claim the interface you wish to use before you can perform I/O on any of its endpoints"), libusb_unref_device. */
#include "scene.h"

#include <pthread.h>
#include <stdio.h>
#include <stdlib.h>
#include <string.h>
#include <unistd.h>

static void begin_heard(const char *name, const char *more)
{
    begin(name, more);
    hear_errors();
}

static void end_heard(void)
{
    end();
    show_errors();
}

static void freed_in_flight(void)
{
    begin_heard("freed in flight", "");
    struct libusb_transfer *first = submit(1, 0x81, 8), *second = submit(2, 0x83, 4);
    unsigned char *buffers[] = { first->buffer, second->buffer };
    libusb_free_transfer(first);
    libusb_free_transfer(second);
    work();
    end_heard();
    free(buffers[0]);
    free(buffers[1]);
    begin_heard("cancelled, and freed before its callback", "");
    struct libusb_transfer *transfer = submit(1, 0x81, 8);
    unsigned char *buffer = transfer->buffer;
    libusb_cancel_transfer(transfer);
    libusb_free_transfer(transfer);
    work();
    end_heard();
    free(buffer);
    begin_heard("a request freed in flight", "control 0 c0 01 0000 0000 n ..\n");
    unsigned char *setup = calloc(1, 16);
    transfer = libusb_alloc_transfer(0);
    libusb_fill_control_setup(setup, 0xc0, 1, 0, 0, 8);
    libusb_fill_control_transfer(transfer, handle, setup, tell, NULL, 0);
    libusb_submit_transfer(transfer);
    libusb_free_transfer(transfer);
    work();
    free(setup);
    end_heard();
}

static void free_within(struct libusb_transfer *transfer)
{
    tell(transfer);
    free(transfer->buffer);
    libusb_free_transfer(transfer);
}

static void freed_twice(void)
{
    begin_heard("freed twice", "script 0 81 d:2a\n");
    struct libusb_transfer *transfer = make(1, 0x81, 8);
    transfer->callback = free_within;
    send_off(transfer);
    wait_for(1);
    libusb_free_transfer(transfer);
    answer("cancel", libusb_cancel_transfer(transfer));
    answer("submit", libusb_submit_transfer(transfer));
    end_heard();
    begin_heard("freed by its flag, and once more", "script 0 81 d:2a\n");
    transfer = submit_with(1, 0x81, 8, LIBUSB_TRANSFER_FREE_TRANSFER | LIBUSB_TRANSFER_FREE_BUFFER, 0);
    wait_for(1);
    libusb_free_transfer(transfer);
    end_heard();
}

static void closed_in_flight(void)
{
    begin_heard("closed in flight", "");
    struct libusb_transfer *first = submit(1, 0x81, 8), *second = submit(2, 0x83, 8);
    libusb_cancel_transfer(second);
    libusb_close(handle);
    handle = NULL;
    discard(first);
    discard(second);
    end_heard();
    begin_heard("left in flight", "");
    first = submit(1, 0x81, 8);
    libusb_exit(context);
    context = NULL;
    handle = NULL;
    show_errors();
    discard(first);
    begin_heard("left with an open handle", "");
    libusb_exit(context);
    context = NULL;
    handle = NULL;
    show_errors();
}

static void wait_within(struct libusb_transfer *transfer)
{
    unsigned char data[8];
    int moved;
    tell(transfer);
    answer("write within", libusb_bulk_transfer(handle, 0x02, data, 1, &moved, 0));
    answer("read within", libusb_interrupt_transfer(handle, 0x83, data, 1, &moved, 0));
    answer("request within", libusb_control_transfer(handle, 0x80, 6, 0x100, 0, data, 8, 0));
}

static int wait_at_hotplug(libusb_context *of, libusb_device *device, libusb_hotplug_event event, void *user)
{
    unsigned char text[8];
    (void)of, (void)device, (void)event, (void)user;
    answer("string within", libusb_get_string_descriptor(handle, 1, 0x409, text, sizeof text));
    return 0;
}

static void waited_within(void)
{
    begin_heard("synchronous calls in a callback", "script 0 81 d:2a\nscript 0 02 a\n");
    struct libusb_transfer *transfer = make(1, 0x81, 8);
    transfer->callback = wait_within;
    send_off(transfer);
    wait_for(1);
    discard(transfer);
    end_heard();
    begin_heard("a synchronous call in a callback of hotplug", "");
    libusb_hotplug_register_callback(context, LIBUSB_HOTPLUG_EVENT_DEVICE_LEFT, 0, -1, -1, -1, wait_at_hotplug, NULL, NULL);
    tirnouch_pull(0);
    work();
    end_heard();
}

static void used_behind_close(void)
{
    unsigned char data[8];
    int moved = 0, value = 0;
    begin_heard("a closed handle", "");
    libusb_device_handle *closed = handle;
    struct libusb_transfer *transfer = make(1, 0x81, 8);
    libusb_close(handle);
    handle = NULL;
    answer("read", libusb_bulk_transfer(closed, 0x81, data, 8, &moved, 0));
    answer("request", libusb_control_transfer(closed, 0x80, 6, 0x100, 0, data, 8, 0));
    answer("submit", libusb_submit_transfer(transfer));
    answer("claim", libusb_claim_interface(closed, 1));
    answer("release", libusb_release_interface(closed, 1));
    answer("clear", libusb_clear_halt(closed, 0x81));
    answer("reset", libusb_reset_device(closed));
    answer("configuration", libusb_get_configuration(closed, &value));
    answer("setting", libusb_set_interface_alt_setting(closed, 0, 0));
    libusb_close(closed);
    discard(transfer);
    end_heard();
    begin_heard("closed behind libusb_exit", "");
    closed = handle;
    libusb_exit(context);
    libusb_close(closed);
    context = NULL;
    handle = NULL;
    show_errors();
}

static pthread_barrier_t both;

static void *close_it(void *of)
{
    pthread_barrier_wait(&both);
    libusb_close(of);
    return NULL;
}

static void closed_twice(void)
{
    pthread_t threads[2];
    begin_heard("closed by two threads", "");
    pthread_barrier_init(&both, NULL, 2);
    for (int i = 0; i < 2; i++)
        pthread_create(&threads[i], NULL, close_it, handle);
    for (int i = 0; i < 2; i++)
        pthread_join(threads[i], NULL);
    pthread_barrier_destroy(&both);
    handle = NULL;
    end_heard();
}

static void used_before_claim(void)
{
    unsigned char data[8];
    int moved;
    begin_unclaimed("an interface that isn't claimed", "script 0 02 a a\nscript 0 83 d:2a\n");
    hear_errors();
    answer("write", libusb_bulk_transfer(handle, 0x02, data, 1, &moved, 0));
    answer("write once more", libusb_bulk_transfer(handle, 0x02, data, 1, &moved, 0));
    struct libusb_transfer *transfer = submit(1, 0x83, 8);
    wait_for(1);
    discard(transfer);
    end_heard();
}

static void let_go_of_too_often(void)
{
    begin_heard("a device that is let go of too often", "");
    libusb_device *device = first_device();
    libusb_unref_device(device);
    libusb_unref_device(device);
    end_heard();
}

static void close_within(struct libusb_transfer *transfer)
{
    tell(transfer);
    libusb_close(handle);
    handle = NULL;
    discard(transfer);
}

/* All that the manual allows. */
static void allowed(void)
{
    begin_heard("what is allowed", "script 0 81 d:01 d:02 d:03\ncontrol 0 c0 01 0000 0000 d:2a\n");
    struct libusb_transfer *never = make(1, 0x81, 8), *done = submit(2, 0x81, 8), *cancelled = submit(3, 0x83, 8);
    discard(never);
    wait_for(1);
    discard(done);
    libusb_cancel_transfer(cancelled);
    wait_for(2);
    discard(cancelled);
    struct libusb_transfer *within = make(4, 0x81, 8);
    within->callback = free_within;
    send_off(within);
    wait_for(3);
    libusb_free_transfer(NULL);
    libusb_close(NULL);
    struct libusb_transfer *last = make(5, 0x81, 8);
    last->callback = close_within;
    send_off(last);
    wait_for(4);
    struct libusb_transfer *kept = libusb_alloc_transfer(0);
    end();
    libusb_free_transfer(kept);
    show_errors();
}

/* What is in flight elsewhere isn't in the way. */
static void allowed_beside_others(void)
{
    libusb_context *other = NULL;
    begin_heard("what is allowed beside another handle and another context", "");
    libusb_init(&other);
    libusb_device_handle *second = open_standard(context), *third = open_standard(other);
    struct libusb_transfer *transfer = submit(1, 0x81, 8);
    libusb_close(second);
    libusb_close(third);
    libusb_exit(other);
    libusb_cancel_transfer(transfer);
    wait_for(1);
    discard(transfer);
    end_heard();
}

/* Where a device is gone its transfers end by themselves; whoever closes before their callbacks isn't to blame, as with libusb. */
static void allowed_behind_a_pull(void)
{
    unsigned char data[8];
    begin_heard("what is allowed where a device is gone", "");
    struct libusb_transfer *transfer = submit(1, 0x81, 8);
    tirnouch_pull(0);
    libusb_close(handle);
    handle = NULL;
    discard(transfer);
    end_heard();
    begin_unclaimed("a request needs no claim", "");
    hear_errors();
    answer("request", libusb_control_transfer(handle, 0x81, 0, 0, 1, data, 2, 0));
    end_heard();
}

/* What is kept is bounded, and what is forgotten of it is freed. */
static void many(void)
{
    begin_heard("ten thousand of each", "");
    for (int i = 0; i < 10000; i++) {
        libusb_free_transfer(libusb_alloc_transfer(0));
        libusb_close(open_standard(context));
    }
    end_heard();
}

int main(void)
{
    setenv("TIRNOUCH_MISUSE", "yes", 1);
    freed_in_flight();
    freed_twice();
    closed_in_flight();
    waited_within();
    used_behind_close();
    closed_twice();
    used_before_claim();
    let_go_of_too_often();
    allowed();
    allowed_beside_others();
    allowed_behind_a_pull();
    many();
    return 0;
}

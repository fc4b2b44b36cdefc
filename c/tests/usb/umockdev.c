/* The cases of libusb's own test over a kernel that is faked by umockdev (tests/umockdev.c of libusb 1.0.28), for a camera of the same
 * descriptors. Its endpoint 00 is 02 here, as no kernel takes bulk at 00; and what libusb writes into its log isn't looked at. */
#include "scene.h"

#include <pthread.h>
#include <stdatomic.h>
#include <stdint.h>
#include <stdio.h>
#include <stdlib.h>
#include <string.h>

/* A Canon PowerShot SX200. */
#define CAMERA \
    "device 0 " "09022700010100c001" "090400000306010100" "07058102000200" "07050202000200" "07058303080009" "\n" \
    "descriptor 0 1201000200000040a904c031020001020301\nstring 0 1 ab\n"
#define ANY LIBUSB_HOTPLUG_MATCH_ANY
#define BOTH (LIBUSB_HOTPLUG_EVENT_DEVICE_ARRIVED | LIBUSB_HOTPLUG_EVENT_DEVICE_LEFT)
/* The test has 64 sets of 64; each run is made once more by usbtrace, so that here are 8. */
#define TRANSFERS 512
#define FOREVER 0xffffffffu

static unsigned char four[4] = { 1, 2, 3, 4 };

static int is_camera(libusb_device *device)
{
    struct libusb_device_descriptor descriptor;
    return !libusb_get_device_descriptor(device, &descriptor) && descriptor.idVendor == VENDOR;
}

/* The cameras in the list of a context; the last one, if it is asked for, with a reference of its own. */
static int count_cameras(libusb_context *of, libusb_device **last)
{
    libusb_device **list;
    int count = 0;
    if (libusb_get_device_list(of, &list) < 0)
        return -1;
    for (int i = 0; list[i]; i++) {
        count += is_camera(list[i]);
        if (last && is_camera(list[i]))
            *last = libusb_ref_device(list[i]);
    }
    libusb_free_device_list(list, 1);
    return count;
}

static void open_camera(void)
{
    handle = open_standard(context);
    answer("claim", libusb_claim_interface(handle, 0));
}

static struct libusb_transfer *send_four(unsigned timeout)
{
    struct libusb_transfer *transfer = libusb_alloc_transfer(0);
    libusb_fill_bulk_transfer(transfer, handle, 0x02, four, sizeof four, NULL, NULL, timeout);
    answer("submit", libusb_submit_transfer(transfer));
    return transfer;
}

static void close_it(void)
{
    libusb_close(handle);
    handle = NULL;
    say("closed");
}

static void open_and_close(void)
{
    struct libusb_device_descriptor descriptor;
    libusb_device *device = NULL;
    begin_text("a camera is opened and closed", CAMERA);
    number("cameras", count_cameras(context, &device));
    number("bus", libusb_get_bus_number(device));
    answer("descriptor", libusb_get_device_descriptor(device, &descriptor));
    printf("  %04x:%04x\n", descriptor.idVendor, descriptor.idProduct);
    answer("open", libusb_open(device, &handle));
    close_it();
    libusb_unref_device(device);
    handle = open_standard(context);
    say("opened by its numbers");
    close_it();
    end();
}

/* A list that is freed behind the end of its context is told in the log, and no more. */
static void implicit_default(void)
{
    libusb_device **list;
    begin_text("NULL stands for a context that nobody made", CAMERA);
    number("cameras", count_cameras(NULL, NULL));
    number("once more", count_cameras(NULL, NULL));
    answer("init of NULL", libusb_init(NULL));
    number("then", count_cameras(NULL, NULL));
    say(libusb_get_device_list(NULL, &list) > 0 ? "a list" : "no list");
    libusb_exit(NULL);
    libusb_free_device_list(list, 1);
    say("freed behind the exit");
    number("in the first context", count_cameras(context, NULL));
    end();
}

static void close_flying(void)
{
    begin_text("a handle is closed with a transfer in flight", CAMERA);
    open_camera();
    struct libusb_transfer *transfer = send_four(1);
    close_it();
    libusb_free_transfer(transfer);
    say("freed");
    end();
}

static void close_cancelled(void)
{
    begin_text("a handle is closed with a transfer that was cancelled", CAMERA);
    open_camera();
    struct libusb_transfer *transfer = send_four(1);
    answer("cancel", libusb_cancel_transfer(transfer));
    close_it();
    libusb_free_transfer(transfer);
    say("freed");
    end();
}

/* The test doesn't close the handle behind that: libusb can't. */
static void destroy_context(void)
{
    begin_text("a context ends with a handle and a transfer in flight", CAMERA);
    open_camera();
    struct libusb_transfer *transfer = send_four(1);
    libusb_exit(context);
    say("ended");
    handle = NULL;
    context = NULL;
    libusb_free_transfer(transfer);
    say("freed");
}

/* The second time the languages aren't told: a transaction is broken. */
static void string_descriptor(void)
{
    unsigned char data[255] = { 0 };
    begin_text("a string is asked for, and again with a transaction that breaks", CAMERA "control 0 80 06 0300 0000 d:04030904 b\n");
    handle = open_standard(context);
    int length = libusb_get_string_descriptor_ascii(handle, 1, data, sizeof data);
    answer("string", length);
    printf("  %.*s\n", length, (const char *)data);
    answer("again", libusb_get_string_descriptor_ascii(handle, 1, data, sizeof data));
    answer("and again", libusb_get_string_descriptor_ascii(handle, 1, data, sizeof data));
    end();
}

static void count_up(struct libusb_transfer *transfer)
{
    *(int *)transfer->user_data += 1;
}

static void time_out(void)
{
    int completed = 0;
    begin_text("a transfer that nobody takes is over in 10 milliseconds", CAMERA);
    open_camera();
    struct libusb_transfer *transfer = libusb_alloc_transfer(0);
    libusb_fill_bulk_transfer(transfer, handle, 0x02, four, sizeof four, count_up, &completed, 10);
    answer("submit", libusb_submit_transfer(transfer));
    while (!completed)
        if (libusb_handle_events_completed(context, &completed))
            break;
    number("calls", completed);
    say(status_name((int)transfer->status));
    libusb_free_transfer(transfer);
    end();
}

static struct {
    struct libusb_transfer *all[TRANSFERS];
    pthread_t handler;
    int completed, done, astray;
} submitted;

static void *submit_all(void *unused)
{
    for (int i = 0; i < TRANSFERS; i++)
        while (libusb_submit_transfer(submitted.all[i]))
            sched_yield();
    return unused;
}

/* Each holds its own number, and is told in the thread that handles events. */
static void on_number(struct libusb_transfer *transfer)
{
    int held = -1;
    memcpy(&held, transfer->buffer, sizeof held);
    submitted.astray += held != submitted.completed || !pthread_equal(pthread_self(), submitted.handler);
    submitted.done = ++submitted.completed == TRANSFERS;
}

/* The camera with one packet of four bytes a transfer, each with its number. */
static char *text_of_numbers(void)
{
    size_t room = sizeof CAMERA + 16 + 11 * TRANSFERS;
    char *text = malloc(room), *at = text;
    if (!text)
        exit(1);
    at += sprintf(at, "%sscript 0 81", CAMERA);
    for (unsigned i = 0; i < TRANSFERS; i++)
        at += sprintf(at, " d:%02x%02x0000", i & 255, i >> 8);
    strcpy(at, "\n");
    return text;
}

static void submit_in_a_thread(void)
{
    pthread_t thread;
    char *text = text_of_numbers();
    begin_text("a thread submits what another has told", text);
    free(text);
    open_camera();
    submitted.handler = pthread_self();
    for (int i = 0; i < TRANSFERS; i++) {
        submitted.all[i] = libusb_alloc_transfer(0);
        libusb_fill_bulk_transfer(submitted.all[i], handle, 0x81, malloc(4), 4, on_number, NULL, FOREVER);
        submitted.all[i]->flags = LIBUSB_TRANSFER_FREE_BUFFER | LIBUSB_TRANSFER_FREE_TRANSFER;
    }
    if (pthread_create(&thread, NULL, submit_all, NULL))
        exit(1);
    while (!submitted.done)
        if (libusb_handle_events_completed(context, &submitted.done))
            break;
    pthread_join(thread, NULL);
    number("completed", submitted.completed);
    number("astray", submitted.astray);
    end();
}

/* How often each watcher was told of a camera. */
static int on_arrival(libusb_context *of, libusb_device *device, libusb_hotplug_event event, void *user)
{
    (void)of;
    *(int *)user += is_camera(device) && event == LIBUSB_HOTPLUG_EVENT_DEVICE_ARRIVED;
    return 0;
}

static int on_leave(libusb_context *of, libusb_device *device, libusb_hotplug_event event, void *user)
{
    (void)of;
    *(int *)user += is_camera(device) && event == LIBUSB_HOTPLUG_EVENT_DEVICE_LEFT;
    return 0;
}

static libusb_hotplug_callback_handle watch(int events, int flags, libusb_hotplug_callback_fn told, int *times)
{
    libusb_hotplug_callback_handle id = 0;
    answer("register", libusb_hotplug_register_callback(context, events, flags, ANY, ANY, ANY, told, times, &id));
    return id;
}

static void tell_both(const char *when, int first, int second)
{
    printf("  %s: %d and %d\n", when, first, second);
}

static void enumerate(void)
{
    int with = 0, without = 0;
    begin_text("a camera that is there is told to who asks for those", CAMERA);
    libusb_hotplug_callback_handle first = watch(BOTH, LIBUSB_HOTPLUG_ENUMERATE, on_arrival, &with);
    libusb_hotplug_callback_handle second = watch(BOTH, 0, on_arrival, &without);
    tell_both("at once", with, without);
    work();
    tell_both("behind events", with, without);
    libusb_hotplug_deregister_callback(context, first);
    libusb_hotplug_deregister_callback(context, second);
    work();
    tell_both("deregistered", with, without);
    end();
}

static void add_and_remove(void)
{
    int added = 0, removed = 0;
    begin_text("a camera comes and goes", CAMERA "hidden 0\n");
    libusb_hotplug_callback_handle first = watch(LIBUSB_HOTPLUG_EVENT_DEVICE_ARRIVED, LIBUSB_HOTPLUG_ENUMERATE, on_arrival, &added);
    libusb_hotplug_callback_handle second = watch(LIBUSB_HOTPLUG_EVENT_DEVICE_LEFT, LIBUSB_HOTPLUG_ENUMERATE, on_leave, &removed);
    work();
    tell_both("without one", added, removed);
    answer("show", tirnouch_show(0));
    number("cameras", count_cameras(context, NULL));
    tell_both("not yet told", added, removed);
    work();
    tell_both("behind events", added, removed);
    answer("pull", tirnouch_pull(0));
    number("cameras", count_cameras(context, NULL));
    tell_both("not yet told", added, removed);
    work();
    tell_both("behind events", added, removed);
    libusb_hotplug_deregister_callback(context, first);
    libusb_hotplug_deregister_callback(context, second);
    end();
}

int main(void)
{
    open_and_close();
    implicit_default();
    close_flying();
    close_cancelled();
    destroy_context();
    string_descriptor();
    time_out();
    submit_in_a_thread();
    enumerate();
    add_and_remove();
    return 0;
}

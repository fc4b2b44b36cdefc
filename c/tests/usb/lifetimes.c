/* Who owns what, tried by threads and by legal calls in any order: contexts that end while devices are referenced, hotplug callbacks that end
 * themselves, threads that handle events beside them. */
#include "scene.h"

#include <pthread.h>
#include <stdatomic.h>
#include <stddef.h>
#include <stdio.h>
#include <stdlib.h>
#include <unistd.h>

#define ROUNDS 300
#define MOMENT 20000

static const char text[] =
    STANDARD "script 0 81 d:01\n"
    "device 1 " STANDARD_CONFIG "\nids 1 1209 0002\n"
    "device 2 " STANDARD_CONFIG "\nids 2 1209 0003\nhidden 2\n";

static atomic_int is_begun, is_inside, is_outside;
static libusb_hotplug_callback_handle watcher;

static void *drop(void *device)
{
    while (!is_begun) {
    }
    libusb_unref_device(device);
    return NULL;
}

/* Two threads drop the last references to two devices of a context that has ended. */
static void dropped_behind_exit(void)
{
    libusb_device **list;
    begin_text("the last references, dropped by two threads behind exit", text);
    end();
    for (int i = 0; i < ROUNDS; i++) {
        pthread_t one, other;
        if (libusb_init(&context) || list_devices(context, &list) < 2)
            exit(1);
        libusb_device *first = libusb_ref_device(list[0]), *second = libusb_ref_device(list[1]);
        libusb_free_device_list(list, 1);
        libusb_exit(context);
        is_begun = 0;
        pthread_create(&one, NULL, drop, first);
        pthread_create(&other, NULL, drop, second);
        is_begun = 1;
        pthread_join(one, NULL);
        pthread_join(other, NULL);
    }
    context = NULL;
    number("rounds", ROUNDS);
}

static void exit_of_nobody(void)
{
    libusb_device **list;
    begin_text("libusb_exit without a default context", text);
    libusb_exit(NULL);
    number("devices", list_devices(context, &list));
    libusb_free_device_list(list, 1);
    end();
    libusb_exit(NULL);
    say("and without any");
}

static int on_event_end(libusb_context *of, libusb_device *device, libusb_hotplug_event event, void *user)
{
    (void)device, (void)event, (void)user;
    libusb_hotplug_deregister_callback(of, watcher);
    is_inside = 1;
    usleep(MOMENT);
    return 0;
}

static int on_event_wait(libusb_context *of, libusb_device *device, libusb_hotplug_event event, void *user)
{
    (void)of, (void)event, (void)user;
    if (is_hub(device))
        return 0;
    is_inside = 1;
    usleep(MOMENT);
    is_outside = 1;
    return 1;
}

static void *register_one(void *call)
{
    libusb_hotplug_register_callback(context, LIBUSB_HOTPLUG_EVENT_DEVICE_ARRIVED, LIBUSB_HOTPLUG_ENUMERATE, LIBUSB_HOTPLUG_MATCH_ANY,
                                     LIBUSB_HOTPLUG_MATCH_ANY, LIBUSB_HOTPLUG_MATCH_ANY, *(libusb_hotplug_callback_fn *)call, NULL, &watcher);
    return NULL;
}

/* A thread registers a callback that is called at once; meanwhile it is inside. */
static pthread_t register_beside(libusb_hotplug_callback_fn *call)
{
    pthread_t thread;
    is_inside = is_outside = 0;
    pthread_create(&thread, NULL, register_one, call);
    while (!is_inside)
        usleep(10);
    return thread;
}

static void ends_itself(void)
{
    libusb_hotplug_callback_fn call = on_event_end;
    begin_text("a callback deregisters itself while another thread is told of a device", text);
    pthread_t thread = register_beside(&call);
    answer("show", tirnouch_show(2));
    work();
    pthread_join(thread, NULL);
    work();
    end();
    say("over");
}

static void locked_beside(void)
{
    libusb_hotplug_callback_fn call = on_event_wait;
    struct timeval none = { 0, 0 };
    begin_text("events are handled by their lock while a callback runs elsewhere", text);
    pthread_t thread = register_beside(&call);
    libusb_lock_events(context);
    answer("handle_events_locked", libusb_handle_events_locked(context, &none));
    libusb_unlock_events(context);
    pthread_join(thread, NULL);
    end();
}

static void on_call_wait(struct libusb_transfer *transfer)
{
    (void)transfer;
    is_begun = 1;
    while (!is_inside)
        usleep(10);
    usleep(MOMENT / 10);
}

static void *register_behind(void *call)
{
    while (!is_begun)
        usleep(10);
    return register_one(call);
}

/* Two threads are in a callback each; the one that handles events is out first. */
static void two_callbacks(void)
{
    libusb_hotplug_callback_fn call = on_event_wait;
    unsigned char data[18];
    struct timeval none = { 0, 0 };
    pthread_t thread;
    begin_text("a request with the event lock, behind callbacks of two threads", text);
    handle = open_standard(context);
    is_begun = is_inside = is_outside = 0;
    libusb_claim_interface(handle, 0);
    struct libusb_transfer *transfer = make(0, 0x81, 8);
    transfer->callback = on_call_wait;
    send_off(transfer);
    pthread_create(&thread, NULL, register_behind, &call);
    while (!is_begun)
        libusb_handle_events_timeout(context, &none);
    pthread_join(thread, NULL);
    libusb_lock_events(context);
    answer("handle_events_locked", libusb_handle_events_locked(context, &none));
    answer("its descriptor", libusb_get_descriptor(handle, LIBUSB_DT_DEVICE, 0, data, sizeof data));
    libusb_unlock_events(context);
    discard(transfer);
    end();
}

static void *interrupt(void *unused)
{
    (void)unused;
    usleep(MOMENT);
    is_outside = 1;
    libusb_interrupt_event_handler(context);
    return NULL;
}

static void for_ever(void)
{
    struct timeval longest = { (time_t)(~0ull >> 1), 0 };
    pthread_t thread;
    begin_text("a wait of the longest time", text);
    is_outside = 0;
    pthread_create(&thread, NULL, interrupt, NULL);
    answer("interrupted", libusb_handle_events_timeout(context, &longest));
    say(is_outside ? "it waited" : "it came back by itself");
    pthread_join(thread, NULL);
    end();
}

static void options(void)
{
    struct libusb_init_option wrong[] = { { .option = LIBUSB_OPTION_MAX, .value = { .ival = 0 } } };
    struct libusb_init_option level[] = { { .option = LIBUSB_OPTION_LOG_LEVEL, .value = { .ival = 7 } } };
    libusb_context *none = (libusb_context *)&wrong;
    begin_text("options that are refused", text);
    answer("an unknown option", libusb_init_context(&none, wrong, 1));
    say(none ? "a context" : "no context");
    none = (libusb_context *)&wrong;
    answer("a level of 7", libusb_init_context(&none, level, 1));
    say(none ? "a context" : "no context");
    end();
}

int main(void)
{
    dropped_behind_exit();
    exit_of_nobody();
    ends_itself();
    locked_beside();
    two_callbacks();
    for_ever();
    options();
    return 0;
}

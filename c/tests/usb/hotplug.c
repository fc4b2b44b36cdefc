/* Devices that come and go: who is told, when, and for how long. */
#include "scene.h"

#include <stddef.h>
#include <stdint.h>
#include <stdio.h>

/* The standard device, and two that are hidden: one of the same vendor, and one of another with a class of its own. */
static const char text[] =
    STANDARD
    "device 1 " STANDARD_CONFIG "\nids 1 04a9 0002\nhidden 1\n"
    "device 2 " STANDARD_CONFIG "\nids 2 1209 0003\nclass 2 03 00 00\nhidden 2\n";

#define BOTH (LIBUSB_HOTPLUG_EVENT_DEVICE_ARRIVED | LIBUSB_HOTPLUG_EVENT_DEVICE_LEFT)
#define ANY LIBUSB_HOTPLUG_MATCH_ANY

static int stops_behind = -1;
static libusb_device_handle *opened;

static int on_event(libusb_context *of, libusb_device *device, libusb_hotplug_event event, void *user)
{
    struct libusb_device_descriptor descriptor;
    if (is_hub(device))
        return 0;
    calls++;
    printf("  %s: ", (const char *)user);
    if (of != context)
        printf("another context's ");
    if (libusb_get_device_descriptor(device, &descriptor))
        printf("no descriptor ");
    else
        printf("%04x:%04x ", descriptor.idVendor, descriptor.idProduct);
    printf("%s\n", event == LIBUSB_HOTPLUG_EVENT_DEVICE_ARRIVED ? "arrived" : "left");
    return stops_behind >= 0 && --stops_behind < 0;
}

static int on_arrival_open(libusb_context *of, libusb_device *device, libusb_hotplug_event event, void *user)
{
    unsigned char data[18];
    on_event(of, device, event, user);
    answer("open", libusb_open(device, &opened));
    answer("its descriptor, waited for", libusb_get_descriptor(opened, LIBUSB_DT_DEVICE, 0, data, sizeof data));
    return 1;
}

static libusb_hotplug_callback_handle both_watchers[2];

/* Whichever is called first, neither is called any more. */
static int on_event_deregister(libusb_context *of, libusb_device *device, libusb_hotplug_event event, void *user)
{
    on_event(of, device, event, user);
    libusb_hotplug_deregister_callback(context, both_watchers[0]);
    libusb_hotplug_deregister_callback(context, both_watchers[1]);
    return 0;
}

static libusb_hotplug_callback_handle watch(const char *name, int events, int flags, int vendor, int product, int class)
{
    libusb_hotplug_callback_handle id = 0;
    int result = libusb_hotplug_register_callback(context, events, flags, vendor, product, class, on_event, (void *)(uintptr_t)name, &id);
    if (result)
        answer("register", result);
    return id;
}

static void count_devices(void)
{
    libusb_device **list;
    number("devices", list_devices(context, &list));
    libusb_free_device_list(list, 1);
}

static void come_and_go(void)
{
    begin_text("devices come and go", text);
    say(watch("watcher", BOTH, 0, ANY, ANY, ANY) > 0 ? "registered" : "no number");
    count_devices();
    answer("show", tirnouch_show(1));
    count_devices();
    number("told before events are handled", calls);
    work();
    answer("show again", tirnouch_show(1));
    answer("show of one that isn't hidden", tirnouch_show(0));
    answer("show of no device", tirnouch_show(3));
    answer("pull", tirnouch_pull(1));
    count_devices();
    number("told before events are handled", calls);
    work();
    answer("pull of one that is hidden", tirnouch_pull(2));
    answer("pull", tirnouch_pull(0));
    work();
    count_devices();
    end();
}

static void enumerated(void)
{
    begin_text("those that are there are told at once", text);
    tirnouch_show(1);
    work();
    watch("with the flag", BOTH, LIBUSB_HOTPLUG_ENUMERATE, ANY, ANY, ANY);
    watch("without", BOTH, 0, ANY, ANY, ANY);
    watch("of what leaves", LIBUSB_HOTPLUG_EVENT_DEVICE_LEFT, LIBUSB_HOTPLUG_ENUMERATE, ANY, ANY, ANY);
    number("told", calls);
    work();
    number("told", calls);
    end();
}

static void filtered(void)
{
    libusb_hotplug_callback_handle first;
    begin_text("by vendor, product, class and event", text);
    first = watch("vendor 04a9", BOTH, LIBUSB_HOTPLUG_ENUMERATE, 0x04a9, ANY, ANY);
    tirnouch_show(1);
    work();
    tirnouch_show(2);
    work();
    watch("product 0003", BOTH, LIBUSB_HOTPLUG_ENUMERATE, ANY, 0x0003, ANY);
    watch("class 03", BOTH, LIBUSB_HOTPLUG_ENUMERATE, ANY, ANY, 0x03);
    tirnouch_pull(1);
    work();
    libusb_hotplug_deregister_callback(context, first);
    watch("what leaves", LIBUSB_HOTPLUG_EVENT_DEVICE_LEFT, 0, ANY, ANY, ANY);
    tirnouch_pull(0);
    work();
    end();
}

static void no_more(void)
{
    libusb_hotplug_callback_handle first, second;
    begin_text("told no more", text);
    stops_behind = 0;
    first = watch("once", BOTH, 0, ANY, ANY, ANY);
    tirnouch_show(1);
    work();
    stops_behind = -1;
    tirnouch_pull(1);
    work();
    number("told", calls);
    second = watch("until it is deregistered", BOTH, 0, ANY, ANY, ANY);
    say(first != second ? "two numbers" : "one number");
    tirnouch_show(2);
    work();
    libusb_hotplug_deregister_callback(context, second);
    tirnouch_pull(2);
    work();
    number("told", calls);
    libusb_hotplug_deregister_callback(context, second);
    libusb_hotplug_deregister_callback(context, 4711);
    stops_behind = 0;
    watch("once, among those that are there", BOTH, LIBUSB_HOTPLUG_ENUMERATE, ANY, ANY, ANY);
    stops_behind = -1;
    tirnouch_pull(0);
    work();
    number("told", calls);
    end();
}

static void user_data(void)
{
    libusb_hotplug_callback_handle first, second;
    begin_text("what is kept for the callback", text);
    first = watch("first", BOTH, 0, ANY, ANY, ANY);
    second = watch("second", BOTH, 0, ANY, ANY, ANY);
    say(libusb_hotplug_get_user_data(context, first));
    say(libusb_hotplug_get_user_data(context, second));
    libusb_hotplug_deregister_callback(context, first);
    say(libusb_hotplug_get_user_data(context, first) ? "something" : "nothing");
    say(libusb_hotplug_get_user_data(context, 4711) ? "something" : "nothing");
    end();
}

static void opened_on_arrival(void)
{
    unsigned char data[8];
    begin_text("opened on arrival", text);
    libusb_hotplug_register_callback(context, LIBUSB_HOTPLUG_EVENT_DEVICE_ARRIVED, 0, ANY, ANY, ANY, on_arrival_open, (void *)"opener",
                                     NULL);
    tirnouch_show(2);
    work();
    answer("claim", libusb_claim_interface(opened, 0));
    answer("its descriptor's head", libusb_get_descriptor(opened, LIBUSB_DT_DEVICE, 0, data, 8));
    bytes("head", data, 8);
    libusb_close(opened);
    tirnouch_pull(2);
    work();
    number("told", calls);
    end();
}

static void deregistered_within(void)
{
    begin_text("deregistered within a callback", text);
    for (int i = 0; i < 2; i++)
        libusb_hotplug_register_callback(context, BOTH, 0, ANY, ANY, ANY, on_event_deregister, (void *)"either", &both_watchers[i]);
    tirnouch_show(1);
    work();
    tirnouch_pull(1);
    work();
    number("told", calls);
    end();
}

static void refused(void)
{
    libusb_hotplug_callback_handle id = 0;
    begin_text("registrations that are refused", text);
    watch("no event", 0, 0, ANY, ANY, ANY);
    watch("no such event", 4, 0, ANY, ANY, ANY);
    watch("no such flag", BOTH, 2, ANY, ANY, ANY);
    watch("vendor", BOTH, 0, 0x10000, ANY, ANY);
    watch("product", BOTH, 0, ANY, 0x10000, ANY);
    watch("class", BOTH, 0, ANY, ANY, 0x100);
    answer("no callback", libusb_hotplug_register_callback(context, BOTH, 0, ANY, ANY, ANY, NULL, NULL, &id));
    end();
}

static void two_contexts(void)
{
    libusb_context *second = NULL, *first;
    struct timeval none = { 0, 0 };
    begin_text("two contexts are told", text);
    answer("init", libusb_init(&second));
    watch("first", BOTH, 0, ANY, ANY, ANY);
    libusb_hotplug_register_callback(second, BOTH, 0, ANY, ANY, ANY, on_event, (void *)"second", NULL);
    tirnouch_show(1);
    work();
    first = context;
    context = second;
    answer("events of the second", libusb_handle_events_timeout(second, &none));
    context = first;
    libusb_exit(second);
    tirnouch_pull(1);
    work();
    end();
}

static int on_event_exit(libusb_context *of, libusb_device *device, libusb_hotplug_event event, void *user)
{
    on_event(of, device, event, user);
    libusb_exit(of);
    return 0;
}

/* Whoever is behind it isn't told any more. */
static void exit_within(void)
{
    struct timeval none = { 0, 0 };
    begin_text("the context ends within a callback", text);
    for (int i = 0; i < 2; i++)
        libusb_hotplug_register_callback(context, BOTH, 0, ANY, ANY, ANY, on_event_exit, (void *)"the first of two", NULL);
    tirnouch_show(1);
    answer("events", libusb_handle_events_timeout(context, &none));
    number("told", calls);
}

int main(void)
{
    come_and_go();
    enumerated();
    filtered();
    no_more();
    user_data();
    opened_on_arrival();
    deregistered_within();
    refused();
    two_contexts();
    exit_within();
    return 0;
}

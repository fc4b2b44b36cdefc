/* Contexts that are open before a test begins its bus: where the environment's bus has no devices, they have those of the test's. The
 * expected lines are written from tirnouch.h. */
#include "scene.h"

#include <stdbool.h>
#include <stdio.h>
#include <stdlib.h>
#include <string.h>

static int begin_bus(const char *devices)
{
    struct tirnouch_options options = { .size = sizeof options, .devices = devices, .devices_length = strlen(devices) };
    return tirnouch_begin(&options);
}

static long long count_devices(libusb_context *it)
{
    libusb_device **list;
    ssize_t count = libusb_get_device_list(it, &list);
    libusb_free_device_list(list, 1);
    return count;
}

static int LIBUSB_CALL on_device(libusb_context *it, libusb_device *device, libusb_hotplug_event event, void *user)
{
    (void)it;
    (void)user;
    bool has_arrived = event == LIBUSB_HOTPLUG_EVENT_DEVICE_ARRIVED;
    printf("  %s 1.%d\n", has_arrived ? "arrived" : "left", libusb_get_device_address(device));
    if (has_arrived)
        answer("begin within", begin_bus(""));
    return 0;
}

static void watch(void)
{
    int both = LIBUSB_HOTPLUG_EVENT_DEVICE_ARRIVED | LIBUSB_HOTPLUG_EVENT_DEVICE_LEFT;
    answer("watch", libusb_hotplug_register_callback(context, both, LIBUSB_HOTPLUG_ENUMERATE, LIBUSB_HOTPLUG_MATCH_ANY,
                                                     LIBUSB_HOTPLUG_MATCH_ANY, LIBUSB_HOTPLUG_MATCH_ANY, on_device, NULL, NULL));
}

static void handle_events(void)
{
    struct timeval now = { 0, 0 };
    answer("events", libusb_handle_events_timeout(context, &now));
}

static void read_once(void)
{
    handle = open_standard(context);
    answer("claim", libusb_claim_interface(handle, 0));
    struct libusb_transfer *read = make(1, 0x81, 8);
    calls = 0;
    send_off(read);
    wait_for(1);
    discard(read);
    libusb_close(handle);
}

static void kept_by_two(void)
{
    libusb_context *other = NULL;
    puts("two contexts are open, and no device is there");
    answer("init", libusb_init(&context));
    answer("init", libusb_init(&other));
    watch();
    number("devices", count_devices(context));
    answer("begin", begin_bus(STANDARD "script 0 81 d:07\n"));
    number("devices", count_devices(context));
    number("devices of the other", count_devices(other));
    handle_events();
    read_once();
    answer("begin a second one", begin_bus(""));
    answer("end", tirnouch_end());
    handle_events();
    libusb_exit(other);
    libusb_exit(context);
}

static void refused_with_devices(void)
{
    puts("a device of the environment's bus is there");
    tirnouch_plug(STANDARD, strlen(STANDARD));
    answer("init", libusb_init(&context));
    answer("begin", begin_bus(""));
    number("devices", count_devices(context));
    libusb_exit(context);
    answer("begin behind it", begin_bus(""));
    answer("begin beside that", begin_bus(""));
    answer("end", tirnouch_end());
    tirnouch_plug("", 0);
}

static void refused_line(void)
{
    puts("a line of the text isn't taken");
    answer("init", libusb_init(&context));
    answer("begin", begin_bus("device 7\n"));
    number("devices", count_devices(context));
    answer("begin again", begin_bus(STANDARD));
    number("devices", count_devices(context));
    answer("end", tirnouch_end());
    number("devices", count_devices(context));
    libusb_exit(context);
}

int main(void)
{
    tirnouch_plug("", 0);
    kept_by_two();
    refused_with_devices();
    refused_line();
    return 0;
}

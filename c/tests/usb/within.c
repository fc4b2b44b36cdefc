/* Calls of tirnouch.h within callbacks of libusb's: tirnouch_end is refused there, and works behind them; the others do what they say. The
 * expected lines are written from tirnouch.h. */
#include "scene.h"

#include <stdio.h>
#include <stdlib.h>
#include <string.h>

static int begin_bus(const char *devices)
{
    struct tirnouch_options options = { .size = sizeof options, .devices = devices, .devices_length = strlen(devices), .is_virtual = 1 };
    return tirnouch_begin(&options);
}

static void begin_scene(const char *name, const char *more)
{
    char text[1000];
    puts(name);
    calls = 0;
    snprintf(text, sizeof text, "%s%s", STANDARD, more);
    answer("begin", begin_bus(text));
    answer("init", libusb_init(&context));
    handle = open_standard(context);
    libusb_claim_interface(handle, 0);
}

static void on_transfer(struct libusb_transfer *transfer)
{
    tell(transfer);
    answer("end within", tirnouch_end());
    answer("begin within", begin_bus(""));
    number("now within", (long long)tirnouch_now());
    answer("advance within", tirnouch_advance(5));
    answer("pull within", tirnouch_pull(1));
}

static void in_transfer(void)
{
    begin_scene("in a transfer's callback", "script 0 81 d:01\ndevice 1 " STANDARD_CONFIG "\n");
    struct libusb_transfer *read = make(1, 0x81, 8), *other = make(2, 0x81, 8);
    read->callback = on_transfer;
    send_off(read);
    send_off(other);
    wait_for(1);
    answer("end behind it", tirnouch_end());
    wait_for(2);
    discard(read);
    discard(other);
    end();
}

/* Where the bus has ended meanwhile, by another call, the callback still runs within the events of that context. */
static void on_gone(struct libusb_transfer *transfer)
{
    tell(transfer);
    answer("end within", tirnouch_end());
    answer("begin within", begin_bus(STANDARD "script 0 81 d:09\n"));
    answer("end within", tirnouch_end());
}

static void between_buses(void)
{
    begin_scene("in a callback between two buses", "");
    struct libusb_transfer *read = make(1, 0x81, 8);
    read->callback = on_gone;
    send_off(read);
    answer("end", tirnouch_end());
    wait_for(1);
    libusb_close(handle);
    handle = open_standard(context);
    answer("claim", libusb_claim_interface(handle, 0));
    read->dev_handle = handle;
    read->callback = tell;
    send_off(read);
    wait_for(2);
    answer("end behind it", tirnouch_end());
    discard(read);
    end();
}

static int on_hotplug(libusb_context *of, libusb_device *device, libusb_hotplug_event event, void *user)
{
    (void)of, (void)user;
    if (is_hub(device))
        return 0;
    calls++;
    say(event == LIBUSB_HOTPLUG_EVENT_DEVICE_ARRIVED ? "arrived" : "left");
    answer("end within", tirnouch_end());
    return 0;
}

static void in_hotplug(void)
{
    begin_scene("in a callback of hotplug, as it is registered and as events are handled", "device 1 " STANDARD_CONFIG "\nhidden 1\n");
    libusb_hotplug_register_callback(context, LIBUSB_HOTPLUG_EVENT_DEVICE_ARRIVED | LIBUSB_HOTPLUG_EVENT_DEVICE_LEFT, LIBUSB_HOTPLUG_ENUMERATE,
                                     LIBUSB_HOTPLUG_MATCH_ANY, LIBUSB_HOTPLUG_MATCH_ANY, LIBUSB_HOTPLUG_MATCH_ANY, on_hotplug, NULL, NULL);
    answer("show", tirnouch_show(1));
    wait_for(2);
    answer("end behind it", tirnouch_end());
    wait_for(4);
    end();
}

/* A callback that is called within another, which goes on behind it. */
static void on_transfer_register(struct libusb_transfer *transfer)
{
    tell(transfer);
    libusb_hotplug_register_callback(context, LIBUSB_HOTPLUG_EVENT_DEVICE_ARRIVED, LIBUSB_HOTPLUG_ENUMERATE, LIBUSB_HOTPLUG_MATCH_ANY,
                                     LIBUSB_HOTPLUG_MATCH_ANY, LIBUSB_HOTPLUG_MATCH_ANY, on_hotplug, NULL, NULL);
    answer("end behind the inner one", tirnouch_end());
}

static void one_in_the_other(void)
{
    begin_scene("in a callback within another", "script 0 81 d:01\n");
    struct libusb_transfer *read = make(1, 0x81, 8);
    read->callback = on_transfer_register;
    send_off(read);
    wait_for(1);
    answer("end behind both", tirnouch_end());
    discard(read);
    end();
}

int main(void)
{
    setvbuf(stdout, NULL, _IOLBF, 0);
    in_transfer();
    between_buses();
    in_hotplug();
    one_in_the_other();
    return 0;
}

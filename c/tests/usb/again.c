/* A device that is plugged in again is another libusb_device, with another address: by libusb's design one stands for a device from its arrival
 * till it leaves. The one of before keeps its numbers as long as somebody has it, and isn't opened any more. Addresses go on behind the last
 * that was given, up to 127, as Linux gives them. */
#include "scene.h"

#include <pthread.h>
#include <stdatomic.h>
#include <stdio.h>
#include <string.h>

#define LOADER "device 0 0902190001010080320904000001ff00000007058102080000\nids 0 1209 0070\n"
#define CAMERA "device 1 0902190001010080320904000001ff00000007058102080000\nids 1 1209 0071\ncomes back 0 as 1\n"

static int not_ready(void *user, uint8_t ep, uint8_t *data, int length)
{
    (void)user, (void)ep, (void)data, (void)length;
    return TIRNOUCH_NOT_READY;
}

static void show(const char *what, libusb_device *it)
{
    printf("  %s: port %u, address %u\n", what, libusb_get_port_number(it), libusb_get_device_address(it));
}

static libusb_device *known;

static int LIBUSB_CALL come_and_go(libusb_context *of, libusb_device *device, libusb_hotplug_event event, void *user)
{
    (void)of;
    printf("  %s%s\n", (const char *)user, device == known ? "the known one" : "another one");
    show(event == LIBUSB_HOTPLUG_EVENT_DEVICE_LEFT ? "left" : "arrived", device);
    return 0;
}

static void watch(libusb_context *of, const char *name)
{
    int events = LIBUSB_HOTPLUG_EVENT_DEVICE_ARRIVED | LIBUSB_HOTPLUG_EVENT_DEVICE_LEFT, any = LIBUSB_HOTPLUG_MATCH_ANY;
    libusb_hotplug_register_callback(of, events, 0, any, any, any, come_and_go, (void *)(uintptr_t)name, NULL);
}

static void replugged(void)
{
    libusb_context *second;
    libusb_device_handle *opened = NULL;
    struct timeval none = { 0, 0 };
    begin_text("plugged in again", STANDARD "script 0 81 d:01\n");
    answer("init of another context", libusb_init(&second));
    known = first_device();
    show("before", known);
    watch(context, "");
    watch(second, "in the second context ");
    answer("replug", tirnouch_replug(0));
    work();
    answer("events of the second", libusb_handle_events_timeout(second, &none));
    show("the one of before", known);
    answer("open of it", libusb_open(known, &opened));
    libusb_device *fresh = first_device();
    say(fresh == known ? "the same one is in the list" : "another one is in the list");
    show("that", fresh);
    answer("open of it", libusb_open(fresh, &opened));
    answer("claim", libusb_claim_interface(opened, 0));
    libusb_close(opened);
    libusb_unref_device(fresh);
    libusb_unref_device(known);
    libusb_exit(second);
    end();
}

static void addresses(void)
{
    int highest = 0, twice = 0, last = 2;
    begin_text("plugged in again 130 times", STANDARD);
    for (int i = 0; i < 130; i++) {
        twice += tirnouch_replug(0) != 0;
        libusb_device *it = first_device();
        int address = libusb_get_device_address(it);
        highest = address > highest ? address : highest;
        twice += address == last;
        last = address;
        libusb_unref_device(it);
    }
    number("the highest address", highest);
    number("the last one", last);
    number("twice the same, or refused", twice);
    end();
}

static atomic_int is_over;

/* Reads what another thread may have changed. */
static void *read_numbers(void *of)
{
    long sum = 0;
    while (!is_over)
        sum += libusb_get_port_number(of) + libusb_get_device_address(of);
    return sum ? of : NULL;
}

static void comes_back(void)
{
    pthread_t reader;
    tirnouch_on_packet(0, 0x81, not_ready, NULL);
    tirnouch_on_packet(1, 0x81, not_ready, NULL);
    begin_text("comes back in another's place", LOADER CAMERA);
    answer("show", tirnouch_show(1));
    libusb_device_handle *opened = libusb_open_device_with_vid_pid(context, 0x1209, 0x71);
    known = libusb_ref_device(libusb_get_device(opened));
    libusb_close(opened);
    show("before", known);
    work();
    watch(context, "");
    is_over = 0;
    pthread_create(&reader, NULL, read_numbers, known);
    answer("pull", tirnouch_pull(1));
    answer("pull", tirnouch_pull(0));
    answer("show", tirnouch_show(0));
    work();
    is_over = 1;
    pthread_join(reader, NULL);
    show("the one of before", known);
    answer("open of it", libusb_open(known, &opened));
    libusb_unref_device(known);
    end();
    tirnouch_on_packet(0, 0x81, NULL, NULL);
    tirnouch_on_packet(1, 0x81, NULL, NULL);
}

int main(void)
{
    replugged();
    addresses();
    comes_back();
    return 0;
}

/* Contexts, handles, devices and transfers outlive the bus that tirnouch_end ends, and a kept context has the devices of the next. The
 * expected lines are written from tirnouch.h and libusb's manual. */
#include "scene.h"

#include <stddef.h>
#include <stdio.h>
#include <stdlib.h>
#include <string.h>

#define OTHER "device 0 " STANDARD_CONFIG "\nids 0 1209 0007\nscript 0 81 d:0708\n"
/* More than an endpoint has places for in the core. */
#define MANY 20

static int begin_bus(const char *devices)
{
    struct tirnouch_options options = { .size = sizeof options, .devices = devices, .devices_length = strlen(devices), .is_virtual = 1 };
    return tirnouch_begin(&options);
}

static void show_list(libusb_context *of)
{
    libusb_device **list;
    ssize_t count = libusb_get_device_list(of, &list);
    printf("  list of %zd:", count);
    for (ssize_t i = 0; i < count; i++) {
        struct libusb_device_descriptor it;
        libusb_get_device_descriptor(list[i], &it);
        printf(is_hub(list[i]) ? " the root hub" : " %04x:%04x", it.idVendor, it.idProduct);
    }
    printf("\n");
    libusb_free_device_list(list, 1);
}

static void open_first(void)
{
    handle = open_standard(context);
    answer("claim", libusb_claim_interface(handle, 0));
    answer("claim", libusb_claim_interface(handle, 1));
}

static void call_with_old_handle(struct libusb_transfer *transfer)
{
    unsigned char data[18];
    int value, moved;
    answer("submit", libusb_submit_transfer(transfer));
    answer("cancel", libusb_cancel_transfer(transfer));
    answer("bulk_transfer", libusb_bulk_transfer(handle, 0x81, data, 8, &moved, 0));
    answer("get_descriptor", libusb_get_descriptor(handle, LIBUSB_DT_DEVICE, 0, data, sizeof data));
    answer("get_configuration", libusb_get_configuration(handle, &value));
    answer("set_configuration", libusb_set_configuration(handle, 1));
    answer("claim_interface", libusb_claim_interface(handle, 0));
    answer("set_interface_alt_setting", libusb_set_interface_alt_setting(handle, 0, 0));
    answer("clear_halt", libusb_clear_halt(handle, 0x81));
    answer("reset_device", libusb_reset_device(handle));
    answer("kernel_driver_active", libusb_kernel_driver_active(handle, 0));
    answer("attach_kernel_driver", libusb_attach_kernel_driver(handle, 0));
    answer("detach_kernel_driver", libusb_detach_kernel_driver(handle, 0));
    answer("release_interface", libusb_release_interface(handle, 0));
    answer("release_interface once more", libusb_release_interface(handle, 0));
}

static void call_with_old_device(libusb_device *device)
{
    struct libusb_device_descriptor it;
    struct libusb_config_descriptor *config;
    libusb_device_handle *opened = NULL;
    answer("open", libusb_open(device, &opened));
    answer("get_device_descriptor", libusb_get_device_descriptor(device, &it));
    printf("  %04x:%04x\n", it.idVendor, it.idProduct);
    answer("get_config_descriptor", libusb_get_config_descriptor(device, 0, &config));
    number("interfaces", config->bNumInterfaces);
    libusb_free_config_descriptor(config);
    number("address", libusb_get_device_address(device));
    number("port", libusb_get_port_number(device));
    number("speed", libusb_get_device_speed(device));
    say(libusb_get_device(handle) == device ? "the handle's device" : "another device than the handle's");
    say(is_hub(libusb_get_parent(device)) ? "its parent is the root hub" : "its parent is another");
}

static void flights_end(struct libusb_transfer *flying[3])
{
    flying[0] = submit(1, 0x81, 8);
    flying[1] = submit(2, 0x83, 8);
    flying[2] = submit(3, 0x81, 8);
    work();
    answer("end", tirnouch_end());
    answer("end again", tirnouch_end());
    number("callbacks so far", calls);
    show_list(context);
    number("left, some bytes", tirnouch_left(NULL, 0) > 0);
    wait_for(3);
    work();
    number("callbacks", calls);
    number("left, bytes", (long long)tirnouch_left(NULL, 0));
}

static void kept(void)
{
    struct libusb_transfer *flying[3];
    puts("a context, a handle and a device are kept");
    calls = 0;
    answer("begin", begin_bus(STANDARD "device 1 " STANDARD_CONFIG "\nids 1 1209 0002\n"));
    answer("init", libusb_init(&context));
    show_list(context);
    open_first();
    libusb_device *device = first_device(), *again;
    flights_end(flying);
    puts("the next bus");
    answer("begin", begin_bus(OTHER));
    show_list(context);
    call_with_old_handle(flying[0]);
    call_with_old_device(device);
    again = first_device();
    say(again == device ? "the same device" : "another device");
    libusb_device_handle *old = handle;
    answer("open", libusb_open(again, &handle));
    answer("claim", libusb_claim_interface(handle, 0));
    flying[0]->dev_handle = handle;
    send_off(flying[0]);
    wait_for(4);
    answer("end", tirnouch_end());
    show_list(context);
    libusb_close(old);
    libusb_unref_device(device);
    libusb_unref_device(again);
    for (int i = 0; i < 3; i++)
        discard(flying[i]);
    end();
}

/* Those in the core, those that wait for a place there, and a request. */
static void many_flights(void)
{
    struct libusb_transfer *flying[MANY + 1];
    puts("more in flight than the core has places");
    calls = 0;
    answer("begin", begin_bus(STANDARD "script 0 81 d:01\ncontrol 0 c0 01 * * n\n"));
    answer("init", libusb_init(&context));
    open_first();
    for (int i = 0; i < MANY; i++)
        flying[i] = submit(i, 0x81, 8);
    flying[MANY] = make(MANY, 0, 8);
    libusb_fill_control_setup(flying[MANY]->buffer, 0xc0, 1, 0, 0, 0);
    libusb_fill_control_transfer(flying[MANY], handle, flying[MANY]->buffer, tell, (void *)MANY, 0);
    send_off(flying[MANY]);
    answer("end", tirnouch_end());
    wait_for(MANY + 1);
    work();
    number("callbacks", calls);
    for (int i = 0; i <= MANY; i++)
        discard(flying[i]);
    end();
}

/* c: the handle is closed. d: the device's last reference is dropped. f: the transfer is freed. h: events are handled. x: the context ends.
 * e: the bus ends. b: the next begins. */
static void in_order(const char *order)
{
    calls = 0;
    if (begin_bus(STANDARD) || libusb_init(&context))
        exit(1);
    handle = open_standard(context);
    libusb_device *device = first_device();
    struct libusb_transfer *transfer = make(1, 0x81, 8);
    send_off(transfer);
    for (const char *at = order; *at; at++) {
        switch (*at) {
        case 'c': libusb_close(handle); break;
        case 'd': libusb_unref_device(device); break;
        case 'f': discard(transfer); break;
        case 'h': work(); break;
        case 'x': libusb_exit(context); break;
        case 'e': answer("end", tirnouch_end()); break;
        case 'b': answer("begin", begin_bus(OTHER)); break;
        }
    }
    printf("  %s: callbacks %d\n", order, calls);
    handle = NULL;
    context = NULL;
}

static void orders(void)
{
    puts("whatever is let go of first");
    in_order("ehcfdx");
    in_order("ecfdx");
    in_order("efcdx");
    in_order("edfhcx");
    in_order("ebhdcfxe");
    in_order("ebechfdx");
    in_order("ebebhecdxf");
    in_order("exdf");
    in_order("exbfde");
    in_order("ebxefd");
}

static int told_of(libusb_context *of, libusb_device *device, libusb_hotplug_event event, void *user)
{
    struct libusb_device_descriptor it;
    (void)of;
    calls++;
    libusb_get_device_descriptor(device, &it);
    printf("  %s: %04x:%04x %s\n", (const char *)user, it.idVendor, it.idProduct,
           event == LIBUSB_HOTPLUG_EVENT_DEVICE_ARRIVED ? "arrived" : "left");
    return 0;
}

static void register_it(const char *name, int flags)
{
    answer("register", libusb_hotplug_register_callback(context, LIBUSB_HOTPLUG_EVENT_DEVICE_ARRIVED | LIBUSB_HOTPLUG_EVENT_DEVICE_LEFT, flags,
                                                        LIBUSB_HOTPLUG_MATCH_ANY, LIBUSB_HOTPLUG_MATCH_ANY, LIBUSB_HOTPLUG_MATCH_ANY, told_of,
                                                        (void *)name, NULL));
}

static void hotplugs(void)
{
    puts("hotplug callbacks");
    answer("begin", begin_bus(STANDARD "device 1 " STANDARD_CONFIG "\nids 1 1209 0002\nhidden 1\n"));
    answer("init", libusb_init(&context));
    answer("end, and nobody asked to be told", tirnouch_end());
    register_it("first", LIBUSB_HOTPLUG_ENUMERATE);
    work();
    answer("begin", begin_bus(OTHER "device 1 " STANDARD_CONFIG "\nids 1 1209 0002\nhidden 1\n"));
    work();
    answer("pull", tirnouch_pull(0));
    answer("show", tirnouch_show(1));
    work();
    answer("end", tirnouch_end());
    register_it("second", 0);
    work();
    say("a bus that came and went before events were handled");
    answer("begin", begin_bus(OTHER));
    answer("end", tirnouch_end());
    work();
    end();
}

static void heard(void *user, enum tirnouch_event event, int number_of)
{
    (void)user;
    calls++;
    printf("  the device is told of event %d, %d\n", (int)event, number_of);
}

/* A handle of the bus before is closed amid the next one, whose device 0 has nothing to do with it. */
static void devices_hear_nothing(void)
{
    puts("what a device's function is told");
    calls = 0;
    tirnouch_on_event(0, heard, NULL);
    answer("begin", begin_bus(STANDARD));
    answer("init", libusb_init(&context));
    open_first();
    answer("end", tirnouch_end());
    answer("begin", begin_bus(STANDARD));
    answer("release", libusb_release_interface(handle, 0));
    libusb_close(handle);
    number("told so far", calls);
    handle = open_standard(context);
    answer("claim", libusb_claim_interface(handle, 1));
    libusb_close(handle);
    handle = NULL;
    answer("end", tirnouch_end());
    tirnouch_on_event(0, NULL, NULL);
    end();
}

static int plug(const char *devices)
{
    return tirnouch_plug(devices, strlen(devices));
}

/* Of the default context, as pyusb has it. */
static void by_environment(void)
{
    libusb_context *other;
    puts("the next bus is the environment's");
    answer("begin", begin_bus(STANDARD));
    answer("init", libusb_init(NULL));
    answer("end", tirnouch_end());
    answer("plug", plug(OTHER));
    show_list(NULL);
    answer("init of another", libusb_init(&other));
    show_list(NULL);
    show_list(other);
    answer("begin", begin_bus(STANDARD));
    answer("end", tirnouch_end());
    libusb_exit(other);
    show_list(NULL);
    libusb_exit(NULL);
    puts("by the default context once more");
    answer("begin", begin_bus(STANDARD));
    answer("init", libusb_init(NULL));
    answer("end", tirnouch_end());
    answer("init once more", libusb_init(NULL));
    show_list(NULL);
    libusb_exit(NULL);
    show_list(NULL);
    libusb_exit(NULL);
    answer("begin", begin_bus(STANDARD));
    answer("end", tirnouch_end());
}

static void warning(void)
{
    puts("what is left is told once");
    calls = 0;
    answer("begin", begin_bus(STANDARD));
    answer("init", libusb_init(&context));
    libusb_context *other;
    answer("init", libusb_init(&other));
    libusb_set_option(context, LIBUSB_OPTION_LOG_LEVEL, LIBUSB_LOG_LEVEL_WARNING);
    libusb_set_option(other, LIBUSB_OPTION_LOG_LEVEL, LIBUSB_LOG_LEVEL_WARNING);
    handle = open_standard(context);
    struct libusb_transfer *transfer = submit(1, 0x81, 8), *second = submit(2, 0x81, 8);
    hear_errors();
    answer("end", tirnouch_end());
    show_errors();
    wait_for(2);
    hear_errors();
    answer("begin", begin_bus(STANDARD));
    answer("end", tirnouch_end());
    show_errors();
    libusb_close(handle);
    handle = NULL;
    discard(transfer);
    discard(second);
    libusb_exit(other);
    end();
}

/* Contexts alone are no warning: who asks for information is told of them, and of no more. */
static void information(void)
{
    libusb_context *other;
    puts("contexts alone are information");
    answer("plug", plug(""));
    answer("init", libusb_init(&context));
    answer("init", libusb_init(&other));
    libusb_set_option(context, LIBUSB_OPTION_LOG_LEVEL, LIBUSB_LOG_LEVEL_INFO);
    libusb_set_option(other, LIBUSB_OPTION_LOG_LEVEL, LIBUSB_LOG_LEVEL_WARNING);
    hear_errors();
    answer("begin, in place of a bus without devices", begin_bus(STANDARD));
    show_errors();
    hear_errors();
    answer("end", tirnouch_end());
    show_errors();
    libusb_exit(other);
    hear_errors();
    answer("begin", begin_bus(STANDARD));
    answer("end", tirnouch_end());
    show_errors();
    end();
    hear_errors();
    answer("begin without a context", begin_bus(STANDARD));
    answer("end", tirnouch_end());
    show_errors();
}

/* A bus that isn't begun changes nothing for a kept context. */
static void refused(void)
{
    struct tirnouch_options options = { .size = sizeof options };
    puts("a bus that isn't begun");
    answer("begin", begin_bus(STANDARD));
    answer("init", libusb_init(&context));
    answer("end", tirnouch_end());
    answer("begin with a bad text", begin_bus("huh 0\n"));
    show_list(context);
    options.size = offsetof(struct tirnouch_options, keeps_trace) - 1;
    answer("begin of another size", tirnouch_begin(&options));
    options.size = sizeof options + 1;
    answer("begin of a size to come", tirnouch_begin(&options));
    answer("end", tirnouch_end());
    end();
}

int main(void)
{
    setvbuf(stdout, NULL, _IOLBF, 0);
    kept();
    many_flights();
    orders();
    hotplugs();
    devices_hear_nothing();
    by_environment();
    warning();
    information();
    refused();
    return 0;
}

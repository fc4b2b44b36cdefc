/* What a program finds: the root hub at which the devices are, and nothing where it asked not to look (LIBUSB_OPTION_NO_DEVICE_DISCOVERY). */
#include "scene.h"

#include <stdio.h>
#include <stdlib.h>

static libusb_device *hub_of(libusb_device **list)
{
    for (int i = 0; list[i]; i++)
        if (is_hub(list[i]))
            return list[i];
    return NULL;
}

static void hub(void)
{
    struct libusb_device_descriptor it;
    struct libusb_config_descriptor *config;
    libusb_device **list, *found;
    libusb_device_handle *opened = NULL;
    uint8_t ports[7];
    begin_text("the root hub", STANDARD);
    number("listed", libusb_get_device_list(context, &list));
    found = hub_of(list);
    if (!found || libusb_get_device_descriptor(found, &it) || libusb_get_config_descriptor(found, 0, &config))
        exit(1);
    printf("  %04x:%04x class %02x configurations %u\n", it.idVendor, it.idProduct, it.bDeviceClass, it.bNumConfigurations);
    printf("  bus %u address %u port %u\n", libusb_get_bus_number(found), libusb_get_device_address(found), libusb_get_port_number(found));
    answer("its ports", libusb_get_port_numbers(found, ports, sizeof ports));
    say(libusb_get_parent(found) ? "a parent" : "no parent");
    printf("  interfaces %u class %02x\n", config->bNumInterfaces, config->interface[0].altsetting[0].bInterfaceClass);
    libusb_free_config_descriptor(config);
    answer("open", libusb_open(found, &opened));
    for (int i = 0; list[i]; i++)
        if (list[i] != found)
            say(libusb_get_parent(list[i]) == found ? "a device at it" : "a device elsewhere");
    libusb_free_device_list(list, 1);
    end();
}

static int watched;

static int on_arrival(libusb_context *of, libusb_device *device, libusb_hotplug_event event, void *user)
{
    (void)of, (void)event, (void)user;
    watched += is_hub(device) ? 100 : 1;
    return 0;
}

static void enumerated(void)
{
    begin_text("who watches is told of the hub too", STANDARD);
    watched = 0;
    libusb_hotplug_register_callback(context, LIBUSB_HOTPLUG_EVENT_DEVICE_ARRIVED, LIBUSB_HOTPLUG_ENUMERATE, LIBUSB_HOTPLUG_MATCH_ANY,
                                     LIBUSB_HOTPLUG_MATCH_ANY, LIBUSB_HOTPLUG_MATCH_ANY, on_arrival, NULL, NULL);
    number("hubs", watched / 100);
    number("devices", watched % 100);
    end();
}

static void look(libusb_context *of)
{
    libusb_device **list;
    libusb_device_handle *opened;
    number("listed", libusb_get_device_list(of, &list));
    libusb_free_device_list(list, 1);
    opened = libusb_open_device_with_vid_pid(of, VENDOR, PRODUCT);
    say(opened ? "opened" : "none to open");
    if (opened)
        libusb_close(opened);
}

static void by_its_option(void)
{
    struct libusb_init_option blind[] = { { .option = LIBUSB_OPTION_NO_DEVICE_DISCOVERY, .value = { .ival = 0 } } };
    libusb_context *other;
    begin_text("a context that doesn't look for devices", STANDARD);
    answer("init", libusb_init_context(&other, blind, 1));
    look(other);
    libusb_exit(other);
    say("the other one");
    look(context);
    end();
}

static void by_default(void)
{
    begin_text("all later contexts don't look", STANDARD);
    answer("option", libusb_set_option(NULL, LIBUSB_OPTION_NO_DEVICE_DISCOVERY));
    look(context);
    end();
    begin_text("a later one", STANDARD);
    look(context);
    end();
}

static void options(void)
{
    begin_text("options", STANDARD);
    answer("an unknown one", libusb_set_option(context, LIBUSB_OPTION_MAX));
    answer("a level of 9", libusb_set_option(context, LIBUSB_OPTION_LOG_LEVEL, 9));
    answer("the system's driver", libusb_set_option(context, LIBUSB_OPTION_USE_USBDK));
    end();
}

int main(void)
{
    hub();
    enumerated();
    by_its_option();
    options();
    by_default();
    return 0;
}

/* What a program learns of devices, and of the library, without a transfer: descriptors, speeds, numbers, texts; and what is refused
 * as not supported. */
#include "scene.h"

#include <stddef.h>
#include <stdio.h>
#include <string.h>

/* A configuration with an association before its interfaces, an interface with a descriptor of its class and two settings, an endpoint
 * with five bytes behind it, and an interface without endpoints. */
static const char rich[] =
    "device 0 09024100020104c032" "080b000202000000" "090400000103010205" "092111010001224000" "070581030800" "0a" "0525010203"
    "090400010003000000" "0904010000ff000000\nids 0 04a9 31c0 0215\nclass 0 ef 02 01\nstring 0 2 Thing\nspeed 0 full\n"
    "device 1 " STANDARD_CONFIG "\nids 1 1209 0002\n"
    "device 2 090219000101008032" "0904000001ff000000" "0705830308000a\nspeed 2 low\n"
    "descriptor 2 1201100100000008cdab341256040000" "0001\n";

static libusb_device **list;

static void begin_list(const char *name)
{
    begin_text(name, rich);
    number("devices", list_devices(context, &list));
}

static void end_list(void)
{
    libusb_free_device_list(list, 1);
    end();
}

static void show_device(libusb_device *device)
{
    struct libusb_device_descriptor it;
    answer("descriptor", libusb_get_device_descriptor(device, &it));
    printf("  %u %u usb %04x class %02x %02x %02x packet %u\n", it.bLength, it.bDescriptorType, it.bcdUSB, it.bDeviceClass,
           it.bDeviceSubClass, it.bDeviceProtocol, it.bMaxPacketSize0);
    printf("  %04x:%04x release %04x strings %u %u %u configurations %u\n", it.idVendor, it.idProduct, it.bcdDevice, it.iManufacturer,
           it.iProduct, it.iSerialNumber, it.bNumConfigurations);
}

static void devices(void)
{
    begin_list("device descriptors");
    for (int i = 0; i < 3; i++)
        show_device(list[i]);
    say(list[3] ? "more" : "no more");
    end_list();
}

static void show_config(const struct libusb_config_descriptor *config)
{
    printf("  %u %u total %u interfaces %u value %u string %u attributes %02x power %u\n", config->bLength, config->bDescriptorType,
           config->wTotalLength, config->bNumInterfaces, config->bConfigurationValue, config->iConfiguration, config->bmAttributes,
           config->MaxPower);
    bytes("extra", config->extra, config->extra_length);
    for (int i = 0; i < config->bNumInterfaces; i++)
        for (int j = 0; j < config->interface[i].num_altsetting; j++) {
            const struct libusb_interface_descriptor *it = &config->interface[i].altsetting[j];
            printf("  interface %u setting %u endpoints %u class %02x %02x %02x string %u\n", it->bInterfaceNumber, it->bAlternateSetting,
                   it->bNumEndpoints, it->bInterfaceClass, it->bInterfaceSubClass, it->bInterfaceProtocol, it->iInterface);
            bytes("extra", it->extra, it->extra_length);
            for (int k = 0; k < it->bNumEndpoints; k++) {
                printf("  endpoint %02x attributes %02x packet %u interval %u\n", it->endpoint[k].bEndpointAddress,
                       it->endpoint[k].bmAttributes, it->endpoint[k].wMaxPacketSize, it->endpoint[k].bInterval);
                bytes("extra", it->endpoint[k].extra, it->endpoint[k].extra_length);
            }
        }
}

static void configurations(void)
{
    struct libusb_config_descriptor *config = NULL;
    begin_list("configuration descriptors");
    answer("first", libusb_get_config_descriptor(list[0], 0, &config));
    show_config(config);
    libusb_free_config_descriptor(config);
    answer("active", libusb_get_active_config_descriptor(list[1], &config));
    show_config(config);
    libusb_free_config_descriptor(config);
    answer("by value", libusb_get_config_descriptor_by_value(list[1], 1, &config));
    number("value", config->bConfigurationValue);
    libusb_free_config_descriptor(config);
    answer("second", libusb_get_config_descriptor(list[1], 1, &config));
    answer("by another value", libusb_get_config_descriptor_by_value(list[1], 2, &config));
    libusb_free_config_descriptor(NULL);
    end_list();
}

static void numbers(void)
{
    uint8_t ports[7] = { 0 };
    begin_list("numbers of devices");
    for (int i = 0; i < 3; i++)
        number("speed", libusb_get_device_speed(list[i]));
    number("packet of 81", libusb_get_max_packet_size(list[1], 0x81));
    number("packet of 83", libusb_get_max_packet_size(list[1], 0x83));
    answer("packet of 85", libusb_get_max_packet_size(list[1], 0x85));
    number("iso packet of 83", libusb_get_max_iso_packet_size(list[1], 0x83));
    answer("iso packet of 85", libusb_get_max_iso_packet_size(list[1], 0x85));
    say(libusb_get_bus_number(list[0]) == libusb_get_bus_number(list[2]) ? "one bus" : "two buses");
    say(libusb_get_device_address(list[0]) != libusb_get_device_address(list[1]) ? "two addresses" : "one address");
    say(libusb_get_port_number(list[0]) != libusb_get_port_number(list[1]) ? "two ports" : "one port");
    answer("path", libusb_get_port_numbers(list[1], ports, 7));
    say(ports[0] == libusb_get_port_number(list[1]) ? "its port" : "another port");
    answer("path without room", libusb_get_port_numbers(list[1], ports, 0));
    say(libusb_get_parent(list[0]) && is_hub(libusb_get_parent(list[0])) ? "at the root hub" : "at another");
    end_list();
}

static void references(void)
{
    libusb_device *device;
    libusb_device_handle *opened = NULL;
    struct libusb_device_descriptor descriptor;
    begin_text("references", STANDARD);
    device = first_device();
    say(libusb_ref_device(device) == device ? "the same" : "another");
    libusb_unref_device(device);
    answer("open", libusb_open(device, &opened));
    say(libusb_get_device(opened) == device ? "the same" : "another");
    libusb_unref_device(device);
    answer("descriptor", libusb_get_device_descriptor(libusb_get_device(opened), &descriptor));
    libusb_close(opened);
    say(libusb_open_device_with_vid_pid(context, 0x04a9, 0x0001) ? "found" : "not found");
    libusb_free_device_list(NULL, 1);
    libusb_close(NULL);
    end();

    begin_text("no device at all", "");
    number("devices", list_devices(context, &list));
    say(list[0] ? "one" : "none");
    libusb_free_device_list(list, 1);
    end();
}

static void default_context(void)
{
    begin_text("the default context", STANDARD);
    end();
    answer("plug", tirnouch_plug(STANDARD, sizeof STANDARD - 1));
    answer("init", libusb_init(NULL));
    answer("init again", libusb_init(NULL));
    number("devices", list_devices(NULL, &list));
    libusb_free_device_list(list, 1);
    libusb_exit(NULL);
    number("devices", list_devices(NULL, &list));
    libusb_free_device_list(list, 1);
    libusb_exit(NULL);
}

static void errors(void)
{
    static const int codes[] = { 0, -1, -2, -3, -4, -5, -6, -7, -8, -9, -10, -11, -12, -99, 4711, -50 };
    puts("errors");
    for (size_t i = 0; i < sizeof codes / sizeof codes[0]; i++)
        printf("  %d %s: %s\n", codes[i], libusb_error_name(codes[i]), libusb_strerror(codes[i]));
    for (int i = 1; i < 8; i++)
        printf("  status %d: %s\n", i, libusb_error_name(i));
    answer("setlocale en", libusb_setlocale("en"));
    answer("setlocale xx", libusb_setlocale("xx"));
    answer("setlocale none", libusb_setlocale(NULL));
}

static void library(void)
{
    begin_text("the library", STANDARD);
    number("asks for capabilities", libusb_has_capability(LIBUSB_CAP_HAS_CAPABILITY) != 0);
    number("hotplug", libusb_has_capability(LIBUSB_CAP_HAS_HOTPLUG) != 0);
    number("detaches drivers", libusb_has_capability(LIBUSB_CAP_SUPPORTS_DETACH_KERNEL_DRIVER) != 0);
    number("anything else", libusb_has_capability(0x7777));
    answer("log level", libusb_set_option(context, LIBUSB_OPTION_LOG_LEVEL, LIBUSB_LOG_LEVEL_NONE));
    answer("log level 5", libusb_set_option(context, LIBUSB_OPTION_LOG_LEVEL, 5));
    answer("no such option", libusb_set_option(context, LIBUSB_OPTION_MAX));
    end();
}

static void not_supported(void)
{
    struct libusb_transfer *transfer;
    struct libusb_bos_descriptor *bos = NULL;
    struct libusb_ss_endpoint_companion_descriptor *companion = NULL;
    struct libusb_config_descriptor *config = NULL;
    libusb_device_handle *wrapped = NULL;
    unsigned char endpoints[1] = { 0x81 }, buffer[64];
    begin("not supported", "");
    transfer = libusb_alloc_transfer(2);
    libusb_fill_iso_transfer(transfer, handle, 0x81, buffer, 64, 2, tell, NULL, 0);
    libusb_set_iso_packet_lengths(transfer, 32);
    say(libusb_get_iso_packet_buffer_simple(transfer, 1) == buffer + 32 ? "its second packet" : "elsewhere");
    answer("isochronous", libusb_submit_transfer(transfer));
    libusb_free_transfer(transfer);
    answer("streams", libusb_alloc_streams(handle, 2, endpoints, 1));
    answer("end of streams", libusb_free_streams(handle, endpoints, 1));
    answer("a device of the system", libusb_wrap_sys_device(context, 0, &wrapped));
    say(libusb_dev_mem_alloc(handle, 64) ? "memory" : "no memory");
    answer("end of memory", libusb_dev_mem_free(handle, buffer, 64));
    answer("capabilities", libusb_get_bos_descriptor(handle, &bos));
    libusb_get_active_config_descriptor(libusb_get_device(handle), &config);
    answer("companion", libusb_get_ss_endpoint_companion_descriptor(context, &config->interface[0].altsetting[0].endpoint[0], &companion));
    libusb_free_config_descriptor(config);
    say(libusb_alloc_transfer(-1) ? "a transfer" : "no transfer of -1 packets");
    end();
}

int main(void)
{
    devices();
    configurations();
    numbers();
    references();
    default_context();
    errors();
    library();
    not_supported();
    return 0;
}

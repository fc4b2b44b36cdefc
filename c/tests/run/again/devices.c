/* What devices say of themselves; devices that leave and come. */
#include "again.h"

#include <stdio.h>

static void show_string(uint8_t index)
{
    char text[128];
    int r = libusb_get_string_descriptor_ascii(handle, index, (unsigned char *)text, sizeof text);
    printf("string %d: %s\n", index, r < 0 ? libusb_error_name(r) : text);
}

/* What a device is. */
int tells(void)
{
    struct libusb_device_descriptor it;
    begin(0x0001);
    libusb_device *device = libusb_get_device(handle);
    libusb_get_device_descriptor(device, &it);
    printf("%04x:%04x %04x, class %02x %02x %02x, strings %d %d %d\n", it.idVendor, it.idProduct, it.bcdDevice, it.bDeviceClass,
           it.bDeviceSubClass, it.bDeviceProtocol, it.iManufacturer, it.iProduct, it.iSerialNumber);
    printf("speed %d, driver %d %d\n", libusb_get_device_speed(device), libusb_kernel_driver_active(handle, 0),
           libusb_kernel_driver_active(handle, 1));
    for (uint8_t i = 1; i < 6; i++)
        show_string(i);
    put(9, 1);
    return finish();
}

/* A hub's descriptor (USB 2.0, 11.24.2.5). */
static void show_hub(void)
{
    unsigned char data[9];
    libusb_device_handle *hub = libusb_open_device_with_vid_pid(NULL, 0x1209, 0x0001);
    int r = hub ? libusb_control_transfer(hub, 0xa0, LIBUSB_REQUEST_GET_DESCRIPTOR, 0x2900, 0, data, sizeof data, SECOND) : -1;
    show("hub", r, data, r > 0 ? r : 0);
    if (hub)
        libusb_close(hub);
}

/* All devices, in a context of its own; and none is opened but the last one. */
int lists(void)
{
    libusb_device **list;
    struct libusb_device_descriptor it;
    if (libusb_init(NULL))
        return 10;
    ssize_t count = libusb_get_device_list(NULL, &list);
    for (ssize_t i = 0; i < count; i++)
        if (!libusb_get_device_descriptor(list[i], &it) && libusb_get_parent(list[i]))
            printf("%04x:%04x at %d\n", it.idVendor, it.idProduct, libusb_get_device_address(list[i]));
    libusb_free_device_list(list, 1);
    libusb_exit(NULL);
    begin(0x0003);
    show_hub();
    put(3, 2);
    take(8);
    return finish();
}

/* A device that leaves, and one that comes in its place. */
int returns(void)
{
    begin(0x0001);
    put(4, 2);
    take(4);
    take(4);
    libusb_close(handle);
    libusb_exit(NULL);
    return 0;
}

int loader(void)
{
    begin(0x0001);
    libusb_device_handle *second = libusb_open_device_with_vid_pid(NULL, 0x1209, 0x0002);
    printf("the second is %s\n", second ? "there" : "not there");
    if (second)
        libusb_close(second);
    put(4, 2);
    take(4);
    libusb_close(handle);
    handle = libusb_open_device_with_vid_pid(NULL, 0x1209, 0x0002);
    if (!handle || libusb_claim_interface(handle, 0))
        return 14;
    put(5, 2);
    take(4);
    return finish();
}

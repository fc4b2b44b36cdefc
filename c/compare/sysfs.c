/* The attributes in /sys/bus/usb/devices that libusb reads. The device at port P is 1-P; its root hub is usb1. */
#include "faked.h"

#include <errno.h>
#include <stdio.h>
#include <string.h>
#include <sys/mman.h>
#include <unistd.h>

static int file_of(const void *first, size_t length, const void *second, size_t more)
{
    int file = memfd_create("attribute", MFD_CLOEXEC);
    if (file < 0 || write(file, first, length) != (ssize_t)length || (more && write(file, second, more) != (ssize_t)more) ||
        lseek(file, 0, SEEK_SET))
        return -1;
    return file;
}

static int number_file(int number)
{
    char text[16];
    int length = snprintf(text, sizeof text, "%d\n", number);
    return file_of(text, (size_t)length, NULL, 0);
}

/* Of a device that has more configurations than it tells, those are left out that it doesn't (usb_get_configuration). */
static int descriptors_of(const struct device *device)
{
    uint8_t descriptor[18];
    memcpy(descriptor, device->descriptor, sizeof descriptor);
    descriptor[17] = descriptor[17] > 1 ? 1 : descriptor[17];
    return file_of(descriptor, sizeof descriptor, device->config, (size_t)device->config_length);
}

static int attribute_of(const struct device *device, const char *name)
{
    if (!strcmp(name, "busnum"))
        return number_file(1);
    if (!strcmp(name, "devnum"))
        return number_file((int)device->address);
    if (!strcmp(name, "speed"))
        return file_of(device->speed, strlen(device->speed), NULL, 0);
    if (!strcmp(name, "bConfigurationValue"))
        return device->configuration ? number_file(device->configuration) : file_of("", 0, NULL, 0);
    if (!strcmp(name, "descriptors"))
        return descriptors_of(device);
    errno = ENOENT;
    return -1;
}

/* A root hub of Linux, of USB 2.0 (usb2_rh_dev_descriptor, hs_rh_config_descriptor). */
static int attribute_of_hub(const char *name)
{
    static const uint8_t descriptor[18] = { 18, 1, 0x00, 0x02, 9, 0, 1, 64, 0x6b, 0x1d, 0x02, 0x00, 0x10, 0x01, 0, 0, 0, 1 };
    static const uint8_t config[25] = { 9, 2, 25, 0, 1, 1, 0, 0xe0, 0, 9, 4, 0, 0, 1, 9, 0, 0, 0, 7, 5, 0x81, 3, 4, 0, 12 };
    if (!strcmp(name, "busnum") || !strcmp(name, "devnum") || !strcmp(name, "bConfigurationValue"))
        return number_file(1);
    if (!strcmp(name, "speed"))
        return number_file(480);
    if (!strcmp(name, "descriptors"))
        return file_of(descriptor, sizeof descriptor, config, sizeof config);
    errno = ENOENT;
    return -1;
}

int open_attribute(const char *path)
{
    unsigned port;
    char name[64];
    if (sscanf(path, "/sys/bus/usb/devices/usb1/%63s", name) == 1)
        return attribute_of_hub(name);
    if (sscanf(path, "/sys/bus/usb/devices/1-%u/%63s", &port, name) == 2) {
        const struct device *device = device_at_port(port);
        if (device)
            return attribute_of(device, name);
    }
    errno = ENOENT;
    return -1;
}

/* The root hub, at which all devices are: it is in the list and tells its descriptors, as Linux's does (USB 2.0, 11.23.1), without a bus of
 * devices too. It isn't in the core, and can't be opened: libusb_open answers ACCESS, as to a user who isn't root. */
#include "bus.h"

#include <string.h>

/* Vendor and product of the Linux Foundation's USB 2.0 root hub; a hub with one transaction translator. */
static const uint8_t descriptor[18] = {
    18, LIBUSB_DT_DEVICE, 0x00, 0x02, LIBUSB_CLASS_HUB, 0, 1, 64, 0x6b, 0x1d, 0x02, 0x00, 0x10, 0x01, 0, 0, 0, 1,
};

/* One interface, with the interrupt endpoint that tells which ports changed. Nobody writes to it. */
static uint8_t config[25] = {
    9, LIBUSB_DT_CONFIG, 25, 0, 1, 1, 0, 0xe0, 0,
    9, LIBUSB_DT_INTERFACE, 0, 0, 1, LIBUSB_CLASS_HUB, 0, 0, 0,
    7, LIBUSB_DT_ENDPOINT, 0x81, LIBUSB_TRANSFER_TYPE_INTERRUPT, 4, 0, 12,
};

/* Once, with the first context. */
void learn_hub(void)
{
    struct device *hub = &process.hub;
    if (hub->is_there)
        return;
    *hub = (struct device){ .holds = 1, .number = HUB, .port = HUB, .successor = -1, .config = config, .config_length = sizeof config,
                            .configuration = config[5], .configurations = 1, .speed = LIBUSB_SPEED_HIGH, .is_there = true };
    memcpy(hub->descriptor, descriptor, sizeof descriptor);
}

/* What descriptors.c knows of a device's configuration, for the other files that read its bytes. */
#ifndef DESCRIPTORS_H
#define DESCRIPTORS_H

#include "bus.h"

/* Whether the bytes begin with a whole configuration descriptor. */
bool has_config(const struct device *device);
/* 0 where a configuration is set; else `unset`. It takes the lock: LIBUSB_ERROR_BUSY in a device's function. */
int check_configured(const struct device *device, int unset);

#endif

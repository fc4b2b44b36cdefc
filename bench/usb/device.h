/* The device that the programs here read from: a text for Tirnouch (scripted.c), or a faked kernel's under libusb (usbfs.c). */
#ifndef DEVICE_H
#define DEVICE_H

#include "libusb.h"

#include <stddef.h>
#include <stdint.h>

#define ENDPOINT 0x81
/* So many packets it gives, until libusb_reset_device lets it begin anew. */
#define PACKETS 4000

/* What it gives, as one row of bytes through all packets. */
static inline uint8_t byte_at(size_t position)
{
    return (uint8_t)((uint32_t)position * 2654435761u >> 24);
}

/* A handle of it in a new context, with packets of this size; NULL where there is none. The word is one that usbfs.c has. */
libusb_device_handle *attach(int packet, const char *word, libusb_context **context);

#endif

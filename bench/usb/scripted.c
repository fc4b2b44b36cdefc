/* The device as a text for Tirnouch: one endpoint, and a script of all its packets. */
#include "device.h"
#include "tirnouch.h"

#include <stdio.h>
#include <stdlib.h>

#define VENDOR 0x1209
#define PRODUCT 0x0001

static char *text_of(int packet)
{
    char *text = malloc(128 + PACKETS * (3 + 2 * (size_t)packet));
    if (!text)
        return NULL;
    char *at = text + sprintf(text, "device 0 0902190001010080320904000001ff00000007058102%02x%02x00\nscript 0 %02x",
                              packet & 255, packet >> 8, ENDPOINT);
    for (size_t position = 0; position < PACKETS * (size_t)packet; position++)
        at += sprintf(at, "%s%02x", position % (size_t)packet ? "" : " d:", byte_at(position));
    strcpy(at, "\n");
    return text;
}

libusb_device_handle *attach(int packet, const char *word, libusb_context **context)
{
    char *text = text_of(packet);
    (void)word;
    if (!text || tirnouch_plug(text, strlen(text)) || libusb_init(context))
        return NULL;
    free(text);
    return libusb_open_device_with_vid_pid(*context, VENDOR, PRODUCT);
}

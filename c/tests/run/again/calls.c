/* What all drivers do: a device is opened, asked, told, read and written, and what came is printed. */
#include "again.h"

#include <stdio.h>
#include <stdlib.h>
#include <string.h>

libusb_device_handle *handle;
int flips;

void begin(uint16_t product)
{
    if (libusb_init(NULL))
        exit(10);
    handle = libusb_open_device_with_vid_pid(NULL, 0x1209, product);
    if (!handle || libusb_claim_interface(handle, 0))
        exit(11);
}

int finish(void)
{
    libusb_close(handle);
    libusb_exit(NULL);
    return 0;
}

void show(const char *what, int result, const unsigned char *data, int length)
{
    printf("%s: ", what);
    if (result < 0)
        printf("%s", libusb_error_name(result));
    for (int i = 0; i < length; i++)
        printf("%02x", data[i]);
    printf("\n");
}

void flip(unsigned char *data)
{
    *data ^= (unsigned char)flips;
    flips = 0;
}

void ask_for(uint8_t request, int length, unsigned milliseconds)
{
    unsigned char data[4096];
    int r = libusb_control_transfer(handle, VENDOR_IN, request, 0, 0, data, (uint16_t)length, milliseconds);
    show("asked", r, data, r > 0 ? r : 0);
}

void ask(uint8_t request, int length)
{
    ask_for(request, length, SECOND);
}

void tell_for(uint8_t request, int length, unsigned milliseconds)
{
    unsigned char data[4096];
    for (int i = 0; i < length; i++)
        data[i] = (unsigned char)(request + i);
    if (length)
        flip(data);
    int r = libusb_control_transfer(handle, VENDOR_OUT, request, 7, 1, data, (uint16_t)length, milliseconds);
    printf("told: %d\n", r);
}

void tell(uint8_t request, int length)
{
    tell_for(request, length, SECOND);
}

void take(int length)
{
    unsigned char data[8192];
    int moved = 0, r = libusb_bulk_transfer(handle, FROM_DEVICE, data, length, &moved, SECOND);
    show("read", r, data, moved);
}

void put(unsigned char first, int length)
{
    unsigned char data[64];
    memset(data, first, sizeof data);
    flip(data);
    int moved = 0, r = libusb_bulk_transfer(handle, TO_DEVICE, data, length, &moved, SOON);
    printf("written: %s, %d\n", r ? libusb_error_name(r) : "all", moved);
}

/* The part of a read's buffer that no byte came to: libusb's manual says nothing of the bytes behind `actual_length`, and has the caller
 * look at that length (libusb_bulk_transfer: "Not all of the data may have been written"). Without a seed they stay as they were; with one
 * they are a5, so that a driver that takes them for data shows it. A synchronous request copies what came, and no more. */
#include "scene.h"

#include <stdio.h>
#include <stdlib.h>
#include <string.h>

#define DEVICE "device 0 " STANDARD_CONFIG "\nids 0 04a9 31c0\nscript 0 81 d:0102 d:0102030405060708 d:09 d:0a s\nscript 0 02 a\n" \
               "script 0 83 d:0b\ncontrol 0 c0 01 0000 0000 d:2a2b\n"

static unsigned char data[20];

static void read_into(const char *what, unsigned char ep, int length)
{
    int moved = 0;
    memset(data, 0xee, sizeof data);
    int result = libusb_bulk_transfer(handle, ep, data, length, &moved, 1000);
    if (result)
        answer(what, result);
    bytes(what, data, length + 2);
}

static void ask_asynchronously(void)
{
    unsigned char setup[8 + 6];
    struct libusb_transfer *transfer = libusb_alloc_transfer(0);
    memset(setup, 0xee, sizeof setup);
    libusb_fill_control_setup(setup, 0xc0, 1, 0, 0, 4);
    libusb_fill_control_transfer(transfer, handle, setup, tell, NULL, 1000);
    calls = 0;
    libusb_submit_transfer(transfer);
    wait_for(1);
    bytes("a request of 4 bytes", setup + 8, 6);
    libusb_free_transfer(transfer);
}

static void read_all(void)
{
    handle = open_standard(context);
    libusb_claim_interface(handle, 0);
    libusb_claim_interface(handle, 1);
    read_into("a short read of 8", 0x81, 8);
    read_into("a read of 18 in two packets", 0x81, 18);
    read_into("a whole read of 1", 0x81, 1);
    read_into("a stall", 0x81, 8);
    ask_asynchronously();
    memset(data, 0xee, sizeof data);
    answer("a synchronous request", libusb_control_transfer(handle, 0xc0, 1, 0, 0, data, 4, 1000));
    bytes("a synchronous request", data, 6);
    data[0] = 0x11;
    int moved = 0;
    answer("a write", libusb_bulk_transfer(handle, 0x02, data, 4, &moved, 1000));
    bytes("a write", data, 4);
    memset(data, 0xee, sizeof data);
    answer("a submission of 8 at an endpoint that isn't there", libusb_bulk_transfer(handle, 0x85, data, 8, &moved, 1000));
    bytes("a refused read", data, 8);
    end();
}

static void without_a_seed(void)
{
    begin_text("without a seed", DEVICE);
    read_all();
}

static void with_a_seed(void)
{
    const char text[] = DEVICE;
    struct tirnouch_options options = { .size = sizeof options, .devices = text, .devices_length = sizeof text - 1, .seed = 3 };
    puts("with a seed");
    answer("begin", tirnouch_begin(&options));
    answer("init", libusb_init(&context));
    read_all();
    answer("end", tirnouch_end());
}

int main(void)
{
    without_a_seed();
    with_a_seed();
    return 0;
}

/* An alternate setting without endpoints: what setting 0 has is refused, as Linux does (drivers/usb/core/devio.c answers ENOENT to a URB, and
 * os/linux_usbfs.c makes LIBUSB_ERROR_IO of that), and the device tells the setting (USB 2.0, 9.4.4). What is in flight there is cancelled, as
 * where the interface is released. */
#include "scene.h"

#include <stdio.h>

/* Interface 1 has interrupt IN 83 in setting 0, and none in setting 1. */
#define TEXT "device 0 0902390002010080320904000002ff00000007058102080000070502020800000904010001ff0000000705830308000a0904010100ff000000\n" \
             "ids 0 04a9 31c0\n"

static void set(int setting)
{
    answer(setting ? "setting 1" : "setting 0", libusb_set_interface_alt_setting(handle, 1, setting));
}

static void get(void)
{
    unsigned char data[2] = { 0xff, 0xff };
    answer("GET_INTERFACE", libusb_control_transfer(handle, 0x81, 0x0a, 0, 1, data, 2, 1000));
    bytes("  of", data, 1);
}

static void read_83(void)
{
    unsigned char data[8];
    int moved = 0, result = libusb_interrupt_transfer(handle, 0x83, data, 8, &moved, 1000);
    answer("read at 83", result);
    if (!result)
        bytes("  of", data, moved);
}

static void begin_claimed(const char *name, const char *text)
{
    begin_text(name, text);
    handle = open_standard(context);
    answer("claim", libusb_claim_interface(handle, 0));
    answer("claim", libusb_claim_interface(handle, 1));
}

static void refused(void)
{
    unsigned char data[8];
    int moved = 0;
    begin_claimed("a setting without endpoints", TEXT "script 0 81 d:81\nscript 0 83 d:01\nafter 0 83 0 02 1\nscript 0 02 a\n");
    struct libusb_transfer *waiting = submit(1, 0x83, 8);
    work();
    set(1);
    wait_for(1);
    read_83();
    answer("bulk read at 83", libusb_bulk_transfer(handle, 0x83, data, 8, &moved, 1000));
    send_off(waiting);
    answer("status of 83", libusb_control_transfer(handle, 0x82, 0, 0, 0x83, data, 2, 1000));
    answer("clear halt of 83", libusb_clear_halt(handle, 0x83));
    get();
    answer("read at 81", libusb_bulk_transfer(handle, 0x81, data, 8, &moved, 1000));
    answer("write at 02", libusb_bulk_transfer(handle, 0x02, data, 1, &moved, 1000));
    set(0);
    get();
    read_83();
    discard(waiting);
    end();
}

static void ends(void)
{
    begin_claimed("what ends it", TEXT "script 0 83 d:01 d:02\nanew 0\n");
    set(1);
    answer("reset", libusb_reset_device(handle));
    get();
    read_83();
    set(1);
    answer("release", libusb_release_interface(handle, 1));
    answer("claim", libusb_claim_interface(handle, 1));
    get();
    read_83();
    set(1);
    libusb_close(handle);
    handle = open_standard(context);
    answer("claim", libusb_claim_interface(handle, 1));
    get();
    end();
}

static void by_text(void)
{
    begin_claimed("what the text answers", TEXT "control 0 81 0a 0000 0001 d:07\n");
    set(1);
    get();
    end();
}

int main(void)
{
    refused();
    ends();
    by_text();
    return 0;
}

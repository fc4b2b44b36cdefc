/* Standard requests by the specification (USB 2.0, 9.4.1, 9.4.5, 9.4.9, 9.6.7), sent by hand as drivers do: halts, wake-up, strings. */
#include "scene.h"

#include <stdio.h>

/* Self-powered, and it may wake its host (bmAttributes e0). */
#define WAKING "device 0 090220000101" "00e032" "0904000002ff000000" "07058102400000" "07050202400000\nids 0 04a9 31c0\n"

static void ask(const char *what, int type, int request, int value, int index, int length)
{
    unsigned char data[64] = { 0 };
    int count = libusb_control_transfer(handle, (uint8_t)type, (uint8_t)request, (uint16_t)value, (uint16_t)index, data, (uint16_t)length, 1000);
    if (count > 0 && type & LIBUSB_ENDPOINT_IN)
        bytes(what, data, count);
    else
        answer(what, count);
}

static void begin_waking(const char *name, const char *text)
{
    begin_text(name, text);
    handle = open_standard(context);
    answer("claim", libusb_claim_interface(handle, 0));
}

static void read_once(const char *what)
{
    unsigned char data[64];
    int moved = 0, result = libusb_bulk_transfer(handle, 0x81, data, sizeof data, &moved, 1000);
    answer(what, result ? result : moved);
}

static void by_the_device(void)
{
    begin_waking("a device's stall, told and ended by requests", WAKING "script 0 81 s d:01\n");
    ask("status", 0x82, 0, 0, 0x81, 2);
    read_once("read");
    ask("status", 0x82, 0, 0, 0x81, 2);
    ask("status of the other", 0x82, 0, 0, 0x02, 2);
    ask("clear its halt", 0x02, 1, 0, 0x81, 0);
    ask("status", 0x82, 0, 0, 0x81, 2);
    read_once("read");
    end();
}

static void by_request(void)
{
    begin_waking("a halt by request", WAKING "script 0 81 d:01 d:0102 d:010203\n");
    read_once("read");
    ask("halt it", 0x02, 3, 0, 0x81, 0);
    ask("status", 0x82, 0, 0, 0x81, 2);
    read_once("read");
    read_once("read again");
    answer("clear_halt", libusb_clear_halt(handle, 0x81));
    ask("status", 0x82, 0, 0, 0x81, 2);
    read_once("read");
    ask("halt it", 0x02, 3, 0, 0x81, 0);
    ask("clear its halt", 0x02, 1, 0, 0x81, 0);
    read_once("read");
    end();
}

static void in_flight(void)
{
    struct libusb_transfer *first, *second;
    begin_waking("a halt by request with two transfers in flight", WAKING "script 0 02 a\n");
    first = submit(0, 0x81, 8);
    second = submit(1, 0x81, 8);
    work();
    int result = libusb_control_transfer(handle, 0x02, 3, 0, 0x81, NULL, 0, 1000);
    wait_for(2);
    answer("halt it", result);
    answer("clear_halt", libusb_clear_halt(handle, 0x81));
    discard(first);
    discard(second);
    end();
}

static void refused(void)
{
    begin_waking("endpoints and features that aren't there", WAKING);
    ask("status of endpoint 0", 0x82, 0, 0, 0, 2);
    ask("another feature of 81", 0x02, 3, 1, 0x81, 0);
    ask("another feature of the device", 0x00, 3, 9, 0, 0);
    end();
}

static void waking(void)
{
    begin_waking("wake-up and power", WAKING);
    ask("status", 0x80, 0, 0, 0, 2);
    ask("wake up", 0x00, 3, 1, 0, 0);
    ask("status", 0x80, 0, 0, 0, 2);
    ask("no more", 0x00, 1, 1, 0, 0);
    ask("status", 0x80, 0, 0, 0, 2);
    end();
    begin_waking("a device that can't wake its host", STANDARD);
    ask("wake up", 0x00, 3, 1, 0, 0);
    ask("status", 0x80, 0, 0, 0, 2);
    end();
}

static void strings(void)
{
    begin_waking("a device without strings", STANDARD);
    ask("languages", 0x80, 6, 0x0300, 0, 64);
    ask("string 1", 0x80, 6, 0x0301, 0x0409, 64);
    end();
    begin_waking("a device with one", STANDARD "string 0 1 Hi\n");
    ask("languages", 0x80, 6, 0x0300, 0, 64);
    ask("string 1", 0x80, 6, 0x0301, 0x0409, 64);
    end();
}

static void as_the_text_says(void)
{
    begin_waking("a device whose text answers these", WAKING "control 0 82 00 0000 0081 d:0700\ncontrol 0 02 03 * * s\nscript 0 81 d:01\n");
    ask("status", 0x82, 0, 0, 0x81, 2);
    ask("halt it", 0x02, 3, 0, 0x81, 0);
    read_once("read");
    end();
}

int main(void)
{
    by_the_device();
    by_request();
    in_flight();
    refused();
    waking();
    strings();
    as_the_text_says();
    return 0;
}

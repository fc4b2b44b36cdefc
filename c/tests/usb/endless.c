/* Devices that compute answer without an end: a script of the core has room for 65,536 answers, and the driver never sees where a session
 * ends. The expected lines are written from tirnouch.h. This program isn't run with seeds, since its traces are long. */
#include "scene.h"

#include <stdio.h>
#include <stdlib.h>
#include <string.h>

#define MANY 70000
/* Packets of 8 bytes, more than a session has. */
#define SIZE (8 * 40000)

static int counter, asked;

/* The number of the packet stands in its first two bytes. Each second time it isn't ready. */
static int count_up(void *user, uint8_t ep, uint8_t *data, int length)
{
    (void)user;
    (void)ep;
    if (++asked % 2 || length < 2)
        return TIRNOUCH_LATER(1);
    counter++;
    data[0] = (uint8_t)counter;
    data[1] = (uint8_t)(counter >> 8);
    return 2;
}

static int stall_once(void *user, uint8_t ep, uint8_t *data, int length)
{
    (void)user;
    (void)ep;
    data[0] = 0x2a;
    return asked++ || !length ? 1 : TIRNOUCH_STALL;
}

static int take(void *user, uint8_t ep, uint8_t *data, int length)
{
    (void)user;
    (void)ep;
    (void)data;
    return length;
}

static struct {
    int reports, wrong, overtaken;
} endless;

/* Two reads are in flight at each moment. */
static void report(struct libusb_transfer *transfer)
{
    const unsigned char *data = transfer->buffer;
    int expected = ++endless.reports & 0xffff, got = data[0] | data[1] << 8;
    endless.wrong += transfer->status != LIBUSB_TRANSFER_COMPLETED || transfer->actual_length != 2;
    endless.overtaken += got != expected;
    if (endless.reports < MANY)
        libusb_submit_transfer(transfer);
}

static void write_byte(unsigned char byte)
{
    int moved = 0;
    answer("write", libusb_bulk_transfer(handle, 0x02, &byte, 1, &moved, 1000));
}

/* Reads wait all the time, as a keyboard's do, and each second question finds nothing: so reads are in flight wherever a session ends. What a
 * script expects of the driver it expects over the sessions. */
static void without_end(void)
{
    struct timeval minute = { 60, 0 };
    struct libusb_transfer *all[2], *left;
    virtual_time(1);
    tirnouch_on_packet(0, 0x81, count_up, NULL);
    hear_errors();
    begin("a read always waits", "script 0 02 a:01 a:02\n");
    write_byte(1);
    left = submit(3, 0x83, 8);
    for (int i = 0; i < 2; i++) {
        all[i] = make(i, 0x81, 8);
        all[i]->callback = report;
        send_off(all[i]);
    }
    while (endless.reports < MANY && !libusb_handle_events_timeout(context, &minute))
        continue;
    number("reports", endless.reports);
    write_byte(3);
    number("wrong", endless.wrong);
    number("out of order", endless.overtaken);
    answer("cancel of the last one", libusb_cancel_transfer(all[0]));
    answer("cancel of one that waits since the beginning", libusb_cancel_transfer(left));
    work();
    discard(all[0]);
    discard(all[1]);
    discard(left);
    end();
    show_errors();
    tirnouch_on_packet(0, 0x81, NULL, NULL);
    virtual_time(0);
}

static void write_all(unsigned char *data)
{
    int moved = 0;
    answer("write", libusb_bulk_transfer(handle, 0x02, data, SIZE, &moved, 0));
    number("  moved", moved);
}

static void ask(void)
{
    unsigned char byte;
    answer("request", libusb_control_transfer(handle, 0xc0, 1, 0, 0, &byte, 1, 1000));
    bytes("  of", &byte, 1);
}

static void read_once(void)
{
    unsigned char data[8] = { 0 };
    int moved = 0, result = libusb_bulk_transfer(handle, 0x81, data, 8, &moved, 1000);
    answer("read", result);
    bytes("  of", data, moved);
}

/* A session ends amid a write of many packets, while 81 is halted, and has two packets of its script left at 83, and two answers to a
 * request. */
static void amid_a_write(void)
{
    unsigned char *data = calloc(1, SIZE), four[8];
    int moved;
    asked = 0;
    tirnouch_on_packet(0, 0x81, stall_once, NULL);
    tirnouch_on_packet(0, 0x02, take, NULL);
    hear_errors();
    begin("a session that ends amid a write, at a halt",
          "script 0 83 d:01 d:02 d:03\nafter 0 83 1 02 3\nscript 0 02 a:0000000000000000 a:00000000000000ff\n"
          "control 0 c0 01 0000 0000 d:b0 d:b1 d:b2\n");
    ask();
    read_once();
    answer("script", libusb_interrupt_transfer(handle, 0x83, four, 8, &moved, 1000));
    bytes("  of", four, moved);
    write_all(data);
    read_once();
    answer("clear", libusb_clear_halt(handle, 0x81));
    read_once();
    for (int i = 0; i < 2; i++) {
        answer("script", libusb_interrupt_transfer(handle, 0x83, four, 8, &moved, 1000));
        bytes("  of", four, moved);
    }
    for (int i = 0; i < 3; i++)
        ask();
    number("first packet", tirnouch_took(0, 0x02, 0, NULL, 0));
    number("last packet", tirnouch_took(0, 0x02, SIZE / 8 - 1, NULL, 0));
    number("behind it", tirnouch_took(0, 0x02, SIZE / 8, NULL, 0));
    free(data);
    end();
    show_errors();
    tirnouch_on_packet(0, 0x81, NULL, NULL);
    tirnouch_on_packet(0, 0x02, NULL, NULL);
}

int main(void)
{
    without_end();
    amid_a_write();
    return 0;
}

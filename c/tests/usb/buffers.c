/* Where the bytes of a read go: into the program's own buffer, each to its place, and nothing else is written to. A buffer is 4 bytes longer
 * than its read, and full of ee before. */
#include "scene.h"

#include <stddef.h>
#include <stdint.h>
#include <string.h>

#define BEHIND 4

/* A read of so many bytes, ready to be submitted. */
static struct libusb_transfer *prepare(long id, int length)
{
    struct libusb_transfer *transfer = make(id, 0x81, length + BEHIND);
    memset(transfer->buffer, 0xee, (size_t)length + BEHIND);
    transfer->length = length;
    return transfer;
}

static struct libusb_transfer *read_some(long id, int length)
{
    struct libusb_transfer *transfer = prepare(id, length);
    send_off(transfer);
    return transfer;
}

static void show(const struct libusb_transfer *transfer)
{
    bytes("buffer", transfer->buffer, transfer->length + BEHIND);
}

static void show_and_discard(struct libusb_transfer *transfer)
{
    show(transfer);
    discard(transfer);
}

static void write_between(void)
{
    struct libusb_transfer *some[3];
    begin("two reads with a write between them", "script 0 81 d:0102030405060708 d:1112\nscript 0 02 a\n");
    some[0] = read_some(0, 8);
    some[1] = submit(1, 0x02, 4);
    some[2] = read_some(2, 8);
    work();
    took(0x02);
    show_and_discard(some[0]);
    discard(some[1]);
    show_and_discard(some[2]);
    end();
}

static void several(void)
{
    struct libusb_transfer *some[4];
    begin("four reads at once", "script 0 81 d:0102030405060708 d:1112 d:2122232425262728 d:3132333435363738 d:41\n");
    for (int i = 0; i < 4; i++)
        some[i] = read_some(i, i == 3 ? 12 : 8);
    work();
    for (int i = 0; i < 4; i++)
        show_and_discard(some[i]);
    end();
}

/* One read alone, which is cancelled where it doesn't end by itself. */
static void one(const char *name, const char *script, int length)
{
    struct libusb_transfer *transfer;
    begin(name, script);
    transfer = read_some(0, length);
    work();
    if (!calls) {
        show(transfer);
        answer("cancel", libusb_cancel_transfer(transfer));
        work();
    }
    show_and_discard(transfer);
    end();
}

static void alone(void)
{
    one("the third packet is short", "script 0 81 d:0102030405060708 d:1112131415161718 d:212223\n", 20);
    one("the second packet is empty", "script 0 81 d:0102030405060708 d:\n", 20);
    one("cancelled behind the first packet", "script 0 81 d:0102030405060708\n", 20);
    one("a stall behind the first packet", "script 0 81 d:0102030405060708 s\n", 20);
    one("a packet is longer than the room", "script 0 81 d:0102030405060708\n", 4);
    one("a second packet is longer than the room", "script 0 81 d:0102030405060708 d:1112131415161718\n", 12);
}

static unsigned char other[8 + BEHIND];

static void go_on_elsewhere(struct libusb_transfer *transfer)
{
    tell(transfer);
    if (transfer->buffer == other)
        return;
    transfer->buffer = other;
    send_off(transfer);
}

static void another_buffer(void)
{
    struct libusb_transfer *transfer;
    unsigned char *first;
    begin("submitted again with another buffer", "script 0 81 d:0102030405060708 d:1112131415\n");
    memset(other, 0xee, sizeof other);
    transfer = prepare(0, 8);
    first = transfer->buffer;
    transfer->callback = go_on_elsewhere;
    send_off(transfer);
    work();
    show(transfer);
    transfer->buffer = first;
    show_and_discard(transfer);
    end();
}

/* What the device sends next is another's, though the first read had room for it. */
static void closed(void)
{
    struct libusb_transfer *dropped, *some[2];
    begin("the handle is closed behind the first packet",
          "script 0 81 d:0102030405060708 d:1112131415161718\nscript 0 02 a\nafter 0 81 1 02 1\n");
    dropped = read_some(0, 20);
    work();
    show(dropped);
    libusb_close(handle);
    memset(dropped->buffer, 0xdd, 20 + BEHIND);
    handle = open_standard(context);
    answer("claim", libusb_claim_interface(handle, 0));
    some[0] = submit(1, 0x02, 1);
    work();
    some[1] = read_some(2, 8);
    work();
    discard(some[0]);
    show_and_discard(some[1]);
    show_and_discard(dropped);
    end();
}

int main(void)
{
    write_between();
    several();
    alone();
    another_buffer();
    closed();
    return 0;
}

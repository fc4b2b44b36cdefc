/* A device that moves to a core of its own, and two buses. */
#include "again.h"

#include <tirnouch.h>

#include <stdbool.h>
#include <stdio.h>

static bool is_ready;

/* Behind a write: bytes from 31 on. */
static int gives(void *unused, uint8_t endpoint, uint8_t *data, int length)
{
    static uint8_t next = 0x31;
    (void)unused;
    (void)endpoint;
    if (!is_ready || !length)
        return TIRNOUCH_NOT_READY;
    *data = next++;
    return 1;
}

/* What both devices of `moves` do. */
static void put_and_take(libusb_device_handle *of, unsigned char first)
{
    handle = of;
    put(first, 2);
    take(4);
    ask(1, 8);
}

/* The second of two devices is given a function amid the run: it goes on in a core of its own, with a read and a request that wait, behind a
 * read that is being cancelled. The first one stays. */
int moves(void)
{
    unsigned char setup[16], data[4], none[4];
    int ended = 0, asked = 0, left = 0;
    begin(0x0001);
    libusb_device_handle *first = handle, *second = libusb_open_device_with_vid_pid(NULL, 0x1209, 0x0002);
    if (!second || libusb_claim_interface(second, 0))
        return 14;
    put_and_take(second, 2);
    put_and_take(first, 3);
    handle = second;
    struct libusb_transfer *request = begin_asking(3, setup, &asked);
    struct libusb_transfer *withdrawn = begin_taking(none, sizeof none, &left), *transfer = begin_taking(data, sizeof data, &ended);
    libusb_cancel_transfer(withdrawn);
    printf("moves: %d\n", tirnouch_on_packet(1, FROM_DEVICE, gives, NULL));
    wait_for(&left);
    printf("withdrawn: %d, %d\n", withdrawn->status, withdrawn->actual_length);
    put(4, 2);
    is_ready = true;
    tirnouch_ready(1);
    wait_for(&ended);
    show("event", transfer->status == LIBUSB_TRANSFER_COMPLETED ? 0 : LIBUSB_ERROR_OTHER, data, transfer->actual_length);
    libusb_cancel_transfer(request);
    wait_for(&asked);
    libusb_free_transfer(withdrawn);
    libusb_free_transfer(transfer);
    libusb_free_transfer(request);
    put_and_take(second, 5);
    put_and_take(first, 6);
    libusb_close(second);
    return finish();
}

/* Two buses, which do the same; or the second another thing. */
int twice(void)
{
    begin(0x0001);
    put(1, 1);
    finish();
    begin(0x0001);
    put(1, 1);
    return finish();
}

int otherwise(void)
{
    begin(0x0001);
    put(1, 1);
    finish();
    begin(0x0001);
    put(1, 1);
    take(4);
    return finish();
}

/* The second device of a second bus moves; of the first bus it doesn't. */
int moves_later(void)
{
    begin(0x0001);
    put_and_take(handle, 1);
    finish();
    return moves();
}

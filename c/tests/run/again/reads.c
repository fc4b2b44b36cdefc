/* Reads and writes at endpoints: in flight behind a request, halted, behind a reset, long, and of a device that computes. */
#include "again.h"

#include <stdio.h>
#include <stdlib.h>

/* A read that is in flight while a request is made for it. */
int waits(void)
{
    unsigned char data[8];
    int ended;
    begin(0x0001);
    struct libusb_transfer *transfer = libusb_alloc_transfer(0);
    for (uint8_t i = 0; transfer && i < 3; i++) {
        ended = 0;
        libusb_fill_bulk_transfer(transfer, handle, FROM_DEVICE, data, sizeof data, on_end, &ended, SECOND);
        if (libusb_submit_transfer(transfer))
            return 12;
        libusb_handle_events_timeout_completed(NULL, &(struct timeval){ 0, 0 }, &ended);
        printf("%s\n", ended ? "too soon" : "it waits");
        tell((uint8_t)(5 + i), i);
        while (!ended)
            libusb_handle_events_completed(NULL, &ended);
        show("event", transfer->status == LIBUSB_TRANSFER_COMPLETED ? 0 : LIBUSB_ERROR_OTHER, data, transfer->actual_length);
    }
    libusb_free_transfer(transfer);
    return finish();
}

static void poll(void)
{
    unsigned char data[8];
    int moved = 0, r = libusb_bulk_transfer(handle, FROM_DEVICE, data, sizeof data, &moved, SOON);
    show("polled", r, data, moved);
}

/* A halt, reads that nobody answers, and a write that isn't taken at the end. */
int stalls(void)
{
    begin(0x0001);
    put(1, 3);
    take(8);
    take(8);
    libusb_clear_halt(handle, FROM_DEVICE);
    poll();
    poll();
    poll();
    put(2, 3);
    return finish();
}

/* Reads at a halted endpoint, whose next answer comes behind a write. */
int halts(void)
{
    begin(0x0001);
    take(8);
    take(8);
    put(1, 3);
    take(8);
    libusb_clear_halt(handle, FROM_DEVICE);
    take(8);
    return finish();
}

int resets(void)
{
    begin(0x0001);
    put(1, 1);
    take(4);
    take(4);
    printf("reset: %d\n", libusb_reset_device(handle));
    put(1, 1);
    take(4);
    return finish();
}

/* More than a transfer of the core has. */
int large(void)
{
    enum { LENGTH = 300000 };
    unsigned char *data = malloc(LENGTH);
    int moved = 0;
    begin(0x0001);
    for (int i = 0; data && i < LENGTH; i++)
        data[i] = (unsigned char)(i % 251);
    flip(data);
    int r = libusb_bulk_transfer(handle, TO_DEVICE, data, LENGTH, &moved, 10 * SECOND);
    printf("written: %d, %d\n", r, moved);
    r = libusb_bulk_transfer(handle, FROM_DEVICE, data, LENGTH, &moved, 10 * SECOND);
    printf("read: %d, %d, last %02x\n", r, moved, data[moved - 1]);
    free(data);
    return finish();
}

/* Of a device that computes. */
int counts(void)
{
    unsigned char got[ROUNDS];
    begin(0x0001);
    for (int i = 0; i < ROUNDS; i++) {
        int moved;
        unsigned char byte = (unsigned char)(i + 1);
        flip(&byte);
        if (libusb_bulk_transfer(handle, TO_DEVICE, &byte, 1, &moved, SECOND) ||
            libusb_bulk_transfer(handle, FROM_DEVICE, got + i, 1, &moved, SECOND))
            return 15;
    }
    show("read", 0, got, ROUNDS);
    ask(1, 300);
    return finish();
}

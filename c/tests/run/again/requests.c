/* Control requests: long ones, stalls, and those that aren't answered. */
#include "again.h"

#include <stdio.h>
#include <unistd.h>

/* Requests of more bytes than a line of a terminal has, in both directions; stalls; and one that is answered in another way each time. */
int requests(void)
{
    begin(0x0001);
    ask(1, 300);
    ask(1, 300);
    tell(2, 200);
    tell(2, 4096);
    ask(3, 8);
    tell(4, 0);
    ask(5, 8);
    ask(5, 8);
    return finish();
}

/* Requests that aren't answered: before answers and behind them, until their time is over; one that is cancelled, and whose answer comes to
 * the next; and one that waits as its handle is closed. */
int silent(void)
{
    unsigned char setup[16];
    int ended = 0;
    begin(0x0001);
    ask_for(1, 8, SOON);
    ask(1, 8);
    ask(1, 8);
    ask_for(1, 8, SOON);
    ask_for(1, 8, SOON);
    ask(1, 8);
    ask_for(1, 8, SOON);
    ask_for(1, 8, SOON);
    tell(2, 3);
    tell_for(2, 3, SOON);
    tell(2, 3);
    struct libusb_transfer *transfer = begin_asking(3, setup, &ended);
    libusb_cancel_transfer(transfer);
    while (!ended)
        libusb_handle_events_completed(NULL, &ended);
    printf("cancelled: %d\n", transfer->status == LIBUSB_TRANSFER_CANCELLED);
    libusb_free_transfer(transfer);
    ask(3, 8);
    ended = 0;
    transfer = begin_asking(4, setup, &ended);
    finish();
    libusb_free_transfer(transfer);
    return 0;
}

/* The process ends while a request waits. */
int vanishes(void)
{
    unsigned char setup[16];
    int ended = 0;
    begin(0x0001);
    ask(3, 8);
    begin_asking(3, setup, &ended);
    fflush(stdout);
    _exit(0);
}

/* One that isn't ready for a request before a packet was written. */
int readies(void)
{
    begin(0x0001);
    ask_for(1, 300, SOON);
    put(1, 1);
    ask(1, 300);
    return finish();
}

/* Transfers that are in flight for a while. */
#include "again.h"

#include <stdio.h>
#include <stdlib.h>

void LIBUSB_CALL on_end(struct libusb_transfer *transfer)
{
    *(int *)transfer->user_data = 1;
}

/* A request to read that is in flight for a while; whether it ended so far. */
struct libusb_transfer *begin_asking(uint8_t request, unsigned char *setup, int *ended)
{
    struct libusb_transfer *transfer = libusb_alloc_transfer(0);
    libusb_fill_control_setup(setup, VENDOR_IN, request, 0, 0, 8);
    libusb_fill_control_transfer(transfer, handle, setup, on_end, ended, 0);
    if (libusb_submit_transfer(transfer))
        exit(12);
    libusb_handle_events_timeout_completed(NULL, &(struct timeval){ 0, SOON * 1000 }, ended);
    printf("%s\n", *ended ? "too soon" : "it waits");
    return transfer;
}

/* A read at the device that is used, which waits. */
struct libusb_transfer *begin_taking(unsigned char *data, int length, int *ended)
{
    struct libusb_transfer *transfer = libusb_alloc_transfer(0);
    libusb_fill_bulk_transfer(transfer, handle, FROM_DEVICE, data, length, on_end, ended, 10 * SECOND);
    if (libusb_submit_transfer(transfer))
        exit(12);
    libusb_handle_events_timeout_completed(NULL, &(struct timeval){ 0, 0 }, ended);
    return transfer;
}

void wait_for(int *ended)
{
    while (!*ended)
        libusb_handle_events_completed(NULL, ended);
}

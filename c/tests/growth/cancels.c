/* Transfers are submitted, and cancelled with the newest first: cancels bulk|requests COUNT. tools/growth_test.py counts its
 * instructions. */
#include "libusb.h"
#include "tirnouch.h"

#include <stdio.h>
#include <stdlib.h>
#include <string.h>

#define TEXT "device 0 0902190001010080320904000001ff0000000705810240000000\nids 0 1209 0001\n"

static int called;

static void on_end(struct libusb_transfer *transfer)
{
    if (transfer->status != LIBUSB_TRANSFER_CANCELLED)
        exit(3);
    called++;
}

static void must(int is_so)
{
    if (!is_so)
        exit(2);
}

int main(int count, char **words)
{
    static unsigned char buffer[64], setup[8] = { 0xc0, 1 };
    must(count == 3);
    int many = atoi(words[2]), is_request = !strcmp(words[1], "requests");
    struct libusb_transfer **transfers = calloc((size_t)many, sizeof(struct libusb_transfer *));
    libusb_context *context;
    must(transfers && !tirnouch_plug(TEXT, strlen(TEXT)) && !libusb_init(&context));
    libusb_device_handle *handle = libusb_open_device_with_vid_pid(context, 0x1209, 0x0001);
    must(handle && !libusb_claim_interface(handle, 0));
    for (int i = 0; i < many; i++) {
        struct libusb_transfer *it = transfers[i] = libusb_alloc_transfer(0);
        if (is_request)
            libusb_fill_control_transfer(it, handle, setup, on_end, NULL, 0);
        else
            libusb_fill_bulk_transfer(it, handle, 0x81, buffer, sizeof buffer, on_end, NULL, 0);
        must(!libusb_submit_transfer(it));
    }
    for (int i = many; i-- > 0;)
        must(!libusb_cancel_transfer(transfers[i]));
    while (called < many)
        must(!libusb_handle_events(context));
    for (int i = 0; i < many; i++)
        libusb_free_transfer(transfers[i]);
    libusb_close(handle);
    libusb_exit(context);
    free(transfers);
    return 0;
}

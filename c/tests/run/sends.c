/* What tools/changed_writes_test.py runs: a program that sends the same bytes three times, by transfers, or by requests where the first
 * word says so. The bytes stand where nobody may write. It prints how each ended, and whether it finds the transfer as it was. */
#include <libusb.h>

#include <stdio.h>
#include <stdlib.h>
#include <string.h>

#define TO_DEVICE 0x02
#define TIMES 3

static const unsigned char bytes[] = { 1, 2 };
/* Request 40 02 with value 0 and index 0, and the same bytes. */
static const unsigned char request[] = { 0x40, 2, 0, 0, 0, 0, 2, 0, 1, 2 };
static const unsigned char *sent = bytes;
static int ended;

static void on_end(struct libusb_transfer *transfer)
{
    int own = transfer->user_data == &ended && transfer->callback == on_end && transfer->buffer == sent;
    printf("sent: status %d, %d bytes, %s\n", (int)transfer->status, transfer->actual_length, own ? "as it was" : "another transfer");
    ended++;
}

static void send_once(libusb_device_handle *handle)
{
    struct libusb_transfer *transfer = libusb_alloc_transfer(0);
    if (!transfer)
        exit(12);
    if (sent == request)
        libusb_fill_control_transfer(transfer, handle, (unsigned char *)request, on_end, &ended, 1000);
    else
        libusb_fill_bulk_transfer(transfer, handle, TO_DEVICE, (unsigned char *)bytes, sizeof bytes, on_end, &ended, 1000);
    int before = ended;
    if (libusb_submit_transfer(transfer))
        exit(13);
    while (ended == before)
        libusb_handle_events(NULL);
    libusb_free_transfer(transfer);
}

int main(int count, char **words)
{
    if (count > 1 && !strcmp(words[1], "requests"))
        sent = request;
    if (libusb_init(NULL))
        return 10;
    libusb_device_handle *handle = libusb_open_device_with_vid_pid(NULL, 0x1209, 0x0001);
    if (!handle || libusb_claim_interface(handle, 0))
        return 11;
    for (int i = 0; i < TIMES; i++)
        send_once(handle);
    libusb_close(handle);
    libusb_exit(NULL);
    return 0;
}

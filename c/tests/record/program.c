/* What tools/tirnouch_record_test.py records: the first word says what is done with the devices of devices.txt. */
#include "program.h"

#include <stdio.h>
#include <stdlib.h>
#include <string.h>
#include <unistd.h>

libusb_context *context;
libusb_device_handle *handle;
static int ended;
static const char *more; /* the word behind the kind */

libusb_device_handle *open_device(libusb_context *of, uint16_t product)
{
    libusb_device_handle *opened = libusb_open_device_with_vid_pid(of, 0x1209, product);
    if (!opened || libusb_claim_interface(opened, 0))
        exit(10);
    return opened;
}

void begin(void)
{
    if (libusb_init(&context))
        exit(11);
    handle = open_device(context, 0x0001);
    if (libusb_claim_interface(handle, 1))
        exit(12);
}

int end(void)
{
    libusb_close(handle);
    libusb_exit(context);
    return 0;
}

static void on_end(struct libusb_transfer *transfer)
{
    (void)transfer;
    ended++;
}

struct libusb_transfer *make(unsigned char ep, int length, libusb_transfer_cb_fn called, unsigned timeout)
{
    struct libusb_transfer *transfer = libusb_alloc_transfer(0);
    unsigned char *buffer = calloc(1, (size_t)length + 1);
    if (!transfer || !buffer)
        exit(13);
    libusb_fill_bulk_transfer(transfer, handle, ep, buffer, length, called, NULL, timeout);
    transfer->flags = LIBUSB_TRANSFER_FREE_BUFFER;
    return transfer;
}

static void wait_for(int count)
{
    while (ended < count)
        libusb_handle_events(context);
}

/* Calls that wait: each kind of transfer, a stall and its end, and what the kernel makes requests of. A configuration isn't set while an
 * interface is claimed. */
static int waits(void)
{
    unsigned char data[16] = { 1, 2, 3 };
    int moved;
    begin();
    libusb_bulk_transfer(handle, TO_DEVICE, data, 3, &moved, 1000);
    libusb_bulk_transfer(handle, FROM_DEVICE, data, 16, NULL, 1000);
    libusb_bulk_transfer(handle, FROM_DEVICE, data, 16, &moved, 1000);
    libusb_clear_halt(handle, FROM_DEVICE);
    libusb_interrupt_transfer(handle, REPORTS, data, 8, &moved, 1000);
    libusb_interrupt_transfer(handle, REPORTS, data, 8, &moved, 10);
    libusb_control_transfer(handle, 0xc0, 5, 0x0102, 3, data, 8, 1000);
    libusb_control_transfer(handle, 0x40, 6, 0, 0, data, 2, 1000);
    libusb_control_transfer(handle, 0xc0, 7, 0, 0, data, 2, 1000);
    libusb_bulk_transfer(handle, 0x84, data, 1, &moved, 1000);
    libusb_set_interface_alt_setting(handle, 1, 0);
    libusb_set_configuration(handle, 1);
    libusb_release_interface(handle, 0);
    libusb_release_interface(handle, 1);
    libusb_set_configuration(handle, 1);
    libusb_reset_device(handle);
    return end();
}

/* Bulk transfers at an interrupt endpoint, as many drivers make them: of a call, and one that is submitted. */
static int asks_in_bulk(void)
{
    unsigned char data[8];
    int moved;
    begin();
    if (libusb_bulk_transfer(handle, REPORTS, data, 8, &moved, 1000) || moved != 1)
        return 31;
    struct libusb_transfer *transfer = make(REPORTS, 8, on_end, 10);
    if (libusb_submit_transfer(transfer))
        return 32;
    wait_for(1);
    libusb_free_transfer(transfer);
    return end();
}

static void on_again(struct libusb_transfer *transfer)
{
    ended++;
    if (transfer->status == LIBUSB_TRANSFER_STALL)
        libusb_clear_halt(transfer->dev_handle, transfer->endpoint);
    if (ended == 4 || libusb_submit_transfer(transfer))
        libusb_free_transfer(transfer);
}

/* A transfer that is submitted again in its callback, three times, and then freed there. */
static int resubmits(void)
{
    begin();
    if (libusb_submit_transfer(make(FROM_DEVICE, 8, on_again, 0)))
        return 14;
    wait_for(4);
    return end();
}

/* One that is cancelled, one whose time is over; and a submission that is refused, of one in flight and of one that has no endpoint. */
static int ends_otherwise(void)
{
    begin();
    struct libusb_transfer *cancelled = make(REPORTS, 8, on_end, 0), *nowhere = make(0x84, 8, on_end, 0);
    cancelled->type = LIBUSB_TRANSFER_TYPE_INTERRUPT;
    unsigned char data[8];
    libusb_interrupt_transfer(handle, REPORTS, data, 8, NULL, 1000);
    if (libusb_submit_transfer(cancelled) || libusb_submit_transfer(cancelled) != LIBUSB_ERROR_BUSY || !libusb_submit_transfer(nowhere))
        return 15;
    libusb_cancel_transfer(cancelled);
    wait_for(1);
    if (nowhere->callback != on_end || cancelled->callback != on_end || cancelled->status != LIBUSB_TRANSFER_CANCELLED)
        return 16;
    cancelled->timeout = 10;
    if (libusb_submit_transfer(cancelled))
        return 17;
    wait_for(2);
    if (cancelled->status != LIBUSB_TRANSFER_TIMED_OUT)
        return 18;
    libusb_free_transfer(cancelled);
    libusb_free_transfer(nowhere);
    return end();
}

/* The process ends by _exit, with a transfer in flight. */
static int leaves(void)
{
    begin();
    unsigned char data[8];
    libusb_interrupt_transfer(handle, REPORTS, data, 8, NULL, 1000);
    struct libusb_transfer *transfer = make(REPORTS, 8, on_end, 0);
    transfer->type = LIBUSB_TRANSFER_TYPE_INTERRUPT;
    if (libusb_submit_transfer(transfer))
        return 19;
    _exit(0);
}

/* A handle is closed with a transfer in flight, which libusb drops; another handle has it then. */
static int drops(void)
{
    begin();
    struct libusb_transfer *transfer = make(REPORTS, 8, on_end, 0);
    unsigned char data[8];
    libusb_interrupt_transfer(handle, REPORTS, data, 8, NULL, 1000);
    transfer->type = LIBUSB_TRANSFER_TYPE_INTERRUPT;
    if (libusb_submit_transfer(transfer))
        return 20;
    libusb_close(handle);
    handle = open_device(context, 0x0001);
    transfer->dev_handle = handle;
    transfer->endpoint = FROM_DEVICE;
    transfer->type = LIBUSB_TRANSFER_TYPE_BULK;
    if (libusb_submit_transfer(transfer))
        return 21;
    wait_for(1);
    libusb_free_transfer(transfer);
    return end();
}

/* A read and a write that are longer than what an event of a capture has. */
static int is_large(void)
{
    int moved = 0, length = 600000;
    unsigned char *data = malloc((size_t)length);
    begin();
    if (!data || libusb_bulk_transfer(handle, FROM_DEVICE, data, length, &moved, 10000))
        return 27;
    printf("read %d\n", moved);
    if (libusb_bulk_transfer(handle, TO_DEVICE, data, moved, &moved, 10000))
        return 28;
    free(data);
    return end();
}

/* Another bus, on which another device stands at the same address. */
static int is_another(void)
{
    unsigned char data[8];
    int moved;
    begin();
    end();
    if (!more || setenv("TIRNOUCH_DEVICES", more, 1) || libusb_init(&context))
        return 35;
    handle = open_device(context, 0x0002);
    libusb_bulk_transfer(handle, FROM_DEVICE, data, 8, &moved, 1000);
    return end();
}

/* A reset amid reads, each of which prints the first byte that it got. */
static int resets(void)
{
    begin();
    for (int i = 0; i < 3; i++) {
        unsigned char data[8] = { 0 };
        int moved;
        libusb_bulk_transfer(handle, FROM_DEVICE, data, 8, &moved, 1000);
        printf("read %02x\n", data[0]);
        if (i == 0 && libusb_reset_device(handle))
            return 36;
    }
    return end();
}

static void on_report(struct libusb_transfer *transfer)
{
    ended++;
    if (ended == 2 || libusb_submit_transfer(transfer))
        libusb_free_transfer(transfer);
}

/* Reports are read all the time. The second one stands behind a status, which is read late: it isn't there while the command before that is
 * written. */
static int reads_at_two(void)
{
    unsigned char data[8] = { 0 };
    int moved;
    begin();
    struct libusb_transfer *reports = make(REPORTS, 8, on_report, 0);
    reports->type = LIBUSB_TRANSFER_TYPE_INTERRUPT;
    if (libusb_submit_transfer(reports))
        return 37;
    wait_for(1);
    if (libusb_bulk_transfer(handle, TO_DEVICE, data, 8, &moved, 1000) || ended != 1)
        return 38;
    if (libusb_bulk_transfer(handle, FROM_DEVICE, data, 8, &moved, 1000))
        return 39;
    wait_for(2);
    return end();
}

/* An isochronous transfer, which isn't recorded. */
static int is_isochronous(void)
{
    begin();
    struct libusb_transfer *transfer = libusb_alloc_transfer(1);
    unsigned char data[8];
    libusb_fill_iso_transfer(transfer, handle, FROM_DEVICE, data, 8, 1, on_end, NULL, 0);
    if (libusb_submit_transfer(transfer) != LIBUSB_ERROR_NOT_SUPPORTED || transfer->callback != on_end)
        return 29;
    libusb_free_transfer(transfer);
    return end();
}

static const struct {
    const char *name;
    int (*act)(void);
} kinds[] = {
    { "waits", waits },         { "resubmits", resubmits },     { "otherwise", ends_otherwise }, { "leaves", leaves },
    { "drops", drops },         { "forks", forks },             { "closes", closes_files },      { "no room", has_no_room },
    { "two", has_two },         { "large", is_large },          { "isochronous", is_isochronous }, { "threads", threads },
    { "another", is_another },  { "resets", resets },         { "bulk", asks_in_bulk },
    { "at two", reads_at_two },
};

int main(int count, char **words)
{
    more = count > 2 ? words[2] : NULL;
    for (size_t i = 0; count > 1 && i < sizeof kinds / sizeof *kinds; i++)
        if (!strcmp(words[1], kinds[i].name))
            return kinds[i].act();
    return 9;
}

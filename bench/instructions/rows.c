/* What a turn of each row takes in instructions: callgrind counts them (run), as the difference between two counts of turns.
 *
 *     rows ROW TURNS MOST    makes so many turns of a row over libusb's functions, over a text for MOST turns; the names are those below
 *
 * Each turn has its status and its bytes looked at, so a row that fails ends with a sentence, and isn't measured. */
#include "libusb.h"
#include "tirnouch.h"

#include <stdbool.h>
#include <stdio.h>
#include <stdlib.h>
#include <string.h>

#define VENDOR 0x1209
#define PRODUCT 0x0001
#define ENDPOINT 0x81
#define LENGTH 8
#define MOST_AT_ONCE 16
#define TIMEOUT 1000

struct row {
    const char *name;
    void (*turn)(void);
    int at_once;
    unsigned timeout;
    bool computes, is_ready;
};

static libusb_context *context;
static libusb_device_handle *handle;
static struct libusb_transfer *transfers[MOST_AT_ONCE];
static unsigned char bytes[MOST_AT_ONCE][LENGTH];
static const struct row *row;
/* How many turns are left, how many transfers are in flight, and how each of them is to end. */
static long left;
static int flying;
static enum libusb_transfer_status wanted = LIBUSB_TRANSFER_COMPLETED;

static void must(bool is_so, const char *what)
{
    if (is_so)
        return;
    fprintf(stderr, "%s: %s\n", row->name, what);
    exit(1);
}

static void submit(struct libusb_transfer *transfer)
{
    must(!libusb_submit_transfer(transfer), "a submission is refused");
    flying++;
}

static void called(struct libusb_transfer *transfer)
{
    int length = wanted == LIBUSB_TRANSFER_COMPLETED ? LENGTH : 0;
    must(transfer->status == wanted && transfer->actual_length == length, "a transfer ends otherwise");
    must(!length || transfer->buffer[LENGTH - 1] == LENGTH, "a byte is another one");
    flying--;
}

static void resubmitted(struct libusb_transfer *transfer)
{
    called(transfer);
    if (--left > 0)
        submit(transfer);
}

static void handle_events(void)
{
    struct timeval none = { 0, 0 };
    while (flying)
        must(!libusb_handle_events_timeout(context, &none), "events aren't handled");
}

/* Turns. */

static void transferred(void)
{
    for (int i = 0; i < row->at_once; i++)
        submit(transfers[i]);
    handle_events();
}

static void resubmission(void)
{
    transfers[0]->callback = resubmitted;
    submit(transfers[0]);
    handle_events();
}

static void cancelled(void)
{
    wanted = LIBUSB_TRANSFER_CANCELLED;
    submit(transfers[0]);
    must(!libusb_cancel_transfer(transfers[0]), "a cancel is refused");
    handle_events();
}

static void requested(void)
{
    int got = libusb_control_transfer(handle, 0xc0, 0x01, 0, 0, bytes[0], LENGTH, TIMEOUT);
    must(got == LENGTH && bytes[0][LENGTH - 1] == LENGTH, "a request is answered otherwise");
}

static void opened(void)
{
    libusb_device_handle *other = libusb_open_device_with_vid_pid(context, VENDOR, PRODUCT);
    must(other, "there is no device");
    libusb_close(other);
}

/* Begins the bus of the only context, and ends it. */
static void begun(void)
{
    libusb_context *other;
    must(!libusb_init(&other), "there is no context");
    libusb_exit(other);
}

static const struct row rows[] = {
    { "event call", transferred, 1, 0, false, true },
    { "timeout", transferred, 1, TIMEOUT, false, true },
    { "resubmitted", resubmission, 1, 0, false, true },
    { "16 in flight", transferred, MOST_AT_ONCE, 0, false, true },
    { "cancel", cancelled, 1, 0, false, false },
    { "control", requested, 1, 0, false, true },
    { "open and close", opened, 1, 0, false, true },
    { "init and exit", begun, 1, 0, false, true },
    { "computed packet", transferred, 1, 0, true, true },
};

/* A device that computes. */
static int computed(void *user_data, uint8_t endpoint, uint8_t *data, int length)
{
    (void)user_data, (void)endpoint;
    memset(data, LENGTH, (size_t)length);
    return length;
}

static void plug(long packets)
{
    const char *packet = " d:0102030405060708";
    char *text = malloc(512 + strlen(packet) * (size_t)packets), *at = text;
    must(text, "there is no memory");
    at += sprintf(at, "device 0 0902190001010080320904000001ff00000007058102080000\nids 0 1209 0001\n"
                      "control 0 c0 01 * * d:0102030405060708\n");
    if (!row->computes) {
        at += sprintf(at, "script 0 81");
        for (long i = 0; row->is_ready && i < packets; i++)
            at += sprintf(at, "%s", packet);
        at += sprintf(at, "%s\n", row->is_ready ? "" : " n");
    }
    must(!tirnouch_plug(text, (size_t)(at - text)), "the devices are refused");
    free(text);
    must(!row->computes || !tirnouch_on_packet(0, ENDPOINT, computed, NULL), "the function is refused");
}

static void measure(long turns, long most)
{
    plug(row->turn == begun ? 1 : most * row->at_once);
    if (row->turn == begun) {
        for (long i = 0; i < turns; i++)
            row->turn();
        return;
    }
    must(!libusb_init(&context), "there is no context");
    handle = libusb_open_device_with_vid_pid(context, VENDOR, PRODUCT);
    must(handle && !libusb_claim_interface(handle, 0), "there is no device");
    for (int i = 0; i < row->at_once; i++) {
        transfers[i] = libusb_alloc_transfer(0);
        must(transfers[i], "there is no memory");
        libusb_fill_bulk_transfer(transfers[i], handle, ENDPOINT, bytes[i], LENGTH, called, NULL, row->timeout);
    }
    if (row->turn == resubmission) {
        left = turns;
        row->turn();
    }
    for (long i = 0; row->turn != resubmission && i < turns; i++)
        row->turn();
    for (int i = 0; i < row->at_once; i++)
        libusb_free_transfer(transfers[i]);
    libusb_close(handle);
    libusb_exit(context);
}

int main(int count, char **words)
{
    for (size_t i = 0; count == 4 && i < sizeof rows / sizeof *rows; i++)
        if (!strcmp(words[1], rows[i].name)) {
            row = &rows[i];
            measure(atol(words[2]), atol(words[3]));
            return 0;
        }
    for (size_t i = 0; i < sizeof rows / sizeof *rows; i++)
        puts(rows[i].name);
    return count == 1 ? 0 : 2;
}

/* What libusb's manual forbids is told, where TIRNOUCH_MISUSE asks for it, as tools/tirnouch-run does: on standard error, whatever the log's
 * level is, in the trace, and in the file of TIRNOUCH_DIFFERENCES as a line `misused`. The call goes on as ever.
 *
 * Meanwhile a handle that was closed and a transfer that was freed are kept, the last ones of each. They stand in a context of their own,
 * in which all calls are told (`is_told`), and so each call with one of them comes here, by `note_call`. */
#include "bus.h"

#include <stdarg.h>
#include <stdio.h>
#include <stdlib.h>
#include <string.h>

/* How many are kept of each. */
#define MOST_KEPT 4096

/* The contexts and the device of those, which nobody else has. */
static struct libusb_context closed = { .told_level = LIBUSB_LOG_LEVEL_DEBUG }, freed = { .told_level = LIBUSB_LOG_LEVEL_DEBUG };
static struct device gone = { .number = HUB, .is_gone = true };
static struct libusb_device gone_device = { .context = &closed, .device = &gone, .references = 1 << 20 };
static struct libusb_device_handle nobodys = { .context = &freed, .of = &gone_device, .device = &gone, .is_shut = true };

struct kept {
    void *all[MOST_KEPT];
    size_t next;
};

void tell_misuse(const char *format, ...)
{
    char line[600];
    va_list rest;
    va_start(rest, format);
    vsnprintf(line, sizeof line, format, rest);
    va_end(rest);
    fprintf(stderr, "libusb: error misuse: %s\n", line);
    if (process.bus.is_there)
        trace_comment(&process.bus.core, "misuse: %s", line);
    write_down("misused ", line);
}

/* In place of the oldest one, which goes. */
static void keep(struct kept *kept, void *it)
{
    free(kept->all[kept->next]);
    kept->all[kept->next] = it;
    kept->next = (kept->next + 1) % MOST_KEPT;
}

/* In place of `free`. Those of synchronous calls were never the program's. */
static void keep_transfer(void *of)
{
    static struct kept transfers;
    struct transfer *it = of;
    if (is_awaited(public_of(it))) {
        free(it);
        return;
    }
    it->stage = FREED;
    it->ask = ASKED_TO_CANCEL;
    it->context = &freed;
    public_of(it)->dev_handle = &nobodys;
    keep(&transfers, it);
}

static void keep_handle(void *of)
{
    static struct kept handles;
    struct libusb_device_handle *it = of;
    it->context = &closed;
    it->of = &gone_device;
    it->device = &gone;
    it->claimed = it->asked = 0;
    keep(&handles, it);
}

/* Once, with the first bus. */
void begin_misuse(void)
{
    static bool is_begun;
    const char *asked = is_begun ? NULL : getenv("TIRNOUCH_MISUSE");
    is_begun = true;
    if (!asked || strcmp(asked, "yes"))
        return;
    process.tells_misuse = true;
    process.release_transfer = keep_transfer;
    process.release_handle = keep_handle;
}

bool is_dead(const struct libusb_context *context) { return context == &closed || context == &freed; }

/* A call with a handle that was closed, or of a transfer that was freed. */
void tell_dead(const struct libusb_context *context, const char *function, const char *what)
{
    tell_misuse("%s %s: %s", function, context == &closed ? "on a handle that was closed" : "of a transfer that was freed before", what);
}

/* Its buffer isn't looked at: it may be gone. */
static void say_state(struct sentence *it, struct transfer *transfer)
{
    const struct libusb_transfer *shown = public_of(transfer);
    append(it, "the transfer of %d byte%s at %02x", shown->length, plural((uint64_t)shown->length), shown->endpoint);
    if (transfer->stage == ENDED)
        append(it, " has ended, and its callback didn't run yet");
    else if (transfer->stage != FREED)
        append(it, transfer->ask == ASKED_TO_CANCEL ? " is cancelled, and its callback didn't run yet" : " is in flight");
}

/* Freed before its callback ran, or a second time. */
void tell_free(struct transfer *transfer)
{
    struct sentence it = { 0 };
    say_state(&it, transfer);
    if (transfer->stage == FREED)
        tell_misuse("libusb_free_transfer of a transfer that was freed before: %s", it.text);
    else
        tell_misuse("libusb_free_transfer: %s: free it in its callback, or behind that", it.text);
}

/* Its handle is closed, or its context left. Where its device is gone nobody knows better. */
void tell_flying(struct transfer *transfer, const char *function)
{
    struct sentence it = { 0 };
    if (!process.tells_misuse || is_lost(transfer->handle))
        return;
    say_state(&it, transfer);
    tell_misuse("%s, handle %u: %s: cancel what is in flight, and handle events until it was called back", function,
                transfer->handle->number, it.text);
}

/* A synchronous call is refused: in a callback, which is told, or in a device's function, which has the lock. */
int refuse_wait(const struct libusb_context *context, const char *function, uint8_t ep)
{
    if (!process.tells_misuse || (is_held() && is_held_here()))
        return LIBUSB_ERROR_BUSY;
    lock_again();
    if (context->calling)
        tell_misuse("%s at %02x within the callback of a transfer at %02x: it can't wait there", function, ep, context->called.ep);
    else
        tell_misuse("%s at %02x within a callback: it can't wait there", function, ep);
    unlock_alone();
    return LIBUSB_ERROR_BUSY;
}

void tell_unclaimed(const struct libusb_transfer *transfer, int interface)
{
    if (process.tells_misuse)
        tell_misuse("%s at %02x: interface %d wasn't claimed (libusb_claim_interface)",
                    is_awaited(transfer) ? name_of_awaited(transfer) : "libusb_submit_transfer", transfer->endpoint, interface);
}

void tell_open(const struct libusb_device_handle *handle)
{
    if (process.tells_misuse && !is_lost(handle))
        tell_misuse("libusb_exit: handle %u of device %d is open: close it before (libusb_close)", handle->number, handle->device->number);
}

void tell_unreferenced(const struct libusb_device *device)
{
    if (process.tells_misuse)
        tell_misuse("libusb_unref_device: device %d was let go of more often than it was referenced", device->device->number);
}

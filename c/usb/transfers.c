/* Transfers: they are made, submitted, cancelled and freed (libusb 1.0, "Asynchronous device I/O"). */
#include "bus.h"

#include <stdlib.h>

struct libusb_transfer *libusb_alloc_transfer(int packets)
{
    if (packets < 0)
        return NULL;
    size_t seen_size = sizeof(struct libusb_transfer) + (size_t)packets * sizeof(struct libusb_iso_packet_descriptor);
    struct transfer *transfer = calloc(1, sizeof *transfer + seen_size);
    if (!transfer)
        return NULL;
    public_of(transfer)->num_iso_packets = packets;
    return public_of(transfer);
}

static void take_off(struct transfer *transfer)
{
    struct transfers *flying = &transfer->context->flying;
    if (transfer->previous)
        transfer->previous->next = transfer->next;
    else
        flying->first = transfer->next;
    if (transfer->next)
        transfer->next->previous = transfer->previous;
    else
        flying->last = transfer->previous;
}

static void put_on(struct transfer *transfer)
{
    struct transfers *flying = &transfer->context->flying;
    transfer->next = NULL;
    transfer->previous = flying->last;
    if (flying->last)
        flying->last->next = transfer;
    else
        flying->first = transfer;
    flying->last = transfer;
}

/* It isn't in progress any more, and will be called back, unless it was dropped. */
void end_transfer(struct transfer *transfer, enum libusb_transfer_status status, int moved)
{
    struct libusb_context *context = transfer->context;
    bool stays = process.bus.is_ending && !transfer->is_dropped;
    struct pipe *pipe = transfer->pipe;
    if (pipe) {
        count_withdrawn(transfer, status, moved);
        if (pipe->cut == transfer)
            pipe->cut = NULL;
    }
    if (!stays)
        take_off(transfer);
    if (transfer->is_dropped) {
        transfer->stage = AT_REST;
        if (transfer->is_freed)
            process.release_transfer(transfer);
        return;
    }
    transfer->stage = ENDED;
    public_of(transfer)->status = status;
    public_of(transfer)->actual_length = moved;
    if (stays)
        return;
    join(&context->ended, transfer);
    wake(context);
}

/* Asks a transfer in progress to end: 0, or NOT_FOUND where it isn't in progress, or was asked before. */
int cancel(struct transfer *transfer, enum ask ask)
{
    bool expires = ask == ASKED_TO_EXPIRE;
    int r = LIBUSB_ERROR_NOT_FOUND;
    if (transfer->ask)
        return r;
    if (transfer->stage == IN_CORE) {
        const struct pipe *pipe = transfer->pipe;
        int name = pipe->name;
        r = core_call(pipe->core, expires ? TIRNOUCH_EXPIRE : TIRNOUCH_CANCEL, name, 0, transfer->number);
        if (r == LIBUSB_ERROR_NOT_FOUND && pipe->cut == transfer)
            r = 0;
        if (!r) {
            transfer->ask = ask;
            stir(transfer->context);
        }
        return r;
    }
    if (transfer->stage == QUEUED)
        leave_both_ways(&transfer->pipe->queue, transfer);
    else if (transfer->stage == AT_CONTROL)
        leave_unanswered(transfer, expires ? "TIMED_OUT" : "CANCELLED");
    else
        return r;
    end_transfer(transfer, expires ? LIBUSB_TRANSFER_TIMED_OUT : LIBUSB_TRANSFER_CANCELLED, transfer->moved);
    return 0;
}

/* Whether a transfer of the handle waits for its callback. */
bool has_ended(const struct libusb_device_handle *handle)
{
    const struct transfer *it = handle->context->ended.first;
    while (it && it->handle != handle)
        it = it->behind;
    return it;
}

static void drop_ended(struct libusb_device_handle *handle)
{
    struct transfers *ended = &handle->context->ended;
    for (struct transfer *it = ended->first, *behind; it; it = behind) {
        behind = it->behind;
        if (it->handle != handle)
            continue;
        if (handle->context->is_open && !it->is_dropped)
            tell_flying(it, "libusb_close");
        leave(ended, it);
        it->stage = AT_REST;
        __atomic_store_n(&public_of(it)->dev_handle, NULL, __ATOMIC_RELEASE);
    }
}

/* What a handle has in progress at an interface, or at all (-1), is cancelled and ends here: it waits for its callback, or is
 * dropped, as libusb has it where a handle is closed. The program may free a dropped one's buffer, which the core has until its result
 * is reaped below. The core writes to it only where a packet is served, and none is between the drop and that. A cancel takes that transfer
 * alone out of the list, and no device is asked: so the next one stays the next. */
void withdraw(struct libusb_device_handle *handle, int interface, bool drops)
{
    struct libusb_context *context = handle->context;
    for (struct transfer *it = context->flying.first, *next; it; it = next) {
        next = it->next;
        if (it->handle != handle || (interface >= 0 && (!it->pipe || it->pipe->interface != interface)))
            continue;
        if (drops) {
            if (context->is_open)
                tell_flying(it, "libusb_close");
            if (context->is_open)
                tell_why(it, "is in flight as its handle is closed", true);
            note(context, LIBUSB_LOG_LEVEL_ERROR, "a handle is closed with a transfer in flight at %02x: it is dropped",
                 public_of(it)->endpoint);
            it->is_dropped = true;
            __atomic_store_n(&public_of(it)->dev_handle, NULL, __ATOMIC_RELEASE);
        }
        cancel(it, ASKED_TO_CANCEL);
    }
    reap_all();
    if (drops)
        drop_ended(handle);
}

/* A transfer of bulk type may be at an interrupt endpoint, as Linux takes it. */
static bool fits(const struct pipe *pipe, const struct libusb_transfer *it)
{
    return it->type == pipe->kind || (it->type == LIBUSB_TRANSFER_TYPE_BULK && pipe->kind == LIBUSB_TRANSFER_TYPE_INTERRUPT);
}

/* At an endpoint that a request of the program's halted: it stalls, without an answer of the device's script (USB 2.0, 9.4.9). */
static int submit_to_stopped(struct transfer *transfer)
{
    transfer->is_stalled = true;
    queue_up(transfer);
    return 0;
}

/* One that the interface's setting doesn't have is refused as Linux does: `proc_do_submiturb` of drivers/usb/core/devio.c answers ENOENT,
 * behind the claim and before it looks at the type, which is LIBUSB_ERROR_IO (os/linux_usbfs.c, `submit_bulk_transfer`). */
static int submit_to_pipe(struct transfer *transfer)
{
    const struct libusb_transfer *it = public_of(transfer);
    struct pipe *pipe = &transfer->handle->device->pipes[place_of(it->endpoint)];
    if (it->endpoint != pipe->ep || !pipe->kind)
        return hint_at_no_endpoint(transfer->handle->device, it->endpoint);
    if (!fits(pipe, it))
        return pipe->is_unset ? LIBUSB_ERROR_IO : LIBUSB_ERROR_INVALID_PARAM;
    int r = claim_in_passing(transfer->handle, pipe->interface, it);
    if (r)
        return r;
    if (pipe->is_unset)
        return LIBUSB_ERROR_IO;
    transfer->pipe = pipe;
    return pipe->is_stopped ? submit_to_stopped(transfer) : submit_at_endpoint(transfer);
}

static uint64_t deadline_of(unsigned milliseconds)
{
    return milliseconds ? now() + (uint64_t)milliseconds * 1000000u : 0;
}

/* As a new one. Its places in lists are set where it joins them, and its endpoint where that is known. */
static void begin_anew(struct transfer *transfer, struct libusb_device_handle *handle, uint64_t deadline)
{
    transfer->stir = process.bus.stirs + 1;
    transfer->context = handle->context;
    transfer->handle = handle;
    transfer->deadline = deadline;
    transfer->later = 0;
    transfer->moved = transfer->piece = 0;
    transfer->ask = ASKED_NOTHING;
    transfer->is_dropped = transfer->is_freed = transfer->is_stalled = transfer->is_moving = false;
}

static int submit(struct transfer *transfer)
{
    struct libusb_transfer *it = public_of(transfer);
    struct libusb_device_handle *handle = it->dev_handle;
    if (transfer->stage != AT_REST)
        return LIBUSB_ERROR_BUSY;
    if (handle->is_shut || handle->device->is_gone)
        return LIBUSB_ERROR_NO_DEVICE;
    if (it->length < 0 || (it->length && !it->buffer))
        return LIBUSB_ERROR_INVALID_PARAM;
    bool is_control = it->type == LIBUSB_TRANSFER_TYPE_CONTROL;
    if (!is_control && it->type != LIBUSB_TRANSFER_TYPE_BULK && it->type != LIBUSB_TRANSFER_TYPE_INTERRUPT)
        return LIBUSB_ERROR_NOT_SUPPORTED;
    begin_anew(transfer, handle, deadline_of(it->timeout));
    int r = is_control ? submit_control(transfer) : submit_to_pipe(transfer);
    if (r)
        return r;
    put_on(transfer);
    uint64_t *earliest = &handle->context->earliest;
    if (transfer->deadline) {
        if (!*earliest || transfer->deadline < *earliest)
            *earliest = transfer->deadline;
    } else if (*earliest) {
        transfer->later = now();
    }
    stir(handle->context);
    return 0;
}

/* Of one that was freed, or of a handle that was closed, too; a synchronous call tells of its own. */
static void note_submission(struct libusb_transfer *it, int answer)
{
    struct libusb_context *context = it->dev_handle->context;
    if (private_of(it)->stage == FREED) {
        note_call(private_of(it)->context, answer, "libusb_submit_transfer", "endpoint %02x, %d bytes", it->endpoint, it->length);
        return;
    }
    if (is_dead(context) && is_awaited(it))
        return;
    note_call(context, answer, "libusb_submit_transfer", "handle %u, endpoint %02x, type %u, %d bytes, timeout %u",
              it->dev_handle->number, it->endpoint, it->type, it->length, it->timeout);
}

/* One whose handle was closed has none any more. */
int libusb_submit_transfer(struct libusb_transfer *transfer)
{
    if (!lock_unless_asked())
        return LIBUSB_ERROR_BUSY;
    random_steps();
    const struct libusb_device_handle *handle = transfer->dev_handle;
    int r = handle ? submit(private_of(transfer)) : LIBUSB_ERROR_NO_DEVICE;
    bool told = handle && is_told(handle->context, r);
    if (told)
        note_submission(transfer, r);
    unlock_behind(told);
    return r;
}

/* One at rest may have outlived its context. */
int libusb_cancel_transfer(struct libusb_transfer *transfer)
{
    struct transfer *it = private_of(transfer);
    if (!lock_unless_asked())
        return LIBUSB_ERROR_BUSY;
    random_steps();
    struct libusb_context *context = it->stage == AT_REST ? NULL : it->context;
    if (context && it->stage != ENDED && !it->ask)
        tell_why(it, "is cancelled", false);
    int r = cancel(it, ASKED_TO_CANCEL);
    bool told = context && is_told(context, r);
    if (told)
        note_call(context, r, __func__, "endpoint %02x, %d bytes", transfer->endpoint, transfer->length);
    unlock_behind(told);
    return r;
}

/* Freeing a transfer in progress is a program error: it is logged, cancelled and dropped; its memory goes when it ended, and so does a buffer
 * that is to be freed. One that the program freed before isn't written to: as in `withdraw`, no packet is served until it ended. */
void libusb_free_transfer(struct libusb_transfer *transfer)
{
    if (!transfer)
        return;
    struct transfer *it = private_of(transfer);
    lock();
    unsigned char *buffer = transfer->flags & LIBUSB_TRANSFER_FREE_BUFFER ? transfer->buffer : NULL;
    bool is_flying = it->stage != AT_REST;
    transfer->buffer = NULL;
    if (is_flying && process.tells_misuse)
        tell_free(it);
    if (it->stage == ENDED)
        leave(&it->context->ended, it);
    if (it->stage == AT_REST || it->stage == ENDED) {
        process.release_transfer(it);
    } else if (it->stage != FREED) {
        note(it->context, LIBUSB_LOG_LEVEL_ERROR, "a transfer is freed in flight at %02x: it is cancelled and dropped",
             transfer->endpoint);
        it->is_dropped = it->is_freed = true;
        cancel(it, ASKED_TO_CANCEL);
        reap_all();
    }
    free(buffer);
    unlock_behind(is_flying);
}

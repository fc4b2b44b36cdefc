/* Endpoints' queues. The core has 16 places an endpoint and takes 262,144 bytes; libusb has no such bounds. So transfers wait here for a
 * place, and longer ones go in pieces, with nobody between. */
#include "bus.h"

static void join_first(struct transfers *queue, struct transfer *transfer)
{
    transfer->behind = queue->first;
    if (queue->first)
        queue->first->ahead = transfer;
    else
        queue->last = transfer;
    queue->first = transfer;
}

/* From any place in it. */
void leave_amid(struct transfers *queue, struct transfer *transfer)
{
    struct transfer **at = &queue->first, *before = NULL;
    while (*at && *at != transfer) {
        before = *at;
        at = &before->behind;
    }
    if (!*at)
        return;
    *at = transfer->behind;
    if (queue->last == transfer)
        queue->last = before;
}

/* One that isn't the first, and knows the one before it. */
void leave_between(struct transfers *queue, struct transfer *transfer)
{
    transfer->ahead->behind = transfer->behind;
    if (transfer->behind)
        transfer->behind->ahead = transfer->ahead;
    else
        queue->last = transfer->ahead;
}

static void activate(struct pipe *pipe)
{
    if (!pipe->is_active)
        process.bus.active[process.bus.active_count++] = pipe;
    pipe->is_active = true;
}

static int left_of(struct transfer *transfer)
{
    return public_of(transfer)->length - transfer->moved;
}

static bool may_go(const struct pipe *pipe, struct transfer *transfer)
{
    if (pipe->cut && pipe->cut != transfer)
        return false;
    return !pipe->in_core || (pipe->in_core < PLACES && left_of(transfer) <= pipe->most);
}

/* Its next piece goes into the core. */
static int submit_piece(struct transfer *transfer)
{
    struct pipe *pipe = transfer->pipe;
    int left = left_of(transfer);
    bool is_last = left <= pipe->most;
    int piece = is_last ? left : pipe->most;
    uint8_t flags = LIBUSB_TRANSFER_SHORT_NOT_OK | (is_last ? LIBUSB_TRANSFER_ADD_ZERO_PACKET : 0);
    int r = core_submit(transfer, piece, public_of(transfer)->flags & flags);
    if (r)
        return r;
    transfer->piece = piece;
    transfer->stage = IN_CORE;
    pipe->cut = is_last ? NULL : transfer;
    pipe->in_core++;
    process.bus.in_core++;
    activate(pipe);
    return 0;
}

/* Behind those that wait at its endpoint. */
void queue_up(struct transfer *transfer)
{
    transfer->stage = QUEUED;
    join_both_ways(&transfer->pipe->queue, transfer);
    activate(transfer->pipe);
}

/* Into the core, or behind those that wait. */
int submit_at_endpoint(struct transfer *transfer)
{
    if (!transfer->pipe->queue.first && may_go(transfer->pipe, transfer)) {
        int r = submit_piece(transfer);
        if (r != LIBUSB_ERROR_BUSY)
            return r;
    }
    queue_up(transfer);
    return 0;
}

/* Behind a halt by the program's own request; whether one ended. */
static bool stall_all(struct pipe *pipe)
{
    bool any = pipe->queue.first;
    while (pipe->queue.first) {
        struct transfer *transfer = pipe->queue.first;
        leave(&pipe->queue, transfer);
        end_transfer(transfer, LIBUSB_TRANSFER_STALL, transfer->moved);
    }
    return any;
}

/* Those that wait go on into the core, as far as there is room; whether one did. */
bool feed(struct pipe *pipe)
{
    bool any = false;
    struct transfer *transfer;
    if (pipe->is_stopped)
        return stall_all(pipe);
    while ((transfer = pipe->queue.first) && may_go(pipe, transfer)) {
        leave(&pipe->queue, transfer);
        int r = submit_piece(transfer);
        if (r == LIBUSB_ERROR_BUSY) {
            join_first(&pipe->queue, transfer);
            break;
        }
        any = true;
        if (r)
            end_transfer(transfer, r == LIBUSB_ERROR_NO_DEVICE ? LIBUSB_TRANSFER_NO_DEVICE : LIBUSB_TRANSFER_ERROR, transfer->moved);
    }
    return any;
}

/* What a result tells the program: one that was withdrawn for its endpoint's halt has stalled. */
static inline enum libusb_transfer_status status_of(const struct transfer *transfer, const struct tirnouch_result *result)
{
    bool is_halt = transfer->is_stalled && result->status == LIBUSB_TRANSFER_CANCELLED;
    return is_halt ? LIBUSB_TRANSFER_STALL : result->status;
}

/* Of a transfer that goes in pieces: the next one waits for its place, before all others. */
static void finish_piece(struct transfer *transfer, const struct tirnouch_result *result)
{
    if (result->status != LIBUSB_TRANSFER_COMPLETED || (int)result->actual_length != transfer->piece || transfer->is_dropped) {
        end_transfer(transfer, status_of(transfer, result), transfer->moved + (int)result->actual_length);
        return;
    }
    transfer->moved += transfer->piece;
    if (transfer->ask) {
        bool is_late = transfer->ask == ASKED_TO_EXPIRE;
        end_transfer(transfer, is_late ? LIBUSB_TRANSFER_TIMED_OUT : LIBUSB_TRANSFER_CANCELLED, transfer->moved);
        return;
    }
    transfer->stage = QUEUED;
    join_first(&transfer->pipe->queue, transfer);
}

/* A result went out of the core, and nothing goes into it for it. */
static inline void finish_alone(struct transfer *transfer, const struct tirnouch_result *result)
{
    struct pipe *pipe = transfer->pipe;
    pipe->in_core--;
    process.bus.in_core--;
    if (pipe->cut == transfer)
        finish_piece(transfer, result);
    else
        end_transfer(transfer, status_of(transfer, result), transfer->moved + (int)result->actual_length);
}

static inline void finish(struct transfer *transfer, const struct tirnouch_result *result)
{
    struct pipe *pipe = transfer->pipe;
    finish_alone(transfer, result);
    if (pipe->queue.first)
        feed(pipe);
}

static inline bool reap_in(struct core *core)
{
    struct tirnouch_result result;
    struct transfer *transfer = process.bus.in_core ? core_take(core, &result) : NULL;
    if (transfer)
        finish(transfer, &result);
    return transfer;
}

/* A result goes out of a core; whether there was one. */
bool reap_one(void)
{
    if (reap_in(&process.bus.core))
        return true;
    for (struct core *core = process.bus.own; core; core = core->next)
        if (reap_in(core))
            return true;
    return false;
}

bool reap(void)
{
    bool any = false;
    while (reap_one())
        any = true;
    return any;
}

/* Results of an endpoint's packets, one behind the other, until they bring about none; whether there was one. */
static bool turn_over(struct pipe *pipe)
{
    struct tirnouch_result result;
    struct transfer *transfer;
    bool any = false;
    while (pipe->in_core && (transfer = core_turn(pipe, &result))) {
        finish(transfer, &result);
        any = true;
    }
    return any;
}

/* The one endpoint where something is to be done, whose answers needn't be looked at one by one, as they are with a seed; NULL where there is
 * none, or several.
 * With several each has its turn before an order runs, so that their results come as their packets do. */
static struct pipe *only_one(void)
{
    struct bus *bus = &process.bus;
    struct pipe *pipe = bus->active_count == 1 ? bus->active[0] : NULL;
    return pipe && !bus->controls.first && !pipe->is_watched ? pipe : NULL;
}

/* The quick way, where there is but one endpoint. What waited there went on with each result. Whether something is left to be done. */
bool turn_only_one(void)
{
    struct bus *bus = &process.bus;
    struct pipe *pipe = only_one();
    if (pipe && turn_over(pipe) && !pipe->in_core && !pipe->queue.first) {
        pipe->is_active = false;
        bus->active_count = 0;
    }
    return bus->active_count || bus->controls.first;
}

/* A transfer that is taken out of its core: it has moved what its piece moved. One that came to an end of its own meanwhile has ended. */
static void finish_moving(struct transfer *transfer, const struct tirnouch_result *result)
{
    struct pipe *pipe = transfer->pipe;
    if (!transfer->is_moving || result->status != LIBUSB_TRANSFER_CANCELLED) {
        transfer->is_moving = false;
        finish_alone(transfer, result);
        return;
    }
    pipe->in_core--;
    process.bus.in_core--;
    transfer->moved += (int)result->actual_length;
    transfer->stage = QUEUED;
    if (pipe->cut == transfer)
        pipe->cut = NULL;
}

static void ask_out(struct transfer *transfer)
{
    transfer->is_moving = true;
    core_call(transfer->pipe->core, TIRNOUCH_CANCEL, transfer->pipe->name, 0, transfer->number);
}

/* All that a device has in its core comes out of it, and waits at its endpoints again, before what waits there, in order. What was asked to
 * end ends. The next session of its core goes on with it, as with pieces. Nothing leaves a list while that is walked through: what is asked
 * out comes out behind the walk. */
void take_out(struct device *device)
{
    struct tirnouch_result result;
    struct transfer *transfer;
    trace_comment(device->core, "device %d goes on in another session: what is in flight is taken out", device->number_there);
    for (struct libusb_context *context = process.contexts; context; context = context->next)
        for (struct transfer *it = context->flying.first; it; it = it->next)
            if (it->stage == IN_CORE && it->pipe->device == device && !it->ask)
                ask_out(it);
    for (bool any = true; any;) {
        any = core_settle_in(device->core, ALL);
        while ((transfer = core_take(device->core, &result))) {
            finish_moving(transfer, &result);
            any = true;
        }
    }
    for (struct libusb_context *context = process.contexts; context; context = context->next) {
        for (struct transfer *it = context->flying.last; it; it = it->previous) {
            if (!it->is_moving)
                continue;
            it->is_moving = false;
            join_first(&it->pipe->queue, it);
        }
    }
}

/* What each transfer comes by several times, inline for its speed: where most often nothing is to be done, that is found out here, and the
 * rest is a call. What decides more stands in the .c files, but for the calls of the core that each transfer makes, and the claim before
 * them: as calls in their turn those cost a read of 8 bytes some hundredths. bus.h includes this file. */
#ifndef INLINE_H
#define INLINE_H

#include "bus.h"

/* The context that a call is for: NULL stands for the default one, and for another where that one wasn't begun. */
static inline struct libusb_context *context_of(struct libusb_context *context)
{
    return context ? context : default_context();
}

/* A hold of a context is given back: the last one ends its memory. */
static inline void let_go_of(struct libusb_context *context)
{
    if (!--context->holds)
        release_context(context);
}

static inline bool is_handler(const struct libusb_context *context)
{
    return context->is_handled && pthread_equal(context->handler, pthread_self());
}

static inline bool is_set(int *completed)
{
    return completed && __atomic_load_n(completed, __ATOMIC_ACQUIRE);
}

/* Who sleeps over the context's events, or polls by itself, is told that there is something to do. */
static inline void wake(struct libusb_context *context)
{
    if (context->is_asleep || (context->is_polled && !context->is_working))
        ring(context);
}

static inline void mind(struct libusb_context *context, enum behind what) { __atomic_fetch_or(&context->behind, what, __ATOMIC_SEQ_CST); }
static inline void forget_to_mind(struct libusb_context *context, enum behind what)
{
    __atomic_fetch_and(&context->behind, ~(unsigned)what, __ATOMIC_SEQ_CST);
}
/* Whether `event` can be read, or will be at once. */
static inline bool is_rung(const struct libusb_context *context) { return __atomic_load_n(&context->is_rung, __ATOMIC_ACQUIRE); }
static inline bool is_interrupted(const struct libusb_context *context)
{
    return __atomic_load_n(&context->behind, __ATOMIC_ACQUIRE) & INTERRUPTED;
}

/* Devices and controller have something to do. Who handles events is told, those of other contexts too: what one program does may be what
 * another's device waits for. */
static inline void stir(struct libusb_context *context)
{
    process.bus.stirs++;
    wake(context);
    if (process.contexts->next)
        wake_others(context);
}

static inline bool is_settled(void)
{
    return process.bus.settled == process.bus.stirs;
}

/* Those who wait by libusb_wait_for_event. The lock is let go meanwhile, and the context stays. */
static inline void tell_waiters(struct libusb_context *context)
{
    if (context->lockers)
        tell_lockers(context);
}

/* With a seed: before each call a few single steps, by dice, so that races come out; for the same number the same. */
static inline void random_steps(void)
{
    if (process.bus.seed)
        random_steps_by_dice();
}

/* An interface that is used before it was claimed is claimed, as Linux has it: the handle holds it until it is closed, or claims it itself
 * and releases it. By a transfer at one of its endpoints, or NULL. */
static inline int claim_in_passing(struct libusb_device_handle *handle, int interface, const struct libusb_transfer *transfer)
{
    return handle->claimed >> interface & 1 ? 0 : claim_unasked(handle, interface, transfer);
}

/* A transfer at an endpoint ended: without an answer, where it was withdrawn before there was one. Why another failed may be hinted at. */
static inline void count_withdrawn(struct transfer *transfer, enum libusb_transfer_status status, int moved)
{
    if (!moved && (status == LIBUSB_TRANSFER_CANCELLED || status == LIBUSB_TRANSFER_TIMED_OUT))
        transfer->pipe->withdrawn++;
    else if (status == LIBUSB_TRANSFER_OVERFLOW)
        hint_at_overflow(transfer, moved);
}

static inline void join(struct transfers *queue, struct transfer *transfer)
{
    transfer->behind = NULL;
    if (queue->last)
        queue->last->behind = transfer;
    else
        queue->first = transfer;
    queue->last = transfer;
}

/* The same in a queue that transfers leave from any place, as cancels have it: each knows the one before it. */
static inline void join_both_ways(struct transfers *queue, struct transfer *transfer)
{
    if (queue->last)
        transfer->ahead = queue->last;
    join(queue, transfer);
}

static inline void leave(struct transfers *queue, struct transfer *transfer)
{
    if (queue->first != transfer) {
        leave_amid(queue, transfer);
        return;
    }
    queue->first = transfer->behind;
    if (!queue->first)
        queue->last = NULL;
}

static inline void leave_both_ways(struct transfers *queue, struct transfer *transfer)
{
    if (queue->first == transfer)
        leave(queue, transfer);
    else
        leave_between(queue, transfer);
}

/* Whether a call of this answer is told: a refusal at level 3, any other at level 4; or whether lines of before wait to be told, which goes
 * to `unlock_behind`. With or without the lock. */
static inline bool is_told(const struct libusb_context *context, int answer)
{
    int level = __atomic_load_n(&context->told_level, __ATOMIC_RELAXED);
    return level >= LIBUSB_LOG_LEVEL_INFO && (answer < 0 || level >= LIBUSB_LOG_LEVEL_DEBUG);
}

/* Memory of no bytes, which has an address too. */
static inline struct tirnouch_memory no_memory(void)
{
    return (struct tirnouch_memory){ .at = process.nowhere };
}

/* A transfer's next piece, of so many bytes. One that reads lends its part of the program's buffer: the packets' bytes go straight into
 * it. That its time is over is told by an expiry, so any timeout but 0 will do. */
static inline int core_submit_alone(struct transfer *transfer, int length, uint8_t flags)
{
    const struct pipe *pipe = transfer->pipe;
    struct tirnouch_slot *core = &pipe->core->slot;
    uint8_t name = (uint8_t)pipe->name, *at = length ? public_of(transfer)->buffer + transfer->moved : process.nowhere;
    uint32_t timeout = transfer->deadline ? 1 : 0;
    uint64_t payload = (uint64_t)(uintptr_t)transfer;
    bool lends = length && is_in(pipe->ep);
    struct tirnouch_memory memory = { .at = at, .len = (size_t)length };
    struct tirnouch_reply reply;
    int answer = lends ? tirnouch_submit_in(core, name, pipe->ep, pipe->kind, flags, timeout, &memory, payload, &reply)
                       : tirnouch_submit(core, name, pipe->ep, pipe->kind, flags, timeout, 0, at, (size_t)length, payload, &reply);
    if (!answer) {
        transfer->number = reply.number;
        transfer->lent = lends ? at : process.nowhere;
    }
    return answer;
}

static inline int core_submit(struct transfer *transfer, int length, uint8_t flags)
{
    return process.bus.is_watched ? core_submit_watched(transfer, length, flags) : core_submit_alone(transfer, length, flags);
}

/* The transfer of a result. What it lent is the program's again. The core's contract has the bytes that stand in the memory which comes
 * back, but not its address; so it is asked here, the one place that each result comes by. */
static inline struct transfer *transfer_of(const struct tirnouch_result *result, const struct tirnouch_memory *back)
{
    struct transfer *transfer = (struct transfer *)(uintptr_t)result->payload;
    if (back->at != transfer->lent)
        end_for_memory();
    return transfer;
}

/* In one call, which no trace has: a device answers packets at an endpoint, what is to be done behind them is done, and the oldest
 * result goes out. Its transfer, or NULL where there is none. */
static inline struct transfer *core_turn(const struct pipe *pipe, struct tirnouch_result *result)
{
    struct tirnouch_memory back = no_memory();
    int answer = tirnouch_turn(&pipe->core->slot, pipe->number, pipe->ep, ALL, ALL, &back, result);
    return answer == 1 ? transfer_of(result, &back) : NULL;
}

#endif

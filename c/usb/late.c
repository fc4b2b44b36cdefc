/* Events that are handled late: some deadline is over, and nobody looked since. What devices would have answered before it, had events been
 * handled all the time, comes before it, and what they wouldn't doesn't.
 *
 * Time goes back to the first deadline that is over, and the devices do what was due till then. Then those end whose time is over, and so on
 * with the next deadline. Meanwhile a transfer isn't there before it was submitted, and a device that says when it is ready says so of the
 * moment at which it would have been asked. All this happens in one hold of the lock, so that nobody else sees the clock. */
#include "bus.h"

/* How often some device was asked: who asks none won't the next time. */
static uint64_t asks;

/* When it was submitted; 0 where that isn't known, which is so for one without a timeout where none had a deadline. */
uint64_t begun(struct transfer *transfer)
{
    return transfer->deadline ? transfer->deadline - (uint64_t)public_of(transfer)->timeout * MILLISECOND : transfer->later;
}

/* When the transfer was submitted that is the first at an endpoint. */
uint64_t begun_at(const struct pipe *pipe)
{
    for (struct libusb_context *context = process.contexts; context; context = context->next)
        for (struct transfer *it = context->flying.first; it; it = it->next)
            if (it->pipe == pipe)
                return begun(it);
    return 0;
}

/* When a device is asked, or would have been: at the moment that it named itself, or where its transfer is there and something was to be
 * done. */
uint64_t moment_asked(uint64_t later, uint64_t begun)
{
    uint64_t least = later ? later : process.bus.past;
    asks++;
    return !process.bus.past ? now() : begun > least ? begun : least;
}

/* When it is asked for a packet at an endpoint. */
uint64_t moment_asked_at(const struct pipe *pipe)
{
    return moment_asked(pipe->later, process.bus.past ? begun_at(pipe) : 0);
}

/* When it is asked again that answered so. In the past nothing is asked twice at one moment. */
uint64_t moment_later(uint64_t asked, int answer)
{
    uint64_t wait = answer == TIRNOUCH_NOT_READY ? ASK_AGAIN : (uint64_t)(TIRNOUCH_LATER(0) - (int64_t)answer) * MILLISECOND;
    return asked + (wait || !process.bus.past ? wait : ASK_AGAIN);
}

static uint64_t first_of(uint64_t one, uint64_t other)
{
    return !one || (other && other < one) ? other : one;
}

static uint64_t first_deadline(void)
{
    uint64_t first = 0;
    for (const struct libusb_context *it = process.contexts; it; it = it->next)
        first = first_of(first, it->earliest);
    return first;
}

/* The first moment behind this one at which a transfer was submitted whose device wasn't asked since; 0 for none. */
static uint64_t first_begun(uint64_t behind)
{
    uint64_t first = 0;
    for (struct libusb_context *context = process.contexts; context; context = context->next) {
        for (struct transfer *it = context->flying.first; it; it = it->next) {
            if (it->stir <= process.bus.settled || begun(it) <= behind)
                continue;
            first = first_of(first, begun(it));
        }
    }
    return first;
}

/* Requests aren't asked of a device before they were submitted. */
static void hold_requests(void)
{
    for (struct transfer *it = process.bus.controls.first; it; it = it->behind)
        if (!it->naks && it->deadline)
            it->later = begun(it);
}

/* Nor before the one in front of them has ended. */
void hold_behind(const struct transfer *transfer, uint64_t moment)
{
    for (struct transfer *it = transfer->behind; it; it = it->behind)
        if (it->handle->device == transfer->handle->device && it->later < moment)
            it->later = moment;
}

/* When something is asked next; 0 for never. An endpoint is asked for no transfer that isn't there yet. */
static uint64_t next_in_past(void)
{
    struct bus *bus = &process.bus;
    uint64_t first = bus->controls.first ? bus->again : 0;
    for (size_t i = 0; i < bus->active_count; i++) {
        struct pipe *pipe = bus->active[i];
        if (!pipe->later || !pipe->in_core || gate_before(pipe))
            continue;
        uint64_t there = begun_at(pipe);
        first = first_of(first, there > pipe->later ? there : pipe->later);
    }
    return first;
}

/* What was due up to this moment, and wasn't up to the one `before`, at which something ended; 0 for none. */
static void work_up_to(uint64_t moment, uint64_t before)
{
    uint64_t next = next_in_past(), last = asks - 1;
    process.bus.moment = moment;
    process.bus.past = before ? before : first_of(first_begun(0), next);
    for (next = process.bus.past; next && next <= moment && last != asks; next = next_in_past()) {
        last = asks;
        work_in_past();
    }
}

/* Asks those of a context to end whose time is over at `until`, and learns when the next one's is. A cancel takes that transfer alone out of
 * the list, and calls nobody. Whether the time of one was over before this moment. */
static bool expire_until(struct libusb_context *context, uint64_t until, uint64_t moment)
{
    bool any = false;
    context->earliest = 0;
    for (struct transfer *it = context->flying.first, *next; it; it = next) {
        next = it->next;
        if (!it->deadline || it->ask)
            continue;
        if (it->deadline > until) {
            context->earliest = first_of(context->earliest, it->deadline);
            continue;
        }
        any |= it->deadline < moment;
        process.bus.moment = it->deadline;
        if (it->stage == AT_CONTROL)
            hold_behind(it, it->deadline);
        tell_why(it, "is at the end of its time", true);
        cancel(it, ASKED_TO_EXPIRE);
    }
    return any;
}

/* Whoever is late isn't answered any more. One whose time is over just now may cross an answer. */
static void expire_all(uint64_t until, uint64_t moment)
{
    bool any = false;
    for (struct libusb_context *it = process.contexts; it; it = it->next)
        if (it->earliest && it->earliest <= until)
            any |= expire_until(it, until, moment);
    if (any)
        reap_all();
}

/* Up to this moment, at which some deadline is over. What is due just at a deadline comes before it; with a seed the two may cross, by dice,
 * where events are handled at that very moment. */
void catch_up(uint64_t moment)
{
    struct bus *bus = &process.bus;
    bool is_virtual = bus->is_virtual;
    uint64_t was = bus->moment, tie = bus->seed ? 1 : 0, looked = 0, deadline;
    bus->is_virtual = true;
    hold_requests();
    while ((deadline = first_deadline()) && deadline <= moment) {
        work_up_to(deadline - tie, looked);
        looked = deadline - tie;
        bus->past = 0;
        expire_all(bus->own || bus->controls.first ? deadline : moment, moment);
    }
    bus->is_virtual = is_virtual;
    bus->moment = was;
}

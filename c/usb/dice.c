/* With a seed (TIRNOUCH_SEED) devices, controller and events go on by single steps, in an order by dice: orders run before a packet is served
 * or behind it, an endpoint is passed over, rarely for long, and handling of events ends at any step. A device that computes and isn't ready
 * is asked again, and virtual time goes on before a call, as it does for a program that is held up. For the same number it is the same, as
 * long as one thread calls the library. Each run is a run of the core, as the trace shows. */
#include "bus.h"

#define LONG_LAG 64
#define LONG_SHAKE 64
/* How long a busy system holds a program up: so far time goes on before a call, and so late who handles events looks at a deadline. */
#define HELD_UP (100 * (uint64_t)MILLISECOND)

enum kind { A_PACKET, AN_ORDER, A_RESULT, A_REQUEST, KINDS };

/* By Knuth's linear congruence of 64 bits, whose upper bits are taken. */
static unsigned dice(unsigned sides)
{
    process.bus.seed = process.bus.seed * 6364136223846793005u + 1442695040888963407u;
    return (unsigned)(process.bus.seed >> 33) % sides;
}

/* Whether an endpoint isn't looked at this time, where it has something to do. */
static bool is_passed_over(struct pipe *pipe)
{
    if (pipe->lag) {
        pipe->lag--;
        return true;
    }
    if (!dice(32))
        pipe->lag = (uint16_t)dice(LONG_LAG);
    return !dice(4);
}

static bool may_serve(struct pipe *pipe)
{
    if (gate_before(pipe))
        return false;
    if (core_serves(pipe) || may_be_asked(pipe))
        return true;
    if (pipe->is_judged)
        judge_end(pipe);
    return false;
}

/* A packet at one of the endpoints; whether one was served, or may be another time: a device that was asked in vain may be asked again. */
static bool serve_some(void)
{
    struct bus *bus = &process.bus;
    size_t count = bus->active_count, first = count ? dice((unsigned)count) : 0;
    bool any = false, is_unready = false;
    for (size_t i = 0; i < count; i++) {
        struct pipe *pipe = bus->active[(first + i) % count];
        if (!pipe->in_core || !may_serve(pipe))
            continue;
        if (is_passed_over(pipe))
            any = true;
        else if (serve(pipe, 1))
            return true;
        else
            is_unready = true;
    }
    return any || (is_unready && dice(2));
}

static bool make_step(enum kind kind)
{
    switch (kind) {
    case A_PACKET: return serve_some();
    case AN_ORDER: return core_settle(1);
    case A_RESULT: return reap_one() || feed_all();
    case A_REQUEST: return process.bus.controls.first && answer_controls();
    case KINDS: break;
    }
    return false;
}

/* One step of some kind; false where there is none of any. */
static bool step_by_dice(void)
{
    unsigned first = dice(KINDS);
    for (unsigned i = 0; i < KINDS; i++)
        if (make_step((enum kind)((first + i) % KINDS)))
            return true;
    return false;
}

static bool is_anything_ended(void)
{
    for (const struct libusb_context *it = process.contexts; it; it = it->next)
        if (it->ended.first)
            return true;
    return false;
}

/* Until nothing is left: true. It ends before that, often where something is to be called back, and where nobody `waits` for that at any
 * step. */
bool work_by_dice(bool waits)
{
    while (step_by_dice()) {
        if (is_anything_ended() && !dice(3))
            return false;
        if (!waits && !dice(16))
            return false;
    }
    return true;
}

/* The next moment that virtual time may go on to before a call, by `until`: one at which a device is to be asked, or a deadline, and not
 * long behind a deadline that nobody has looked at; 0 for none. */
static uint64_t next_moment(uint64_t until)
{
    uint64_t here = process.bus.moment, next = next_ask();
    for (const struct libusb_context *it = process.contexts; it; it = it->next) {
        if (it->earliest > here && (!next || it->earliest < next))
            next = it->earliest;
        if (it->earliest && it->earliest <= here && it->earliest + HELD_UP < until)
            until = it->earliest + HELD_UP;
    }
    return next > here && next <= until ? next : 0;
}

/* Time goes on by dice, where nothing is left to be done before that; whether it does. Requests are answered where events are handled: so
 * it doesn't while one is due. */
static bool is_held_up(uint64_t until)
{
    struct bus *bus = &process.bus;
    if (!bus->is_virtual || (bus->controls.first && bus->again <= bus->moment) || !next_moment(until) || dice(3))
        return false;
    work_at_endpoints();
    uint64_t next = next_moment(until);
    if (next) {
        bus->moment = next;
        bus->stirs++;
    }
    return true;
}

/* Before each call a few steps, rarely many. Requests are left to those who handle events. */
void random_steps_by_dice(void)
{
    uint64_t until = process.bus.moment + HELD_UP;
    for (unsigned left = dice(4) ? dice(4) : dice(LONG_SHAKE); left; left--)
        if (!is_held_up(until))
            make_step((enum kind)dice(A_REQUEST));
}

/* Whether who handles events looks at a deadline that was reached later than that: virtual time went on meanwhile, to where a device has
 * an answer, perhaps. */
bool is_late_by_dice(uint64_t deadline)
{
    struct bus *bus = &process.bus;
    uint64_t next = next_ask();
    if (!bus->is_virtual || !next || next > deadline + HELD_UP || dice(2))
        return false;
    if (bus->moment < next)
        bus->moment = next;
    return true;
}

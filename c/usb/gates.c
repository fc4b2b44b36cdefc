/* Answers that wait (`after` in a device's text): an endpoint's, from some place on, until so many packets were taken at another for OUT,
 * so many answers given at another for IN, so many control requests came, all or those that are meant, or so many of its own transfers
 * ended without an answer. An endpoint's stand in order of place, and what was reached stays reached: so it looks at each once. */
#include "bus.h"

#include <stdlib.h>

#define FIRST 8

static int by_place(const void *one, const void *other)
{
    const struct gate *a = one, *b = other;
    return (a->place > b->place) - (a->place < b->place);
}

/* Room doubles where it is used up. */
static int add_gate(struct pipe *pipe, struct gate gate)
{
    size_t count = pipe->gate_count;
    bool is_full = count == 0 || (count >= FIRST && !(count & (count - 1)));
    if (is_full) {
        struct gate *gates = realloc(pipe->gates, (count ? 2 * count : FIRST) * sizeof *gates);
        if (!gates)
            return LIBUSB_ERROR_NO_MEM;
        pipe->gates = gates;
    }
    pipe->gates[pipe->gate_count++] = gate;
    return 0;
}

int learn_gates(struct device *device)
{
    struct tirnouch_gate found;
    for (size_t i = 0; !tirnouch_gate(&device->core->slot, device->number_there, i, &found); i++) {
        struct gate gate = { .place = found.place, .is_of_requests = found.awaited == TIRNOUCH_AWAITS_REQUESTS, .count = found.count,
                             .other = found.other };
        if (gate.is_of_requests)
            gate.meant = meant_by(&found);
        int r = add_gate(&device->pipes[place_of(found.endpoint)], gate);
        if (r)
            return r;
        device->is_watched = true;
    }
    for (unsigned i = 0; i < ENDPOINTS; i++)
        if (device->pipes[i].gate_count)
            qsort(device->pipes[i].gates, device->pipes[i].gate_count, sizeof(struct gate), by_place);
    return learn_tallies(device);
}

/* Whether so many packets were taken at an endpoint for OUT. */
static bool has_taken(const struct pipe *pipe, uint64_t count)
{
    uint8_t none[1];
    return count <= pipe->took || tirnouch_taken(&pipe->core->slot, pipe->number, pipe->ep, (size_t)(count - pipe->took - 1), none, 0) >= 0;
}

/* How many answers an endpoint for IN gave, or where they are its own that wait, how many of its transfers ended without one. */
static uint64_t came_in(const struct pipe *waiting, const struct pipe *other)
{
    return other == waiting ? other->withdrawn : other->answers;
}

/* Whether the driver knows of all that ended at an endpoint: of none a callback waits, here or in the core. Who handles events for another
 * context looks again. */
static bool is_told_of(const struct pipe *other)
{
    struct tirnouch_view view = { 0 };
    tirnouch_look(&other->core->slot, other->number, other->ep, &view);
    bool is_told = !(view.waiting & (TIRNOUCH_WAITS_EVENT | TIRNOUCH_WAITS_RESULT));
    for (const struct libusb_context *context = process.contexts; context && is_told; context = context->next)
        for (const struct transfer *it = context->ended.first; it && is_told; it = it->behind)
            is_told = it->pipe != other;
    process.bus.holds_back |= !is_told;
    for (struct libusb_context *context = process.contexts; context && !is_told; context = context->next)
        wake(context);
    return is_told;
}

/* Answers of another endpoint for IN are behind a driver that was called back for them: as on a bus, where a device takes its time. */
static bool is_reached_in(const struct pipe *pipe, const struct pipe *other, uint64_t count)
{
    return came_in(pipe, other) >= count && (other == pipe || is_told_of(other));
}

static bool is_reached(const struct pipe *pipe, const struct gate *gate)
{
    const struct pipe *other = &pipe->device->pipes[place_of(gate->other)];
    if (gate->is_of_requests)
        return tallied(pipe->device, gate->meant) >= gate->count;
    if (!gate->other)
        return pipe->device->request_count >= gate->count;
    return is_in(gate->other) ? is_reached_in(pipe, other, gate->count) : has_taken(other, gate->count);
}

/* What an endpoint's next answer waits for; NULL where it waits for nothing. A device that is pulled out waits for nothing, nor does an
 * endpoint that is halted: it stalls without an answer. */
const struct gate *gate_before(struct pipe *pipe)
{
    if (pipe->is_halted)
        return NULL;
    for (; pipe->gates_passed < pipe->gate_count && !pipe->device->is_gone; pipe->gates_passed++) {
        const struct gate *gate = &pipe->gates[pipe->gates_passed];
        if (gate->place > pipe->answers)
            return NULL;
        if (!is_reached(pipe, gate))
            return gate;
    }
    return NULL;
}

/* How many packets were taken at an endpoint for OUT so far: by doubling and halving, since the core tells of one at a time. */
uint64_t packets_taken(const struct pipe *pipe)
{
    uint64_t least = 0, most = 1;
    while (has_taken(pipe, most)) {
        least = most;
        most *= 2;
    }
    while (most - least > 1) {
        uint64_t amid = least + (most - least) / 2;
        if (has_taken(pipe, amid))
            least = amid;
        else
            most = amid;
    }
    return least;
}

/* How much came so far of what a gate of an endpoint's is for, which isn't one of requests with some fields. */
uint64_t came_for(const struct pipe *pipe, const struct gate *gate)
{
    const struct pipe *other = &pipe->device->pipes[place_of(gate->other)];
    if (!gate->other)
        return pipe->device->request_count;
    return is_in(gate->other) ? came_in(pipe, other) : packets_taken(other);
}

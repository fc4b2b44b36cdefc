/* Devices that compute their answers: a function of the program's, or a program, is asked for the answer to a packet just before it is
 * served. What isn't ready makes no step and stands in no script, so that polls cost nothing there. */
#include "bus.h"

#include <stdio.h>

/* Which endpoints are asked for; a device with a core of its own is looked at packet by packet. */
void learn_living(struct device *device)
{
    device->is_living = device->core != &process.bus.core;
    device->is_watched |= device->is_living;
    watch(device);
    for (int i = 0; i < ENDPOINTS; i++) {
        struct pipe *pipe = &device->pipes[i];
        pipe->is_asked = device->is_living && pipe->kind && (device->program || process.packets[device->number][i].answer);
    }
}

static int ask_function(const struct pipe *pipe, uint8_t *data, int length)
{
    int number = pipe->device->number;
    unsigned place = place_of(pipe->ep);
    begin_asking(number, "endpoint", pipe->ep);
    int answer = process.packets[number][place].answer(process.packets[number][place].user, pipe->ep, data, length);
    end_asking();
    return answer;
}

/* By tirnouch.h's numbers; TIRNOUCH_AS_TEXT where nothing is asked. */
int ask_for_request(struct device *device, const uint8_t *setup, uint8_t *data, int length)
{
    int number = device->number;
    if (device->program)
        return ask_program_for_request(device, setup, data, length);
    if (!process.controls[number].answer)
        return TIRNOUCH_AS_TEXT;
    begin_asking(number, "requests", 0);
    int answer = process.controls[number].answer(process.controls[number].user, setup, data, length);
    end_asking();
    return answer;
}

/* A device is told what happened to it. A program that can't be told has ended. */
void tell_device(struct device *device, enum tirnouch_event event, int number)
{
    int of = device->number;
    if (of == HUB)
        return;
    if (device->program)
        tell_program(device, event, number);
    if (!process.listeners[of].tell)
        return;
    begin_asking(of, "events", 0);
    process.listeners[of].tell(process.listeners[of].user, event, number);
    end_asking();
}

/* Of which kind an answer is. One that means nothing is told, and breaks the transaction. */
static uint8_t kind_of(const struct pipe *pipe, int answer)
{
    if (answer == TIRNOUCH_STALL)
        return TIRNOUCH_ANSWER_STALL;
    if (answer == TIRNOUCH_BROKEN)
        return TIRNOUCH_ANSWER_BROKEN;
    if (!is_in(pipe->ep) && answer >= 0)
        return TIRNOUCH_ANSWER_TAKEN;
    if (answer >= 0 && answer <= MOST_PACKET)
        return TIRNOUCH_ANSWER_PACKET;
    tell_failure("device %d: its function for endpoint %02x answered %d, which is no answer to a packet: a broken transaction", pipe->device->number,
                 pipe->ep, answer);
    return TIRNOUCH_ANSWER_BROKEN;
}

/* The answer goes behind the script, and is to be served. */
static bool feed_answer(struct pipe *pipe, int answer, const uint8_t *data)
{
    struct device *device = pipe->device;
    uint8_t kind = kind_of(pipe, answer);
    int count = kind == TIRNOUCH_ANSWER_PACKET ? answer : 0;
    int r = tirnouch_feed(&pipe->core->slot, pipe->number, pipe->ep, kind, data, (size_t)count);
    if (!r) {
        trace_feed(pipe, kind, data, count);
        pipe->core->fed++;
        pipe->fed++;
        return true;
    }
    tell_failure("device %d: an answer of endpoint %02x can't be kept (%s): it is pulled out", device->number, pipe->ep, libusb_error_name(r));
    pull_out(device);
    return core_serves(pipe);
}

static bool take_answer(struct pipe *pipe, int answer, const uint8_t *data)
{
    uint64_t asked = process.bus.past || answer <= TIRNOUCH_LATER(0) ? moment_asked_at(pipe) : 0;
    pipe->later = process.bus.past ? asked : 0;
    if (answer == TIRNOUCH_NOT_READY || answer <= TIRNOUCH_LATER(0)) {
        pipe->later = answer == TIRNOUCH_NOT_READY ? 0 : moment_later(asked, answer);
        return false;
    }
    if (answer != TIRNOUCH_GONE)
        return feed_answer(pipe, answer, data);
    leave_by_itself(pipe->device);
    return core_serves(pipe);
}

/* The packet that is next at an endpoint, and its bytes where the host sends. */
static struct tirnouch_offer next_packet(const struct pipe *pipe, uint8_t data[MOST_PACKET])
{
    struct tirnouch_offer next = { 0 };
    tirnouch_offer(&pipe->core->slot, pipe->number, pipe->ep, data, MOST_PACKET, &next);
    return next;
}

/* Whether a packet at an endpoint is to be served, for which its device is asked where the script has no answer. */
bool ask_device(struct pipe *pipe)
{
    uint8_t data[MOST_PACKET];
    renew_where_full(pipe);
    struct tirnouch_offer next = next_packet(pipe, data);
    if (!next.is_asked)
        return core_serves(pipe);
    if (pipe->later && pipe->later > now())
        return false;
    int length = (int)next.length;
    return take_answer(pipe, pipe->device->program ? ask_program(pipe->device, pipe->ep, data, length) : ask_function(pipe, data, length),
                       data);
}

/* Whether the next packet is one for which the device is asked, now. */
bool may_be_asked(const struct pipe *pipe)
{
    uint8_t data[MOST_PACKET];
    return pipe->is_asked && !pipe->device->is_gone && pipe->later <= now() && next_packet(pipe, data).is_asked;
}

/* Requests, and endpoints where a packet waits for that. */
static uint64_t next_ask_of_all(void)
{
    struct bus *bus = &process.bus;
    uint64_t moment = bus->controls.first ? bus->again : 0;
    for (size_t i = 0; i < bus->active_count; i++) {
        struct pipe *pipe = bus->active[i];
        if (pipe->later && pipe->in_core && (!moment || pipe->later < moment) && !gate_before(pipe))
            moment = pipe->later;
    }
    return moment;
}

/* When a device is to be asked again; 0 for never. */
uint64_t next_ask(void)
{
    return process.bus.own ? next_ask_of_all() : process.bus.controls.first ? process.bus.again : 0;
}

/* From now on, and not before where events are handled late. What wasn't asked so far is asked anyway. */
void ask_at_once(struct device *device)
{
    uint64_t moment = now();
    for (int i = 0; i < ENDPOINTS; i++) {
        struct pipe *pipe = &device->pipes[i];
        if (pipe->is_asked && (!pipe->later || pipe->later > moment))
            pipe->later = moment;
    }
    for (struct transfer *it = process.bus.controls.first; it; it = it->behind)
        if (it->handle->device == device && it->naks && (!it->later || it->later > moment))
            it->later = moment;
    process.bus.stirs++;
    for (struct libusb_context *context = process.contexts; context; context = context->next)
        wake(context);
}

static int end_halt(struct pipe *pipe)
{
    int r = pipe->is_halted ? core_call(pipe->core, TIRNOUCH_CLEAR_HALT, pipe->name, pipe->ep, 0) : 0;
    if (!r)
        pipe->is_halted = pipe->is_stopped = false;
    pipe->later = 0;
    return r;
}

/* Its endpoints go on in their scripts, and their halts end. A reset of the core's would begin the scripts anew. Nothing is in flight. */
int end_halts(struct device *device)
{
    int r = 0;
    for (int i = 0; i < ENDPOINTS && !r; i++)
        if (device->pipes[i].kind && device->pipes[i].name >= 0)
            r = end_halt(&device->pipes[i]);
    return r;
}

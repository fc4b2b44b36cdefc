/* Why a transfer doesn't end: one sentence for its program's author, as a warning and as a comment of the trace, where its time is over, where
 * it is cancelled while it waits, and where it is in flight at an end. */
#include "bus.h"

#include <inttypes.h>
#include <stdio.h>
#include <unistd.h>

/* Of how many in flight this is told at once. */
#define MOST_TOLD 16

static void say_which(struct sentence *it, struct transfer *transfer)
{
    const struct libusb_transfer *shown = public_of(transfer);
    const uint8_t *setup = shown->buffer;
    if (transfer->pipe)
        append(it, "the transfer of %d byte%s at %02x", shown->length, plural((uint64_t)shown->length), transfer->pipe->ep);
    else if (setup)
        append(it, "the request %02x %02x %04x %04x of %u bytes", setup[0], setup[1], two_bytes(setup + 2), two_bytes(setup + 4),
            two_bytes(setup + 6));
    else
        append(it, "a request");
}

/* A field of requests that are meant, at a bit of their setup packet. */
static void say_field(struct sentence *it, struct meant meant, unsigned at, int digits)
{
    unsigned mask = digits == 2 ? 0xff : 0xffff;
    if (meant.mask >> at & mask)
        append(it, " %0*x", digits, (unsigned)(meant.bytes >> at) & mask);
    else
        append(it, " *");
}

static void say_gate_of_requests(struct sentence *it, const struct pipe *pipe, const struct gate *gate)
{
    append(it, "%02x waits for request %" PRIu64 " of", pipe->ep, gate->count);
    say_field(it, gate->meant, 0, 2);
    say_field(it, gate->meant, 8, 2);
    say_field(it, gate->meant, 16, 4);
    say_field(it, gate->meant, 32, 4);
    append(it, ", %" PRIu64 " came", tallied(pipe->device, gate->meant));
}

static void say_gate(struct sentence *it, const struct pipe *pipe, const struct gate *gate)
{
    if (gate->is_of_requests) {
        say_gate_of_requests(it, pipe, gate);
        return;
    }
    uint64_t came = came_for(pipe, gate);
    if (is_in(gate->other) && gate->other == pipe->ep)
        append(it, "%02x waits until %" PRIu64 " transfer%s ended there without an answer, %" PRIu64 " did", pipe->ep, gate->count,
               plural(gate->count), came);
    else if (gate->other)
        append(it, "%02x waits for %s %" PRIu64 " at %02x, %" PRIu64 " came", pipe->ep, is_in(gate->other) ? "answer" : "packet",
               gate->count, gate->other, came);
    else
        append(it, "%02x waits for control request %" PRIu64 ", %" PRIu64 " came", pipe->ep, gate->count, came);
}

static void say_asked(struct sentence *it, const struct pipe *pipe)
{
    append(it, "the device's %s isn't ready at %02x", pipe->device->program ? "program" : "function", pipe->ep);
    if (pipe->later > now())
        append(it, ", for %" PRIu64 " ms more", (pipe->later - now() + MILLISECOND - 1) / MILLISECOND);
}

/* What an endpoint waits for; false where something is to be done there. */
static bool say_why_at(struct sentence *it, struct pipe *pipe)
{
    const struct gate *gate = gate_before(pipe);
    struct rest rest = core_rest(pipe);
    if (pipe->device->is_gone)
        return false;
    if (gate)
        say_gate(it, pipe, gate);
    else if (core_serves(pipe) || pipe->is_stopped || rest.answers)
        return false;
    else if (pipe->is_asked)
        say_asked(it, pipe);
    else if (pipe->script)
        append(it, "the script of %02x is at its end behind %" PRIu32 " answer%s", pipe->ep, pipe->script, plural(pipe->script));
    else
        append(it, "%02x has no script, and never answers", pipe->ep);
    if (pipe->naks)
        append(it, "; the device answered not ready %" PRIu32 " time%s", pipe->naks, plural(pipe->naks));
    return true;
}

static bool say_why_at_control(struct sentence *it, const struct transfer *transfer)
{
    const struct transfer *first = process.bus.controls.first;
    while (first && first->handle->device != transfer->handle->device)
        first = first->behind;
    if (!transfer->naks && (!first || first == transfer || !first->naks))
        return false;
    if (transfer->naks)
        append(it, "the device answered not ready %u time%s", transfer->naks, plural(transfer->naks));
    else
        append(it, "the device answered a request before it not ready %u time%s", first->naks, plural(first->naks));
    return true;
}

/* Whether it waits for something; else it would go on where events are handled. */
static bool say_why(struct sentence *it, struct transfer *transfer)
{
    return transfer->pipe ? say_why_at(it, transfer->pipe) : say_why_at_control(it, transfer);
}

static void tell_one(struct transfer *transfer, const char *what, bool always)
{
    struct sentence which = { 0 }, why = { 0 };
    bool waits = say_why(&why, transfer);
    if (!waits && !always)
        return;
    say_which(&which, transfer);
    if (!waits)
        append(&why, "events weren't handled since it could go on");
    note(transfer->context, LIBUSB_LOG_LEVEL_WARNING, "%s %s: %s", which.text, what, why.text);
    trace_comment(transfer->handle->device->core, "why: %s %s: %s", which.text, what, why.text);
}

static bool is_wanted(const struct libusb_context *context)
{
    return process.bus.is_traced || context->log_level >= LIBUSB_LOG_LEVEL_WARNING;
}

/* `what` happens to it. One that is cancelled amid its work waits for nothing, which needs no word: only where it is wanted `always`. */
void tell_why(struct transfer *transfer, const char *what, bool always)
{
    if (is_wanted(transfer->context))
        tell_one(transfer, what, always);
}

void tell_all_why(struct libusb_context *context, const char *what)
{
    int told = 0;
    if (!is_wanted(context))
        return;
    for (struct transfer *it = context->flying.first; it && told < MOST_TOLD; it = it->next, told++)
        tell_one(it, what, true);
}

/* Since when is known where each call is looked at. */
static void say_callback(const struct libusb_context *context, left_fn *say, void *to)
{
    const struct called *called = &context->called;
    struct sentence it = { 0 };
    if (context->calling && process.looks_closer)
        append(&it, "the callback of a transfer of %d byte%s at %02x runs, for %" PRIu64 " ms so far", called->length,
               plural((uint64_t)called->length), called->ep, (real_time() - called->moment) / MILLISECOND);
    else
        append(&it, "a callback runs");
    say(to, NULL, &it);
}

/* What a context hasn't finished, a sentence each: at most so many of its transfers. The transfer is NULL where none is meant. */
static void each_left(struct libusb_context *context, size_t most, left_fn *say, void *to)
{
    size_t told = 0;
    if (context->is_calling)
        say_callback(context, say, to);
    if (context->ended.first)
        say(to, NULL, &(struct sentence){ .text = "ended, and not called back yet: libusb_handle_events isn't called" });
    for (struct transfer *it = context->flying.first; it && told < most; it = it->next, told++) {
        struct sentence left = { 0 }, why = { 0 };
        say_which(&left, it);
        if (!say_why(&why, it))
            append(&why, "events aren't handled, where it could go on");
        append(&left, " is in flight: %s", why.text);
        say(to, it, &left);
    }
}

void each_left_of_all(left_fn *say, void *to)
{
    for (struct libusb_context *it = process.contexts; it; it = it->next)
        each_left(it, SIZE_MAX, say, to);
}

static void write_left(void *to, struct transfer *transfer, const struct sentence *left)
{
    const int *file = to;
    dprintf(*file, "libusb:   %s\n", left->text);
    if (transfer)
        trace_comment(transfer->handle->device->core, "why: %s", left->text);
}

/* All contexts' transfers, at a limit. */
void write_all_why(int file)
{
    bool any = false;
    for (struct libusb_context *it = process.contexts; it; it = it->next) {
        any |= it->flying.first || it->ended.first || it->is_calling;
        each_left(it, MOST_TOLD, write_left, &file);
    }
    if (!any)
        dprintf(file, "libusb:   no transfer is in flight\n");
}

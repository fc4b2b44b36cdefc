/* The core's calls, each of which the trace has, and what of them is kept here. */
#include "bus.h"

#include <stdio.h>
#include <stdlib.h>
#include <string.h>

/* What stands in a buffer where no byte came to: no text, and a big number. */
#define UNWRITTEN 0xa5

/* The core gave back memory that isn't the transfer's: nothing is sure any more. */
void end_for_memory(void)
{
    fputs("libusb: error: a result came back with memory of another transfer: this is a fault of Tirnouch's\n", stderr);
    abort();
}

static const char *const verbs[] = {
    [TIRNOUCH_OPEN] = "open ", [TIRNOUCH_CLOSE] = "close ", [TIRNOUCH_CLAIM] = "claim ", [TIRNOUCH_RELEASE] = "release ",
    [TIRNOUCH_RESET] = "reset ", [TIRNOUCH_CLEAR_HALT] = "clear ", [TIRNOUCH_CANCEL] = "cancel ", [TIRNOUCH_EXPIRE] = "expire ",
    [TIRNOUCH_UNPLUG] = "unplug ",
};

static void trace_answer(int answer)
{
    if (answer >= 0) {
        trace_text("# done\n");
        return;
    }
    trace_text("# answer -");
    trace_number((uint64_t)-(int64_t)answer);
    trace_text("\n");
}

static void trace_call(enum tirnouch_verb verb, int name, uint8_t a, uint64_t n)
{
    trace_text(verbs[verb]);
    trace_number(verb == TIRNOUCH_UNPLUG ? a : (uint64_t)name);
    if (verb == TIRNOUCH_OPEN || verb == TIRNOUCH_CLAIM || verb == TIRNOUCH_RELEASE) {
        trace_text(" ");
        trace_number(a);
    } else if (verb == TIRNOUCH_CLEAR_HALT) {
        trace_text(" ");
        trace_hex(&a, 1);
    } else if (verb == TIRNOUCH_CANCEL || verb == TIRNOUCH_EXPIRE) {
        trace_text(" ");
        trace_number(n);
    }
    trace_text("\n");
}

int core_call(struct core *core, enum tirnouch_verb verb, int name, uint8_t a, uint64_t n)
{
    struct tirnouch_reply reply;
    int answer = tirnouch_call(&core->slot, (uint8_t)verb, (uint8_t)name, a, n, &reply);
    if (process.bus.is_traced) {
        trace_to(core);
        trace_call(verb, name, a, n);
        trace_answer(answer);
        trace_out();
    }
    return answer;
}

static void trace_request(struct transfer *transfer, int length, uint8_t flags)
{
    const struct pipe *pipe = transfer->pipe;
    trace_text("submit ");
    trace_number((uint64_t)pipe->name);
    trace_text(" ");
    trace_hex(&pipe->ep, 1);
    trace_text(pipe->kind == LIBUSB_TRANSFER_TYPE_INTERRUPT ? " int " : " bulk ");
    if (is_in(pipe->ep)) {
        trace_number((uint64_t)length);
    } else {
        trace_text("x:");
        if (length)
            trace_hex(public_of(transfer)->buffer + transfer->moved, length);
    }
    if (flags & LIBUSB_TRANSFER_SHORT_NOT_OK)
        trace_text(flags & LIBUSB_TRANSFER_ADD_ZERO_PACKET ? " flags=SHORT_NOT_OK+ADD_ZERO_PACKET" : " flags=SHORT_NOT_OK");
    else if (flags & LIBUSB_TRANSFER_ADD_ZERO_PACKET)
        trace_text(" flags=ADD_ZERO_PACKET");
    if (transfer->deadline) {
        trace_text(" timeout=");
        trace_number(public_of(transfer)->timeout ? public_of(transfer)->timeout : 1);
    }
    trace_text("\n");
}

static void trace_submission(struct transfer *transfer, int length, uint8_t flags, int answer)
{
    struct core *core = transfer->pipe->core;
    if (answer == LIBUSB_ERROR_NO_MEM) {
        trace_comment(core, "no memory, and no step");
        return;
    }
    trace_to(core);
    trace_request(transfer, length, flags);
    if (answer < 0) {
        trace_answer(answer);
    } else {
        trace_text("# number ");
        trace_number(transfer->number);
        trace_text("\n");
    }
    trace_out();
}

/* With a seed what a read's buffer had before isn't left in it: libusb's manual says nothing of the bytes behind `actual_length`. */
void fill_unwritten(uint8_t *at, int length)
{
    if (process.bus.seed && length > 0)
        memset(at, UNWRITTEN, (size_t)length);
}

/* A piece that goes into the core where its answers are looked at one by one, for a trace or with a seed. */
int core_submit_watched(struct transfer *transfer, int length, uint8_t flags)
{
    const struct libusb_transfer *shown = public_of(transfer);
    if (is_in(transfer->pipe->ep))
        fill_unwritten(shown->buffer + transfer->moved, shown->length - transfer->moved);
    int answer = core_submit_alone(transfer, length, flags);
    if (process.bus.is_traced)
        trace_submission(transfer, length, flags, answer);
    return answer;
}

static struct tirnouch_view look_at(const struct pipe *pipe)
{
    struct tirnouch_view view = { 0 };
    tirnouch_look(&pipe->core->slot, pipe->number, pipe->ep, &view);
    return view;
}

/* Whether a packet at an endpoint does something. */
bool core_serves(const struct pipe *pipe)
{
    return look_at(pipe).has_packet;
}

/* At an endpoint whose interface was claimed: how many answers its device has left, and whether it is halted. */
struct rest core_rest(const struct pipe *pipe)
{
    struct tirnouch_view view = look_at(pipe);
    return (struct rest){ .answers = (uint32_t)view.answers_left, .is_halted = view.is_halted };
}

/* A device answers packets at an endpoint; whether something came of it. A device that has no answer left isn't ready. */
bool core_serve(struct pipe *pipe, uint32_t most, struct tirnouch_reply *reply)
{
    tirnouch_serve(&pipe->core->slot, pipe->number, pipe->ep, most, reply);
    if (process.bus.is_traced) {
        trace_to(pipe->core);
        trace_text("serve ");
        trace_number(pipe->number);
        trace_text(" ");
        trace_hex(&pipe->ep, 1);
        trace_text("\n");
        trace_out();
    }
    return reply->packets > 1 || (reply->kind != TIRNOUCH_IDLE && reply->kind != TIRNOUCH_NAK);
}

/* A line of the trace: an answer of this kind of `tirnouch_feed` that was computed, which stands in the script from the beginning on. */
void trace_feed(const struct pipe *pipe, uint8_t kind, const uint8_t *bytes, int count)
{
    static const char *const words[] = { "d:", "a", "n", "s", "b" };
    if (!process.bus.is_traced)
        return;
    trace_to(pipe->core);
    trace_text("feed ");
    trace_number(pipe->number);
    trace_text(" ");
    trace_hex(&pipe->ep, 1);
    trace_text(" ");
    trace_text(words[kind]);
    if (count)
        trace_hex(bytes, count);
    trace_text("\n");
    trace_out();
}

bool core_settle_in(struct core *core, uint32_t most)
{
    struct tirnouch_progress progress = { 0 };
    struct tirnouch_view view = { 0 };
    if (!process.bus.is_traced) {
        tirnouch_settle(&core->slot, 0, most, &progress);
        return progress.steps;
    }
    for (uint32_t done = 0; done < most; done++) {
        tirnouch_look(&core->slot, 0, 0, &view);
        if (!(view.waiting & (TIRNOUCH_WAITS_ORDER | TIRNOUCH_WAITS_EVENT)))
            return done;
        trace_to(core);
        trace_text(view.waiting & TIRNOUCH_WAITS_EVENT ? "deliver\n" : "command\n");
        trace_out();
        tirnouch_settle(&core->slot, 0, 1, &progress);
    }
    return true;
}

/* Events are handled and orders run, at most so many in a core; whether there were any. */
bool core_settle(uint32_t most)
{
    bool any = core_settle_in(&process.bus.core, most);
    for (struct core *core = process.bus.own; core; core = core->next)
        any |= core_settle_in(core, most);
    return any;
}

static const char *const statuses[] = { "COMPLETED", "ERROR", "TIMED_OUT", "CANCELLED", "STALL", "NO_DEVICE", "OVERFLOW" };

/* The bytes of one that was dropped aren't looked at: its buffer may be gone. */
static void trace_result(const struct tirnouch_result *result, const struct transfer *transfer, const struct tirnouch_memory *read)
{
    trace_text("take\n# called ");
    trace_number(result->number);
    trace_text(" ep ");
    trace_hex(&result->endpoint, 1);
    trace_text(" ");
    trace_text(statuses[result->status]);
    trace_text(" ");
    trace_number(result->actual_length);
    trace_text(" ");
    if (transfer->is_dropped)
        trace_text(is_in(result->endpoint) ? "?" : "-");
    else
        trace_hex(read->at, (int)read->filled);
    trace_text("\nreturn ");
    trace_number(result->handle);
    trace_text(" ");
    trace_number(result->number);
    trace_text("\n# done\n");
    trace_out();
}

/* The oldest result goes out. Its transfer, or NULL where there is none. */
struct transfer *core_take(struct core *core, struct tirnouch_result *result)
{
    struct tirnouch_memory back = no_memory();
    if (tirnouch_take(&core->slot, &back, result) != 1)
        return NULL;
    struct transfer *transfer = transfer_of(result, &back);
    if (process.bus.is_traced)
        trace_to(core);
    if (process.bus.is_traced)
        trace_result(result, transfer, &back);
    return transfer;
}


/* Requests on the default control endpoint (USB 2.0, 9.3): a device answers them by its text, or by the program's own function. They are
 * in no ring of the core. */
#include "bus.h"

#include <stdio.h>
#include <stdlib.h>
#include <string.h>

#define SETUP 8
/* The most bytes of a request behind its setup packet, as Linux has it. */
#define MOST_DATA 4096

/* The interface or the endpoint that a request is to must be held. */
static int hold(struct libusb_device_handle *handle, const uint8_t *setup)
{
    struct tirnouch_needed needed;
    tirnouch_needs(setup, &needed);
    if (needed.kind == TIRNOUCH_NEEDS_INTERFACE)
        return needed.interface < INTERFACES ? claim_in_passing(handle, needed.interface, NULL) : LIBUSB_ERROR_NOT_FOUND;
    if (needed.kind == TIRNOUCH_NEEDS_ENDPOINT) {
        const struct pipe *pipe = &handle->device->pipes[place_of(needed.endpoint)];
        return pipe->kind ? claim_in_passing(handle, pipe->interface, NULL) : LIBUSB_ERROR_NOT_FOUND;
    }
    return 0;
}

int submit_control(struct transfer *transfer)
{
    const struct libusb_transfer *it = public_of(transfer);
    if (it->length < SETUP || it->length - SETUP > MOST_DATA || (int)two_bytes(it->buffer + 6) > it->length - SETUP)
        return LIBUSB_ERROR_INVALID_PARAM;
    int r = hold(transfer->handle, it->buffer);
    if (r)
        return r;
    transfer->pipe = NULL;
    transfer->naks = 0;
    transfer->stage = AT_CONTROL;
    join_both_ways(&process.bus.controls, transfer);
    return 0;
}

/* The first requests are kept, with what was written, for tirnouch_requests. */
static void keep_request(struct device *device, const uint8_t *setup, int length)
{
    size_t i = device->request_count++;
    if (i >= MOST_REQUESTS)
        return;
    if (!device->requests)
        device->requests = calloc(MOST_REQUESTS, sizeof *device->requests);
    if (!device->requests)
        return;
    int written = setup[0] & LIBUSB_ENDPOINT_IN ? 0 : length < 56 ? length : 56;
    memcpy(device->requests[i], setup, (size_t)(SETUP + written));
}

/* GET_DESCRIPTOR of the device: of several configurations one is there. */
static bool is_of_device_descriptor(const uint8_t *setup)
{
    return setup[0] == LIBUSB_ENDPOINT_IN && setup[1] == LIBUSB_REQUEST_GET_DESCRIPTOR && two_bytes(setup + 2) == LIBUSB_DT_DEVICE << 8;
}

/* An answer of the core's in tirnouch.h's numbers. */
static int answer_by_core(struct device *device, const uint8_t *setup, uint8_t *data, const struct tirnouch_response *response)
{
    if (response->status != LIBUSB_TRANSFER_COMPLETED)
        return response->status == LIBUSB_TRANSFER_STALL ? TIRNOUCH_STALL : TIRNOUCH_BROKEN;
    if (!response->by_line && is_of_device_descriptor(setup) && response->actual_length > 17)
        data[17] = device->descriptor[17];
    return (int)response->actual_length;
}

/* How many bytes moved, or one of tirnouch.h's answers. */
static int answer_by_text(struct transfer *transfer, const uint8_t *setup, uint8_t *data, int length)
{
    struct device *device = transfer->handle->device;
    struct tirnouch_response response = { 0 };
    while (transfer->naks < MOST_NAKS) {
        int r = tirnouch_request(&device->core->slot, device->number_there, setup, data, (size_t)length, &response);
        if (r < 0)
            return r == LIBUSB_ERROR_NO_MEM ? TIRNOUCH_BROKEN : TIRNOUCH_STALL;
        if (device->judged)
            judge_request(device, setup, data);
        if (response.is_ready)
            break;
        transfer->naks++;
    }
    if (!response.is_ready)
        return TIRNOUCH_NOT_READY;
    if (!response.by_line && is_standard(device, setup))
        return answer_standard(device, setup, data);
    if (!response.by_line && response.status == LIBUSB_TRANSFER_STALL)
        note(transfer->context, LIBUSB_LOG_LEVEL_INFO,
             "device %d stalls request %02x %02x %04x %04x of %d bytes: no line of its text fits it", device->number, setup[0], setup[1],
             two_bytes(setup + 2), two_bytes(setup + 4), length);
    return answer_by_core(device, setup, data, &response);
}

/* Whoever handles events looks again at this moment, or before. */
static void look_again(uint64_t moment)
{
    uint64_t *again = &process.bus.again;
    if (!*again || moment < *again)
        *again = moment;
}

/* One that means nothing is told, and breaks the transaction. */
static int known_answer(const struct device *device, const uint8_t *setup, int answer)
{
    if (answer == TIRNOUCH_STALL || answer == TIRNOUCH_BROKEN || answer == TIRNOUCH_GONE)
        return answer;
    tell_failure("device %d: its function answered %d to request %02x %02x %04x %04x, which is no answer: a broken transaction",
                 device->number, answer, setup[0], setup[1], two_bytes(setup + 2), two_bytes(setup + 4));
    return TIRNOUCH_BROKEN;
}

/* By a function or a program, or by the device's text. */
static int ask(struct transfer *transfer, const uint8_t *setup, uint8_t *data, int length)
{
    int answer = ask_for_request(transfer->handle->device, setup, data, length);
    if (answer == TIRNOUCH_AS_TEXT)
        return answer_by_text(transfer, setup, data, length);
    if (answer != TIRNOUCH_NOT_READY && answer > TIRNOUCH_LATER(0))
        return answer >= 0 ? (answer < length ? answer : length) : known_answer(transfer->handle->device, setup, answer);
    uint64_t again = moment_later(moment_asked(transfer->later, begun(transfer)), answer);
    transfer->naks++;
    transfer->later = answer == TIRNOUCH_NOT_READY && !process.bus.past ? 0 : again;
    look_again(again);
    return TIRNOUCH_NOT_READY;
}

static int answer_of(struct transfer *transfer)
{
    uint8_t *setup = public_of(transfer)->buffer;
    int length = (int)two_bytes(setup + 6);
    if (!transfer->naks) {
        keep_request(transfer->handle->device, setup, length);
        tally_request(transfer->handle->device, setup);
    }
    return ask(transfer, setup, setup + SETUP, length);
}

/* Control requests are in no ring, so the trace has them as comments: of which device, and the setup packet. */
static void trace_setup(const struct device *device, const uint8_t *setup)
{
    char line[64];
    snprintf(line, sizeof line, "# request %d %02x %02x %04x %04x %u ", device->number, setup[0], setup[1], two_bytes(setup + 2),
             two_bytes(setup + 4), two_bytes(setup + 6));
    trace_to(device->core);
    trace_text(line);
}

/* Behind that what came of it, and the bytes that were read, or all that was written, however much of it moved. */
static void trace_request(const struct device *device, const uint8_t *setup, int answer)
{
    int shown = setup[0] & LIBUSB_ENDPOINT_IN ? answer : (int)two_bytes(setup + 6);
    trace_setup(device, setup);
    if (answer < 0) {
        trace_text(answer == TIRNOUCH_STALL ? "STALL" : "ERROR");
    } else {
        trace_text("COMPLETED ");
        trace_number((uint64_t)answer);
        trace_text(" ");
        if (shown)
            trace_hex(setup + SETUP, shown);
    }
    trace_text("\n");
    trace_out();
}

/* It was asked, and isn't answered so far: this stands in the trace of a run that ends before it. With what it writes. */
static void trace_wait(const struct device *device, const uint8_t *setup)
{
    int written = setup[0] & LIBUSB_ENDPOINT_IN ? 0 : (int)two_bytes(setup + 6);
    trace_setup(device, setup);
    trace_text(written ? "waits " : "waits");
    if (written)
        trace_hex(setup + SETUP, written);
    trace_text("\n");
    trace_out();
}

/* One leaves without an answer, and its buffer may be gone. At a device one waits, so the trace tells of its end without the setup packet; of
 * one that wasn't asked the trace has nothing. */
void leave_unanswered(struct transfer *transfer, const char *status)
{
    const struct device *device = transfer->handle->device;
    leave_both_ways(&process.bus.controls, transfer);
    if (transfer->naks)
        trace_comment(device->core, "request %d %s", device->number, status);
}

/* For a trace, or with a seed. */
static void look_at_answer(const struct device *device, uint8_t *setup, int answer)
{
    if (setup[0] & LIBUSB_ENDPOINT_IN && answer >= 0)
        fill_unwritten(setup + SETUP + answer, (int)two_bytes(setup + 6) - answer);
    if (process.bus.is_traced)
        trace_request(device, setup, answer);
}

static void end_request(struct transfer *transfer, int answer)
{
    struct device *device = transfer->handle->device;
    uint8_t *setup = public_of(transfer)->buffer;
    bool is_short = answer < (int)two_bytes(setup + 6) && public_of(transfer)->flags & LIBUSB_TRANSFER_SHORT_NOT_OK;
    leave_both_ways(&process.bus.controls, transfer);
    if (process.bus.is_watched)
        look_at_answer(device, setup, answer);
    if (answer >= 0)
        carry_out_request(device, setup);
    if (answer >= 0)
        end_transfer(transfer, is_short ? LIBUSB_TRANSFER_ERROR : LIBUSB_TRANSFER_COMPLETED, answer);
    else
        end_transfer(transfer, answer == TIRNOUCH_STALL ? LIBUSB_TRANSFER_STALL : LIBUSB_TRANSFER_ERROR, 0);
}

static bool end_for_absence(struct transfer *transfer)
{
    leave_unanswered(transfer, "NO_DEVICE");
    end_transfer(transfer, LIBUSB_TRANSFER_NO_DEVICE, 0);
    return true;
}

/* Those to a device that is gone. Each that ends here takes no other along, and nothing is called out to. */
void end_requests(const struct device *device)
{
    for (struct transfer *it = process.bus.controls.first, *behind; it; it = behind) {
        behind = it->behind;
        if (it->handle->device == device)
            end_for_absence(it);
    }
}

/* One of them, whose device isn't waited for: whether it ended. */
static bool answer_control(struct transfer *transfer, bool *waits)
{
    struct device *device = transfer->handle->device;
    if (is_lost(transfer->handle))
        return end_for_absence(transfer);
    if (transfer->later && transfer->later > now()) {
        look_again(transfer->later);
        *waits = true;
        return false;
    }
    bool is_first = !transfer->naks;
    int answer = answer_of(transfer);
    if (answer == TIRNOUCH_GONE)
        leave_by_itself(device);
    if (is_lost(transfer->handle))
        return end_for_absence(transfer);
    *waits = answer == TIRNOUCH_NOT_READY;
    if (process.bus.past && !*waits)
        hold_behind(transfer, moment_asked(transfer->later, begun(transfer)));
    if (*waits && is_first && process.bus.is_traced)
        trace_wait(device, public_of(transfer)->buffer);
    if (!*waits)
        end_request(transfer, answer);
    return !*waits;
}

/* Serves each device's requests in order, up to the first that isn't ready. Returns whether one completed. One that ends may take others
 * along, as where its device leaves and comes back as one that is gone: so behind each that ended it begins again at the head. */
bool answer_controls(void)
{
    bool any = false, waits[DEVICES] = { false };
    process.bus.again = 0;
    for (struct transfer *it = process.bus.controls.first; it;) {
        const struct device *device = it->handle->device;
        bool is_over = (device->is_gone || !waits[device->number]) && answer_control(it, &waits[device->number]);
        any |= is_over;
        it = is_over ? process.bus.controls.first : it->behind;
    }
    return any;
}

/* What devices, controller and events have to do, until nothing is left. It is done where the program handles events. */
#include "bus.h"

static bool is_leaving(const struct pipe *pipe)
{
    const struct device *device = pipe->device;
    return device->leaves && !device->is_gone && pipe->ep == device->leaves_ep && pipe->answers >= device->leaves_behind;
}

int pull_out(struct device *device)
{
    int r = core_call(device->core, TIRNOUCH_UNPLUG, 0, device->number_there, 0);
    if (!r) {
        device->is_gone = true;
        process.bus.stirs++;
        tell_all(device, LIBUSB_HOTPLUG_EVENT_DEVICE_LEFT);
        tell_device(device, TIRNOUCH_EVENT_PULLED, 0);
    }
    return r;
}

/* A halted endpoint stalls without an answer of its script. */
static void count_answer(struct pipe *pipe, const struct tirnouch_reply *reply)
{
    bool stalled = reply->kind == TIRNOUCH_ENDED && reply->code == TIRNOUCH_CODE_STALL;
    if (!stalled || !pipe->is_halted)
        pipe->answers++;
    pipe->naks += reply->kind == TIRNOUCH_NAK;
    pipe->is_halted = stalled;
}

/* One answer; whether another may follow it. */
static bool serve_one(struct pipe *pipe)
{
    struct tirnouch_reply reply = { 0 };
    core_serve(pipe, 1, &reply);
    if (!pipe->device->is_gone)
        count_answer(pipe, &reply);
    if (is_leaving(pipe))
        leave_by_itself(pipe->device);
    return reply.kind != TIRNOUCH_ENDED;
}

/* Whether a packet does something, for which a device that computes its answer is asked first. */
static bool is_answered(struct pipe *pipe)
{
    if (pipe->is_asked && !pipe->device->is_gone)
        return ask_device(pipe);
    return core_serves(pipe);
}

/* A device answers at an endpoint, at most so many packets; whether something came of it. */
bool serve(struct pipe *pipe, uint32_t most)
{
    struct tirnouch_reply reply = { 0 };
    bool any = false, goes_on = true;
    if (!pipe->is_watched)
        return core_serve(pipe, most, &reply);
    if (is_leaving(pipe)) {
        leave_by_itself(pipe->device);
        any = true;
    }
    for (uint32_t i = 0; goes_on && i < most && !gate_before(pipe) && is_answered(pipe); i++) {
        goes_on = serve_one(pipe);
        any = true;
    }
    if (pipe->is_judged)
        judge(pipe);
    return any;
}

/* By places, since whoever is asked may leave, and take others along: endpoints come in behind the others meanwhile, and `feed_all` alone
 * takes some out. */
static bool serve_all(void)
{
    struct bus *bus = &process.bus;
    bool any = false;
    for (size_t i = 0; i < bus->active_count; i++)
        if (bus->active[i]->in_core)
            any |= serve(bus->active[i], ALL);
    return any;
}

bool feed_all(void)
{
    struct bus *bus = &process.bus;
    bool any = false;
    for (size_t i = 0; i < bus->active_count;) {
        struct pipe *pipe = bus->active[i];
        any |= feed(pipe);
        pipe->is_active = pipe->in_core || pipe->queue.first;
        if (pipe->is_active)
            i++;
        else
            bus->active[i] = bus->active[--bus->active_count];
    }
    return any;
}

void settle_all(void)
{
    while (core_settle(ALL)) {
    }
}

/* What the controller has done has ended transfers, as far as it has. */
void reap_all(void)
{
    do
        settle_all();
    while (reap());
}

/* What comes behind the packets that were served; whether some was done. */
static inline bool go_on_behind(bool any)
{
    if (any || process.bus.active_count) {
        any |= core_settle(ALL);
        any |= reap();
        any |= feed_all();
    }
    return any;
}

/* All there is to do in one go; whether some was done. */
static bool work_once(void)
{
    bool any = process.bus.controls.first && answer_controls();
    any |= serve_all();
    return go_on_behind(any);
}

/* The same where time stands before a deadline that is over: what was submitted behind that waits. */
static bool work_once_in_past(void)
{
    struct bus *bus = &process.bus;
    bool any = bus->controls.first && answer_controls();
    for (size_t i = 0; i < bus->active_count; i++)
        if (bus->active[i]->in_core && begun_at(bus->active[i]) <= now())
            any |= serve(bus->active[i], ALL);
    return go_on_behind(any);
}

/* All that was due so far, and once more where a device's function says meanwhile that some device is ready, but not for ever. */
void work_in_past(void)
{
    for (int i = 0; i <= DEVICES; i++) {
        process.bus.is_readied = false;
        while (work_once_in_past()) {
        }
        if (!process.bus.is_readied)
            break;
    }
}

/* What is to be done at this moment but for requests. */
void work_at_endpoints(void)
{
    while (go_on_behind(serve_all())) {
    }
}

/* A device's function said meanwhile that some device is ready: all are asked once more, but not for ever. */
bool work_again(bool waits)
{
    bool is_done = true;
    for (int i = 0; i < DEVICES && is_done && process.bus.is_readied; i++) {
        process.bus.is_readied = false;
        is_done = work_on(waits);
    }
    return is_done;
}

/* All, also with a seed: what ends needs no dice. */
void work_to_end(void)
{
    while (work_once()) {
    }
}

/* Whether all is done; false where dice end it before. */
bool work_on(bool waits)
{
    if (process.bus.seed)
        return work_by_dice(waits);
    while (work_once() && turn_only_one()) {
    }
    return true;
}

/* A device's own core: it begins with the bus, or where the device is given its first function. A new session takes the place of the old one
 * where a script is nearly full, and where the device is plugged in again. */
#include "bus.h"

#include <stdio.h>
#include <stdlib.h>
#include <string.h>

/* A script has room for 65,536 answers; a session begins anew behind half of that. */
#define LONGEST_SCRIPT 65536u
#define MOST_FED (LONGEST_SCRIPT / 2)

/* A session that is made, and isn't used yet. */
struct session {
    struct tirnouch_slot slot;
    struct growing text;
};

static void number_alone(int there[DEVICES], int device, int number)
{
    for (int i = 0; i < DEVICES; i++)
        there[i] = i == device ? number : -1;
}

/* With the answers of the device's text, or what is left of them in its core. */
static int make_session(const struct device *device, bool rests, struct session *made)
{
    struct tirnouch_complaint complaint;
    int there[DEVICES];
    *made = (struct session){ .text = { .length = 0 } };
    number_alone(there, device->number, 0);
    write_lines(&made->text, device->text, there, rests ? device : NULL);
    int r = made->text.failed ? LIBUSB_ERROR_NO_MEM : 0;
    leave_out_expected(&made->text);
    if (!r)
        r = tirnouch_create(&made->slot, (const uint8_t *)made->text.at, made->text.length, &complaint);
    return r;
}

/* An own core that isn't in use, and has no session. */
static struct core *new_core(void)
{
    struct core *core = calloc(1, sizeof *core);
    if (core)
        core->trace = -1;
    return core;
}

static void use_core(struct device *device, struct core *core)
{
    struct core **at = &process.bus.own;
    while (*at)
        at = &(*at)->next;
    *at = core;
    device->core = core;
    device->number_there = 0;
    for (int i = 0; i < ENDPOINTS; i++) {
        device->pipes[i].core = core;
        device->pipes[i].number = 0;
    }
}

void end_own_core(struct device *device)
{
    struct core **at = &process.bus.own, *core = device->core;
    while (*at && *at != core)
        at = &(*at)->next;
    if (!*at)
        return;
    *at = core->next;
    tirnouch_destroy(&core->slot);
    trace_end(core);
    free(core);
    device->core = NULL;
}

/* A line that the device's program said, or one of the text. */
static void complain_of_own(const struct device *device, const struct session *made, const char *name)
{
    char own[64];
    snprintf(own, sizeof own, "the program of device %d", device->number);
    complain(text_of(&made->text), device->text, own, name, device->program_lines);
}

static int begin_first_session(struct device *device, const char *name)
{
    struct session made;
    int r = trace_begin(device->core, device) ? make_session(device, false, &made) : LIBUSB_ERROR_OTHER;
    if (r == LIBUSB_ERROR_INVALID_PARAM) {
        complain_of_own(device, &made, name);
        r = LIBUSB_ERROR_OTHER;
    }
    if (!r) {
        device->core->slot = made.slot;
        trace_devices(device->core, text_of(&made.text));
    }
    free(made.text.at);
    return r;
}

/* What its program says of it, where it is one, and then its lines of the text. */
static int begin_text(struct device *device, const struct desk *desk)
{
    struct growing text = { 0 };
    int there[DEVICES], r = 0;
    number_alone(there, device->number, device->number);
    if (desk->commands[device->number].length)
        r = begin_program(device, desk, &text);
    for (size_t i = 0; i < text.length; i++)
        device->program_lines += text.at[i] == '\n';
    write_lines(&text, desk->text, there, NULL);
    device->text = text_of(&text);
    return r ? r : text.failed ? LIBUSB_ERROR_NO_MEM : 0;
}

/* As the bus begins. */
int begin_own_core(struct device *device, const struct desk *desk)
{
    struct core *core = new_core();
    if (!core)
        return LIBUSB_ERROR_NO_MEM;
    use_core(device, core);
    int r = begin_text(device, desk);
    return r ? r : begin_first_session(device, desk->name);
}

/* The core's handles of a device are closed, in the core that it leaves. */
static void leave_names(struct device *device)
{
    give_back(device);
    for (int i = 0; i < INTERFACES; i++)
        if (device->interfaces[i].name >= 0)
            device->core->named[device->interfaces[i].name] = false;
}

/* A session takes the place of the one before, of which nothing is left. */
static void replace_session(struct device *device, struct session *made)
{
    struct core *core = device->core;
    leave_names(device);
    tirnouch_destroy(&core->slot);
    trace_end(core);
    core->slot = made->slot;
    core->fed = 0;
    core->sessions++;
    trace_begin(core, device);
    trace_devices(core, text_of(&made->text));
}

/* What is claimed is claimed in the new session. A halt goes on here, without the core. What was in flight goes on. */
static void go_on(struct device *device)
{
    int r = 0;
    for (int i = 0; i < INTERFACES && !r; i++)
        if (device->interfaces[i].name >= 0)
            r = name_interface(device, i, device->interfaces[i].name);
    for (int i = 0; i < ENDPOINTS; i++) {
        struct pipe *pipe = &device->pipes[i];
        pipe->fed = 0;
        pipe->is_stopped |= pipe->is_halted;
        pipe->is_halted = false;
    }
    if (r) {
        tell_failure("device %d: its core can't go on (%s): it is pulled out", device->number, libusb_error_name(r));
        pull_out(device);
    }
    for (int i = 0; i < ENDPOINTS; i++)
        if (device->pipes[i].queue.first)
            feed(&device->pipes[i]);
}

/* How many packets it took at its endpoints, before the session ends that has them; till then they are judged. */
static void count_taken(struct device *device)
{
    for (int i = 0; i < ENDPOINTS; i++) {
        struct pipe *pipe = &device->pipes[i];
        if (!pipe->kind || is_in(pipe->ep))
            continue;
        if (pipe->is_judged)
            judge(pipe);
        pipe->took = packets_taken(pipe);
    }
}

/* Where memory is refused the session goes on, and another time is as good. */
void renew_where_full(struct pipe *pipe)
{
    struct device *device = pipe->device;
    struct session made;
    if (pipe->core->fed < MOST_FED && pipe->script + pipe->fed < LONGEST_SCRIPT)
        return;
    if (!make_session(device, true, &made)) {
        take_out(device);
        count_taken(device);
        replace_session(device, &made);
        go_on(device);
    }
    free(made.text.at);
}

/* A device of the shared core moves into one of its own, with what is in flight. */
static void move(struct device *device, struct core *core, const struct session *made)
{
    take_out(device);
    count_taken(device);
    leave_names(device);
    use_core(device, core);
    core->slot = made->slot;
    trace_begin(core, device);
    trace_devices(core, text_of(&made->text));
    go_on(device);
}

static int copy_text(struct device *device)
{
    struct growing text = { 0 };
    int there[DEVICES];
    number_alone(there, device->number, device->number);
    write_lines(&text, process.bus.text, there, NULL);
    if (text.failed) {
        free(text.at);
        return LIBUSB_ERROR_NO_MEM;
    }
    free_text(&device->text);
    device->text = text_of(&text);
    return 0;
}

/* A device that was scripted is given its first function. */
int come_alive(struct device *device)
{
    struct session made = { .text = { .length = 0 } };
    if (device->is_living || device->is_gone)
        return 0;
    struct core *core = new_core();
    int r = core ? copy_text(device) : LIBUSB_ERROR_NO_MEM;
    if (!r)
        r = make_session(device, true, &made);
    if (!r)
        move(device, core, &made);
    else
        free(core);
    free(made.text.at);
    return r;
}

/* Whatever is in flight at a device that was pulled out ends. */
static void end_flight(struct device *device)
{
    for (bool any = true; any;) {
        any = false;
        for (int i = 0; i < ENDPOINTS; i++)
            if (device->pipes[i].in_core)
                any |= serve(&device->pipes[i], ALL);
        any |= core_settle_in(device->core, ALL);
        any |= reap();
    }
    for (int i = 0; i < ENDPOINTS; i++)
        if (device->pipes[i].queue.first)
            feed(&device->pipes[i]);
    end_requests(device);
}

/* Handles of before hold nothing, and are answered NO_DEVICE. */
static void lose_handles(const struct device *device)
{
    for (struct libusb_device_handle *it = process.handles; it; it = it->next) {
        if (it->device != device)
            continue;
        it->is_lost = it->is_shut = true;
        it->claimed = it->asked = 0;
    }
}

/* As it was when the bus began. */
static void forget_state(struct device *device)
{
    for (int i = 0; i < INTERFACES; i++) {
        struct interface *it = &device->interfaces[i];
        *it = (struct interface){ .is_there = it->is_there, .has_driver = it->has_driver, .name = -1 };
    }
    for (int i = 0; i < ENDPOINTS; i++) {
        struct pipe *pipe = &device->pipes[i];
        pipe->name = -1;
        pipe->gates_passed = 0;
        pipe->answers = pipe->naks = pipe->script = pipe->fed = 0;
        pipe->later = pipe->took = pipe->withdrawn = 0;
        pipe->is_halted = pipe->is_stopped = pipe->is_unset = false;
        expect_anew(pipe);
    }
    free(device->requests);
    device->requests = NULL;
    device->request_count = 0;
    tally_anew(device);
    device->configuration = device->config[5];
    device->is_awaking = device->is_gone = false;
}

/* A device that is gone is plugged in again: it is another one for the program, at this port. */
static int begin_anew(struct device *device, int port)
{
    struct session made = { .text = { .length = 0 } };
    if (!device->is_living)
        return LIBUSB_ERROR_NOT_FOUND;
    if (device->program && !is_running(device->program))
        return LIBUSB_ERROR_NO_DEVICE;
    int r = prepare_anew(device);
    if (!r && (r = make_session(device, false, &made)))
        give_anew(device, NULL);
    if (!r) {
        end_flight(device);
        lose_handles(device);
        replace_session(device, &made);
        expect_requests_anew(device);
        forget_state(device);
        give_anew(device, &port);
    }
    free(made.text.at);
    return r;
}

/* A device that is hidden or gone is plugged in, as the one as which it comes back. */
int plug_in(struct device *device)
{
    bool returns = device->is_gone && device->successor >= 0;
    struct device *it = returns ? process.bus.devices[device->successor] : device;
    int port = device->port, r = is_present(it) ? LIBUSB_ERROR_NOT_FOUND : it->is_gone ? begin_anew(it, port) : 0;
    if (r)
        return r;
    if (it->is_hidden)
        stand_at(it, port);
    it->is_hidden = false;
    process.bus.stirs++;
    tell_all(it, LIBUSB_HOTPLUG_EVENT_DEVICE_ARRIVED);
    tell_device(it, TIRNOUCH_EVENT_PLUGGED, 0);
    return 0;
}

/* It comes back at once where its text says as which device. */
void leave_by_itself(struct device *device)
{
    if (pull_out(device) || device->successor < 0)
        return;
    int r = plug_in(device);
    if (r)
        tell_failure("device %d: it can't come back as device %d (%s)", device->number, device->successor, libusb_error_name(r));
}

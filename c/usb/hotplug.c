/* Devices that come and go (libusb 1.0, "Device hotplug event notification"). Callbacks run where events are handled, and at once for what
 * is there already, where that is asked for. */
#include "bus.h"

#include <stdlib.h>

struct hotplug {
    struct hotplug *next;
    struct libusb_context *context;   /* in whose list it stands; NULL where that context ended */
    int holds;
    int id, events, vendor, product, class;
    bool is_over;                     /* not registered any more */
    libusb_hotplug_callback_fn call;
    void *user;
};

static bool is_asked_for(const struct hotplug *it, const struct device *device, libusb_hotplug_event event)
{
    const uint8_t *bytes = device->descriptor;
    if (it->is_over || !(it->events & (int)event))
        return false;
    return (it->vendor == LIBUSB_HOTPLUG_MATCH_ANY || it->vendor == (int)two_bytes(bytes + 8)) &&
           (it->product == LIBUSB_HOTPLUG_MATCH_ANY || it->product == (int)two_bytes(bytes + 10)) &&
           (it->class == LIBUSB_HOTPLUG_MATCH_ANY || it->class == bytes[4]);
}

/* Once less: with the last hold it leaves its list, and goes. Until then it stands in it, so that whoever is in the list goes on from it. */
static void let_go(struct hotplug *it)
{
    if (--it->holds)
        return;
    if (it->context) {
        struct hotplug **at = &it->context->hotplugs;
        while (*at != it)
            at = &(*at)->next;
        *at = it->next;
    }
    free(it);
}

/* It isn't called any more. */
static void finish(struct hotplug *it)
{
    if (it->is_over)
        return;
    it->is_over = true;
    let_go(it);
}

/* Without the lock while it runs; one that answers 1 isn't called any more. The caller holds it. */
static void call(struct libusb_context *context, struct hotplug *it, struct libusb_device *device, libusb_hotplug_event event)
{
    unlock();
    callbacks_within++;
    int is_over = it->call(context, device, event, it->user);
    callbacks_within--;
    lock_again();
    if (is_over)
        finish(it);
}

/* A device comes once and goes once before it is told, mostly; what is further than that has memory of its own. */
static struct notice *new_notice(struct libusb_context *context, int device, libusb_hotplug_event event)
{
    struct notice *it = &context->all_notices[device][event == LIBUSB_HOTPLUG_EVENT_DEVICE_LEFT];
    bool is_further = it->is_waiting;
    if (is_further)
        it = malloc(sizeof *it);
    if (it)
        *it = (struct notice){ .device = libusb_ref_device(context->devices[device]), .event = event, .is_waiting = true,
                               .is_further = is_further };
    return it;
}

/* A context is told when it handles events next. */
void add_notice(struct libusb_context *context, int device, libusb_hotplug_event event)
{
    struct notice **at = &context->notices;
    if (context->is_blind)
        return;
    wake(context);
    struct notice *it = new_notice(context, device, event);
    if (!it) {
        note(context, LIBUSB_LOG_LEVEL_ERROR, "device %d came or left, and there is no memory to tell it", device);
        return;
    }
    while (*at)
        at = &(*at)->next;
    *at = it;
}

void tell_all(struct device *device, libusb_hotplug_event event)
{
    for (struct libusb_context *context = process.contexts; context; context = context->next)
        add_notice(context, device->number, event);
}

/* The first notice leaves the list, with its reference. */
static struct notice take_notice(struct libusb_context *context)
{
    struct notice *it = context->notices, taken = *it;
    context->notices = it->next;
    it->is_waiting = false;
    if (taken.is_further)
        free(it);
    return taken;
}

/* Nobody is told of them. */
void forget_notices(struct libusb_context *context)
{
    while (context->notices)
        drop_device(take_notice(context).device);
}

static bool call_for(struct libusb_context *context, const struct notice *notice)
{
    bool any = false;
    for (struct hotplug *it = context->hotplugs, *next; it; it = next) {
        it->holds++;
        if (is_asked_for(it, notice->device->device, notice->event)) {
            call(context, it, notice->device, notice->event);
            any = true;
        }
        next = it->next;
        let_go(it);
    }
    return any;
}

/* As the one who handles events; whether one was called. */
bool call_hotplugs(struct libusb_context *context)
{
    bool any = false;
    context->is_calling = true;
    if (context->closers)
        pthread_cond_broadcast(&context->moved);
    while (context->notices) {
        struct notice notice = take_notice(context);
        any |= call_for(context, &notice);
        drop_device(notice.device);
    }
    context->is_calling = false;
    if (context->waiting)
        pthread_cond_broadcast(&context->moved);
    return any;
}

/* By whoever registers it: beside this other threads handle events, and the context stays. A bus that begins meanwhile is told where events
 * are handled. */
static void enumerate(struct libusb_context *context, struct hotplug *it)
{
    unsigned turn = process.bus.turn;
    context->holds++;
    it->holds++;
    for (int i = 0; i <= DEVICES && process.bus.turn == turn; i++) {
        struct libusb_device *device = i < 1 ? &context->hub : context->devices[i - 1];
        if (!device || context->is_blind || !is_present(device->device) ||
            !is_asked_for(it, device->device, LIBUSB_HOTPLUG_EVENT_DEVICE_ARRIVED))
            continue;
        libusb_ref_device(device);
        call(context, it, device, LIBUSB_HOTPLUG_EVENT_DEVICE_ARRIVED);
        drop_device(device);
    }
    let_go(it);
    let_go_of(context);
}

/* The context ends. An entry whose callback runs still goes when that is back, and has none behind it any more. */
void end_hotplugs(struct libusb_context *context)
{
    struct hotplug *it = context->hotplugs;
    context->hotplugs = NULL;
    forget_notices(context);
    while (it) {
        struct hotplug *next = it->next;
        it->context = NULL;
        it->next = NULL;
        finish(it);
        it = next;
    }
}

static bool is_number(int value, int most)
{
    return value == LIBUSB_HOTPLUG_MATCH_ANY || (value >= 0 && value <= most);
}

int libusb_hotplug_register_callback(libusb_context *context, int events, int flags, int vendor, int product, int class,
                                     libusb_hotplug_callback_fn call, void *user, libusb_hotplug_callback_handle *out)
{
    int known = LIBUSB_HOTPLUG_EVENT_DEVICE_ARRIVED | LIBUSB_HOTPLUG_EVENT_DEVICE_LEFT;
    if (!events || events & ~known || flags & ~LIBUSB_HOTPLUG_ENUMERATE || !call)
        return LIBUSB_ERROR_INVALID_PARAM;
    if (!is_number(vendor, 0xffff) || !is_number(product, 0xffff) || !is_number(class, 0xff))
        return LIBUSB_ERROR_INVALID_PARAM;
    struct hotplug *it = malloc(sizeof *it);
    if (!it)
        return LIBUSB_ERROR_NO_MEM;
    if (!lock_unless_asked()) {
        free(it);
        return LIBUSB_ERROR_BUSY;
    }
    struct libusb_context *x = context_of(context);
    if (!x->is_open) {
        unlock();
        free(it);
        return LIBUSB_ERROR_OTHER;
    }
    *it = (struct hotplug){ .next = x->hotplugs, .context = x, .holds = 1, .id = ++x->hotplug_ids, .events = events, .vendor = vendor,
                            .product = product, .class = class, .call = call, .user = user };
    x->hotplugs = it;
    if (out)
        *out = it->id;
    if (is_told(x, 0))
        note_call(x, it->id, __func__, "events %d, flags %d, vendor %d, product %d, class %d", events, flags, vendor, product, class);
    if (flags & LIBUSB_HOTPLUG_ENUMERATE)
        enumerate(x, it);
    unlock();
    return 0;
}

static struct hotplug *find(struct libusb_context *context, int id)
{
    struct hotplug *it = context->hotplugs;
    while (it && (it->id != id || it->is_over))
        it = it->next;
    return it;
}

void libusb_hotplug_deregister_callback(libusb_context *context, libusb_hotplug_callback_handle id)
{
    lock();
    struct libusb_context *x = context_of(context);
    struct hotplug *it = find(x, id);
    if (is_told(x, 0))
        note_call(x, 0, __func__, "callback %d%s", id, it ? "" : ", which isn't registered");
    if (it)
        finish(it);
    unlock();
}

void *libusb_hotplug_get_user_data(libusb_context *context, libusb_hotplug_callback_handle id)
{
    lock();
    struct hotplug *it = find(context_of(context), id);
    void *user = it ? it->user : NULL;
    unlock();
    return user;
}

/* Events in all their forms; lists of devices and references to them; hotplug. */
#include "fuzz.h"

#include <stdlib.h>

#define WATCHES 8
#define REFERENCES 8

static libusb_context *some_context(void)
{
    return contexts[roll(CONTEXTS)];
}

static struct timeval some_time(void)
{
    return (struct timeval){ 0, roll(3) ? (int)roll(3000) : 0 };
}

static void expect(int r, const char *call)
{
    if (r < 0 && r != LIBUSB_ERROR_INTERRUPTED)
        fail("%s: %s", call, libusb_error_name(r));
}

void handle_some(void)
{
    struct timeval wait = some_time();
    int completed = (int)roll(2);
    if (roll(2))
        expect(libusb_handle_events_timeout(some_context(), &wait), "handle_events_timeout");
    else if (roll(4))
        expect(libusb_handle_events_timeout_completed(some_context(), &wait, &completed), "handle_events_timeout_completed");
    else
        expect(libusb_handle_events_completed(some_context(), &(int){ 1 }), "handle_events_completed");
}

/* As the manual has it for a program that polls by itself. */
void handle_locked(void)
{
    libusb_context *context = some_context();
    struct timeval wait = some_time();
    if (libusb_try_lock_events(context))
        return;
    if (libusb_event_handling_ok(context))
        expect(libusb_handle_events_locked(context, &wait), "handle_events_locked");
    libusb_unlock_events(context);
}

/* Whoever has the lock holds it for a few milliseconds at most. */
void lock_and_handle(void)
{
    libusb_context *context = some_context();
    libusb_lock_events(context);
    if (libusb_event_handling_ok(context))
        expect(libusb_handle_events_locked(context, &(struct timeval){ 0, 0 }), "handle_events_locked");
    libusb_unlock_events(context);
}

void wait_for_event(void)
{
    libusb_context *context = some_context();
    struct timeval wait = some_time();
    libusb_lock_event_waiters(context);
    if (libusb_event_handler_active(context))
        libusb_wait_for_event(context, &wait);
    libusb_unlock_event_waiters(context);
}

void look_at_events(void)
{
    libusb_context *context = some_context();
    struct timeval next;
    const struct libusb_pollfd **descriptors;
    switch (roll(5)) {
    case 0: libusb_interrupt_event_handler(context); break;
    case 1: expect(libusb_get_next_timeout(context, &next), "get_next_timeout"); break;
    case 2: libusb_pollfds_handle_timeouts(context); break;
    case 3: libusb_event_handling_ok(context); break;
    default:
        descriptors = libusb_get_pollfds(context);
        if (!descriptors || !descriptors[0])
            fail("no descriptors");
        libusb_free_pollfds(descriptors);
        break;
    }
}

/* A list, of which one device is kept for a while. */
void look_at_devices(void)
{
    libusb_device **list;
    struct libusb_config_descriptor *config;
    ssize_t count = libusb_get_device_list(some_context(), &list);
    if (count < 0)
        fail("device list: %s", libusb_error_name((int)count));
    if (count == 0) {
        libusb_free_device_list(list, 1);
        return;
    }
    libusb_device *device = libusb_ref_device(list[roll((unsigned)count)]), *parent = libusb_get_parent(device);
    if (parent)
        libusb_ref_device(parent);
    libusb_free_device_list(list, 1);
    libusb_unref_device(parent);
    bool is_hub = number_of(device) == DEVICES;
    if (libusb_get_config_descriptor(device, 0, &config))
        fail("no configuration");
    libusb_free_config_descriptor(config);
    if (libusb_get_max_packet_size(device, 0x81) != PACKET && !is_hub)
        fail("another packet size");
    libusb_unref_device(device);
}

/* Hotplug callbacks: 0 where there is none at a place; else its handle, and its context by the place. */
static atomic_int watches[WATCHES];

static int on_device(libusb_context *context, libusb_device *device, libusb_hotplug_event event, void *user)
{
    bool is_one = event == LIBUSB_HOTPLUG_EVENT_DEVICE_ARRIVED || event == LIBUSB_HOTPLUG_EVENT_DEVICE_LEFT;
    if (!is_one || !context || user != watches)
        fail("a hotplug callback of nobody");
    dawdle();
    number_of(device);
    libusb_unref_device(libusb_ref_device(device));
    return roll(6) == 0;
}

void watch_hotplug(void)
{
    unsigned place = roll(WATCHES);
    libusb_hotplug_callback_handle made = 0;
    int none = 0, r = libusb_hotplug_register_callback(
        contexts[place % CONTEXTS], LIBUSB_HOTPLUG_EVENT_DEVICE_ARRIVED | LIBUSB_HOTPLUG_EVENT_DEVICE_LEFT,
        roll(2) ? LIBUSB_HOTPLUG_ENUMERATE : LIBUSB_HOTPLUG_NO_FLAGS, roll(2) ? 0x1209 : LIBUSB_HOTPLUG_MATCH_ANY, LIBUSB_HOTPLUG_MATCH_ANY,
        LIBUSB_HOTPLUG_MATCH_ANY, on_device, watches, &made);
    if (r)
        fail("hotplug_register_callback: %s", libusb_error_name(r));
    if (!atomic_compare_exchange_strong(&watches[place], &none, made))
        libusb_hotplug_deregister_callback(contexts[place % CONTEXTS], made);
}

void watch_no_more(void)
{
    unsigned place = roll(WATCHES);
    int made = atomic_exchange(&watches[place], 0);
    if (!made)
        return;
    libusb_hotplug_get_user_data(contexts[place % CONTEXTS], made);
    libusb_hotplug_deregister_callback(contexts[place % CONTEXTS], made);
}

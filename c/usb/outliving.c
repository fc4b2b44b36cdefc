/* Contexts and handles outlive a bus that tirnouch_end ends. What is in flight ends as where each device is pulled out, and is called
 * back where events are handled next. Till the next bus begins a context has the root hub alone; then it has that bus's devices. Handles
 * are lost, and what they and the program's references need of a device stays with them. */
#include "bus.h"

/* Where memory is refused no context has devices: LIBUSB_ERROR_NO_MEM. */
int give_devices_to_all(void)
{
    int r = 0;
    for (struct libusb_context *it = process.contexts; it && !r; it = it->next)
        r = give_devices(it);
    for (struct libusb_context *it = process.contexts; it && r; it = it->next)
        take_devices(it);
    return r;
}

/* Only those are told that asked to be: whoever registers a callback later finds the bus as it is. */
static void tell_all_present(struct libusb_context *context, libusb_hotplug_event event)
{
    for (int i = 0; context->hotplugs && i < DEVICES; i++)
        if (is_present(process.bus.devices[i]))
            add_notice(context, i, event);
}

/* The bus began, and contexts are open. */
void tell_arrivals(void)
{
    for (struct libusb_context *it = process.contexts; it; it = it->next) {
        watch_for(it->log_level);
        tell_configurations(it);
        tell_all_present(it, LIBUSB_HOTPLUG_EVENT_DEVICE_ARRIVED);
    }
    wake_all();
}

static int count_handles(void)
{
    int count = 0;
    for (const struct libusb_device_handle *it = process.handles; it; it = it->next)
        count += process.bus.devices[it->device->number] == it->device;
    return count;
}

/* What is left as the bus ends, in the first log that is told of it. A context alone is no warning: packages keep theirs for the process. */
void tell_left_open(void)
{
    int contexts = 0, transfers = 0, handles = count_handles();
    struct libusb_context *told = NULL;
    for (struct libusb_context *context = process.contexts; context; context = context->next) {
        contexts++;
        for (const struct transfer *it = context->flying.first; it; it = it->next)
            transfers++;
    }
    enum libusb_log_level level = handles || transfers ? LIBUSB_LOG_LEVEL_WARNING : LIBUSB_LOG_LEVEL_INFO;
    for (struct libusb_context *context = process.contexts; context && !told; context = context->next)
        if (context->log_level >= (int)level)
            told = context;
    if (told)
        note(told, level,
             "the bus ends with %d context%s, %d handle%s and %d transfer%s open: transfers end with NO_DEVICE", contexts,
             plural((uint64_t)contexts), handles, plural((uint64_t)handles), transfers, plural((uint64_t)transfers));
}

/* The devices at which something is in flight are pulled out of the core, so that it ends there. */
static void unplug_in_flight(const struct libusb_context *context)
{
    for (const struct transfer *it = context->flying.first; it; it = it->next) {
        struct device *device = it->handle->device;
        if (!device->is_gone)
            core_call(device->core, TIRNOUCH_UNPLUG, 0, device->number_there, 0);
        device->is_gone = true;
    }
}

/* In order of submission, as their core ended them. One that it didn't end, whatever the reason, ends here, since the core ends with the
 * bus, and with it what it was lent. */
static void end_flights(struct libusb_context *context)
{
    struct transfer *it;
    while ((it = context->flying.first)) {
        const struct libusb_transfer *shown = public_of(it);
        bool has_ended = it->stage == ENDED;
        end_transfer(it, has_ended ? shown->status : LIBUSB_TRANSFER_NO_DEVICE, has_ended ? shown->actual_length : it->moved);
    }
    context->earliest = 0;
}

/* All devices leave; their functions aren't told. Where nobody asked for it, nobody is told any more what came and left before, either. */
void end_all_flights(void)
{
    for (struct libusb_context *it = process.contexts; it; it = it->next) {
        if (!it->hotplugs)
            forget_notices(it);
        tell_all_present(it, LIBUSB_HOTPLUG_EVENT_DEVICE_LEFT);
    }
    for (struct libusb_context *it = process.contexts; it; it = it->next)
        unplug_in_flight(it);
    for (int i = 0; i < DEVICES; i++)
        process.bus.devices[i]->is_gone = true;
    process.bus.is_ending = true;
    work_to_end();
    process.bus.is_ending = false;
    for (struct libusb_context *it = process.contexts; it; it = it->next)
        end_flights(it);
}

/* Handles hold nothing any more, and are lost, since their devices are gone for good. What they asked for is kept, so that a release is
 * answered as where the device was pulled out. */
void outlive_bus(void)
{
    for (struct libusb_device_handle *it = process.handles; it; it = it->next)
        it->claimed = 0;
    for (struct libusb_context *it = process.contexts; it; it = it->next)
        take_devices(it);
}

/* Whoever handles events returns behind what there is to be called back: its wait was by the clock of another bus, or of none. */
void wake_all(void)
{
    for (struct libusb_context *it = process.contexts; it; it = it->next) {
        if (it->is_working)
            interrupt(it);
        wake(it);
    }
}

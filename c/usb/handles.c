/* Handles: devices are opened and closed, configured and reset (libusb 1.0, "Device handling and enumeration"). */
#include "bus.h"

#include <stdlib.h>

/* With the lock. */
static int open_device(struct libusb_device *device, struct libusb_device_handle *handle)
{
    if (device->is_past || !is_present(device->device))
        return LIBUSB_ERROR_NO_DEVICE;
    if (device->device->number == HUB)
        return LIBUSB_ERROR_ACCESS;
    handle->context = device->context;
    handle->number = ++process.bus.handle_count;
    handle->of = libusb_ref_device(device);
    handle->device = device->device;
    handle->next = process.handles;
    process.handles = handle;
    return 0;
}

int libusb_open(libusb_device *device, libusb_device_handle **out)
{
    struct libusb_device_handle *handle = calloc(1, sizeof *handle);
    if (!handle)
        return LIBUSB_ERROR_NO_MEM;
    if (!lock_unless_asked()) {
        free(handle);
        return LIBUSB_ERROR_BUSY;
    }
    random_steps();
    int r = open_device(device, handle);
    bool told = is_told(device->context, r);
    if (told)
        note_call(device->context, r, __func__, "device %d, handle %u", device->device->number, handle->number);
    unlock_behind(told);
    if (r)
        free(handle);
    else
        *out = handle;
    return r;
}

static void note_handle(struct libusb_device_handle *handle, int answer, const char *function)
{
    if (is_told(handle->context, answer))
        note_call(handle->context, answer, function, "handle %u", handle->number);
}

static bool has_numbers(const struct libusb_device *device, unsigned vendor, unsigned product)
{
    const uint8_t *it = device->device->descriptor;
    return two_bytes(it + 8) == vendor && two_bytes(it + 10) == product;
}

libusb_device_handle *libusb_open_device_with_vid_pid(libusb_context *context, uint16_t vendor, uint16_t product)
{
    libusb_device **list;
    libusb_device_handle *handle = NULL;
    if (libusb_get_device_list(context, &list) < 0)
        return NULL;
    for (size_t i = 0; list[i]; i++) {
        if (!has_numbers(list[i], vendor, product))
            continue;
        if (libusb_open(list[i], &handle))
            handle = NULL;
        break;
    }
    libusb_free_device_list(list, 1);
    return handle;
}

libusb_device *libusb_get_device(libusb_device_handle *handle)
{
    return handle->of;
}

static void leave_handles(struct libusb_device_handle *handle)
{
    struct libusb_device_handle **at = &process.handles;
    while (*at && *at != handle)
        at = &(*at)->next;
    if (*at)
        *at = handle->next;
}

/* A callback of the handle that runs is waited for. And a thread that is handling events calls back first what has ended or was cancelled,
 * as with libusb, whose close takes the event lock. It isn't waited for while it runs another callback, which may wait for this close. With
 * the lock. */
static void await_callbacks(struct libusb_device_handle *handle)
{
    struct libusb_context *context = handle->context;
    if (is_handler(context))
        return;
    if (context->is_working)
        reap_all();
    context->closers++;
    mind(context, CLOSED);
    while (context->calling == handle || (context->is_working && !context->is_calling && has_ended(handle)))
        wait_for_move(context);
    if (!--context->closers)
        forget_to_mind(context, CLOSED);
}

/* Where each call is looked at: whether it is closed already, or being closed, which is told. */
static bool is_closed_before(struct libusb_device_handle *handle)
{
    bool r = handle->is_closing;
    if (r && !is_dead(handle->context))
        tell_misuse("libusb_close on a handle that is being closed: handle %u", handle->number);
    else
        note_call(handle->context, 0, "libusb_close", "handle %u", handle->number);
    handle->is_closing = process.tells_misuse;
    return r;
}

/* New transfers are refused first; then what is in progress is dropped. */
void libusb_close(libusb_device_handle *handle)
{
    if (!handle)
        return;
    lock();
    struct libusb_context *context = handle->context;
    random_steps();
    if (is_told(context, 0) && is_closed_before(handle)) {
        unlock_alone();
        return;
    }
    handle->is_shut = true;
    await_callbacks(handle);
    withdraw(handle, -1, true);
    while (handle->claimed)
        unclaim(handle, __builtin_ctz(handle->claimed));
    leave_handles(handle);
    process.bus.stirs++;
    disturb(context);
    drop_device(handle->of);
    process.release_handle(handle);
    unlock();
}

int libusb_get_configuration(libusb_device_handle *handle, int *value)
{
    if (!lock_unless_asked())
        return LIBUSB_ERROR_BUSY;
    int r = is_lost(handle) ? LIBUSB_ERROR_NO_DEVICE : 0;
    if (!r)
        *value = handle->device->configuration;
    note_handle(handle, r, __func__);
    unlock();
    return r;
}

static int set_configuration(struct libusb_device_handle *handle, int value)
{
    struct device *device = handle->device;
    if (is_lost(handle))
        return LIBUSB_ERROR_NO_DEVICE;
    for (int i = 0; i < INTERFACES; i++)
        if (device->interfaces[i].holder || (device->interfaces[i].has_driver && !device->interfaces[i].is_detached))
            return LIBUSB_ERROR_BUSY;
    if (value > 0 && value != device->config[5])
        return LIBUSB_ERROR_NOT_FOUND;
    device->configuration = (uint8_t)(value > 0 ? value : 0);
    return 0;
}

int libusb_set_configuration(libusb_device_handle *handle, int value)
{
    if (value < -1 || value > UINT8_MAX)
        return LIBUSB_ERROR_INVALID_PARAM;
    if (!lock_unless_asked())
        return LIBUSB_ERROR_BUSY;
    int r = set_configuration(handle, value);
    if (is_told(handle->context, r))
        note_call(handle->context, r, __func__, "handle %u, value %d", handle->number, value);
    unlock();
    return r;
}

/* With a transfer in flight at the endpoint the core refuses it. A device stalls it for an endpoint that its setting doesn't have, which libusb
 * tells so (os/linux_usbfs.c, `op_clear_halt`). */
static int clear_halt(struct libusb_device_handle *handle, uint8_t ep)
{
    struct pipe *pipe = &handle->device->pipes[place_of(ep)];
    if (is_lost(handle))
        return LIBUSB_ERROR_NO_DEVICE;
    if (!pipe->kind)
        return LIBUSB_ERROR_NOT_FOUND;
    int r = claim_in_passing(handle, pipe->interface, NULL);
    if (r)
        return r;
    if (pipe->is_unset)
        return LIBUSB_ERROR_OTHER;
    settle_all();
    if (pipe->in_core || pipe->queue.first)
        return LIBUSB_ERROR_BUSY;
    r = core_call(pipe->core, TIRNOUCH_CLEAR_HALT, pipe->name, ep, 0);
    if (r)
        return r;
    pipe->is_halted = pipe->is_stopped = false;
    tell_device(handle->device, TIRNOUCH_EVENT_CLEARED, ep);
    return 0;
}

int libusb_clear_halt(libusb_device_handle *handle, unsigned char ep)
{
    if (!lock_unless_asked())
        return LIBUSB_ERROR_BUSY;
    random_steps();
    int r = clear_halt(handle, ep);
    if (is_told(handle->context, r))
        note_call(handle->context, r, __func__, "handle %u, endpoint %02x", handle->number, ep);
    unlock();
    return r;
}

static int make_all_new(struct device *device)
{
    int r = 0;
    for (int i = 0; i < INTERFACES && !r; i++)
        r = make_new(device, i);
    return r;
}

static int reset(struct libusb_device_handle *handle)
{
    struct device *device = handle->device;
    if (is_lost(handle))
        return LIBUSB_ERROR_NOT_FOUND;
    for (int i = 0; i < INTERFACES; i++)
        if (device->interfaces[i].holder && device->interfaces[i].holder != handle)
            return LIBUSB_ERROR_BUSY;
    withdraw(handle, -1, false);
    int r = device->is_living || device->lasts ? end_halts(device) : make_all_new(device);
    if (r)
        return r;
    for (int i = 0; i < INTERFACES; i++)
        if (device->interfaces[i].setting)
            use_setting(device, i, 0);
    tell_device(device, TIRNOUCH_EVENT_RESET, 0);
    stir(handle->context);
    return 0;
}

int libusb_reset_device(libusb_device_handle *handle)
{
    if (!lock_unless_asked())
        return LIBUSB_ERROR_BUSY;
    random_steps();
    int r = reset(handle);
    note_handle(handle, r, __func__);
    unlock();
    return r;
}

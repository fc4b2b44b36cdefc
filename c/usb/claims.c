/* Interfaces: who holds them, and drivers of the system that do (libusb 1.0, `libusb_claim_interface`).
 *
 * An interface that was ever claimed has a handle of the core of its own, which keeps it: so a program that claims it again goes on
 * where the device stands, unless its text says `anew`. What the program's handles hold is kept here. */
#include "bus.h"

/* Its endpoints know who has them, and how many answers there are, which stand at the beginning. */
static void learn_scripts(struct device *device, int interface)
{
    for (int i = 0; i < ENDPOINTS; i++) {
        struct pipe *pipe = &device->pipes[i];
        if (!pipe->kind || pipe->interface != interface)
            continue;
        pipe->name = device->interfaces[interface].name;
        pipe->script = core_rest(pipe).answers;
    }
}

/* The core's handle of this name holds the interface from now on. */
int name_interface(struct device *device, int interface, int name)
{
    struct core *core = device->core;
    int r = core_call(core, TIRNOUCH_OPEN, name, device->number_there, 0);
    if (r)
        return r;
    r = core_call(core, TIRNOUCH_CLAIM, name, (uint8_t)interface, 0);
    if (r) {
        core_call(core, TIRNOUCH_CLOSE, name, 0, 0);
        return r;
    }
    core->named[name] = true;
    device->interfaces[interface].name = name;
    learn_scripts(device, interface);
    return 0;
}

static int name_anew(struct device *device, int interface)
{
    for (int name = 0; name < NAMES; name++)
        if (!device->core->named[name])
            return name_interface(device, interface, name);
    return LIBUSB_ERROR_NO_MEM;
}

/* An interface is claimed: its device begins anew, where its text says so and it computes nothing. */
static int begin_interface(struct device *device, int interface)
{
    if (device->interfaces[interface].name < 0)
        return name_anew(device, interface);
    return device->begins_anew && !device->is_living ? make_new(device, interface) : 0;
}

/* The endpoints of an interface begin anew, with their scripts. Nothing of it is in progress. */
int make_new(struct device *device, int interface)
{
    int name = device->interfaces[interface].name;
    if (name < 0)
        return 0;
    int r = core_call(device->core, TIRNOUCH_RELEASE, name, (uint8_t)interface, 0);
    if (!r)
        r = core_call(device->core, TIRNOUCH_CLAIM, name, (uint8_t)interface, 0);
    for (int i = 0; !r && i < ENDPOINTS; i++) {
        struct pipe *pipe = &device->pipes[i];
        if (pipe->kind && pipe->interface == interface) {
            pipe->answers = pipe->naks = 0;
            pipe->gates_passed = 0;
            pipe->withdrawn = 0;
            pipe->is_halted = pipe->is_stopped = false;
            expect_anew(pipe);
        }
    }
    return r;
}

/* The bus ends: what nobody left open is released and closed in the core too. */
void give_back(struct device *device)
{
    for (int i = 0; i < INTERFACES; i++) {
        const struct interface *it = &device->interfaces[i];
        if (!it->is_there || it->name < 0 || it->is_left)
            continue;
        core_call(device->core, TIRNOUCH_RELEASE, it->name, (uint8_t)i, 0);
        core_call(device->core, TIRNOUCH_CLOSE, it->name, 0, 0);
    }
}

int claim(struct libusb_device_handle *handle, int interface)
{
    struct device *device = handle->device;
    struct interface *it = &device->interfaces[interface];
    if (is_lost(handle))
        return LIBUSB_ERROR_NO_DEVICE;
    if (handle->claimed >> interface & 1)
        return 0;
    if (!it->is_there || !device->configuration)
        return LIBUSB_ERROR_NOT_FOUND;
    bool is_driven = it->has_driver && !it->is_detached;
    if (it->holder || (is_driven && !handle->detaches))
        return LIBUSB_ERROR_BUSY;
    int r = begin_interface(device, interface);
    if (r)
        return r;
    it->is_detached |= is_driven;
    it->holder = handle;
    handle->claimed |= 1u << interface;
    tell_device(device, TIRNOUCH_EVENT_CLAIMED, interface);
    return 0;
}

int claim_unasked(struct libusb_device_handle *handle, int interface, const struct libusb_transfer *transfer)
{
    int r = claim(handle, interface);
    if (!r && transfer)
        tell_unclaimed(transfer, interface);
    if (!r)
        note(handle->context, LIBUSB_LOG_LEVEL_INFO, "interface %d is used before it is claimed: it is claimed", interface);
    return r;
}

/* Of the settings of an interface only the first one, 0, has endpoints here. */
void use_setting(struct device *device, int interface, int setting)
{
    device->interfaces[interface].setting = (uint8_t)setting;
    for (int i = 0; i < ENDPOINTS; i++)
        if (device->pipes[i].interface == interface)
            device->pipes[i].is_unset = setting;
}

/* Nothing of it is in progress. A driver of the system that was detached stays so: only a release by hand binds it again. The interface is
 * in setting 0 again, as Linux has it of one that is released (drivers/usb/core/driver.c, `usb_unbind_interface`). */
void unclaim(struct libusb_device_handle *handle, int interface)
{
    if (handle->device->interfaces[interface].setting)
        use_setting(handle->device, interface, 0);
    handle->device->interfaces[interface].holder = NULL;
    handle->claimed &= ~(1u << interface);
    handle->asked &= ~(1u << interface);
    tell_device(handle->device, TIRNOUCH_EVENT_RELEASED, interface);
}

/* Whether it is told. */
static inline bool note_interface(struct libusb_device_handle *handle, int interface, int answer, const char *function)
{
    bool told = is_told(handle->context, answer);
    if (told)
        note_call(handle->context, answer, function, "handle %u, interface %d", handle->number, interface);
    return told;
}

int libusb_claim_interface(libusb_device_handle *handle, int interface)
{
    if (interface < 0 || interface >= INTERFACES)
        return LIBUSB_ERROR_INVALID_PARAM;
    if (!lock_unless_asked())
        return LIBUSB_ERROR_BUSY;
    random_steps();
    int r = claim(handle, interface);
    if (!r)
        handle->asked |= 1u << interface;
    unlock_behind(note_interface(handle, interface, r, __func__));
    return r;
}

/* Where the bus ended the device has nothing to release, and nothing is in flight. */
static int release(struct libusb_device_handle *handle, int interface)
{
    uint32_t bit = 1u << interface;
    if (!(handle->asked & bit))
        return LIBUSB_ERROR_NOT_FOUND;
    if (handle->claimed & bit) {
        withdraw(handle, interface, false);
        unclaim(handle, interface);
        if (handle->detaches)
            handle->device->interfaces[interface].is_detached = false;
        stir(handle->context);
    }
    handle->asked &= ~bit;
    return is_lost(handle) ? LIBUSB_ERROR_NO_DEVICE : 0;
}

int libusb_release_interface(libusb_device_handle *handle, int interface)
{
    if (interface < 0 || interface >= INTERFACES)
        return LIBUSB_ERROR_INVALID_PARAM;
    if (!lock_unless_asked())
        return LIBUSB_ERROR_BUSY;
    random_steps();
    int r = release(handle, interface);
    unlock_behind(note_interface(handle, interface, r, __func__));
    return r;
}

/* The core has the endpoints of setting 0 alone. What is in flight at them is cancelled where they go. */
static int set_setting(struct libusb_device_handle *handle, int interface, int setting)
{
    struct device *device = handle->device;
    const uint8_t *config = device->config;
    if (is_lost(handle))
        return LIBUSB_ERROR_NO_DEVICE;
    if (!(handle->asked >> interface & 1))
        return LIBUSB_ERROR_NOT_FOUND;
    for (int at = config[0]; at + 4 < device->config_length && config[at] >= 2; at += config[at]) {
        const uint8_t *it = config + at;
        if (it[1] != LIBUSB_DT_INTERFACE || it[2] != interface || it[3] != setting)
            continue;
        if (setting && it[4])
            return LIBUSB_ERROR_NOT_SUPPORTED;
        if (setting)
            withdraw(handle, interface, false);
        use_setting(device, interface, setting);
        return 0;
    }
    return LIBUSB_ERROR_NOT_FOUND;
}

int libusb_set_interface_alt_setting(libusb_device_handle *handle, int interface, int setting)
{
    if (interface < 0 || interface >= INTERFACES || setting < 0 || setting > UINT8_MAX)
        return LIBUSB_ERROR_INVALID_PARAM;
    if (!lock_unless_asked())
        return LIBUSB_ERROR_BUSY;
    int r = set_setting(handle, interface, setting);
    if (is_told(handle->context, r))
        note_call(handle->context, r, __func__, "handle %u, interface %d, setting %d", handle->number, interface, setting);
    unlock();
    return r;
}

int libusb_kernel_driver_active(libusb_device_handle *handle, int interface)
{
    if (interface < 0 || interface >= INTERFACES)
        return LIBUSB_ERROR_INVALID_PARAM;
    if (!lock_unless_asked())
        return LIBUSB_ERROR_BUSY;
    const struct interface *it = &handle->device->interfaces[interface];
    int r = is_lost(handle) ? LIBUSB_ERROR_NO_DEVICE : it->has_driver && !it->is_detached;
    unlock_behind(note_interface(handle, interface, r, __func__));
    return r;
}

int libusb_detach_kernel_driver(libusb_device_handle *handle, int interface)
{
    int r = libusb_kernel_driver_active(handle, interface);
    if (r <= 0)
        return r ? r : LIBUSB_ERROR_NOT_FOUND;
    if (!lock_unless_asked())
        return LIBUSB_ERROR_BUSY;
    handle->device->interfaces[interface].is_detached = true;
    unlock_behind(note_interface(handle, interface, 0, __func__));
    return 0;
}

int libusb_attach_kernel_driver(libusb_device_handle *handle, int interface)
{
    int r = libusb_kernel_driver_active(handle, interface);
    if (r < 0)
        return r;
    if (!lock_unless_asked())
        return LIBUSB_ERROR_BUSY;
    struct interface *it = &handle->device->interfaces[interface];
    if (!it->has_driver)
        r = LIBUSB_ERROR_NOT_FOUND;
    else if (it->holder || !it->is_detached)
        r = LIBUSB_ERROR_BUSY;
    else
        r = it->is_detached = false;
    unlock_behind(note_interface(handle, interface, r, __func__));
    return r;
}

int libusb_set_auto_detach_kernel_driver(libusb_device_handle *handle, int enable)
{
    if (!lock_unless_asked())
        return LIBUSB_ERROR_BUSY;
    handle->detaches = enable;
    if (is_told(handle->context, 0))
        note_call(handle->context, 0, __func__, "handle %u, %d", handle->number, enable);
    unlock();
    return 0;
}

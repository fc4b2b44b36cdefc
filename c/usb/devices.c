/* Devices: their list, their place on the bus, references to them (libusb 1.0, "Device handling and enumeration"). */
#include "bus.h"

#include <stdlib.h>

/* Each device stands at a port of its own of one bus. Its root hub, which has address 1, stands at no port. */
#define BUS_NUMBER 1
#define FIRST_ADDRESS 2
#define LAST_ADDRESS 127
#define FIRST_PORT 1

static bool is_hub(const struct libusb_device *device)
{
    return device->device->number == HUB;
}

static bool is_taken(uint8_t address)
{
    for (int i = 0; i < DEVICES; i++)
        if (process.bus.devices[i]->address == address && !process.bus.devices[i]->is_gone)
            return true;
    return false;
}

/* The one behind that which was given last, and again from the first one on, but for those that are taken: as Linux has it. */
void give_address(struct device *device)
{
    uint8_t *last = &process.bus.last_address;
    do
        *last = *last < FIRST_ADDRESS - 1 || *last == LAST_ADDRESS ? FIRST_ADDRESS : *last + 1;
    while (is_taken(*last));
    device->address = *last;
}

/* The hub first, and then as the text has them. */
static ssize_t list_devices(struct libusb_context *context, libusb_device **all)
{
    ssize_t count = 0;
    if (!context->is_open || context->is_blind)
        return 0;
    all[count++] = libusb_ref_device(&context->hub);
    for (int i = 0; i < DEVICES; i++)
        if (context->devices[i] && is_present(context->devices[i]->device))
            all[count++] = libusb_ref_device(context->devices[i]);
    return count;
}

/* Where nobody has it yet. */
static void number_device(struct libusb_device *it)
{
    it->port = (uint8_t)(it->device->port + FIRST_PORT);
    it->address = it->device->address;
}

/* A device as a context has it, with the context's reference. NULL where memory is refused. */
static struct libusb_device *new_device(struct libusb_context *context, struct device *device)
{
    struct libusb_device *it = malloc(sizeof *it);
    if (!it)
        return NULL;
    *it = (struct libusb_device){ .context = context, .device = device, .references = 1 };
    number_device(it);
    device->holds++;
    context->holds++;
    return it;
}

/* While a device is being plugged in again: what each context is to have for it, in the order of contexts. */
static struct libusb_device **coming;

/* Before a device is plugged in again: each context has a new one for it ready. Where memory is refused none has: LIBUSB_ERROR_NO_MEM. */
int prepare_anew(struct device *device)
{
    size_t count = 0, made = 0;
    for (struct libusb_context *it = process.contexts; it; it = it->next)
        count++;
    coming = calloc(count + 1, sizeof *coming);
    if (!coming)
        return LIBUSB_ERROR_NO_MEM;
    for (struct libusb_context *it = process.contexts; it; it = it->next)
        made += (coming[made] = new_device(it, device)) != NULL;
    if (made == count)
        return 0;
    give_anew(device, NULL);
    return LIBUSB_ERROR_NO_MEM;
}

static void drop_past(struct libusb_device *it)
{
    it->is_past = true;
    drop_device(it);
}

/* What is ready takes the place of those of before, which are the program's alone then, at this port and with another address; or it goes,
 * where there is no port, since the device isn't plugged in. */
void give_anew(struct device *device, const int *port)
{
    for (size_t i = 0; !port && coming[i]; i++)
        drop_past(coming[i]);
    if (port) {
        device->port = *port;
        give_address(device);
        size_t i = 0;
        for (struct libusb_context *it = process.contexts; it; it = it->next) {
            struct libusb_device *old = it->devices[device->number];
            it->devices[device->number] = coming[i++];
            number_device(it->devices[device->number]);
            if (old)
                drop_past(old);
        }
    }
    free(coming);
    coming = NULL;
}

/* The port at which one that was hidden so far is plugged in. */
void stand_at(struct device *device, int port)
{
    device->port = port;
    for (struct libusb_context *it = process.contexts; it; it = it->next)
        if (it->devices[device->number])
            number_device(it->devices[device->number]);
}

/* A context has the devices of the bus that is there. Where memory is refused it has none: LIBUSB_ERROR_NO_MEM. */
int give_devices(struct libusb_context *context)
{
    if (!process.bus.is_there)
        return 0;
    for (int i = 0; i < DEVICES; i++) {
        struct device *device = process.bus.devices[i];
        if (!device->is_there)
            continue;
        context->devices[i] = new_device(context, device);
        if (!context->devices[i]) {
            take_devices(context);
            return LIBUSB_ERROR_NO_MEM;
        }
    }
    return 0;
}

/* Its bus ends, or it does: those that are referenced stay. */
void take_devices(struct libusb_context *context)
{
    for (int i = 0; i < DEVICES; i++) {
        struct libusb_device *it = context->devices[i];
        context->devices[i] = NULL;
        if (it)
            drop_device(it);
    }
}

/* One reference less, with the lock, since a context that has ended goes with the last of all references to its devices: of two threads
 * that drop one each, only the second may free it. Whether it was the last. One that its context has still was dropped once too often, and
 * stays. */
bool drop_device(struct libusb_device *device)
{
    struct libusb_context *context = device->context;
    if (__atomic_sub_fetch(&device->references, 1, __ATOMIC_ACQ_REL))
        return false;
    if (device == &context->hub) {
        release_context(context);
        return true;
    }
    if (context->devices[device->device->number] == device) {
        tell_unreferenced(device);
        __atomic_store_n(&device->references, 1, __ATOMIC_RELEASE);
        return false;
    }
    let_go_of_device(device->device);
    free(device);
    let_go_of(context);
    return true;
}

ssize_t libusb_get_device_list(libusb_context *context, libusb_device ***list)
{
    libusb_device **all = calloc(DEVICES + 2, sizeof *all);
    if (!all)
        return LIBUSB_ERROR_NO_MEM;
    if (!lock_unless_asked()) {
        free(all);
        return LIBUSB_ERROR_BUSY;
    }
    struct libusb_context *x = context_of(context);
    ssize_t count = list_devices(x, all);
    bool told = is_told(x, 0);
    if (told)
        note_call(x, (int)count, __func__, "devices");
    unlock_behind(told);
    *list = all;
    return count;
}

void libusb_free_device_list(libusb_device **list, int unreferences)
{
    for (size_t i = 0; list && unreferences && list[i]; i++)
        libusb_unref_device(list[i]);
    free(list);
}

libusb_device *libusb_ref_device(libusb_device *device)
{
    __atomic_add_fetch(&device->references, 1, __ATOMIC_ACQ_REL);
    return device;
}

void libusb_unref_device(libusb_device *device)
{
    if (!device)
        return;
    lock();
    drop_device(device);
    unlock_alone();
}

uint8_t libusb_get_bus_number(libusb_device *device)
{
    (void)device;
    return BUS_NUMBER;
}

uint8_t libusb_get_port_number(libusb_device *device)
{
    return device->port;
}

int libusb_get_port_numbers(libusb_device *device, uint8_t *numbers, int room)
{
    if (room <= 0)
        return LIBUSB_ERROR_INVALID_PARAM;
    if (is_hub(device))
        return 0;
    numbers[0] = libusb_get_port_number(device);
    return 1;
}

int libusb_get_port_path(libusb_context *context, libusb_device *device, uint8_t *path, uint8_t room)
{
    (void)context;
    return libusb_get_port_numbers(device, path, room);
}

libusb_device *libusb_get_parent(libusb_device *device)
{
    return is_hub(device) ? NULL : &device->context->hub;
}

uint8_t libusb_get_device_address(libusb_device *device)
{
    return device->address;
}

int libusb_get_device_speed(libusb_device *device)
{
    return device->device->speed;
}

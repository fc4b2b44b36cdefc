/* Interfaces: who holds them, drivers of the system, settings, configurations, and what is made new. */
#include "faked.h"

#include <errno.h>
#include <string.h>

static struct interface *interface_of(struct device *device, unsigned interface)
{
    if (!device->configuration || interface >= INTERFACES || !device->interfaces[interface].is_there)
        return NULL;
    return &device->interfaces[interface];
}

/* The interface that has an endpoint in some setting, which needn't be the one that is set (findintfep). */
int find_interface(const struct device *device, unsigned ep)
{
    if (ep & ~0x8fu)
        return -EINVAL;
    if (!device->configuration)
        return -ESRCH;
    for (int i = 0; i < device->endpoint_count; i++)
        if (device->endpoints[i].address == ep)
            return device->endpoints[i].interface;
    return -ENOENT;
}

/* claimintf */
int claim_interface(struct file *file, unsigned interface)
{
    if (interface >= INTERFACES)
        return -EINVAL;
    if (file->claimed & 1u << interface)
        return 0;
    struct interface *it = interface_of(file->device, interface);
    if (!it)
        return -ENOENT;
    if (it->holder || it->is_bound)
        return -EBUSY;
    it->holder = file;
    file->claimed |= 1u << interface;
    if (file->device->begins_anew)
        begin_scripts(file->device, (int)interface);
    return 0;
}

/* An interface that isn't claimed is claimed in passing (checkintf). */
int need_interface(struct file *file, unsigned interface)
{
    return file->device->configuration ? claim_interface(file, interface) : -EHOSTUNREACH;
}

/* What is in flight there ends as it does when a device leaves (usb_unbind_interface); so at setting 0 (usb_set_interface). */
static void unbind(struct device *device, unsigned interface)
{
    struct interface *it = &device->interfaces[interface];
    end_requests(device, NULL, (int)interface, -ESHUTDOWN);
    if (it->holder)
        it->holder->claimed &= ~(1u << interface);
    it->holder = NULL;
    it->setting = 0;
}

/* releaseintf */
int release_interface(struct file *file, unsigned interface)
{
    if (interface >= INTERFACES)
        return -EINVAL;
    if (!interface_of(file->device, interface))
        return -ENOENT;
    if (!(file->claimed & 1u << interface))
        return -EINVAL;
    unbind(file->device, interface);
    return 0;
}

/* proc_getdriver */
int driver_of(const struct file *file, struct usbdevfs_getdriver *asked)
{
    const struct interface *it = interface_of(file->device, asked->interface);
    if (!it || (!it->holder && !it->is_bound))
        return -ENODATA;
    strcpy(asked->driver, it->holder ? "usbfs" : "system");
    return 0;
}

/* USBDEVFS_DISCONNECT and USBDEVFS_CONNECT (proc_ioctl): the latter says how many drivers took the interface. */
int driver_command(struct file *file, const struct usbdevfs_ioctl *command)
{
    struct interface *it = interface_of(file->device, (unsigned)command->ifno);
    bool connects = command->ioctl_code == (int)USBDEVFS_CONNECT;
    if (!file->device->configuration)
        return -EHOSTUNREACH;
    if (!it)
        return -EINVAL;
    bool is_taken = it->holder || it->is_bound;
    if (connects) {
        it->is_bound |= it->has_driver && !is_taken;
        return is_taken ? -EBUSY : it->is_bound;
    }
    if (!is_taken)
        return -ENODATA;
    unbind(file->device, (unsigned)command->ifno);
    it->is_bound = false;
    return 0;
}

/* proc_disconnect_claim, as libusb asks for it: from any driver but usbfs. */
int claim_from_driver(struct file *file, const struct usbdevfs_disconnect_claim *asked)
{
    struct interface *it = interface_of(file->device, asked->interface);
    if (!it)
        return -EINVAL;
    if (it->holder)
        return -EBUSY;
    it->is_bound = false;
    return claim_interface(file, asked->interface);
}

/* A setting begins with no endpoint halted (USB 2.0, 9.1.1.5); so do those of all interfaces, for -1. */
void end_halts(struct device *device, int interface)
{
    for (int i = 0; i < device->endpoint_count; i++)
        if (interface < 0 || device->endpoints[i].interface == interface)
            device->pipes[place_of(device->endpoints[i].address)].is_halted = false;
}

/* proc_setintf */
int set_setting(struct file *file, const struct usbdevfs_setinterface *asked)
{
    int answer = need_interface(file, asked->interface);
    if (answer)
        return answer;
    struct interface *it = interface_of(file->device, asked->interface);
    if (asked->altsetting > 31 || !(it->settings & 1u << asked->altsetting))
        return -EINVAL;
    end_requests(file->device, file, (int)asked->interface, -ESHUTDOWN);
    it->setting = (uint8_t)asked->altsetting;
    end_halts(file->device, (int)asked->interface);
    return 0;
}

/* proc_setconfig */
int set_configuration(struct file *file, int value)
{
    struct device *device = file->device;
    for (unsigned i = 0; device->configuration && i < INTERFACES; i++)
        if (device->interfaces[i].holder || device->interfaces[i].is_bound)
            return -EBUSY;
    if (value > 0 && value != device->value)
        return -EINVAL;
    device->configuration = value > 0 ? value : 0;
    for (int i = 0; i < PLACES; i++)
        device->pipes[i].is_halted = false;
    return 0;
}

/* proc_clearhalt; what is in flight stays. The device stalls the request where its setting lacks the endpoint. */
int clear_halt(struct file *file, unsigned ep)
{
    int interface = find_interface(file->device, ep);
    int answer = interface < 0 ? interface : need_interface(file, (unsigned)interface);
    if (!answer && !find_endpoint(file->device, ep))
        return -EPIPE;
    if (!answer)
        file->device->pipes[place_of(ep)].is_halted = false;
    return answer;
}

/* Each interface loses who holds it (usb_reset_device), and the device begins anew. */
int reset_device(struct file *file)
{
    for (unsigned i = 0; i < INTERFACES; i++)
        if (file->device->interfaces[i].holder)
            unbind(file->device, i);
    if (file->device->lasts)
        end_halts(file->device, -1);
    else
        begin_scripts(file->device, -1);
    file->device->is_waking = false;
    return 0;
}

/* Which devices are there, at which ports and addresses. One that comes has the address behind the last that was given, as from Linux. */
#include "faked.h"

static unsigned last_address;

bool is_present(const struct device *device)
{
    return device->is_there && !device->is_hidden && !device->is_gone;
}

struct device *device_at_address(unsigned address)
{
    for (int i = 0; i < DEVICES; i++)
        if (is_present(&faked_devices[i]) && faked_devices[i].address == address)
            return &faked_devices[i];
    return NULL;
}

struct device *device_at_port(unsigned port)
{
    for (int i = 0; i < DEVICES; i++)
        if (is_present(&faked_devices[i]) && faked_devices[i].port == port)
            return &faked_devices[i];
    return NULL;
}

/* choose_devnum */
static unsigned next_address(void)
{
    do
        last_address = last_address < LAST_ADDRESS ? last_address + 1 : HUB_ADDRESS + 1;
    while (device_at_address(last_address));
    return last_address;
}

/* Of those that are there from the beginning. */
void give_addresses(void)
{
    last_address = HUB_ADDRESS;
    for (int i = 0; i < DEVICES; i++)
        if (is_present(&faked_devices[i]))
            faked_devices[i].address = next_address();
}

/* A device that was hidden arrives at its port. */
void show_device(struct device *device)
{
    device->address = next_address();
    device->is_hidden = false;
    tell_udev(device, true);
}

/* One that is gone comes back, or another in its place: it begins anew. */
void come_back(struct device *device)
{
    struct device *comes = device->becomes;
    comes->port = device->port;
    comes->configuration = comes->value;
    comes->is_waking = comes->is_leaving = comes->is_gone = false;
    comes->request_count = 0;
    for (int i = 0; i < INTERFACES; i++)
        comes->interfaces[i].is_bound = comes->interfaces[i].has_driver;
    begin_scripts(comes, -1);
    for (int i = 0; i < PLACES; i++)
        comes->pipes[i].taken_count = 0;
    show_device(comes);
}

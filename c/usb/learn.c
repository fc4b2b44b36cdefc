/* What a device's lines and descriptors say of it (USB 2.0, 9.6), as the bus begins. */
#include "bus.h"

#include <stdlib.h>
#include <string.h>

/* Its bus ends: it is gone, and what it was by its descriptors is left of it, as long as somebody holds it. */
void forget(struct device *device)
{
    for (unsigned i = 0; i < ENDPOINTS; i++)
        free(device->pipes[i].gates);
    forget_expected(device);
    end_own_core(device);
    free_program(device->program);
    free(device->requests);
    free(device->tallies);
    free_text(&device->text);
    memset(device->pipes, 0, sizeof device->pipes);
    device->core = NULL;
    device->program = NULL;
    device->requests = NULL;
    device->tallies = NULL;
    device->request_count = device->tally_count = 0;
    device->is_gone = true;
    let_go_of_device(device);
}

/* A hold of it is given back: the last one ends its memory. */
void let_go_of_device(struct device *device)
{
    if (--device->holds)
        return;
    free(device->config);
    free(device);
}

bool is_present(const struct device *device)
{
    return device->is_there && !device->is_hidden && !device->is_gone;
}

/* Its answers are looked at one by one, where it or all devices need that. */
void watch(struct device *device)
{
    bool is_watched = device->is_watched || process.bus.is_watched;
    for (int i = 0; i < ENDPOINTS; i++)
        device->pipes[i].is_watched = is_watched || device->pipes[i].is_judged;
}

/* Whether a handle's device is gone, or was plugged in anew since it was opened. */
bool is_lost(const struct libusb_device_handle *handle)
{
    return handle->device->is_gone || handle->is_lost;
}

/* The core has read the configuration: its interfaces, and the endpoints of their first settings. */
static void learn_interfaces(struct device *device)
{
    int number;
    for (size_t i = 0; (number = tirnouch_interface(&device->core->slot, device->number_there, i)) >= 0; i++)
        if (number < INTERFACES)
            device->interfaces[number].is_there = true;
    for (size_t i = 0; (number = tirnouch_driver(&device->core->slot, device->number_there, i)) >= 0; i++)
        if (number < INTERFACES)
            device->interfaces[number].has_driver = true;
}

static void learn_endpoints(struct device *device)
{
    struct tirnouch_endpoint found;
    for (unsigned i = 0; i < ENDPOINTS; i++)
        device->pipes[i] = (struct pipe){ .device = device, .core = device->core, .number = device->number_there, .name = -1,
                                          .ep = (uint8_t)(i / 2 + i % 2 * 128) };
    for (size_t i = 0; !tirnouch_endpoint(&device->core->slot, device->number_there, i, &found); i++) {
        struct pipe *pipe = &device->pipes[place_of(found.address)];
        if (found.interface >= INTERFACES)
            continue;
        pipe->kind = found.transfer_type;
        pipe->interface = found.interface;
        pipe->packet = found.packet_size;
        pipe->most = pipe->packet ? MOST_BYTES - MOST_BYTES % pipe->packet : MOST_BYTES;
    }
}

static int learn_config(struct device *device)
{
    uint8_t none[1] = { 0 };
    uint8_t number = device->number_there;
    int length = tirnouch_describe(&device->core->slot, number, LIBUSB_DT_CONFIG, 0, none, 0);
    if (length < LIBUSB_DT_CONFIG_SIZE)
        return LIBUSB_ERROR_OTHER;
    device->config = malloc((size_t)length);
    if (!device->config)
        return LIBUSB_ERROR_NO_MEM;
    device->config_length = tirnouch_describe(&device->core->slot, number, LIBUSB_DT_CONFIG, 0, device->config, (size_t)length);
    device->configuration = device->config[5];
    return 0;
}

/* Where a descriptor says several configurations, programs see the one that there is. */
static void learn_word_lines(struct device *device)
{
    struct tirnouch_device found;
    struct tirnouch_departure departure;
    uint8_t number = device->number_there;
    device->configurations = device->descriptor[17];
    device->descriptor[17] = 1;
    if (!tirnouch_device(&device->core->slot, number, &found)) {
        device->speed = found.speed;
        device->is_hidden = found.is_hidden;
        device->begins_anew = found.begins_anew;
        device->lasts = found.lasts;
        device->is_watched |= device->lasts;
    }
    if (!tirnouch_departure(&device->core->slot, number, 0, &departure)) {
        device->leaves = device->is_watched = true;
        device->leaves_ep = departure.endpoint;
        device->leaves_behind = departure.answers;
    }
}

int learn(struct device *device)
{
    if (tirnouch_describe(&device->core->slot, device->number_there, LIBUSB_DT_DEVICE, 0, device->descriptor, 18) != 18)
        return 0;
    device->is_there = true;
    learn_word_lines(device);
    int r = learn_config(device);
    if (r)
        return r;
    for (int i = 0; i < INTERFACES; i++)
        device->interfaces[i].name = -1;
    learn_interfaces(device);
    learn_endpoints(device);
    learn_living(device);
    r = learn_gates(device);
    watch(device);
    return r;
}

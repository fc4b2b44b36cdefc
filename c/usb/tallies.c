/* How often a device was asked for what its answers wait for (`after` in its text): each request that is meant there has a tally. They stand
 * by mask and bytes, so that a request finds its own, however many there are. */
#include "bus.h"

#include <stdlib.h>

/* A request's first six bytes are counted; which of its four fields are any makes so many masks. */
#define COUNTED 6
#define MASKS 16

static int by_meant(const void *one, const void *other)
{
    const struct meant a = ((const struct tally *)one)->meant, b = ((const struct tally *)other)->meant;
    if (a.mask != b.mask)
        return a.mask < b.mask ? -1 : 1;
    return (a.bytes > b.bytes) - (a.bytes < b.bytes);
}

static struct tally *tally_of(const struct device *device, struct meant meant)
{
    struct tally key = { .meant = meant };
    return device->tally_count ? bsearch(&key, device->tallies, device->tally_count, sizeof key, by_meant) : NULL;
}

/* The fields that aren't any; those that are have a bit of `enum tirnouch_any` each. */
static uint64_t mask_of(unsigned any)
{
    return (any & TIRNOUCH_ANY_TYPE ? 0 : 0xffu) | (any & TIRNOUCH_ANY_REQUEST ? 0 : 0xff00u) | (any & TIRNOUCH_ANY_VALUE ? 0 : 0xffff0000u) |
           (any & TIRNOUCH_ANY_INDEX ? 0 : (uint64_t)0xffff00000000);
}

struct meant meant_by(const struct tirnouch_gate *gate)
{
    uint64_t bytes = gate->request_type | (uint64_t)gate->request << 8 | (uint64_t)gate->value << 16 | (uint64_t)gate->index << 32;
    return (struct meant){ .mask = mask_of(gate->any), .bytes = bytes };
}

static size_t gates_of_requests(const struct device *device)
{
    size_t count = 0;
    for (unsigned i = 0; i < ENDPOINTS; i++)
        for (size_t at = 0; at < device->pipes[i].gate_count; at++)
            count += device->pipes[i].gates[at].is_of_requests;
    return count;
}

static void add_tallies(struct device *device, const struct pipe *pipe)
{
    for (size_t at = 0; at < pipe->gate_count; at++)
        if (pipe->gates[at].is_of_requests)
            device->tallies[device->tally_count++].meant = pipe->gates[at].meant;
}

/* Of those that are meant at several places one stays. */
static void merge(struct device *device)
{
    size_t kept = 0;
    qsort(device->tallies, device->tally_count, sizeof *device->tallies, by_meant);
    for (size_t at = 0; at < device->tally_count; at++)
        if (!at || by_meant(&device->tallies[at], &device->tallies[kept - 1]))
            device->tallies[kept++] = device->tallies[at];
    device->tally_count = kept;
}

/* A device whose gates are known has a tally for each request that is meant. */
int learn_tallies(struct device *device)
{
    size_t count = gates_of_requests(device);
    if (!count)
        return 0;
    device->tallies = calloc(count, sizeof *device->tallies);
    if (!device->tallies)
        return LIBUSB_ERROR_NO_MEM;
    for (unsigned i = 0; i < ENDPOINTS; i++)
        add_tallies(device, &device->pipes[i]);
    merge(device);
    return 0;
}

/* A request came. */
void tally_request(struct device *device, const uint8_t *setup)
{
    uint64_t bytes = 0;
    for (unsigned i = 0; i < COUNTED; i++)
        bytes |= (uint64_t)setup[i] << 8 * i;
    for (unsigned any = 0; device->tally_count && any < MASKS; any++) {
        uint64_t mask = mask_of(any);
        struct tally *tally = tally_of(device, (struct meant){ .mask = mask, .bytes = bytes & mask });
        if (tally)
            tally->came++;
    }
}

uint64_t tallied(const struct device *device, struct meant meant)
{
    const struct tally *tally = tally_of(device, meant);
    return tally ? tally->came : 0;
}

/* The device is as it was when the bus began. */
void tally_anew(struct device *device)
{
    for (size_t at = 0; at < device->tally_count; at++)
        device->tallies[at].came = 0;
}

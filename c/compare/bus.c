/* What goes over the bus: each device gives an endpoint's next answer to the first request that waits there, one packet at a time. */
#include "faked.h"

#include <errno.h>
#include <stdlib.h>
#include <string.h>

/* The endpoint of the setting that is set, or NULL. */
const struct endpoint *find_endpoint(const struct device *device, unsigned ep)
{
    for (int i = 0; i < device->endpoint_count; i++) {
        const struct endpoint *it = &device->endpoints[i];
        if (it->address == ep && device->configuration && device->interfaces[it->interface].setting == it->setting)
            return it;
    }
    return NULL;
}

/* The scripts of an interface's endpoints, of all for -1. */
void begin_scripts(struct device *device, int interface)
{
    for (int i = 0; i < device->endpoint_count; i++) {
        const struct endpoint *it = &device->endpoints[i];
        struct pipe *pipe = &device->pipes[place_of(it->address)];
        if (interface >= 0 && it->interface != interface)
            continue;
        pipe->script.next = pipe->withdrawn = 0;
        pipe->is_halted = false;
    }
}

static size_t requests_with(const struct device *device, const int fields[4])
{
    size_t count = 0;
    for (size_t i = 0; i < device->request_count && i < MOST_REQUESTS; i++)
        count += has_fields(device->requests[i], fields);
    return count;
}

/* How much came so far of what an `after` line waits for. */
static size_t came_for(const struct device *device, const struct gate *gate)
{
    const struct pipe *other = &device->pipes[place_of(gate->other)];
    if (gate->is_of_requests)
        return requests_with(device, gate->fields);
    if (!gate->other)
        return device->request_count;
    if (gate->other == gate->ep)
        return other->withdrawn;
    return gate->other & 0x80 ? other->script.next : other->taken_count;
}

/* Whether `after` lines let this endpoint answer now. */
static bool is_let(const struct device *device, unsigned ep)
{
    const struct pipe *pipe = &device->pipes[place_of(ep)];
    for (int i = 0; i < device->gate_count; i++) {
        const struct gate *it = &device->gates[i];
        if (it->ep == ep && pipe->script.next >= it->place && came_for(device, it) < it->count)
            return false;
    }
    return true;
}

static void keep_packet(struct pipe *pipe, const uint8_t *bytes, int length)
{
    pipe->taken = realloc(pipe->taken, (pipe->taken_count + 1) * sizeof *pipe->taken);
    uint8_t *copy = malloc((size_t)length + 1);
    if (!pipe->taken || !copy)
        abort();
    memcpy(copy, bytes, (size_t)length);
    pipe->taken[pipe->taken_count++] = (struct packet){ copy, length };
}

/* A packet from the device. One that is longer than an endpoint's packet, or than the room, is moved in no part. */
static void give(struct request *request, const struct endpoint *endpoint, const struct answer *answer)
{
    int room = request->length - request->moved;
    if (answer->length > room || answer->length > endpoint->packet) {
        end_request(request, -EOVERFLOW);
        return;
    }
    memcpy((uint8_t *)request->urb->buffer + request->moved, answer->bytes, (size_t)answer->length);
    request->moved += answer->length;
    bool is_whole = request->moved == request->length, forbids = request->urb->flags & USBDEVFS_URB_SHORT_NOT_OK;
    if (is_whole || answer->length < endpoint->packet)
        end_request(request, !is_whole && forbids ? -EREMOTEIO : 0);
}

/* A packet to the device. Behind whole ones comes an empty one where that was asked for, of bulk alone (xhci_urb_enqueue). */
static void take(struct request *request, const struct endpoint *endpoint, struct pipe *pipe)
{
    int left = request->length - request->moved, length = left < endpoint->packet ? left : endpoint->packet;
    bool adds = request->urb->flags & USBDEVFS_URB_ZERO_PACKET && endpoint->kind == 2 && request->length % endpoint->packet == 0;
    keep_packet(pipe, (const uint8_t *)request->urb->buffer + request->moved, length);
    request->moved += length;
    if (request->moved == request->length && (!adds || length == 0))
        end_request(request, 0);
}

static bool serve_packet(struct device *device, struct request *request)
{
    const struct endpoint *endpoint = find_endpoint(device, request->ep);
    struct pipe *pipe = &device->pipes[place_of(request->ep)];
    if (!endpoint)
        return false;
    if (pipe->is_halted) {
        end_request(request, -EPIPE);
        return true;
    }
    if (pipe->script.next >= pipe->script.count || !is_let(device, request->ep))
        return false;
    const struct answer *answer = &pipe->script.answers[pipe->script.next++];
    device->is_leaving |= device->leaves_ep == request->ep && pipe->script.next == device->leaves_behind;
    if (answer->kind == 'd')
        give(request, endpoint, answer);
    else if (answer->kind == 'a')
        take(request, endpoint, pipe);
    else if (answer->kind == 's')
        pipe->is_halted = true;
    else if (answer->kind == 'b')
        end_request(request, -EPROTO);
    return true;
}

/* A control request; `asks` where the device is to be asked again some time. */
static bool serve_control(struct device *device, struct request *request, bool *asks)
{
    uint8_t *setup = request->urb->buffer;
    size_t written = setup[0] & 0x80 ? 0 : request->length < 56 ? (size_t)request->length : 56;
    if (!request->is_asked && device->request_count < MOST_REQUESTS)
        memcpy(device->requests[device->request_count], setup, SETUP + written);
    device->request_count += !request->is_asked;
    request->is_asked = true;
    int answer = answer_request(device, setup, setup + SETUP, request->length);
    if (answer == TIRNOUCH_NOT_READY) {
        *asks = true;
        return false;
    }
    request->moved = answer > 0 ? answer : 0;
    end_request(request, answer >= 0 ? 0 : answer == BROKEN ? -EPROTO : -EPIPE);
    return true;
}

/* The first request of each endpoint of a device has one answer; whether there was one. */
static bool run_device(struct device *device, bool *asks)
{
    uint32_t passed = 0;
    bool any = false;
    for (struct request *it = device->pending, *next; it && !device->is_leaving; it = next) {
        uint32_t bit = 1u << place_of(it->ep);
        next = it->next;
        if (passed & bit)
            continue;
        passed |= bit;
        any |= it->ep ? serve_packet(device, it) : serve_control(device, it, asks);
    }
    if (device->is_leaving && !device->is_gone) {
        pull_device(device);
        if (device->becomes != device)
            come_back(device);
    }
    return any;
}

/* Until nothing goes on; whether some device is to be asked again. */
bool run_bus(void)
{
    bool asks = false, any = true;
    while (any) {
        any = asks = false;
        for (int i = 0; i < DEVICES; i++)
            if (is_present(&faked_devices[i]))
                any |= run_device(&faked_devices[i], &asks);
    }
    return asks;
}

/* Devices that compute their answers. Their packets are those of the scripted devices, and count on where the device is reset or plugged
 * in again: so none comes twice. A function is never asked while its device is out or its endpoint is halted, nor while another one is
 * asked. Functions are called with the library's lock held, and call nothing of it. */
#include "fuzz.h"

#include <string.h>

#define COMPUTED (DEVICES - SCRIPTED)
#define ENDS 3

struct end {
    int device;
    uint8_t ep;
    atomic_bool is_halted;
    atomic_uint given, lost; /* packets, and how many may have come to nobody */
};

static struct computed {
    struct end ends[ENDS];
    atomic_bool is_out;
    atomic_uint claimed;  /* a bit for each interface */
    atomic_int took;      /* packets since it was plugged in, and of the last one the length */
    atomic_int last_length;
} all[COMPUTED];

static atomic_bool is_asked;

static struct computed *computed_at(int device)
{
    return &all[device - SCRIPTED];
}

static struct end *end_at(int device, uint8_t ep)
{
    for (int i = 0; i < ENDS; i++)
        if (computed_at(device)->ends[i].ep == ep)
            return &computed_at(device)->ends[i];
    fail("device %d: it has no endpoint %02x", device, ep);
}

static void begin_answer(int device)
{
    if (atomic_exchange(&is_asked, true))
        fail("device %d is asked while a device is asked", device);
    if (atomic_load(&computed_at(device)->is_out))
        fail("device %d is asked while it is out", device);
}

static int end_answer(int answer)
{
    atomic_store(&is_asked, false);
    return answer;
}

/* Where a long transfer shall come through, all but packets is rare. */
static bool is_calm(const struct end *end)
{
    return has_long_writes(end->device) && end->ep != 0x83;
}

/* What there is in place of a packet; 0 for a packet. */
static int no_packet(struct end *end)
{
    switch (roll(is_calm(end) ? 40000 : 100)) {
    case 0:
        atomic_store(&end->is_halted, true);
        return TIRNOUCH_STALL;
    case 1: return TIRNOUCH_BROKEN;
    case 2: case 3: case 4: return TIRNOUCH_LATER(1 + roll(3));
    default: return roll(is_calm(end) ? 2000 : 6) ? 0 : TIRNOUCH_NOT_READY;
    }
}

static void begin_packet(const struct end *end, uint8_t ep)
{
    begin_answer(end->device);
    if (ep != end->ep)
        fail("device %d: the function of endpoint %02x is asked for %02x", end->device, end->ep, ep);
    if (atomic_load(&end->is_halted))
        fail("device %d: endpoint %02x is asked while it is halted", end->device, ep);
}

static int give(void *user, uint8_t ep, uint8_t *data, int length)
{
    struct end *end = user;
    unsigned char packet[PACKET];
    begin_packet(end, ep);
    unsigned index = atomic_load(&end->given);
    if (length < 0 || length > PACKET)
        fail("device %d, %02x: a packet of at most %d bytes", end->device, ep, length);
    int answer = index < MOST_PACKETS ? no_packet(end) : TIRNOUCH_NOT_READY;
    if (answer)
        return end_answer(answer);
    put_packet(packet, end->device, ep, index);
    answer = roll(is_calm(end) ? 40000 : 10) ? PACKET : PACKET / 2;
    memcpy(data, packet, (size_t)answer);
    atomic_store(&end->given, index + 1);
    return end_answer(answer);
}

static int take(void *user, uint8_t ep, uint8_t *data, int length)
{
    struct end *end = user;
    struct computed *it = computed_at(end->device);
    begin_packet(end, ep);
    if (length < 0 || length > PACKET)
        fail("device %d, %02x: a packet of %d bytes", end->device, ep, length);
    int answer = no_packet(end);
    if (answer)
        return end_answer(answer);
    count_packet(end->device, data, length);
    atomic_fetch_add(&it->took, 1);
    atomic_store(&it->last_length, length);
    return end_answer(roll(2) ? length : 0);
}

/* Requests are answered as those of the scripted devices; standard ones are the text's. */
static int answer_request(const uint8_t setup[8], uint8_t *data, int length)
{
    switch (roll(30)) {
    case 0: return TIRNOUCH_STALL;
    case 1: return TIRNOUCH_BROKEN;
    case 2: return TIRNOUCH_LATER(1 + roll(3));
    case 3: case 4: case 5: return TIRNOUCH_NOT_READY;
    }
    if (setup[0] == 0x40 && setup[1] == 2)
        return length;
    if (setup[0] != 0xc0 || setup[1] != 1)
        return TIRNOUCH_AS_TEXT;
    for (int i = 0; i < 8 && i < length; i++)
        data[i] = (uint8_t)(i + 1);
    return length < 8 ? length : 8;
}

static int answer_control(void *user, const uint8_t setup[8], uint8_t *data, int length)
{
    begin_answer((int)(intptr_t)user);
    if (length < 0 || length != (setup[6] | setup[7] << 8))
        fail("device %d: a request of %d bytes has room for %d", (int)(intptr_t)user, setup[6] | setup[7] << 8, length);
    return end_answer(answer_request(setup, data, length));
}

static void end_halts(struct computed *it)
{
    for (int i = 0; i < ENDS; i++)
        atomic_store(&it->ends[i].is_halted, false);
}

/* An interface belongs to one handle at a time. */
static void claim_one(struct computed *it, int number, bool is_claimed)
{
    if (number < 0 || number > 1)
        fail("device %d has no interface %d", it->ends[0].device, number);
    unsigned bit = 1u << number;
    unsigned before = is_claimed ? atomic_fetch_or(&it->claimed, bit) : atomic_fetch_and(&it->claimed, ~bit);
    if (!(before & bit) != is_claimed)
        fail("device %d: interface %d is %s twice", it->ends[0].device, number, is_claimed ? "claimed" : "released");
}

static void plug_one(struct computed *it, bool is_out)
{
    if (atomic_exchange(&it->is_out, is_out) == is_out)
        fail("device %d is %s twice", it->ends[0].device, is_out ? "pulled" : "plugged in");
    if (is_out)
        return;
    end_halts(it);
    atomic_store(&it->claimed, 0);
    atomic_store(&it->took, 0);
}

static void hear(void *user, enum tirnouch_event event, int number)
{
    struct computed *it = user;
    if (atomic_exchange(&is_asked, true))
        fail("device %d is told while a device is asked", it->ends[0].device);
    switch (event) {
    case TIRNOUCH_EVENT_CLAIMED: claim_one(it, number, true); break;
    case TIRNOUCH_EVENT_RELEASED: claim_one(it, number, false); break;
    case TIRNOUCH_EVENT_RESET: end_halts(it); break;
    case TIRNOUCH_EVENT_CLEARED: atomic_store(&end_at(it->ends[0].device, (uint8_t)number)->is_halted, false); break;
    case TIRNOUCH_EVENT_PLUGGED: plug_one(it, false); break;
    case TIRNOUCH_EVENT_PULLED: plug_one(it, true); break;
    default: fail("device %d: an event %d", it->ends[0].device, (int)event);
    }
    atomic_store(&is_asked, false);
}

void begin_living(void)
{
    for (int device = SCRIPTED; device < DEVICES; device++) {
        struct computed *it = computed_at(device);
        for (int i = 0; i < ENDS; i++) {
            struct end *end = &it->ends[i];
            end->device = device;
            end->ep = (uint8_t[]){ 0x81, 0x02, 0x83 }[i];
            if (tirnouch_on_packet(device, end->ep, end->ep & LIBUSB_ENDPOINT_IN ? give : take, end))
                fail("on_packet");
        }
        if (tirnouch_on_control(device, answer_control, (void *)(intptr_t)device) || tirnouch_on_event(device, hear, it))
            fail("on_control and on_event");
    }
}

void say_ready(void)
{
    int r = tirnouch_ready(SCRIPTED + (int)roll(COMPUTED));
    if (r)
        fail("ready: %s", libusb_error_name(r));
}

/* A transfer ends, and nobody knows whether so many packets of it came. */
void lose_packets(int device, uint8_t ep, unsigned count)
{
    if (device >= SCRIPTED && ep & LIBUSB_ENDPOINT_IN)
        atomic_fetch_add(&end_at(device, ep)->lost, count);
}

/* Each packet that was given came, but those of transfers that were dropped. */
static void check_given(const struct end *end)
{
    unsigned given = atomic_load(&end->given), these = came(end->device, end->ep);
    if (these > given || given - these > atomic_load(&end->lost))
        fail("device %d, %02x: %u packets were given, %u came, and at most %u are lost", end->device, end->ep, given, these,
             atomic_load(&end->lost));
}

/* The library says as many packets as were taken, since it was plugged in. Where many were read behind them, the last one isn't kept. */
static void check_took(struct computed *it)
{
    int device = it->ends[0].device, count = atomic_load(&it->took);
    int last = count ? tirnouch_took(device, 0x02, (size_t)count - 1, NULL, 0) : atomic_load(&it->last_length);
    int behind = tirnouch_took(device, 0x02, (size_t)count, NULL, 0);
    bool is_kept = last != -2 || !has_long_writes(device);
    if ((count && is_kept && last != atomic_load(&it->last_length)) || behind != -1)
        fail("device %d took %d packets: the last is said to be of %d bytes, and the one behind it of %d", device, count, last, behind);
}

void check_living(void)
{
    for (int i = 0; i < COMPUTED; i++) {
        check_given(end_at(SCRIPTED + i, 0x81));
        check_given(end_at(SCRIPTED + i, 0x83));
        check_took(&all[i]);
    }
}

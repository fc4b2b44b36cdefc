/* The devices, and their bytes. Each packet that a device gives has its index in it, so that a read shows which packets came, in which
 * order, and whether one came twice. Each packet that a device takes has the number of its transfer, and its place there. */
#include "fuzz.h"

#include <stdio.h>
#include <stdlib.h>
#include <string.h>

#define CONFIG "0902300002010080320904000002ff00000007058102080000070502020800000904010001ff0000000705830308000a"
#define ANSWERS 3000
/* The device that takes long writes has these for them, and no gates. */
#define LONG_ANSWERS 60000
#define GATE 20
#define SERIALS (1u << 18)
#define TEXT_BYTES (DEVICES * (2 * ANSWERS * 19 + ANSWERS * 2 + ANSWERS / GATE * 64 + 1024) + LONG_ANSWERS * 2)

/* Which packets of an endpoint came: 81 and 83. */
static atomic_uint seen[DEVICES][2][MOST_PACKETS / 32 + 1];
/* How many bytes a transfer is said to have written, and one more; 0 where nobody says so. */
static atomic_int written[SERIALS];
static unsigned char device_of[SERIALS];
static atomic_uint serials;
/* How many bytes of a write its device took, and which write a device took a packet of last, and one more. */
static atomic_int taken[SERIALS];
static atomic_uint last_taken[DEVICES];

static void put_four(unsigned char *at, uint32_t value)
{
    for (int i = 0; i < 4; i++)
        at[i] = (unsigned char)(value >> 8 * i);
}

static uint32_t get_four(const unsigned char *at)
{
    return (uint32_t)at[0] | (uint32_t)at[1] << 8 | (uint32_t)at[2] << 16 | (uint32_t)at[3] << 24;
}

void put_packet(unsigned char packet[PACKET], int device, int ep, uint32_t index)
{
    put_four(packet, index);
    packet[4] = (unsigned char)device;
    packet[5] = (unsigned char)ep;
    packet[6] = 0x5a;
    packet[7] = (unsigned char)index;
}

static size_t add_packet(char *out, int device, int ep, uint32_t index, int length)
{
    unsigned char packet[PACKET];
    size_t at = (size_t)sprintf(out, " d:");
    put_packet(packet, device, ep, index);
    for (int i = 0; i < length; i++)
        at += (size_t)sprintf(out + at, "%02x", packet[i]);
    return at;
}

static size_t add_reads(char *out, int device, int ep)
{
    size_t at = (size_t)sprintf(out, "script %d %02x", device, ep);
    uint32_t index = 0;
    for (int i = 0; i < ANSWERS; i++) {
        unsigned dice = roll(200);
        if (dice < 4)
            at += (size_t)sprintf(out + at, " %c", "nnsb"[dice]);
        else
            at += add_packet(out + at, device, ep, index++, dice < 20 ? PACKET / 2 : PACKET);
    }
    return at + (size_t)sprintf(out + at, "\n");
}

/* In a trace each packet is a line, so there are none. */
bool has_long_writes(int device)
{
    return has_long && (device == LONG || device == LONG_COMPUTED);
}

static size_t add_writes(char *out, int device)
{
    size_t at = (size_t)sprintf(out, "script %d 02", device);
    bool is_long = has_long_writes(device);
    for (int i = 0; i < (is_long ? LONG_ANSWERS : ANSWERS); i++)
        at += (size_t)sprintf(out + at, " %c", roll(is_long ? 5000 : 80) ? 'a' : "nns"[roll(3)]);
    return at + (size_t)sprintf(out + at, "\n");
}

/* Reads wait for writes and for requests, so that transfers stay in flight for a while. */
static size_t add_gates(char *out, int device)
{
    size_t at = 0;
    for (int place = GATE; place < ANSWERS; place += GATE) {
        at += (size_t)sprintf(out + at, "after %d 81 %d 02 %d\n", device, place, place / 2);
        at += (size_t)sprintf(out + at, "after %d 83 %d 00 %d\n", device, place, place / 4);
        if (!has_long_writes(device))
            at += (size_t)sprintf(out + at, "after %d 02 %d 00 %d\n", device, place, place / 4);
    }
    return at;
}

char *device_text(void)
{
    char *text = malloc(TEXT_BYTES);
    size_t at = 0;
    if (!text)
        fail("no memory");
    for (int i = 0; i < DEVICES; i++) {
        at += (size_t)sprintf(text + at, "device %d " CONFIG "\nids %d 1209 %04x\nstring %d 2 Fuzz\n", i, i, i, i);
        if (i >= SCRIPTED)
            continue;
        at += (size_t)sprintf(text + at, "control %d c0 01 * * d:0102030405060708\ncontrol %d 40 02 * * n a\n", i, i);
        at += add_reads(text + at, i, 0x81);
        at += add_reads(text + at, i, 0x83);
        at += add_writes(text + at, i);
        at += add_gates(text + at, i);
    }
    sprintf(text + at, "hidden %d\nhidden %d\ndriver 1 1\n", HIDDEN, ALSO_HIDDEN);
    return text;
}

/* The hub has a number too, behind those of the devices. */
int number_of(libusb_device *device)
{
    struct libusb_device_descriptor descriptor;
    if (libusb_get_device_descriptor(device, &descriptor))
        fail("no descriptor of a device");
    if (descriptor.bDeviceClass == LIBUSB_CLASS_HUB)
        return DEVICES;
    if (descriptor.idVendor != 0x1209 || descriptor.idProduct >= DEVICES)
        fail("a device %04x:%04x", descriptor.idVendor, descriptor.idProduct);
    return descriptor.idProduct;
}

static void see(int device, uint8_t ep, uint32_t index)
{
    if (index >= (device < SCRIPTED ? ANSWERS : MOST_PACKETS))
        fail("device %d, %02x: packet %u, which it doesn't have", device, ep, index);
    unsigned before = atomic_fetch_or(&seen[device][ep == 0x83][index / 32], 1u << index % 32);
    if (before >> index % 32 & 1 && device != RENEWED)
        fail("device %d, %02x: packet %u came twice", device, ep, index);
}

/* How many packets of an endpoint came. */
unsigned came(int device, uint8_t ep)
{
    unsigned count = 0;
    for (unsigned i = 0; i <= MOST_PACKETS / 32; i++)
        count += (unsigned)__builtin_popcount(atomic_load(&seen[device][ep == 0x83][i]));
    return count;
}

/* The packets of a read stand one behind the other; a short one ends it. */
void check_read(int device, uint8_t ep, const unsigned char *data, int length)
{
    uint32_t before = 0;
    for (int at = 0; at < length; at += PACKET) {
        int count = length - at < PACKET ? length - at : PACKET;
        uint32_t index = get_four(data + at);
        if (count != PACKET && count != PACKET / 2)
            fail("device %d, %02x: %d bytes were read", device, ep, length);
        if (count == PACKET && (data[at + 4] != device || data[at + 5] != ep || data[at + 6] != 0x5a || data[at + 7] != (index & 0xff)))
            fail("device %d, %02x: wrong bytes at %d of %d", device, ep, at, length);
        if (at && index != before + 1)
            fail("device %d, %02x: packet %u stands behind %u", device, ep, index, before);
        see(device, ep, index);
        before = index;
    }
}

/* The number of a transfer that writes. */
uint32_t fill_write(int device, unsigned char *data, int length)
{
    uint32_t serial = atomic_fetch_add(&serials, 1);
    if (serial >= SERIALS)
        fail("more writes than are counted");
    device_of[serial] = (unsigned char)device;
    for (int at = 0; at < length; at += PACKET) {
        unsigned char packet[PACKET] = { 0, 0, 0, 0, (unsigned char)(at / PACKET), (unsigned char)(at / PACKET >> 8), 0xa5, 0 };
        put_four(packet, serial);
        memcpy(data + at, packet, (size_t)(length - at < PACKET ? length - at : PACKET));
    }
    return serial;
}

/* A transfer has ended, and says so much of itself. */
void wrote(uint32_t serial, int length)
{
    if (atomic_exchange(&written[serial], length + 1))
        fail("write %u ended twice", serial);
}

/* A packet that a device took: in its place in its write, and no other write between two packets of one. */
void count_packet(int device, const unsigned char *packet, int length)
{
    if (!length)
        return; /* the end of a write of whole packets */
    uint32_t serial = length < 4 ? SERIALS : get_four(packet);
    if (serial >= SERIALS || device_of[serial] != device)
        fail("device %d took a packet of nobody's", device);
    int before = atomic_load(&taken[serial]), place = packet[4] | packet[5] << 8;
    if (atomic_load(&last_taken[device]) != serial + 1 && before)
        fail("device %d: packets of write %u and of %u are mixed", device, serial, atomic_load(&last_taken[device]) - 1);
    if (length > 4 && place * PACKET != before)
        fail("device %d: packet %d of write %u came where %d bytes were taken", device, place, serial, before);
    atomic_store(&taken[serial], before + length);
    atomic_store(&last_taken[device], serial + 1);
}

static void count_taken(int device)
{
    unsigned char packet[PACKET];
    int length;
    for (size_t i = 0; (length = tirnouch_took(device, 0x02, i, packet, sizeof packet)) >= 0; i++)
        count_packet(device, packet, length);
}

/* What the devices took is what the transfers said. Those that compute have counted it. */
void check_taken(void)
{
    for (int i = 0; i < SCRIPTED; i++)
        if (i != RENEWED)
            count_taken(i);
    uint32_t count = atomic_load(&serials);
    for (uint32_t i = 0; i < count; i++) {
        int said = atomic_load(&written[i]) - 1, took = atomic_load(&taken[i]);
        if (said >= 0 && device_of[i] != RENEWED && said != took)
            fail("write %u said that %d bytes went, and the device took %d", i, said, took);
    }
}

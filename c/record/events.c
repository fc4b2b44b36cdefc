/* Records of a capture: a submission, its end, its refusal (Linux, drivers/usb/mon/mon_bin.c; docs/FORMATS.md has the bytes). */
#include "record.h"

#include <errno.h>
#include <string.h>
#include <time.h>

enum {
    HEAD = 16,          /* a record's own head in a pcap file */
    EVENT = 64,         /* an event's, behind it */
    MOST_DATA = 262144, /* what an event has at most; a longer transfer is several events, as libusb makes several of it */
    NO_SETUP = '-',
    FLAG_SHORT_NOT_OK = 0x1,
    FLAG_ADD_ZERO_PACKET = 0x40,
    FLAG_IN = 0x200
};

uint32_t piece_count(uint32_t length)
{
    return length ? (length - 1) / MOST_DATA + 1 : 1;
}

static uint32_t least(uint32_t one, uint32_t other)
{
    return one < other ? one : other;
}

static void put(uint8_t *at, uint64_t value, int bytes)
{
    for (int i = 0; i < bytes; i++)
        at[i] = (uint8_t)(value >> 8 * i);
}

static uint8_t data_flag(char kind, uint8_t endpoint)
{
    if (kind == 'S')
        return endpoint & LIBUSB_ENDPOINT_IN ? '<' : 0;
    return kind == 'E' ? 'E' : endpoint & LIBUSB_ENDPOINT_IN ? 0 : '>';
}

static uint32_t linux_flags(const struct flight *flight, bool is_last)
{
    return (flight->flags & LIBUSB_TRANSFER_SHORT_NOT_OK ? FLAG_SHORT_NOT_OK : 0) |
           (is_last && flight->flags & LIBUSB_TRANSFER_ADD_ZERO_PACKET ? FLAG_ADD_ZERO_PACKET : 0) |
           (flight->endpoint & LIBUSB_ENDPOINT_IN ? FLAG_IN : 0);
}

/* One event: `at` is its piece, `length` what that asks for or moved, and the data are what is kept of it. */
struct event {
    char kind;
    uint32_t at;
    int status;
    uint32_t length;
    const uint8_t *setup, *data;
    uint32_t kept;
};

static void write_event(const struct flight *flight, const struct event *it)
{
    uint8_t bytes[HEAD + EVENT] = { 0 }, *event = bytes + HEAD;
    struct timespec now;
    clock_gettime(CLOCK_REALTIME, &now);
    put(bytes, (uint64_t)now.tv_sec, 4);
    put(bytes + 4, (uint64_t)now.tv_nsec / 1000, 4);
    put(bytes + 8, EVENT + it->kept, 4);
    put(bytes + 12, EVENT + it->kept, 4);
    put(event, flight->id + it->at, 8);
    event[8] = (uint8_t)it->kind;
    event[9] = (uint8_t)flight->type;
    event[10] = flight->endpoint;
    event[11] = flight->device;
    put(event + 12, flight->bus, 2);
    event[14] = it->setup ? 0 : NO_SETUP;
    event[15] = data_flag(it->kind, flight->endpoint);
    put(event + 16, (uint64_t)now.tv_sec, 8);
    put(event + 24, (uint64_t)now.tv_nsec / 1000, 4);
    put(event + 28, (uint64_t)(int64_t)it->status, 4);
    put(event + 32, it->length, 4);
    put(event + 36, it->kept, 4);
    if (it->setup)
        memcpy(event + 40, it->setup, LIBUSB_CONTROL_SETUP_SIZE);
    put(event + 56, linux_flags(flight, it->at + 1 == piece_count(flight->length)), 4);
    write_record(bytes, sizeof bytes, it->data, it->kept);
}

/* What one piece of a flight asks for. */
static uint32_t piece_length(const struct flight *flight, uint32_t at)
{
    return least(flight->length - at * MOST_DATA, MOST_DATA);
}

void record_submission(const struct flight *flight, const uint8_t *setup, const uint8_t *data)
{
    for (uint32_t at = 0; at < piece_count(flight->length); at++) {
        struct event event = { .kind = 'S', .at = at, .status = -EINPROGRESS, .length = piece_length(flight, at), .setup = setup };
        if (!(flight->endpoint & LIBUSB_ENDPOINT_IN) && event.length) {
            event.kept = event.length;
            event.data = data + (size_t)at * MOST_DATA;
        }
        write_event(flight, &event);
    }
}

/* The pieces before the one in which it ended moved whole; those behind it were withdrawn. */
void record_end(const struct flight *flight, int status, uint32_t moved, const uint8_t *data)
{
    uint32_t count = piece_count(flight->length);
    bool has_ended = false;
    for (uint32_t at = 0; at < count; at++) {
        uint32_t whole = piece_length(flight, at), before = least(at * MOST_DATA, moved);
        struct event event = { .kind = 'C', .at = at, .length = least(moved - before, whole) };
        bool is_end = !has_ended && (event.length < whole || at + 1 == count);
        event.status = has_ended ? -ENOENT : is_end ? status : 0;
        has_ended = has_ended || is_end;
        if (flight->endpoint & LIBUSB_ENDPOINT_IN && event.length) {
            event.kept = event.length;
            event.data = data + before;
        }
        write_event(flight, &event);
    }
}

void record_refusal(const struct flight *flight, int status)
{
    for (uint32_t at = 0; at < piece_count(flight->length); at++)
        write_event(flight, &(struct event){ .kind = 'E', .at = at, .status = status });
}

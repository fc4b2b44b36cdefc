/* What a driver wrote is compared with what the text of its device expects. */
#include "bus.h"

#include <inttypes.h>
#include <stdio.h>
#include <string.h>

/* How many bytes are shown before the one that differs, and behind it. */
#define AROUND 16

static const uint8_t *bytes_of(const struct judged *judged, const struct expected *it)
{
    return (const uint8_t *)judged->bytes.at + it->at;
}

/* The bytes around this one, which is marked; where they end before it, their end is. */
static void say_bytes(struct sentence *it, const uint8_t *bytes, int length, int marked)
{
    int first = marked > AROUND ? marked - AROUND : 0, end = length - marked > AROUND + 1 ? marked + AROUND + 1 : length;
    if (first)
        append(it, "..");
    for (int i = first; i < end; i++)
        append(it, i == marked ? "[%02x]" : "%02x", bytes[i]);
    if (marked >= length)
        append(it, "[]");
    else if (!length)
        append(it, "nothing");
    if (end < length)
        append(it, "..");
}

static void say_expected(struct sentence *it, const struct judged *judged, const struct expected *expected, int marked)
{
    append(it, "expected ");
    say_bytes(it, bytes_of(judged, expected), expected->length, marked);
    append(it, expected->goes_on ? "* (length %d or more)" : " (length %d)", expected->length);
}

/* The first byte that differs, or the end of the shorter one; -1 where what came is as expected. */
static int first_difference(const struct judged *judged, const struct expected *it, const uint8_t *data, int length)
{
    const uint8_t *bytes = bytes_of(judged, it);
    int i = 0;
    while (i < it->length && i < length && bytes[i] == data[i])
        i++;
    return i == it->length && (i == length || it->goes_on) ? -1 : i;
}

static void say_endpoint(struct sentence *it, const struct pipe *pipe)
{
    append(it, "device %d, endpoint %02x: ", pipe->device->number, pipe->ep);
}

static void say_request(struct sentence *it, const struct device *device, const struct judged *judged)
{
    append(it, "device %d, requests", device->number);
    for (int i = 0; i < 4; i++)
        if (judged->fields[i] < 0)
            append(it, " *");
        else
            append(it, " %0*x", i < 2 ? 2 : 4, (unsigned)judged->fields[i]);
    append(it, ": ");
}

/* Behind who it is: what came. */
static void compare(struct sentence *it, const struct judged *judged, const struct expected *expected, const uint8_t *data, int length,
                    int at)
{
    append(it, "differs at offset %d: came ", at);
    say_bytes(it, data, length, at);
    append(it, " (length %d), ", length);
    say_expected(it, judged, expected, at);
}

static void judge_packet(const struct pipe *pipe, struct expected *expected, const uint8_t *data, int length)
{
    const struct judged *judged = expected_at(pipe);
    expected->came = true;
    int at = expected->length < 0 ? -1 : first_difference(judged, expected, data, length);
    if (at < 0)
        return;
    struct sentence it = { 0 };
    say_endpoint(&it, pipe);
    append(&it, "packet %" PRIu64 " ", judged->place + 1);
    compare(&it, judged, expected, data, length, at);
    tell_difference(pipe->device, &it);
}

/* A packet that waits where the script takes none any more, and nobody is asked. */
void judge_end(struct pipe *pipe)
{
    uint8_t data[MOST_PACKET];
    struct judged *judged = expected_at(pipe);
    struct tirnouch_offer next = { 0 };
    if (judged->is_past || judged->place < judged->count || pipe->is_asked || pipe->device->is_gone)
        return;
    tirnouch_offer(&pipe->core->slot, pipe->number, pipe->ep, data, MOST_PACKET, &next);
    if (!next.is_asked)
        return;
    judged->is_past = true;
    struct sentence it = { 0 };
    say_endpoint(&it, pipe);
    append(&it, "packet %" PRIu64 " is more than the script takes, and waits: came ", judged->place + 1);
    say_bytes(&it, data, (int)next.length, -1);
    append(&it, " (length %d)", (int)next.length);
    if (!tell_difference(pipe->device, &it))
        judged->untold = judged->place + 1;
}

/* The packets that came at an endpoint since it was looked at last. */
void judge(struct pipe *pipe)
{
    uint8_t data[MOST_PACKET];
    struct judged *judged = expected_at(pipe);
    while (judged->place < judged->count) {
        size_t index = (size_t)(judged->place - pipe->took);
        int length = tirnouch_taken(&pipe->core->slot, pipe->number, pipe->ep, index, data, sizeof data);
        if (length < 0)
            return;
        judge_packet(pipe, &judged->all[judged->place], data, length);
        judged->place++;
    }
    judge_end(pipe);
}

static bool fits(const struct judged *judged, const uint8_t *setup)
{
    const int said[4] = { setup[0], setup[1], (int)two_bytes(setup + 2), (int)two_bytes(setup + 4) };
    for (int i = 0; i < 4; i++)
        if (judged->fields[i] >= 0 && judged->fields[i] != said[i])
            return false;
    return true;
}

/* A request that the core was asked: the first line that it fits answers it, in order, and the last answer stays. */
void judge_request(struct device *device, const uint8_t *setup, const uint8_t *data)
{
    struct judged *judged = device->judged;
    while (judged && !fits(judged, setup))
        judged = judged->next;
    if (!judged)
        return;
    uint64_t place = judged->place++;
    struct expected *expected = &judged->all[place < judged->count ? place : judged->count - 1];
    int length = (int)two_bytes(setup + 6);
    expected->came = true;
    int at = expected->length < 0 ? -1 : first_difference(judged, expected, data, length);
    if (at < 0)
        return;
    struct sentence it = { 0 };
    say_request(&it, device, judged);
    append(&it, "request %" PRIu64 " ", place + 1);
    compare(&it, judged, expected, data, length, at);
    tell_difference(device, &it);
}

/* The script begins anew. */
void expect_anew(struct pipe *pipe)
{
    if (!pipe->is_judged)
        return;
    expected_at(pipe)->place = 0;
    expected_at(pipe)->is_past = false;
}

void expect_requests_anew(struct device *device)
{
    for (struct judged *it = device->judged; it; it = it->next)
        it->place = 0;
}

static const struct expected *first_missing(const struct judged *judged, uint64_t *count)
{
    const struct expected *first = NULL;
    *count = 0;
    for (size_t i = 0; i < judged->count; i++) {
        if (judged->all[i].came || judged->all[i].length < 0)
            continue;
        first = first ? first : &judged->all[i];
        ++*count;
    }
    return first;
}

/* What hasn't come, behind who it is; how often. */
static uint64_t say_what_is_missing(struct sentence *it, const struct judged *judged, const char *what)
{
    uint64_t count;
    const struct expected *first = first_missing(judged, &count);
    if (!first)
        return 0;
    append(it, "%" PRIu64 " expected %s%s never came; the first is %s %zu: ", count, what, plural(count), what,
        (size_t)(first - judged->all) + 1);
    say_expected(it, judged, first, -1);
    return count;
}

static void each_missing_packet(const struct device *device, missing_fn *say, void *to)
{
    for (int i = 0; i < ENDPOINTS; i++) {
        const struct pipe *pipe = &device->pipes[i];
        struct sentence more = { 0 }, missing = { 0 };
        if (!device->packets[i])
            continue;
        say_endpoint(&more, pipe);
        say_endpoint(&missing, pipe);
        append(&more, "packet %" PRIu64 " was more than the script takes", device->packets[i]->untold);
        if (device->packets[i]->untold)                       /* it was only counted when it came */
            say(to, device, &more, 0);
        uint64_t count = say_what_is_missing(&missing, device->packets[i], "packet");
        if (count)
            say(to, device, &missing, count);
    }
}

/* What of a device's expectations hasn't come so far, a sentence each. */
void each_missing(const struct device *device, missing_fn *say, void *to)
{
    each_missing_packet(device, say, to);
    for (const struct judged *judged = device->judged; judged; judged = judged->next) {
        struct sentence it = { 0 };
        say_request(&it, device, judged);
        uint64_t count = say_what_is_missing(&it, judged, "request");
        if (count)
            say(to, device, &it, count);
    }
}

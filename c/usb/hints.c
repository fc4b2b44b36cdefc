/* What helps to see why a run failed: at a limit, and at the end of a run that tools/tirnouch-run has judged. The library doesn't know the
 * program's status, so a hint goes to the file of TIRNOUCH_DIFFERENCES as a line `hint`; whoever reads it shows it where the run failed. */
#include "bus.h"

#include <inttypes.h>
#include <stdarg.h>
#include <stdio.h>
#include <stdlib.h>
#include <string.h>
#include <unistd.h>

/* How many are told of a process. */
#define MOST_HINTS 16
/* An endpoint of so many answers has one that stays. */
#define MOST_ANSWERS 65536
#define FIRST_ANSWER 3

static struct {
    size_t count;
    struct sentence all[MOST_HINTS];
    pid_t process;                    /* that is told of at its end; 0 for none */
} hints;

/* Each once. */
static void hint(const struct sentence *it)
{
    for (size_t i = 0; i < hints.count; i++)
        if (!strcmp(hints.all[i].text, it->text))
            return;
    if (hints.count == MOST_HINTS)
        return;
    hints.all[hints.count++] = *it;
    write_down("hint ", it->text);
}

/* How many answers a word of a script stands for, and of how many bytes each is; -1 where it is no packet. */
static uint64_t answers_of(const char *word, int length, int *bytes)
{
    const char *star = memchr(word, '*', (size_t)length);
    int shown = star ? (int)(star - word) : length;
    *bytes = shown >= 2 && !memcmp(word, "d:", 2) ? (shown - 2) / 2 : -1;
    return star ? strtoull(star + 1, NULL, 10) : 1;
}

/* Of how many bytes the answer in this place of a script's line is; -1 where it can't be told. */
static int bytes_at(const struct line *line, uint64_t place)
{
    int length, bytes = -1;
    for (uint32_t i = FIRST_ANSWER;; i++) {
        const char *word = word_of(line->at, (int)line->length, i, &length);
        if (!length || (length == 2 && !memcmp(word, "..", 2)))
            return length ? bytes : -1;
        uint64_t count = answers_of(word, length, &bytes);
        if (place < count)
            return bytes;
        place -= count;
    }
}

/* The line `script` of an endpoint, in the text as it was written, with the bytes of files. */
static bool find_script(const struct pipe *pipe, struct line *line)
{
    char beginning[24];
    struct text left = process.bus.text;
    snprintf(beginning, sizeof beginning, "script %d %02x ", pipe->device->number, pipe->ep);
    *line = (struct line){ .number = 0 };
    while (next_line(&left, line))
        if (line->length > strlen(beginning) && !strncasecmp(line->at, beginning, strlen(beginning)))
            return true;
    return false;
}

/* A packet was longer than the room that was left. The answer was the last one that its endpoint gave, where nothing else is in flight
 * there; that of a function is told without its length. */
void hint_at_overflow(const struct transfer *transfer, int moved)
{
    const struct pipe *pipe = transfer->pipe;
    const struct libusb_transfer *shown = public_of((struct transfer *)transfer);
    struct sentence it = { 0 };
    struct line line;
    uint64_t left = core_rest(pipe).answers;
    int bytes = -1;
    if (!pipe->in_core && !pipe->is_asked && left < pipe->script && find_script(pipe, &line))
        bytes = bytes_at(&line, pipe->script - left - 1);
    append(&it, "device %d: a packet", pipe->device->number);
    if (bytes >= 0)
        append(&it, " of %d byte%s", bytes, plural((uint64_t)bytes));
    append(&it, " at %02x came into room for %d (OVERFLOW): packets there have at most %u bytes, so read a multiple of that", pipe->ep,
           shown->length - moved, pipe->packet);
    hint(&it);
}

/* The endpoint isn't there: NOT_FOUND. */
int hint_at_no_endpoint(const struct device *device, uint8_t ep)
{
    struct sentence it = { 0 };
    const char *between = "";
    append(&it, "device %d has no endpoint %02x for bulk or interrupt transfers: it has ", device->number, ep);
    for (int i = 0; i < ENDPOINTS; i++) {
        const struct pipe *pipe = &device->pipes[i];
        if (!pipe->kind)
            continue;
        append(&it, "%s%02x (%s)", between, pipe->ep, pipe->kind == LIBUSB_TRANSFER_TYPE_BULK ? "bulk" : "interrupt");
        between = ", ";
    }
    if (!*between)
        append(&it, "none");
    hint(&it);
    return LIBUSB_ERROR_NOT_FOUND;
}

/* What nobody read so far, at the endpoints of interfaces that were claimed. */
static void hint_at_unread(const struct device *device)
{
    for (int i = 0; i < ENDPOINTS; i++) {
        const struct pipe *pipe = &device->pipes[i];
        struct sentence it = { 0 };
        if (!pipe->kind || pipe->name < 0 || !is_in(pipe->ep) || pipe->script >= MOST_ANSWERS)
            continue;
        uint32_t left = core_rest(pipe).answers;
        append(&it, "device %d: %02x has %" PRIu32 " answer%s left of %" PRIu32 ", which nobody read", device->number, pipe->ep, left,
               plural(left), pipe->script);
        if (left)
            hint(&it);
    }
}

/* The bus ends, or its process, or the limit is over. */
void hint_at_end(void)
{
    for (int i = 0; process.bus.is_there && i < DEVICES; i++)
        if (is_present(process.bus.devices[i]))
            hint_at_unread(process.bus.devices[i]);
}

/* Without a file they are the limit's alone. */
void write_hints(int file)
{
    hint_at_end();
    for (size_t i = 0; i < hints.count; i++)
        dprintf(file, "libusb:   %s\n", hints.all[i].text);
}

/* A thread may be in a call for ever; and a child of fork has no such end. */
static void hint_at_exit(void)
{
    if (hints.process != getpid() || pthread_mutex_trylock(&process.lock))
        return;
    hint_at_end();
    unlock_alone();
}

/* Once, with the first bus, where there is such a file. */
void begin_hints(void)
{
    const char *name = hints.process ? NULL : getenv("TIRNOUCH_DIFFERENCES");
    if (name && *name && !atexit(hint_at_exit))
        hints.process = getpid();
}

/* The steps that the core made, as a scenario's text, for `usbtrace run`; behind a step's line what it was answered, as a comment.
 *
 * Each step is written out as soon as it is whole, so that a run that is ended by abort, by _exit or by a signal leaves all that it did. A
 * trace that can't be written any more ends with a sentence on standard error, and the run goes on.
 *
 * Each session of a core has a file. The second bus of a process has names that end in .2, and so on; a device's own core has one that ends
 * in .d and the device's number, and its second session .2 behind that. The same is kept in memory, where that is asked for (kept.c). */
#include "bus.h"

#include <errno.h>
#include <fcntl.h>
#include <stdarg.h>
#include <stdio.h>
#include <stdlib.h>
#include <string.h>
#include <unistd.h>

/* What isn't written yet, and of which core it is. */
static struct {
    struct core *core;
    size_t length;
    char text[8192];
} out;

static void close_file(struct core *core)
{
    if (core->trace >= 0)
        close(core->trace);
    core->trace = -1;
}

static void give_up(void)
{
    tell_failure("TIRNOUCH_TRACE: the trace can't be written on: %s", strerror(errno));
    close_file(out.core);
}

/* What follows is of this core. */
void trace_to(struct core *core)
{
    out.core = core;
}

void trace_out(void)
{
    if (out.core->kept)
        keep_text(out.core->kept, out.text, out.length);
    for (size_t done = 0; out.core->trace >= 0 && done < out.length;) {
        ssize_t count = write(out.core->trace, out.text + done, out.length - done);
        if (count < 0 && errno != EINTR)
            give_up();
        else if (count > 0)
            done += (size_t)count;
    }
    out.length = 0;
}

static void put(const char *text, size_t length)
{
    while (length) {
        size_t room = sizeof out.text - out.length, part = length < room ? length : room;
        memcpy(out.text + out.length, text, part);
        out.length += part;
        text += part;
        length -= part;
        if (out.length == sizeof out.text)
            trace_out();
    }
}

void trace_text(const char *text)
{
    put(text, strlen(text));
}

void trace_number(uint64_t number)
{
    char digits[20];
    size_t at = sizeof digits;
    do
        digits[--at] = (char)('0' + number % 10);
    while (number /= 10);
    put(digits + at, sizeof digits - at);
}

/* Two digits a byte; - where there is none. */
void trace_hex(const uint8_t *bytes, int count)
{
    static const char digits[] = "0123456789abcdef";
    if (!count)
        put("-", 1);
    for (int i = 0; i < count; i++) {
        if (sizeof out.text - out.length < 2)
            trace_out();
        out.text[out.length++] = digits[bytes[i] >> 4];
        out.text[out.length++] = digits[bytes[i] & 15];
    }
}

/* A line that says something beside the steps. */
void trace_comment(struct core *core, const char *format, ...)
{
    char line[1024];
    va_list rest;
    if (!process.bus.is_traced)
        return;
    trace_to(core);
    va_start(rest, format);
    vsnprintf(line, sizeof line, format, rest);
    va_end(rest);
    trace_text("# ");
    trace_text(line);
    trace_text("\n");
    trace_out();
}

/* Whether a scenario has such a line too. */
static bool is_of_scenario(const struct line *line)
{
    return begins(line, "device ") || begins(line, "script ");
}

/* Whether a line says what its device is, beside its descriptors: not how it answers, which the steps show. */
static bool is_of_identity(const struct line *line)
{
    static const char *const words[] = { "string ", "speed ", "driver ", "hidden ", "lasts ", "leaves " };
    for (size_t i = 0; i < sizeof words / sizeof *words; i++)
        if (begins(line, words[i]))
            return true;
    return false;
}

/* The device descriptor that a `device` line and those behind it make. */
static void trace_descriptor(struct core *core, const struct line *line)
{
    uint8_t bytes[LIBUSB_DT_DEVICE_SIZE];
    int number = device_of_line(line);
    int length = number < 0 ? 0 : tirnouch_describe(&core->slot, (uint8_t)number, LIBUSB_DT_DEVICE, 0, bytes, sizeof bytes);
    if (length != sizeof bytes)
        return;
    trace_text("# descriptor ");
    trace_number((uint64_t)number);
    trace_text(" ");
    trace_hex(bytes, length);
    trace_text("\n");
}

/* The lines of a text of devices that a scenario has too; and what else it says of who they are, in its own words, as comments. */
void trace_devices(struct core *core, struct text text)
{
    struct line line = { .number = 0 };
    if (!process.bus.is_traced)
        return;
    trace_to(core);
    while (next_line(&text, &line)) {
        bool is_comment = is_of_identity(&line);
        if (!is_comment && !is_of_scenario(&line))
            continue;
        if (is_comment)
            put("# ", 2);
        put(line.at, line.length);
        put("\n", 1);
        if (begins(&line, "device "))
            trace_descriptor(core, &line);
    }
    trace_out();
}

static bool open_file(struct core *core, const char *ending)
{
    char numbered[4096], bus[16] = "";
    if (process.bus.trace_number > 1)
        snprintf(bus, sizeof bus, ".%u", process.bus.trace_number);
    snprintf(numbered, sizeof numbered, "%s%s%s", process.bus.trace, bus, ending);
    core->trace = open(numbered, O_WRONLY | O_CREAT | O_TRUNC | O_CLOEXEC, 0666);
    if (core->trace < 0)
        tell_failure("TIRNOUCH_TRACE: %s can't be written", numbered);
    return core->trace >= 0;
}

/* The file of a session that begins, and what is kept of it: of a device's own core, or of the one that is shared, where that is NULL.
 * False where no such file can be written, which is told. */
bool trace_begin(struct core *core, const struct device *device)
{
    char own[16] = "", session[16] = "", ending[32];
    core->trace = -1;
    core->kept = NULL;
    if (!process.bus.is_traced)
        return true;
    if (device)
        snprintf(own, sizeof own, ".d%d", device->number);
    if (core->sessions)
        snprintf(session, sizeof session, ".%u", core->sessions + 1);
    snprintf(ending, sizeof ending, "%s%s", own, session);
    if (process.bus.keeps_trace)
        core->kept = keep_trace(ending);
    bool is_written = !process.bus.trace || open_file(core, ending);
    trace_comment(core, "What the core did. \"usbtrace run\" does it once more.");
    return is_written;
}

void trace_end(struct core *core)
{
    close_file(core);
    core->kept = NULL;
    out.length = 0;
}

/* A child of fork leaves the files to its parent. */
void trace_forget(void)
{
    process.bus.core.trace = -1;
    process.bus.core.kept = NULL;
    for (struct core *core = process.bus.own; core; core = core->next) {
        core->trace = -1;
        core->kept = NULL;
    }
    out.length = 0;
    process.bus.is_traced = false;
}

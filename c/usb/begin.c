/* A bus that a test begins and ends by itself, steered by a call in place of the environment (tirnouch.h). */
#include "bus.h"

#include <stdlib.h>
#include <string.h>

/* The size of the options before `keeps_trace` was one of them. */
#define SIZE_BEFORE offsetof(struct tirnouch_options, keeps_trace)

/* Of the text of the options; none where they have none, or memory is refused. */
static struct text copy_of(const struct tirnouch_options *options)
{
    char *copy = options->devices ? malloc(options->devices_length ? options->devices_length : 1) : NULL;
    if (!copy)
        return (struct text){ .at = NULL };
    if (options->devices_length)
        memcpy(copy, options->devices, options->devices_length);
    return (struct text){ .at = copy, .end = copy + options->devices_length };
}

/* The text of `tirnouch_plug`, while that of such a bus stands in its place. */
static struct {
    bool is_kept;
    struct text text;
    const char *name;
} plugged;

static void use_text(struct text text)
{
    if (!text.at)
        return;
    plugged.is_kept = true;
    plugged.text = process.text;
    plugged.name = process.text_name;
    process.text = text;
    process.text_name = "the text of tirnouch_begin";
}

static void take_back_text(void)
{
    if (!plugged.is_kept)
        return;
    free_text(&process.text);
    process.text = plugged.text;
    process.text_name = plugged.name;
    plugged.is_kept = false;
}

/* With the lock, where there is no bus. */
static int begin_by(const struct tirnouch_options *options)
{
    const struct beginning so = { .trace = options->trace, .keeps_trace = options->keeps_trace, .limit = options->limit,
                                  .seed = options->seed, .is_virtual = options->is_virtual };
    int r = bus_begin_so(&so);
    if (r)
        take_back_text();
    process.has_begun = !r;
    return r;
}

/* What a program doesn't know that was compiled with the options of before is zeros. False for another size. */
static bool read_options(struct tirnouch_options *to, const struct tirnouch_options *from)
{
    if (!from || (from->size != sizeof *from && from->size != SIZE_BEFORE))
        return false;
    *to = (struct tirnouch_options){ .size = 0 };
    memcpy(to, from, from->size);
    return true;
}

/* The environment's bus has no devices: with its end nothing is lost, and the contexts that are open have the next one's. */
static bool is_bare(void)
{
    for (int i = 0; i < DEVICES; i++)
        if (process.bus.devices[i]->is_there)
            return false;
    return !process.has_begun && !callbacks_within;
}

/* The text becomes the bus's, or is freed. */
static int begin_with(struct text text, const struct tirnouch_options *options)
{
    if (!lock_unless_asked()) {
        free_text(&text);
        return LIBUSB_ERROR_BUSY;
    }
    int r = process.bus.is_there && !is_bare() ? LIBUSB_ERROR_BUSY : 0;
    if (!r) {
        if (process.bus.is_there)
            bus_end();
        use_text(text);
        r = begin_by(options);
    } else {
        free_text(&text);
    }
    unlock();
    return r;
}

int tirnouch_begin(const struct tirnouch_options *from)
{
    struct tirnouch_options options;
    if (!read_options(&options, from))
        return LIBUSB_ERROR_INVALID_PARAM;
    struct text text = copy_of(&options);
    if (options.devices && !text.at)
        return LIBUSB_ERROR_NO_MEM;
    return begin_with(text, &options);
}

/* A callback stands on what ends here. */
int tirnouch_end(void)
{
    if (!lock_unless_asked())
        return LIBUSB_ERROR_BUSY;
    int r = !process.has_begun ? LIBUSB_ERROR_NOT_FOUND : callbacks_within ? LIBUSB_ERROR_BUSY : 0;
    if (!r) {
        process.has_begun = false;
        bus_end();
        take_back_text();
        take_back_functions();
    }
    unlock();
    return r;
}

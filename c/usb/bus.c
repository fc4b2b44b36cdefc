/* The bus: it begins with the first context, with the devices of a text and by what the environment says, and ends with the last; or it
 * does by tirnouch_begin and tirnouch_end, and contexts outlive it (outliving.c). */
#include "bus.h"

#include <stdio.h>
#include <stdlib.h>
#include <string.h>

struct process process = { .lock = PTHREAD_MUTEX_INITIALIZER, .release_transfer = free, .release_handle = free };
_Thread_local int callbacks_within;

/* Virtual time begins here, since 0 is no moment. */
#define BEGINNING 1000000000u

/* Where the devices of the text are, by their numbers there. */
static void trace_numbers(const struct desk *desk)
{
    for (int i = 0; i < desk->count; i++) {
        if (desk->there[i] < 0)
            trace_comment(&process.bus.core, "device %d has a core of its own", i);
        else if (desk->there[i] != i)
            trace_comment(&process.bus.core, "device %d is device %d here", i, desk->there[i]);
        if (desk->successors[i] >= 0)
            trace_comment(&process.bus.core, "device %d comes back as device %d", i, desk->successors[i]);
    }
}

/* The core of those that are scripted, of which the trace has the devices. */
static int make_shared(const struct desk *desk, struct text text)
{
    struct tirnouch_complaint complaint;
    const char *at = text.at ? text.at : "";
    int r = tirnouch_create(&process.bus.core.slot, (const uint8_t *)at, length_of(text), &complaint);
    if (r == LIBUSB_ERROR_INVALID_PARAM) {
        complain(text, desk->text, desk->name, desk->name, 0);
        return LIBUSB_ERROR_OTHER;
    }
    if (!r) {
        trace_numbers(desk);
        trace_devices(&process.bus.core, text);
    }
    return r;
}

/* The text as it is, where no device has its own core and nothing is expected of a driver. */
static int make_core(const struct desk *desk)
{
    struct growing text = { 0 };
    bool is_mixed = desk->has_own || desk->has_returns;
    if (!is_mixed && !desk->has_expected)
        return make_shared(desk, desk->text);
    if (is_mixed)
        write_lines(&text, desk->text, desk->there, NULL);
    else
        grow(&text, desk->text.at, length_of(desk->text));
    if (desk->has_expected && !text.failed)
        leave_out_expected(&text);
    int r = text.failed ? LIBUSB_ERROR_NO_MEM : make_shared(desk, text_of(&text));
    free(text.at);
    return r;
}

/* Of a number nothing is known yet. */
static void use_absent(int number)
{
    process.bus.devices[number] = &process.absent[number];
    process.absent[number] = (struct device){ .holds = 2, .number = number, .successor = -1 };
}

static bool has_own_core(int number, const struct desk *desk)
{
    return number < desk->count && desk->is_own[number];
}

/* Whether the core that is shared has it. */
static bool is_shared(int number, const struct desk *desk)
{
    uint8_t none[1];
    int there = desk->there[number];
    return there >= 0 && tirnouch_describe(&process.bus.core.slot, (uint8_t)there, LIBUSB_DT_DEVICE, 0, none, 0) > 0;
}

/* Where the text has one of this number. */
static int begin_device(int number, const struct desk *desk)
{
    if (!has_own_core(number, desk) && !is_shared(number, desk))
        return 0;
    struct device *device = malloc(sizeof *device);
    if (!device)
        return LIBUSB_ERROR_NO_MEM;
    *device = (struct device){
        .holds = 1, .number = number, .port = number, .core = &process.bus.core, .number_there = (uint8_t)desk->there[number],
        .successor = desk->successors[number],
    };
    process.bus.devices[number] = device;
    give_address(device);
    return 0;
}

static int make_device(struct device *device, const struct desk *desk)
{
    bool is_own = has_own_core(device->number, desk);
    int r = is_own ? begin_own_core(device, desk) : 0;
    if (!r)
        r = learn(device);
    if (!r && is_own)
        return learn_expected(device, device->text, desk->name);
    return !r && desk->has_expected ? learn_expected(device, desk->text, desk->name) : r;
}

/* What comes back in another's place isn't there before. */
static void hide_successors(void)
{
    for (int i = 0; i < DEVICES; i++)
        if (process.bus.devices[i]->successor >= 0)
            process.bus.devices[process.bus.devices[i]->successor]->is_hidden = true;
}

static int make_devices(struct text text, const char *name)
{
    struct desk desk = { .text = text, .name = name };
    process.bus.text = text;
    desk.has_expected = has_expected(text);
    int r = read_desk(&desk);
    if (!r)
        r = make_core(&desk);
    for (int i = 0; !r && i < DEVICES; i++) {
        r = begin_device(i, &desk);
        if (!r && process.bus.devices[i] != &process.absent[i])
            r = make_device(process.bus.devices[i], &desk);
    }
    if (!r)
        hide_successors();
    if (!r && process.bus.is_judged)
        begin_judging();
    return r;
}

/* The same, of a text that may name files: beside its own file, or in the current folder where that is "". */
static int make_whole(struct text text, const char *name, const char *file)
{
    int r = insert_files(&text, name, file);
    return r ? r : make_devices(text, name);
}

/* A file's bytes; none where it can't be read or memory is refused, which is told. */
static struct text read_file(const char *name)
{
    FILE *file = fopen(name, "rb");
    char *text = NULL;
    long size = -1;
    if (file && !fseek(file, 0, SEEK_END) && (size = ftell(file)) >= 0 && !fseek(file, 0, SEEK_SET))
        text = malloc((size_t)size + 1);
    if (text && fread(text, 1, (size_t)size, file) != (size_t)size) {
        free(text);
        text = NULL;
    }
    if (file)
        fclose(file);
    if (!text)
        tell_failure("TIRNOUCH_DEVICES: %s can't be read", name);
    return text ? (struct text){ .at = text, .end = text + size } : (struct text){ .at = NULL };
}

/* A process that begins several buses may have a text for each: that of the second has a name that ends in .2, and so on, up to as many as
 * TIRNOUCH_BUSES says. */
static const char *name_of_turn(const char *name, char *room, size_t size)
{
    const char *buses = getenv("TIRNOUCH_BUSES");
    unsigned long most = buses ? strtoul(buses, NULL, 10) : 1, turn = process.bus.turn < most ? process.bus.turn : most;
    if (turn < 2)
        return name;
    snprintf(room, size, "%s.%lu", name, turn);
    return room;
}

static int begin_devices(void)
{
    const char *name = getenv("TIRNOUCH_DEVICES");
    char numbered[4096];
    if (process.text.at)
        return make_whole(process.text, process.text_name, "");
    if (!name || !*name)
        return make_devices((struct text){ .at = NULL }, "");
    name = name_of_turn(name, numbered, sizeof numbered);
    process.bus.file_text = read_file(name);
    return process.bus.file_text.at ? make_whole(process.bus.file_text, name, name) : LIBUSB_ERROR_OTHER;
}

static int begin_trace(const struct beginning *so)
{
    process.bus.keeps_trace = so->keeps_trace;
    if (!so->trace && !so->keeps_trace)
        return 0;
    process.bus.trace = so->trace ? strdup(so->trace) : NULL;
    if (so->trace && !process.bus.trace)
        return LIBUSB_ERROR_NO_MEM;
    process.bus.trace_number = so->trace_number;
    process.bus.is_watched = process.bus.is_traced = true;
    return trace_begin(&process.bus.core, NULL) ? 0 : LIBUSB_ERROR_OTHER;
}

/* Whoever passes time on it sees by `stirs` that it isn't there any more. */
static void clear_bus(void)
{
    uint64_t stirs = process.bus.stirs + 1;
    end_limit_of_bus();
    stop_programs();
    for (int i = 0; i < DEVICES; i++)
        forget(process.bus.devices[i]);
    tirnouch_destroy(&process.bus.core.slot);
    trace_end(&process.bus.core);
    free_text(&process.bus.file_text);
    free_text(&process.bus.whole_text);
    free(process.bus.trace);
    process.bus = (struct bus){ .stirs = stirs, .settled = stirs };
}

/* All but what contexts have of it. */
static int begin_parts(const struct beginning *so)
{
    int r = begin_trace(so);
    if (!r)
        r = begin_devices();
    if (!r && so->limit)
        r = begin_limit_of(process.bus.turn, so->limit);
    return r;
}

/* There is none. Contexts that outlived the one before have its devices. */
int bus_begin_so(const struct beginning *so)
{
    process.failure[0] = 0;
    begin_misuse();
    begin_hints();
    process.looks_closer = process.tells_misuse || so->limit || has_limit();
    set_told_levels();
    process.bus.is_there = true;
    for (int i = 0; i < DEVICES; i++)
        use_absent(i);
    process.bus.turn = ++process.buses;
    process.bus.seed = so->seed;
    process.bus.is_watched = so->seed;
    process.bus.is_virtual = so->is_virtual;
    process.bus.moment = BEGINNING;
    process.bus.begun = now();
    process.bus.core.trace = -1;
    begin_kept();
    int r = begin_parts(so);
    if (!r)
        r = give_devices_to_all();
    if (r)
        clear_bus();
    else
        tell_arrivals();
    end_kept_beginning(!r);
    return r;
}

/* By what the environment says: each bus has a trace of its own. */
int bus_begin(void)
{
    const char *seed = getenv("TIRNOUCH_SEED"), *time = getenv("TIRNOUCH_TIME"), *trace = getenv("TIRNOUCH_TRACE");
    begin_limit();
    if (process.bus.is_there)
        return 0;
    struct beginning so = {
        .trace = trace && *trace ? trace : NULL,
        .seed = seed ? strtoull(seed, NULL, 10) : 0,
        .is_virtual = time && !strcmp(time, "virtual"),
    };
    if (so.trace)
        so.trace_number = ++process.traces;
    return bus_begin_so(&so);
}

/* The core's handles are closed in the trace too, so that it blames nobody who tidied up. */
void bus_end(void)
{
    hint_at_end();
    tell_left_open();
    end_all_flights();
    if (process.bus.is_judged)
        report_differences();
    for (int i = 0; process.bus.is_traced && i < DEVICES; i++)
        give_back(process.bus.devices[i]);
    outlive_bus();
    clear_bus();
    wake_all();
}

/* A context ended, or didn't begin. */
void bus_end_with_last(void)
{
    if (process.bus.is_there && !process.has_begun && !process.contexts)
        bus_end();
}

/* Contexts: they begin and end (libusb 1.0, "Library initialization/deinitialization"). */
#include "bus.h"

#include <fcntl.h>
#include <errno.h>
#include <stdlib.h>
#include <string.h>
#include <sys/eventfd.h>
#include <unistd.h>

/* The default context; and where the program has none, the first other one that is open, which is its mistake. */
struct libusb_context *default_context(void)
{
    if (process.default_context)
        return process.default_context;
    if (!process.fallback)
        return &process.nobody;
    if (!process.was_misused)
        note(process.fallback, LIBUSB_LOG_LEVEL_ERROR, "a call is for the default context, which wasn't begun: another one is taken");
    process.was_misused = true;
    return process.fallback;
}

static void begin_conditions(struct libusb_context *context)
{
    pthread_condattr_t clock;
    pthread_condattr_init(&clock);
    pthread_condattr_setclock(&clock, CLOCK_MONOTONIC);
    pthread_cond_init(&context->moved, &clock);
    pthread_cond_init(&context->happened, &clock);
    pthread_cond_init(&context->left, &clock);
    pthread_condattr_destroy(&clock);
    pthread_mutex_init(&context->waiters, NULL);
}

/* Of the parent's threads a child has the one that forked. So nobody else handles events there, waits or holds a lock. */
static void begin_in_child(struct libusb_context *context)
{
    bool is_mine = context->is_handled && pthread_equal(context->handler, pthread_self());
    int event = eventfd(0, EFD_NONBLOCK | EFD_CLOEXEC);
    if (event >= 0 && event != context->event) {
        dup3(event, context->event, O_CLOEXEC);
        close(event);
    }
    context->holds -= context->is_working && !is_mine;
    if (!is_mine) {
        context->is_handled = context->is_working = context->is_calling = false;
        context->calling = NULL;
    }
    context->is_asleep = context->is_rung = false;
    forget_to_mind(context, INTERRUPTED);
    context->waiting = context->lockers = 0;
    begin_conditions(context);
    if (context->is_polled)
        poll_in_child(context);
}

/* Whether whoever forks has the lock anyway, in a device's function: then it keeps it, in both processes. Of who has the lock. */
static bool forks_within;

/* The trace is the parent's, and so are its programs; and it is the parent that is told what wasn't written. */
static void go_on_in_child(void)
{
    leave_limit();
    trace_forget();
    leave_programs();
    process.bus.is_judged = false;
    for (struct libusb_context *context = process.contexts; context; context = context->next)
        begin_in_child(context);
    leave_lines();
    forget_own_number();
    if (!forks_within)
        unlock_alone();
}

static void hold_for_fork(void)
{
    bool is_within = is_held() && is_held_here();
    if (!is_within)
        lock_again();
    forks_within = is_within;
    hold_limit_for_fork();
}

static void go_on_behind_fork(void)
{
    go_on_with_limit();
    if (!forks_within)
        unlock();
}

static void watch_forks(void) { pthread_atfork(hold_for_fork, go_on_behind_fork, go_on_in_child); }

static void begin_log(struct libusb_context *context)
{
    const char *level = getenv("LIBUSB_DEBUG");
    context->log_level = level ? atoi(level) : process.defaults.log_level;
    context->log_is_fixed = level;
    context->log = process.defaults.log;
    set_told_level(context);
    watch_for(context->log_level);
}

/* What a program of several configurations may ask for in vain. */
void tell_configurations(struct libusb_context *context)
{
    for (int i = 0; i < DEVICES; i++) {
        const struct device *device = process.bus.devices[i];
        if (device->is_there && device->configurations != 1)
            note(context, LIBUSB_LOG_LEVEL_INFO, "device %d says %u configurations: the one of its text is there", i,
                 device->configurations);
    }
}

static int begin(struct libusb_context *context)
{
    *context = (struct libusb_context){ .is_open = true, .users = 1, .holds = 1, .timer = -1, .poller = -1 };
    int r = give_devices(context);
    if (r)
        return r;
    context->event = eventfd(0, EFD_NONBLOCK | EFD_CLOEXEC);
    if (context->event < 0) {
        tell_failure("libusb_init: the system gives no descriptor for events (%s): close some, or raise the limit (ulimit -n)",
                     strerror(errno));
        take_devices(context);
        return LIBUSB_ERROR_OTHER;
    }
    learn_hub();
    context->hub = (struct libusb_device){ .context = context, .device = &process.hub, .references = 1, .address = HUB_ADDRESS };
    begin_conditions(context);
    begin_log(context);
    context->is_blind = process.defaults.is_blind;
    context->next = process.contexts;
    process.contexts = context;
    return 0;
}

/* An option of one that begins. */
static int set_up(struct libusb_context *context, const struct libusb_init_option *option)
{
    int level = option->value.ival;
    switch (option->option) {
    case LIBUSB_OPTION_LOG_LEVEL:
        if (level < LIBUSB_LOG_LEVEL_NONE || level > LIBUSB_LOG_LEVEL_DEBUG)
            return LIBUSB_ERROR_INVALID_PARAM;
        if (!context->log_is_fixed)
            context->log_level = level;
        set_told_level(context);
        watch_for(context->log_level);
        return 0;
    case LIBUSB_OPTION_LOG_CB: context->log = option->value.log_cbval; return 0;
    case LIBUSB_OPTION_NO_DEVICE_DISCOVERY: context->is_blind = true; return 0;
    case LIBUSB_OPTION_USE_USBDK: return LIBUSB_ERROR_NOT_SUPPORTED;
    default: return LIBUSB_ERROR_INVALID_PARAM;
    }
}

static void leave_list(struct libusb_context *context)
{
    struct libusb_context **at = &process.contexts;
    while (*at && *at != context)
        at = &(*at)->next;
    if (*at)
        *at = context->next;
    if (process.fallback == context)
        __atomic_store_n(&process.fallback, NULL, __ATOMIC_RELEASE);
    if (process.default_context == context)
        __atomic_store_n(&process.default_context, NULL, __ATOMIC_RELEASE);
}

/* Those who handle events, or wait for that, leave first. They are told once: the context isn't open any more, and so nobody begins either
 * anew but by the event lock. Each who leaves says so (`tell_leaver`). */
static void send_away(struct libusb_context *context)
{
    if (is_handler(context))
        return;
    disturb(context);
    tell_waiters(context);
    if (process.lines)
        give_before_waiting(context);
    while (context->is_handled || context->waiting || context->lockers)
        pthread_cond_wait(&context->left, &process.lock);
}

static void close_handles(struct libusb_context *context)
{
    struct libusb_device_handle *handle = process.handles;
    while (handle) {
        if (handle->context != context) {
            handle = handle->next;
            continue;
        }
        tell_open(handle);
        note(context, LIBUSB_LOG_LEVEL_WARNING, "the application left some devices open: handle %u is closed", handle->number);
        for (int i = 0; i < INTERFACES; i++)
            handle->device->interfaces[i].is_left |= handle->claimed >> i & 1;
        unlock();
        libusb_close(handle);
        lock_again();
        handle = process.handles;
    }
}

/* Its memory goes with its last hold, and the last reference to its root hub. */
void release_context(struct libusb_context *context)
{
    if (context->holds || context == &process.nobody || __atomic_load_n(&context->hub.references, __ATOMIC_ACQUIRE))
        return;
    end_polling(context);
    close(context->event);
    pthread_cond_destroy(&context->moved);
    pthread_cond_destroy(&context->happened);
    pthread_cond_destroy(&context->left);
    pthread_mutex_destroy(&context->waiters);
    free(context);
}

/* What it has of devices; the references to them are the program's from then on. */
static void end_devices(struct libusb_context *context)
{
    for (int i = 0; i < DEVICES; i++) {
        struct libusb_device *it = context->devices[i];
        if (!it)
            continue;
        uint8_t address = it->address;
        context->devices[i] = NULL;
        if (!drop_device(it))
            note(context, LIBUSB_LOG_LEVEL_WARNING, "device 1.%u is still referenced at libusb_exit", address);
    }
    if (!drop_device(&context->hub))
        note(context, LIBUSB_LOG_LEVEL_WARNING, "device 1.1 is still referenced at libusb_exit");
}

/* What libusb's manual has the program end before, and handles close. */
static void tell_left(struct libusb_context *context)
{
    for (struct transfer *it = context->flying.first; it; it = it->next)
        tell_flying(it, "libusb_exit");
    for (struct transfer *it = context->ended.first; it; it = it->behind)
        tell_flying(it, "libusb_exit");
}

static void end(struct libusb_context *context)
{
    context->is_open = false;
    tell_left(context);
    tell_all_why(context, "is in flight at libusb_exit");
    close_handles(context);
    send_away(context);
    leave_list(context);
    end_hotplugs(context);
    end_devices(context);
    let_go_of(context);
    bus_end_with_last();
}

/* Where that fails its memory is gone, and so is a bus that began for it. */
static int begin_new(struct libusb_context *context, const struct libusb_init_option options[], int count)
{
    bool was_there = process.bus.is_there;
    int r = bus_begin();
    if (!r)
        r = begin(context);
    if (r)
        free(context);
    for (int i = 0; !r && i < count; i++) {
        r = set_up(context, &options[i]);
        if (r)
            end(context);
    }
    if (r && !was_there && process.bus.is_there)
        bus_end();
    return r;
}

/* With the lock. */
static int init(libusb_context **out, const struct libusb_init_option options[], int count)
{
    static pthread_once_t watched = PTHREAD_ONCE_INIT;
    if (out)
        *out = NULL;
    if (!out && process.default_context) {
        int r = bus_begin();
        process.default_context->users += !r;
        return r;
    }
    pthread_once(&watched, watch_forks);
    struct libusb_context *context = malloc(sizeof *context);
    if (!context)
        return LIBUSB_ERROR_NO_MEM;
    int r = begin_new(context, options, count);
    if (r)
        return r;
    if (!out) {
        __atomic_store_n(&process.default_context, context, __ATOMIC_RELEASE);
    } else {
        *out = context;
        if (!process.fallback)
            __atomic_store_n(&process.fallback, context, __ATOMIC_RELEASE);
    }
    tell_configurations(context);
    if (is_told(context, 0))
        note_call(context, 0, "libusb_init", "Tirnouch, as libusb 1.0");
    return 0;
}

/* libusb 1.0.27's. Where an option is refused there is no context. */
int libusb_init_context(libusb_context **context, const struct libusb_init_option options[], int count)
{
    if (!lock_unless_asked())
        return LIBUSB_ERROR_BUSY;
    int r = init(context, options, count);
    unlock();
    return r;
}

int libusb_init(libusb_context **context)
{
    return libusb_init_context(context, NULL, 0);
}

/* Without a context: the default one, where it was begun. */
void libusb_exit(libusb_context *context)
{
    lock();
    struct libusb_context *x = context ? context : process.default_context;
    if (x && is_told(x, 0))
        note_call(x, 0, __func__, "%s", x->users > 1 ? "used by others still" : "the last use");
    if (x && x->is_open && !--x->users)
        end(x);
    unlock();
}

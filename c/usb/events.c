/* Events are handled where the program calls for it, and nowhere else: here devices answer and callbacks run (libusb 1.0, "Polling and
 * timing"). One thread of a context does it at a time; others wait until it called something back. */
#include "bus.h"

#include <errno.h>
#include <poll.h>
#include <sched.h>
#include <unistd.h>

#define MINUTE 60

/* An eventfd's number grows to 1, and whoever polls it is woken. With or without the lock, and in a signal's handler too. */
void ring(struct libusb_context *context)
{
    uint64_t one = 1;
    if (!__atomic_exchange_n(&context->is_rung, true, __ATOMIC_SEQ_CST) && write(context->event, &one, sizeof one) != sizeof one)
        __atomic_store_n(&context->is_rung, false, __ATOMIC_SEQ_CST);
}

/* Where somebody is about to write, nothing can be read yet, and it stays rung. Whoever interrupts between the read and what follows finds it
 * rung, and doesn't write: so it is rung for that here. */
void drain(struct libusb_context *context)
{
    uint64_t count;
    if (!is_rung(context) || read(context->event, &count, sizeof count) != sizeof count)
        return;
    if (__atomic_exchange_n(&context->is_rung, false, __ATOMIC_SEQ_CST) && is_interrupted(context))
        ring(context);
}

/* Whoever handles events returns, or else who handles them next. With or without the lock, and in a signal's handler too. */
void interrupt(struct libusb_context *context)
{
    mind(context, INTERRUPTED);
    ring(context);
}

/* Those with a transfer in flight, which may come to an end by what was done elsewhere. */
void wake_others(const struct libusb_context *context)
{
    for (struct libusb_context *it = process.contexts; it; it = it->next)
        if (it != context && it->flying.first)
            wake(it);
}

/* Who ends the context waits until nobody handles its events or waits for that. */
void tell_leaver(struct libusb_context *context)
{
    if (!context->is_open)
        pthread_cond_signal(&context->left);
}

void wait_for_move(struct libusb_context *context)
{
    if (process.lines) {
        give_before_waiting(context);
        return;
    }
    context->waiting++;
    pthread_cond_wait(&context->moved, &process.lock);
    context->waiting--;
    tell_leaver(context);
}

/* Whoever handles events, or waits for that, returns to the program. */
void disturb(struct libusb_context *context)
{
    if (context->is_handled && !is_handler(context))
        interrupt(context);
    if (context->waiting)
        pthread_cond_broadcast(&context->moved);
}

void tell_lockers(struct libusb_context *context)
{
    context->waiting++;
    unlock_alone();
    pthread_mutex_lock(&context->waiters);
    pthread_cond_broadcast(&context->happened);
    pthread_mutex_unlock(&context->waiters);
    lock_again();
    context->waiting--;
    tell_leaver(context);
}

/* Nobody handles events any more. */
void step_down(struct libusb_context *context)
{
    context->is_handled = false;
    if (context->waiting)
        pthread_cond_broadcast(&context->moved);
    tell_waiters(context);
    tell_leaver(context);
}

/* Where each call is looked at. */
static void look_at_callback(struct libusb_context *context, const struct libusb_transfer *it)
{
    if (process.looks_closer)
        context->called = (struct called){ .ep = it->endpoint, .length = it->length, .moment = real_time() };
    note_call(context, it->actual_length, "callback", "endpoint %02x, status %d, bytes", it->endpoint, (int)it->status);
}

static void call_back(struct libusb_context *context, struct transfer *transfer)
{
    struct libusb_transfer *it = public_of(transfer);
    uint8_t flags = it->flags;
    context->calling = transfer->handle;
    context->is_calling = true;
    if (context->closers)
        pthread_cond_broadcast(&context->moved);
    bool told = is_told(context, 0);
    if (told)
        look_at_callback(context, it);
    unlock_behind(told);
    callbacks_within++;
    if (it->callback)
        it->callback(it);
    callbacks_within--;
    if (flags & LIBUSB_TRANSFER_FREE_TRANSFER)
        libusb_free_transfer(it);
    lock_again();
    context->calling = NULL;
    context->is_calling = false;
    if (context->waiting)
        pthread_cond_broadcast(&context->moved);
    tell_waiters(context);
}

static bool call_ended(struct libusb_context *context)
{
    struct transfer *transfer;
    bool any = false;
    while ((transfer = context->ended.first)) {
        leave(&context->ended, transfer);
        transfer->stage = AT_REST;
        call_back(context, transfer);
        any = true;
    }
    return any;
}

/* In virtual time nothing is waited for: time passes, as far as to the first deadline of all contexts. Not where something was to be done
 * since `stirs` was looked at: by whoever submits meanwhile, its device is asked first. So the other threads have their turn before: those
 * that wait for the lock wouldn't get it from a thread that takes it again at once. There is nothing to wait for by a condition, since nobody
 * knows whether a thread is about to call; and the thread yields once, however long time is to pass. */
static void pass_time(struct libusb_context *context, uint64_t end, uint64_t stirs)
{
    struct bus *bus = &process.bus;
    unlock_alone();
    sched_yield();
    lock_again();
    if (context->ended.first || context->notices || bus->stirs != stirs)
        return;
    for (struct libusb_context *it = process.contexts; it; it = it->next)
        if (it->earliest > bus->moment && it->earliest < end)
            end = it->earliest;
    if (bus->moment < end)
        bus->moment = end;
}

/* Until then, or until it is woken. Whether a signal ended it. */
static bool sleep_until(struct libusb_context *context, uint64_t end)
{
    uint64_t moment = now();
    struct timespec left = moment_of(end > moment ? end - moment : 0);
    struct pollfd it = { .fd = context->event, .events = POLLIN };
    context->is_asleep = true;
    unlock_alone();
    int r = ppoll(&it, 1, &left, NULL), why = errno;
    lock_again();
    context->is_asleep = false;
    return r < 0 && why == EINTR;
}

/* When whoever handles events looks again: at the end of its wait, at a deadline, or where a request is asked again. */
static uint64_t next_look(const struct libusb_context *context, uint64_t end)
{
    uint64_t until = context->earliest && context->earliest < end ? context->earliest : end, again = next_ask();
    return again && again < until ? again : until;
}

/* What was told goes out before a wait, as a callback does: the program's function may not handle events in it. */
static void give_amid(struct libusb_context *context)
{
    context->is_calling = true;
    unlock_and_give();
    lock_again();
    context->is_calling = false;
    if (context->waiting)
        pthread_cond_broadcast(&context->moved);
}

/* Something is done, or a time passes; whether a signal ended the wait. */
static bool wait_on(struct libusb_context *context, uint64_t end, uint64_t stirs)
{
    if (process.lines)
        give_amid(context);
    uint64_t until = next_look(context, end);
    if (!is_settled())
        return false;
    if (!process.bus.is_virtual)
        return sleep_until(context, until);
    pass_time(context, until, stirs);
    return false;
}

/* What devices, controller and events have to do, until nothing is left; with a seed until it is enough by dice. `waits`: whoever calls
 * goes on until something is called back. */
static void work_off(bool waits)
{
    process.bus.is_readied = false;
    if ((!turn_only_one() || work_on(waits)) && (!process.bus.is_readied || work_again(waits)))
        process.bus.settled = process.bus.stirs;
    else
        process.bus.stirs++;
}

/* What `behind` says, where events were handled. */
static void look_behind(struct libusb_context *context)
{
    if (is_interrupted(context)) {
        forget_to_mind(context, INTERRUPTED);
        if (is_told(context, 0))
            note_call(context, 0, "libusb_interrupt_event_handler", "whoever handles events returns");
    }
    if (context->closers)
        pthread_cond_broadcast(&context->moved);
    if (context->is_polled)
        show_readiness(context);
}

/* Handles events until a callback ran, `end` passed or the loop was interrupted; 0 is now. Lock held, by the one who handles events. */
static int handle_events(struct libusb_context *context, uint64_t end)
{
    int r = 0;
    context->is_working = true;
    for (bool any = false; !any && !r;) {
        uint64_t stirs = process.bus.stirs;
        if (is_rung(context))
            drain(context);
        if (context->earliest)
            expire(context);
        work_off(end != 0);
        if (context->notices)
            any = call_hotplugs(context);
        any |= call_ended(context);
        if (any || is_interrupted(context) || !end || now() >= end)
            break;
        if (wait_on(context, end, stirs))
            r = LIBUSB_ERROR_INTERRUPTED;
        if (is_interrupted(context))
            break;
    }
    context->is_working = false;
    if (__atomic_load_n(&context->behind, __ATOMIC_ACQUIRE))
        look_behind(context);
    return r;
}

/* Another thread handles them: until it called something back, that moment, or the context's end. `completed` is looked at while no
 * callback runs. */
static void await_handler(struct libusb_context *context, uint64_t end, int *completed)
{
    uint64_t moment = now();
    struct timespec until = moment_in(end > moment ? end - moment : 0);
    int r = 0;
    if (process.lines)
        give_before_waiting(context);
    context->waiting++;
    while (context->is_calling && context->is_open && !r)
        r = pthread_cond_timedwait(&context->moved, &process.lock, &until);
    if (context->is_handled && context->is_open && !is_set(completed) && !r)
        pthread_cond_timedwait(&context->moved, &process.lock, &until);
    context->waiting--;
    tell_leaver(context);
}

/* As the one who handles events, who is held by the event lock already or only for this call. */
static int handle_as_handler(struct libusb_context *context, uint64_t end)
{
    bool is_locked = context->is_handled;
    context->holds++;
    context->is_handled = true;
    context->handler = pthread_self();
    int r = handle_events(context, end);
    if (!is_locked)
        step_down(context);
    let_go_of(context);
    return r;
}

static int handle_or_wait(struct libusb_context *context, uint64_t end, int *completed)
{
    if (!context->is_open)
        return LIBUSB_ERROR_OTHER;
    if (context->is_calling && is_handler(context))
        return LIBUSB_ERROR_BUSY;
    if (context->is_handled && !is_handler(context)) {
        if (end)
            await_handler(context, end, completed);
        return 0;
    }
    return is_set(completed) ? 0 : handle_as_handler(context, end);
}

static bool is_wait(const struct timeval *wait)
{
    return wait->tv_sec >= 0 && wait->tv_usec >= 0 && wait->tv_usec < 1000000;
}

static uint64_t end_or_now(const struct timeval *wait)
{
    return wait->tv_sec || wait->tv_usec ? end_of(wait) : 0;
}

int libusb_handle_events_timeout_completed(libusb_context *context, struct timeval *wait, int *completed)
{
    if (!is_wait(wait))
        return LIBUSB_ERROR_INVALID_PARAM;
    if (!lock_unless_asked())
        return LIBUSB_ERROR_BUSY;
    struct libusb_context *x = context_of(context);
    if (is_told(x, 0))
        note_call(x, 0, "libusb_handle_events", "at most %ld s %ld us", (long)wait->tv_sec, (long)wait->tv_usec);
    int r = handle_or_wait(x, end_or_now(wait), completed);
    unlock();
    return r;
}

int libusb_handle_events_timeout(libusb_context *context, struct timeval *wait)
{
    return libusb_handle_events_timeout_completed(context, wait, NULL);
}

int libusb_handle_events_completed(libusb_context *context, int *completed)
{
    struct timeval wait = { .tv_sec = MINUTE };
    return libusb_handle_events_timeout_completed(context, &wait, completed);
}

int libusb_handle_events(libusb_context *context)
{
    return libusb_handle_events_completed(context, NULL);
}

int libusb_handle_events_locked(libusb_context *context, struct timeval *wait)
{
    if (!is_wait(wait))
        return LIBUSB_ERROR_INVALID_PARAM;
    if (!lock_unless_asked())
        return LIBUSB_ERROR_BUSY;
    struct libusb_context *x = context_of(context);
    int r = !x->is_open ? LIBUSB_ERROR_OTHER : LIBUSB_ERROR_BUSY;
    if (x->is_open && !(x->is_calling && is_handler(x)))
        r = handle_as_handler(x, end_or_now(wait));
    unlock();
    return r;
}

/* Without the lock, so that a signal's handler may call it, whatever its thread is at. Where no context is open nobody is to be told. */
void libusb_interrupt_event_handler(libusb_context *context)
{
    int before = errno;
    struct libusb_context *x = context ? context : __atomic_load_n(&process.default_context, __ATOMIC_ACQUIRE);
    if (!x)
        x = __atomic_load_n(&process.fallback, __ATOMIC_ACQUIRE);
    if (x)
        interrupt(x);
    errno = before;
}

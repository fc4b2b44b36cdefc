/* Who handles events, and who waits for that, by the program's own choice (libusb 1.0, "Multi-threaded applications and asynchronous
 * I/O"). */
#include "bus.h"

#include <errno.h>

int libusb_try_lock_events(libusb_context *context)
{
    lock();
    struct libusb_context *x = context_of(context);
    int is_taken = x->is_handled;
    if (!is_taken) {
        x->is_handled = true;
        x->handler = pthread_self();
    }
    unlock();
    return is_taken;
}

void libusb_lock_events(libusb_context *context)
{
    lock();
    struct libusb_context *x = context_of(context);
    while (x->is_handled)
        wait_for_move(x);
    x->is_handled = true;
    x->handler = pthread_self();
    unlock();
}

void libusb_unlock_events(libusb_context *context)
{
    lock();
    step_down(context_of(context));
    unlock();
}

/* Nobody else has to stand back from events here, not even while a handle is closed. */
int libusb_event_handling_ok(libusb_context *context)
{
    (void)context;
    return 1;
}

int libusb_event_handler_active(libusb_context *context)
{
    lock();
    int r = context_of(context)->is_handled;
    unlock();
    return r;
}

void libusb_lock_event_waiters(libusb_context *context)
{
    lock();
    struct libusb_context *x = context_of(context);
    x->lockers++;
    unlock();
    pthread_mutex_lock(&x->waiters);
}

void libusb_unlock_event_waiters(libusb_context *context)
{
    lock();
    struct libusb_context *x = context_of(context);
    unlock();
    pthread_mutex_unlock(&x->waiters);
    lock();
    x->lockers--;
    tell_leaver(x);
    unlock();
}

/* In a context that ends nobody is told any more. */
int libusb_wait_for_event(libusb_context *context, struct timeval *wait)
{
    if (!lock_unless_asked())
        return LIBUSB_ERROR_BUSY;
    struct libusb_context *x = context_of(context);
    bool is_over = !x->is_open && x != &process.nobody;
    unlock();
    if (is_over)
        return 0;
    if (!wait) {
        pthread_cond_wait(&x->happened, &x->waiters);
        return 0;
    }
    if (wait->tv_sec < 0 || wait->tv_usec < 0 || wait->tv_usec >= 1000000)
        return LIBUSB_ERROR_INVALID_PARAM;
    struct timespec until = moment_behind(wait);
    return pthread_cond_timedwait(&x->happened, &x->waiters, &until) == ETIMEDOUT;
}

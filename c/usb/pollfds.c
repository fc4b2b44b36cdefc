/* For programs with a loop of their own (libusb 1.0, "Polling and timing"): the one descriptor to be polled, an epoll over an eventfd and a
 * timerfd. It is readable where something is to be done, or a time is over: a deadline of a transfer, or when a request is asked again. */
#include "bus.h"

#include <fcntl.h>
#include <poll.h>
#include <stdlib.h>
#include <sys/epoll.h>
#include <sys/timerfd.h>
#include <unistd.h>

static bool is_due(const struct libusb_context *context)
{
    return !is_settled() || context->ended.first || context->notices || is_interrupted(context);
}

/* The next moment at which something is to be done by itself; 0 for none. */
static uint64_t next_time(const struct libusb_context *context)
{
    uint64_t moment = context->earliest, again = next_ask();
    return again && (!moment || again < moment) && context->flying.first ? again : moment;
}

/* In virtual time the next deadline is over as soon as nothing else is to be done. */
static void show_virtual_time(struct libusb_context *context)
{
    uint64_t moment = next_time(context);
    if (!moment)
        return;
    if (process.bus.moment < moment)
        process.bus.moment = moment;
    ring(context);
}

static void show_time(const struct libusb_context *context)
{
    struct itimerspec at = { .it_value = moment_of(next_time(context)) };
    timerfd_settime(context->timer, TFD_TIMER_ABSTIME, &at, NULL);
}

/* Whoever polls sees what is to be done, and is told when a time is over. */
void show_readiness(struct libusb_context *context)
{
    if (is_due(context) || process.bus.holds_back)
        ring(context);
    else
        drain(context);
    process.bus.holds_back = false;
    if (!process.bus.is_virtual)
        show_time(context);
    else if (!is_rung(context))
        show_virtual_time(context);
}

static bool add(int poller, int descriptor)
{
    struct epoll_event it = { .events = EPOLLIN };
    return epoll_ctl(poller, EPOLL_CTL_ADD, descriptor, &it) == 0;
}

/* An epoll over the context's event and its timer; -1 where the system has none. */
static int new_poller(const struct libusb_context *context)
{
    int poller = epoll_create1(EPOLL_CLOEXEC);
    if (poller >= 0 && add(poller, context->event) && add(poller, context->timer))
        return poller;
    if (poller >= 0)
        close(poller);
    return -1;
}

static int begin_polling(struct libusb_context *context)
{
    if (!context->is_open)
        return LIBUSB_ERROR_OTHER;
    if (context->is_polled)
        return 0;
    context->timer = timerfd_create(CLOCK_MONOTONIC, TFD_NONBLOCK | TFD_CLOEXEC);
    context->poller = context->timer < 0 ? -1 : new_poller(context);
    if (context->poller < 0) {
        end_polling(context);
        return LIBUSB_ERROR_OTHER;
    }
    context->is_polled = true;
    mind(context, POLLED);
    show_readiness(context);
    return 0;
}

/* A child of fork has descriptors of its own, of the same numbers. */
int poll_in_child(struct libusb_context *context)
{
    int timer = timerfd_create(CLOCK_MONOTONIC, TFD_NONBLOCK | TFD_CLOEXEC);
    int old = context->poller;
    if (timer < 0 || dup3(timer, context->timer, O_CLOEXEC) < 0)
        return LIBUSB_ERROR_OTHER;
    close(timer);
    int poller = new_poller(context);
    if (poller < 0 || dup3(poller, old, O_CLOEXEC) < 0)
        return LIBUSB_ERROR_OTHER;
    close(poller);
    show_readiness(context);
    return 0;
}

void end_polling(struct libusb_context *context)
{
    if (context->timer >= 0)
        close(context->timer);
    if (context->poller >= 0)
        close(context->poller);
    context->timer = context->poller = -1;
    context->is_polled = false;
    forget_to_mind(context, POLLED);
}

const struct libusb_pollfd **libusb_get_pollfds(libusb_context *context)
{
    struct {
        const struct libusb_pollfd *list[2];
        struct libusb_pollfd it;
    } *all = calloc(1, sizeof *all);
    if (!all)
        return NULL;
    lock();
    struct libusb_context *x = context_of(context);
    int r = begin_polling(x);
    if (is_told(x, r))
        note_call(x, r, __func__, "descriptor %d", x->poller);
    all->it = (struct libusb_pollfd){ .fd = x->poller, .events = POLLIN };
    all->list[0] = &all->it;
    unlock();
    if (!r)
        return all->list;
    free(all);
    return NULL;
}

void libusb_free_pollfds(const struct libusb_pollfd **list)
{
    free((void *)list);
}

/* The descriptor is there from the beginning to the end: nothing is ever told. */
void libusb_set_pollfd_notifiers(libusb_context *context, libusb_pollfd_added_cb added, libusb_pollfd_removed_cb removed, void *user)
{
    (void)added;
    (void)removed;
    (void)user;
    lock();
    begin_polling(context_of(context));
    unlock();
}

/* The descriptor tells of timeouts too: nobody has to mind them. */
int libusb_pollfds_handle_timeouts(libusb_context *context)
{
    (void)context;
    return 1;
}

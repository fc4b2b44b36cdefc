/* How a program waits: with a time and without, until a variable is set, by the event lock and the waiters' lock as the manual has it,
 * and by polling; and what ends a wait. */
#include "scene.h"

#include <poll.h>
#include <pthread.h>
#include <signal.h>
#include <stdatomic.h>
#include <stdio.h>
#include <stdlib.h>
#include <string.h>
#include <time.h>
#include <unistd.h>

#define THREADS 4
#define ROUNDS 50

static struct timeval after(long milliseconds)
{
    return (struct timeval){ milliseconds / 1000, milliseconds % 1000 * 1000 };
}

static void in_thread(void *(*function)(void *), void *user)
{
    pthread_t thread;
    if (pthread_create(&thread, NULL, function, user))
        exit(1);
    pthread_join(thread, NULL);
}

static void tell_and_set(struct libusb_transfer *transfer)
{
    int *completed = transfer->user_data;
    transfer->user_data = NULL;
    tell(transfer);
    *completed = 1;
}

static void times(void)
{
    struct timeval none = after(0), some = after(60), ten_seconds = after(10000), wrong = { 0, -1 }, too_much = { 0, 1000000 };
    int completed = 1;
    long long from;
    begin("waits with a time", "");
    answer("none", libusb_handle_events_timeout(context, &none));
    from = clock_now();
    answer("60 ms", libusb_handle_events_timeout(context, &some));
    say(clock_now() - from >= 59 ? "waited" : "early");
    from = clock_now();
    answer("completed already", libusb_handle_events_timeout_completed(context, &ten_seconds, &completed));
    answer("completed already", libusb_handle_events_completed(context, &completed));
    say(clock_now() - from < 1000 ? "at once" : "waited");
    answer("less than no time", libusb_handle_events_timeout(context, &wrong));
    answer("a second of microseconds", libusb_handle_events_timeout(context, &too_much));
    end();
}

static long long processor_time(void)
{
    struct timespec used;
    clock_gettime(CLOCK_PROCESS_CPUTIME_ID, &used);
    return (long long)used.tv_sec * 1000 + used.tv_nsec / 1000000;
}

static void at_rest(void)
{
    struct timeval some = after(300);
    struct libusb_transfer *transfer;
    long long from;
    begin("a wait with a transfer in flight", "");
    transfer = submit(0, 0x81, 8);
    work();
    from = processor_time();
    answer("300 ms", libusb_handle_events_timeout(context, &some));
    say(processor_time() - from < 100 ? "asleep" : "busy");
    libusb_cancel_transfer(transfer);
    work();
    discard(transfer);
    end();
}

static void until_completed(void)
{
    struct libusb_transfer *transfer;
    int completed = 0;
    begin("waits until completed", "script 0 81 d:01\n");
    transfer = make(0, 0x81, 8);
    transfer->user_data = &completed;
    transfer->callback = tell_and_set;
    transfer->timeout = 5000;
    send_off(transfer);
    while (!completed)
        answer("handle_events_completed", libusb_handle_events_completed(context, &completed));
    discard(transfer);
    transfer = submit_with(1, 0x81, 8, 0, 50);
    while (calls < 2)
        if (libusb_handle_events(context))
            break;
    discard(transfer);
    end();
}

static void *try_lock(void *user)
{
    (void)user;
    int result = libusb_try_lock_events(context);
    answer("another thread's try", result);
    answer("a handler is active", libusb_event_handler_active(context));
    if (result == 0)
        libusb_unlock_events(context);
    return NULL;
}

static void locks(void)
{
    struct libusb_transfer *transfer;
    struct timeval none = after(0);
    begin("the event lock", "script 0 81 d:01\n");
    answer("active", libusb_event_handler_active(context));
    answer("try", libusb_try_lock_events(context));
    answer("active", libusb_event_handler_active(context));
    answer("ok to go on", libusb_event_handling_ok(context));
    in_thread(try_lock, NULL);
    transfer = submit(0, 0x81, 8);
    answer("handle_events_locked", libusb_handle_events_locked(context, &none));
    for (int i = 0; i < 10 && !calls; i++)
        libusb_handle_events_locked(context, &none);
    libusb_unlock_events(context);
    answer("active", libusb_event_handler_active(context));
    in_thread(try_lock, NULL);
    libusb_lock_events(context);
    answer("active", libusb_event_handler_active(context));
    libusb_unlock_events(context);
    discard(transfer);
    end();
}

static void *wait_beside(void *user)
{
    struct timeval some = after(60);
    long long from = clock_now();
    (void)user;
    answer("handle_events_timeout beside it", libusb_handle_events_timeout(context, &some));
    say(clock_now() - from >= 59 ? "waited" : "early");
    return NULL;
}

static atomic_int is_locked;

static void *lock_too(void *user)
{
    (void)user;
    libusb_lock_events(context);
    say(atomic_load(&is_locked) ? "two have the lock" : "locked behind the first");
    libusb_unlock_events(context);
    return NULL;
}

static void locked_out(void)
{
    pthread_t thread;
    begin("another has the event lock", "");
    libusb_lock_events(context);
    atomic_store(&is_locked, 1);
    in_thread(wait_beside, NULL);
    if (pthread_create(&thread, NULL, lock_too, NULL))
        exit(1);
    usleep(50000);
    atomic_store(&is_locked, 0);
    libusb_unlock_events(context);
    pthread_join(thread, NULL);
    end();
}

static void *write_some(void *user)
{
    int *sum = user;
    for (int i = 0; i < ROUNDS; i++) {
        unsigned char data[8] = { 0 };
        int moved = 0;
        if (!libusb_bulk_transfer(handle, 0x02, data, 1 + i % 8, &moved, 5000) && moved == 1 + i % 8)
            ++*sum;
    }
    return NULL;
}

static void synchronous(void)
{
    pthread_t threads[THREADS];
    int sums[THREADS] = { 0 }, total = 0, packets = 0;
    unsigned char packet[8];
    char script[64 + 2 * THREADS * ROUNDS] = "script 0 02";
    size_t length = strlen(script);
    for (int i = 0; i < THREADS * ROUNDS; i++)
        length += (size_t)sprintf(script + length, " a");
    strcpy(script + length, "\n");
    begin("four threads write and wait", script);
    for (int i = 0; i < THREADS; i++)
        if (pthread_create(&threads[i], NULL, write_some, &sums[i]))
            exit(1);
    for (int i = 0; i < THREADS; i++) {
        pthread_join(threads[i], NULL);
        total += sums[i];
    }
    number("written", total);
    while (tirnouch_took(0, 0x02, (size_t)packets, packet, sizeof packet) > 0)
        packets++;
    number("packets", packets);
    end();
}

static void waits_for_nothing(void)
{
    struct timeval some = after(60), wrong = { -1, 0 };
    long long from;
    begin("a wait for an event that doesn't come", "");
    libusb_lock_event_waiters(context);
    from = clock_now();
    answer("wait_for_event", libusb_wait_for_event(context, &some));
    say(clock_now() - from >= 59 ? "waited" : "early");
    answer("less than no time", libusb_wait_for_event(context, &wrong));
    libusb_unlock_event_waiters(context);
    end();
}

struct waiter {
    pthread_t thread;
    struct libusb_transfer *transfer;
    atomic_int is_completed;
    int rounds;
};

static void complete(struct libusb_transfer *transfer)
{
    struct waiter *waiter = transfer->user_data;
    atomic_store(&waiter->is_completed, 1);
}

/* As the manual has it: whoever gets the event lock handles events, the others wait for it, and look again when it is free. */
static void wait_by_locks(struct waiter *waiter)
{
    struct timeval some = after(2000);
    while (!atomic_load(&waiter->is_completed)) {
        if (libusb_try_lock_events(context) == 0) {
            while (!atomic_load(&waiter->is_completed) && libusb_event_handling_ok(context))
                libusb_handle_events_locked(context, &some);
            libusb_unlock_events(context);
            continue;
        }
        libusb_lock_event_waiters(context);
        while (!atomic_load(&waiter->is_completed) && libusb_event_handler_active(context))
            libusb_wait_for_event(context, NULL);
        libusb_unlock_event_waiters(context);
    }
}

static void *wait_round_by_round(void *user)
{
    struct waiter *waiter = user;
    for (int i = 0; i < ROUNDS; i++) {
        atomic_store(&waiter->is_completed, 0);
        if (libusb_submit_transfer(waiter->transfer))
            return NULL;
        wait_by_locks(waiter);
        waiter->rounds += waiter->transfer->status == (i % 2 ? LIBUSB_TRANSFER_TIMED_OUT : LIBUSB_TRANSFER_COMPLETED);
        waiter->transfer->timeout = i % 2 ? 2000 : 1;
        waiter->transfer->length = i % 2 ? 18 + 8 : 8;
        waiter->transfer->endpoint = i % 2 ? 0 : 0x81;
        waiter->transfer->type = i % 2 ? LIBUSB_TRANSFER_TYPE_CONTROL : LIBUSB_TRANSFER_TYPE_BULK;
    }
    return NULL;
}

static void waiters(void)
{
    static struct waiter all[THREADS];
    int rounds = 0;
    begin("four threads wait by the locks", "");
    for (int i = 0; i < THREADS; i++) {
        all[i].transfer = make(i, 0x81, 64);
        libusb_fill_control_setup(all[i].transfer->buffer, 0x80, 0x06, 0x0100, 0, 18);
        libusb_fill_control_transfer(all[i].transfer, handle, all[i].transfer->buffer, complete, &all[i], 2000);
        if (pthread_create(&all[i].thread, NULL, wait_round_by_round, &all[i]))
            exit(1);
    }
    for (int i = 0; i < THREADS; i++) {
        pthread_join(all[i].thread, NULL);
        rounds += all[i].rounds;
        discard(all[i].transfer);
    }
    number("rounds", rounds);
    end();
}

static void *interrupt(void *user)
{
    (void)user;
    usleep(50000);
    libusb_interrupt_event_handler(context);
    return NULL;
}

static void *submit_late(void *user)
{
    usleep(50000);
    send_off(user);
    return NULL;
}

static void ended_by(const char *name, void *(*function)(void *), struct libusb_transfer *transfer)
{
    struct timeval ten_seconds = after(10000);
    pthread_t thread;
    long long from = clock_now();
    if (pthread_create(&thread, NULL, function, transfer))
        exit(1);
    answer(name, libusb_handle_events_timeout(context, &ten_seconds));
    say(clock_now() - from < 5000 ? "ended" : "slept on");
    pthread_join(thread, NULL);
}

static void on_alarm(int number_of_signal)
{
    (void)number_of_signal;
}

static void interruptions(void)
{
    struct timeval ten_seconds = after(10000);
    struct sigaction action = { .sa_handler = on_alarm };
    struct itimerval timer = { { 0, 0 }, { 0, 50000 } };
    struct libusb_transfer *transfer;
    long long from;
    begin("what ends a wait", "script 0 81 d:01\n");
    ended_by("interrupted", interrupt, NULL);
    transfer = make(0, 0x81, 8);
    ended_by("another thread submits", submit_late, transfer);
    sigaction(SIGALRM, &action, NULL);
    setitimer(ITIMER_REAL, &timer, NULL);
    from = clock_now();
    answer("a signal", libusb_handle_events_timeout(context, &ten_seconds));
    say(clock_now() - from < 5000 ? "ended" : "slept on");
    discard(transfer);
    end();
}

/* Whether one of them has what it is polled for. */
static int is_ready(const struct libusb_pollfd **fds, int milliseconds)
{
    struct pollfd polled[8];
    nfds_t count = 0;
    for (; fds[count] && count < 8; count++)
        polled[count] = (struct pollfd){ fds[count]->fd, fds[count]->events, 0 };
    return poll(polled, count, milliseconds) > 0;
}

static void polled(void)
{
    const struct libusb_pollfd **fds;
    struct libusb_transfer *transfer;
    int count = 0;
    begin("polled", "script 0 81 d:01\n");
    fds = libusb_get_pollfds(context);
    while (fds && fds[count])
        count++;
    number("descriptors", count);
    if (count < 1)
        exit(1);
    say(fds[0]->events == POLLIN ? "for reading" : "for something else");
    number("ready", is_ready(fds, 0));
    transfer = submit(0, 0x81, 8);
    number("ready", is_ready(fds, 2000));
    while (!calls && is_ready(fds, 2000))
        work();
    work();
    number("ready", is_ready(fds, 0));
    send_off(transfer);
    work();
    answer("cancel", libusb_cancel_transfer(transfer));
    number("ready", is_ready(fds, 2000));
    while (calls < 2 && is_ready(fds, 2000))
        work();
    libusb_free_pollfds(fds);
    discard(transfer);
    end();
}

/* The next timeout is nobody's to mind: where descriptors tell of timeouts, libusb_get_next_timeout answers 0 always. */
static void next_timeout(void)
{
    struct libusb_transfer *transfer;
    struct timeval next = { 7, 7 };
    begin("the next timeout", "");
    answer("timeouts by themselves", libusb_pollfds_handle_timeouts(context));
    answer("of nothing", libusb_get_next_timeout(context, &next));
    transfer = submit_with(0, 0x81, 8, 0, 60000);
    answer("of one with a timeout", libusb_get_next_timeout(context, &next));
    say(next.tv_sec == 7 && next.tv_usec == 7 ? "untouched" : "told");
    libusb_cancel_transfer(transfer);
    work();
    discard(transfer);
    end();
}

int main(void)
{
    times();
    at_rest();
    until_completed();
    locks();
    locked_out();
    waits_for_nothing();
    waiters();
    synchronous();
    interruptions();
    polled();
    next_timeout();
    return 0;
}

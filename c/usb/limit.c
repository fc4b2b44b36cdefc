/* TIRNOUCH_LIMIT=MILLISECONDS, or the limit that tirnouch_begin is given, ends a run that hangs: a thread of ours waits from the first
 * `libusb_init`, or from that call, on, and when the time is over says what is in flight and why, and ends the process with status 124. Without
 * a limit there is no such thread; that of a bus ends with it. */
#include "bus.h"

#include <errno.h>
#include <signal.h>
#include <stdio.h>
#include <stdlib.h>
#include <time.h>
#include <unistd.h>

#define STATUS 124

/* Of the whole process, in milliseconds. */
static unsigned long limit;

/* Of one bus. */
struct bus_limit {
    unsigned turn, milliseconds;
};

/* The bus that has a limit, 0 for none; a lock of its own, which is taken last, since whoever holds the other may hold it for ever. */
static struct {
    pthread_mutex_t lock;
    pthread_cond_t over;
    unsigned turn;
} limited = { .lock = PTHREAD_MUTEX_INITIALIZER };

/* Whoever holds the lock for a second more holds it for ever: a control function that doesn't return, say. */
static bool lock_in_a_second(void)
{
    struct timespec until;
    clock_gettime(CLOCK_REALTIME, &until);
    until.tv_sec++;
    return pthread_mutex_timedlock(&process.lock, &until) == 0;
}

static void sleep_for(unsigned long milliseconds)
{
    struct timespec until = moment_in((uint64_t)milliseconds * MILLISECOND);
    while (clock_nanosleep(CLOCK_MONOTONIC, TIMER_ABSTIME, &until, NULL) == EINTR) {
    }
}

_Noreturn static void end_run(unsigned long milliseconds, bool is_locked)
{
    dprintf(STDERR_FILENO, "libusb: error the limit of %lu ms is over: the run is ended\n", milliseconds);
    if (is_locked)
        write_all_why(STDERR_FILENO);
    else
        write_who_is_asked(STDERR_FILENO);
    if (is_locked)
        write_hints(STDERR_FILENO);
    _exit(STATUS);
}

static void *wait_for_limit(void *unused)
{
    (void)unused;
    sleep_for(limit);
    end_run(limit, lock_in_a_second());
}

/* Whether the bus is there still when its time is over. */
static bool is_too_long(const struct bus_limit *it)
{
    struct timespec until = moment_in((uint64_t)it->milliseconds * MILLISECOND);
    int r = 0;
    pthread_mutex_lock(&limited.lock);
    while (limited.turn == it->turn && r != ETIMEDOUT)
        r = pthread_cond_timedwait(&limited.over, &limited.lock, &until);
    bool is_so = limited.turn == it->turn;
    pthread_mutex_unlock(&limited.lock);
    return is_so;
}

/* A bus that ended in time has no limit any more. */
static void *wait_for_limit_of(void *of)
{
    struct bus_limit it = *(struct bus_limit *)of;
    free(of);
    if (!is_too_long(&it))
        return NULL;
    bool is_locked = lock_in_a_second();
    if (is_locked && process.bus.turn != it.turn) {
        unlock();
        return NULL;
    }
    end_run(it.milliseconds, is_locked);
}

/* With all signals blocked in it, so that the program's own threads get them. Whether it began. */
static bool begin_thread(void *(*work)(void *), void *of)
{
    pthread_attr_t detached;
    pthread_t thread;
    sigset_t all, before;
    sigfillset(&all);
    pthread_sigmask(SIG_BLOCK, &all, &before);
    pthread_attr_init(&detached);
    pthread_attr_setdetachstate(&detached, PTHREAD_CREATE_DETACHED);
    bool begun = !pthread_create(&thread, &detached, work, of);
    pthread_attr_destroy(&detached);
    pthread_sigmask(SIG_SETMASK, &before, NULL);
    return begun;
}

static void begin(void)
{
    const char *text = getenv("TIRNOUCH_LIMIT");
    limit = text ? strtoul(text, NULL, 10) : 0;
    if (limit && !begin_thread(wait_for_limit, NULL))
        fprintf(stderr, "libusb: error TIRNOUCH_LIMIT: there is no thread for it, and so no limit\n");
}

static void begin_over(void)
{
    pthread_condattr_t clock;
    pthread_condattr_init(&clock);
    pthread_condattr_setclock(&clock, CLOCK_MONOTONIC);
    pthread_cond_init(&limited.over, &clock);
    pthread_condattr_destroy(&clock);
}

/* Of this bus from now on; of none where that is 0, and the thread of the one before ends. */
static void limit_bus(unsigned turn)
{
    static pthread_once_t begun = PTHREAD_ONCE_INIT;
    pthread_once(&begun, begin_over);
    pthread_mutex_lock(&limited.lock);
    if (limited.turn)
        pthread_cond_broadcast(&limited.over);
    limited.turn = turn;
    pthread_mutex_unlock(&limited.lock);
}

void end_limit_of_bus(void) { limit_bus(0); }
bool has_limit(void) { return limit || limited.turn; }
void hold_limit_for_fork(void) { pthread_mutex_lock(&limited.lock); }
void go_on_with_limit(void) { pthread_mutex_unlock(&limited.lock); }

/* Its thread is the parent's, and so is whoever waits there. */
void leave_limit(void)
{
    limited.turn = 0;
    begin_over();
    pthread_mutex_unlock(&limited.lock);
}

/* With the lock. */
int begin_limit_of(unsigned turn, unsigned milliseconds)
{
    struct bus_limit *it = malloc(sizeof *it);
    if (!it)
        return LIBUSB_ERROR_NO_MEM;
    *it = (struct bus_limit){ .turn = turn, .milliseconds = milliseconds };
    limit_bus(turn);
    if (begin_thread(wait_for_limit_of, it))
        return 0;
    free(it);
    tell_failure("the limit of %u ms: there is no thread for it", milliseconds);
    return LIBUSB_ERROR_OTHER;
}

void begin_limit(void)
{
    static pthread_once_t begun = PTHREAD_ONCE_INIT;
    pthread_once(&begun, begin);
}

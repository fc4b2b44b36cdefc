/* The points of a program in C: locks, conditions, threads, and descriptors that are polled. The program's objects call these functions
 * in the place of the C library's (points_NAME for NAME). A lock that is let go of wakes all who wait for it; no wait ends for no reason,
 * nor by its time; the clock stands still. */
#include "schedule.h"

#include <errno.h>
#include <poll.h>
#include <pthread.h>
#include <signal.h>
#include <time.h>
#include <unistd.h>

#define MOST_LOCKS 256
#define MOMENT 1000 /* the seconds that the clock shows */

enum { LOCK = 1, UNLOCK, CONDITION, DESCRIPTORS, YIELD };

static struct {
    const pthread_mutex_t *lock;
    int holder; /* the thread, counted from 1; 0 is nobody */
} locks[MOST_LOCKS];

/* All descriptors are one word: whoever polls looks again when something was written. */
static int descriptors;

static const char *name_of(site_number site)
{
    static const char *const names[] = { "", "a lock", "the end of a lock", "a condition", "a descriptor", "a yield" };
    return names[site];
}

__attribute__((constructor)) static void begin(void) { name_of_site = name_of; }

static int *holder_of(const pthread_mutex_t *lock)
{
    for (int i = 0; i < MOST_LOCKS; i++) {
        if (!locks[i].lock)
            locks[i].lock = lock;
        if (locks[i].lock == lock)
            return &locks[i].holder;
    }
    fail("more locks are taken than there is room for");
}

static void take(pthread_mutex_t *lock)
{
    int *holder = holder_of(lock);
    if (*holder == running_thread() + 1)
        fail("a thread waits for a lock that it holds");
    while (*holder)
        wait_at(lock, LOCK);
    *holder = running_thread() + 1;
    note_change(lock, LOCK);
}

static void let_go(pthread_mutex_t *lock)
{
    int *holder = holder_of(lock);
    if (*holder != running_thread() + 1)
        fail("a thread lets go of a lock that it doesn't hold");
    *holder = 0;
    note_change(lock, UNLOCK);
    wake_at(lock, UNLOCK, MOST_THREADS);
}

int points_pthread_mutex_lock(pthread_mutex_t *lock)
{
    come_to_change(lock, LOCK);
    take(lock);
    return 0;
}

int points_pthread_mutex_timedlock(pthread_mutex_t *lock, const struct timespec *until)
{
    (void)until;
    return points_pthread_mutex_lock(lock);
}

int points_pthread_mutex_unlock(pthread_mutex_t *lock)
{
    let_go(lock);
    return 0;
}

int points_pthread_cond_wait(pthread_cond_t *condition, pthread_mutex_t *lock)
{
    note_change(condition, CONDITION);
    let_go(lock);
    wait_at(condition, CONDITION);
    take(lock);
    return 0;
}

int points_pthread_cond_timedwait(pthread_cond_t *condition, pthread_mutex_t *lock, const struct timespec *until)
{
    (void)until;
    return points_pthread_cond_wait(condition, lock);
}

int points_pthread_cond_signal(pthread_cond_t *condition)
{
    note_change(condition, CONDITION);
    wake_at(condition, CONDITION, 1);
    return 0;
}

int points_pthread_cond_broadcast(pthread_cond_t *condition)
{
    note_change(condition, CONDITION);
    wake_at(condition, CONDITION, MOST_THREADS);
    return 0;
}

int points_pthread_create(pthread_t *thread, const pthread_attr_t *attributes, void *(*work)(void *), void *of)
{
    (void)attributes;
    *thread = (pthread_t)begin_thread(work, of) + 1;
    return 0;
}

int points_pthread_join(pthread_t thread, void **result)
{
    void *left = await_end((int)thread - 1);
    if (result)
        *result = left;
    return 0;
}

pthread_t points_pthread_self(void) { return (pthread_t)running_thread() + 1; }

int points_sched_yield(void)
{
    give_way();
    return 0;
}

int points_ppoll(struct pollfd *polled, nfds_t count, const struct timespec *wait, const sigset_t *signals)
{
    (void)signals;
    bool is_look = wait && !wait->tv_sec && !wait->tv_nsec;
    for (;;) {
        come_to_change(&descriptors, DESCRIPTORS);
        int ready = poll(polled, count, 0);
        if (ready || is_look)
            return ready;
        wait_at(&descriptors, DESCRIPTORS);
    }
}

ssize_t points_write(int descriptor, const void *bytes, size_t count)
{
    come_to_change(&descriptors, DESCRIPTORS);
    ssize_t written = write(descriptor, bytes, count);
    wake_at(&descriptors, DESCRIPTORS, MOST_THREADS);
    return written;
}

ssize_t points_read(int descriptor, void *bytes, size_t count)
{
    come_to_change(&descriptors, DESCRIPTORS);
    return read(descriptor, bytes, count);
}

int points_clock_gettime(clockid_t clock, struct timespec *moment)
{
    (void)clock;
    *moment = (struct timespec){ .tv_sec = MOMENT };
    return 0;
}

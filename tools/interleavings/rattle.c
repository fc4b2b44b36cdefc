/* The points of a Rattle program: each atomic step on a word, before which a call stands in its module (module.py), and what the program
 * asks of the system: to wait at a word, to wake who waits there, and threads. All other memory belongs to one thread at a time, which
 * the compiler checks. A wait ends by a wake alone. */
#include "schedule.h"

#include <errno.h>
#include <linux/futex.h>
#include <pthread.h>
#include <stdio.h>
#include <stdlib.h>
#include <string.h>
#include <sys/syscall.h>

/* Behind the numbers of the module's own sites. */
enum { WAIT = MOST_SITES - 3, WAKE };

extern const char *const names_of_module[];

static const char *name_of(site_number site)
{
    return site == WAIT ? "a wait" : site == WAKE ? "a wake" : names_of_module[site];
}

/* The functions that are looked for by their names. */
static const char stop_workers[] = "usb_library::library::Library::stop_workers", call_back[] = "usb_workers::event::call_back",
                  next_line[] = "trace_live::queue::Queue::next";

static void want_in_module(const char *function)
{
    for (size_t i = 0; names_of_module[i]; i++)
        if (!strcmp(names_of_module[i], function))
            return;
    fprintf(stderr, "the program has no function %s: see tools/interleavings/rattle.c\n", function);
    exit(2);
}

__attribute__((constructor)) static void begin(void)
{
    name_of_site = name_of;
    want_in_module(stop_workers);
    want_in_module(call_back);
    want_in_module(next_line);
}

/* What decides nothing about the loops: counts of references, what the kit's threads tell each other, a lock that is let go of, and a
 * handle's own channel, which no other thread touches any more. */
static bool is_passed_over(site_number site)
{
    static const char *const names[] = { "std_alloc::arc::", "core::scope::", "core::thread::", "core::sync::offer", "core::sync::clear" };
    for (size_t i = 0; i < sizeof names / sizeof *names; i++)
        if (!strncmp(names_of_module[site], names[i], strlen(names[i])))
            return true;
    return !strcmp(names_of_module[running_function()], next_line);
}

static bool never(const void *word, const void *with)
{
    (void)word;
    (void)with;
    return false;
}

static bool is_equal(const void *word, const void *with) { return *(const uint64_t *)word == *(const uint64_t *)with; }

/* The thread that runs is in a function of the library. Where the workers are asked to end while no other thread can go on, nothing is left
 * to be done: whatever is called back then has waited for the end, since somebody wasn't woken. */
void come_into(site_number function)
{
    static bool were_all_waiting;
    enter(function);
    if (!strcmp(names_of_module[function], stop_workers))
        were_all_waiting = do_others_wait();
    else if (were_all_waiting && !strcmp(names_of_module[function], call_back))
        fail("all threads waited, and a callback was still to be called");
}

void point_of_look(const void *word, site_number site)
{
    if (!is_passed_over(site))
        come_to(word, site, never, NULL);
}

void point_of_change(const void *word, site_number site)
{
    if (!is_passed_over(site))
        come_to_change(word, site);
}

/* It is changed where it is as expected. */
void point_of_exchange(const void *word, uint64_t expected, site_number site)
{
    if (!is_passed_over(site))
        come_to(word, site, is_equal, &expected);
}

long points_syscall(long number, uint32_t *word, long what, long value, const void *wait, ...)
{
    (void)wait;
    if (number != SYS_futex)
        fail("a program asks the system for number %ld", number);
    what &= FUTEX_CMD_MASK;
    if (what == FUTEX_WAKE || what == FUTEX_WAKE_BITSET) {
        come_to_change(word, WAKE);
        return wake_at(word, WAKE, value > MOST_THREADS ? MOST_THREADS : (int)value);
    }
    if (what != FUTEX_WAIT && what != FUTEX_WAIT_BITSET)
        fail("a program asks for the futex call %ld", what);
    come_to_change(word, WAIT);
    if (*word != (uint32_t)value) {
        errno = EAGAIN;
        return -1;
    }
    wait_at(word, WAIT);
    return 0;
}

int points_pthread_create(pthread_t *thread, const pthread_attr_t *attributes, void *(*work)(void *), void *of)
{
    (void)attributes;
    *thread = (pthread_t)begin_thread(work, of) + 1;
    return 0;
}

int points_pthread_join(pthread_t thread, void **result)
{
    void *left = await_end((int)thread - 1);
    if (result)
        *result = left;
    return 0;
}

int points_pthread_detach(pthread_t thread)
{
    (void)thread;
    return 0;
}

pthread_t points_pthread_self(void) { return (pthread_t)running_thread() + 1; }

/* A loop that looks on and on gives way by its looks (schedule.c). */
int points_sched_yield(void) { return 0; }

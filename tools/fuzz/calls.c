/* calls SEED [COUNT]: threads make so many random calls of libusb each, all of which its manual allows, over two contexts and six
 * devices. Each accepted transfer is called back just once, or never where its handle was closed; none behind the close. What is read
 * is what the devices' scripts have or their functions gave, and what is written is what they took. Status 1 and a sentence where that
 * isn't so; a round that hangs is ended, and says what each thread was doing. */
#include "fuzz.h"

#include <signal.h>
#include <stdarg.h>
#include <stdio.h>
#include <stdlib.h>
#include <string.h>
#include <unistd.h>

#define COUNT 400
#define SECONDS 60

_Thread_local struct caller *me;
libusb_context *contexts[CONTEXTS];
bool has_long;

static struct caller callers[THREADS + 1];
static uint64_t seed;
static int count = COUNT;

static const struct {
    const char *name;
    void (*call)(void);
    unsigned weight;
} calls[] = {
    { "submit", submit_one, 30 }, { "cancel", cancel_one, 12 }, { "free", free_one, 4 }, { "send", send_one, 5 },
    { "open", open_one, 12 }, { "close", close_one, 9 }, { "a call of a handle", call_handle, 16 },
    { "a read that is waited for", read_and_wait, 4 }, { "a write that is waited for", write_and_wait, 4 },
    { "a request that is waited for", request_and_wait, 4 }, { "a context of its own", visit, 3 },
    { "the default context", visit_usual, 2 },
    { "a device that outlives its context", let_one_go, 4 },
    { "a transfer that is waited for by hand", wait_by_hand, 6 }, { "the events' lock", lock_and_handle, 2 },
    { "events", handle_some, 24 }, { "locked events", handle_locked, 8 }, { "wait_for_event", wait_for_event, 4 },
    { "a look at events", look_at_events, 6 }, { "a look at devices", look_at_devices, 6 }, { "hotplug", watch_hotplug, 3 },
    { "hotplug's end", watch_no_more, 3 }, { "a device that is ready", say_ready, 6 }, { "a device that is replugged", replug, 3 },
};
#define CALLS (sizeof calls / sizeof calls[0])

unsigned roll(unsigned below)
{
    me->dice ^= me->dice << 13;
    me->dice ^= me->dice >> 7;
    me->dice ^= me->dice << 17;
    return (unsigned)((me->dice * 0x2545f4914f6cdd1dULL >> 32) % below);
}

/* A callback takes its time, now and then. */
void dawdle(void)
{
    if (!roll(6))
        usleep(roll(300));
}

_Noreturn void fail(const char *format, ...)
{
    va_list rest;
    va_start(rest, format);
    fprintf(stderr, "calls %llu, thread %d, %s: ", (unsigned long long)seed, me->number, atomic_load(&me->doing));
    vfprintf(stderr, format, rest);
    fprintf(stderr, "\n");
    va_end(rest);
    abort();
}

static void on_alarm(int number)
{
    char text[160];
    (void)number;
    for (int i = 0; i <= THREADS; i++) {
        int length = snprintf(text, sizeof text, "calls %llu hangs; thread %d: %s%s\n", (unsigned long long)seed, i,
                              atomic_load(&callers[i].doing), callers[i].called ? ", with a callback" : "");
        if (write(2, text, (size_t)length) < 0)
            break;
    }
    abort();
}

static void begin_caller(int number)
{
    me = &callers[number];
    me->number = number;
    me->dice = (seed * 1000 + (uint64_t)number + 1) * 0x9e3779b97f4a7c15ULL;
    atomic_store(&me->doing, "nothing");
}

static void call_some(void)
{
    unsigned sum = 0;
    for (size_t i = 0; i < CALLS; i++)
        sum += calls[i].weight;
    unsigned dice = roll(sum);
    size_t place = 0;
    for (; dice >= calls[place].weight; place++)
        dice -= calls[place].weight;
    atomic_store(&me->doing, calls[place].name);
    calls[place].call();
}

/* The first thread plugs two devices in, and pulls one or two out that don't come back. */
static void plug(int made)
{
    if (made == count / 3)
        tirnouch_show(HIDDEN);
    if (made == count / 2)
        tirnouch_show(ALSO_HIDDEN);
    if (made == count / 4 * 3 || made == count - count / 10)
        pull_one((int)roll(REPLUGGED));
}

static void *run(void *number)
{
    begin_caller((int)(intptr_t)number);
    for (int i = 0; i < count; i++) {
        call_some();
        if (me->number == 0)
            plug(i);
    }
    atomic_store(&me->doing, "nothing more");
    return NULL;
}

static void begin(void)
{
    begin_handles();
    begin_transfers();
    begin_living();
    char *text = device_text();
    if (tirnouch_plug(text, strlen(text)))
        fail("plug");
    free(text);
    for (int i = 0; i < CONTEXTS; i++)
        if (libusb_init(&contexts[i]))
            fail("init");
}

static void end(void)
{
    atomic_store(&me->doing, "the end");
    drain_transfers();
    count_transfers();
    check_taken();
    close_all();
    count_transfers();
    check_living();
    free_all();
    let_all_go();
    for (int i = 0; i < CONTEXTS; i++)
        libusb_exit(contexts[i]);
    tell_transfers();
}

int main(int words, char **word)
{
    if (words < 2 || words > 3) {
        fprintf(stderr, "calls SEED [COUNT]\n");
        return 2;
    }
    seed = strtoull(word[1], NULL, 10);
    count = words > 2 ? atoi(word[2]) : COUNT;
    has_long = !getenv("TIRNOUCH_TRACE");
    begin_caller(THREADS);
    signal(SIGALRM, on_alarm);
    alarm(SECONDS);
    begin();
    for (int i = 0; i < THREADS; i++)
        if (pthread_create(&callers[i].id, NULL, run, (void *)(intptr_t)i))
            fail("no thread");
    for (int i = 0; i < THREADS; i++)
        pthread_join(callers[i].id, NULL);
    end();
    return 0;
}

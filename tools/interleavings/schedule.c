/* The threads of a run, of which one at a time has its turn. */
#include "schedule.h"

#include <pthread.h>
#include <semaphore.h>
#include <stdarg.h>
#include <stdio.h>
#include <stdlib.h>
#include <unistd.h>

#define MOST_WORDS (1 << 14)
#define MOST_LOOKS 1000 /* in a row at what doesn't change, before others have their turn */

enum state { READY, WAITS, JOINS, ENDED };

struct thread {
    enum state state;
    const void *on;   /* the word that it waits at */
    int joined;       /* whose end it waits for */
    uint64_t since;   /* when it began to wait, in wakes and waits */
    uint64_t history; /* a sum of all that it did, and of what that rests on */
    const void *looked_at; /* by its last step, which changed nothing */
    uint32_t looks;        /* such steps in a row */
    site_number site, function; /* where it is, as far as is known */
    sem_t turn;
    void *(*work)(void *);
    void *of, *result;
};

struct word {
    const void *address;
    uint64_t changed, looked; /* sums of the steps that changed it last, and that looked at it since */
};

const char *(*name_of_site)(site_number);

static struct thread threads[MOST_THREADS] = { { .state = READY } };
static struct word words[MOST_WORDS];
static int thread_count = 1, running, alive = 1;
static uint32_t decisions, wanted, spent;
static uint64_t moments;

static uint64_t mixed(uint64_t a, uint64_t b)
{
    uint64_t x = (a ^ (b + 0x9e3779b97f4a7c15U + (a << 6) + (a >> 2))) * 0xbf58476d1ce4e5b9U;
    return (x ^ (x >> 29)) * 0x94d049bb133111ebU ^ (x >> 32);
}

static const char *name_of(site_number site) { return name_of_site && site ? name_of_site(site) : "the program"; }

static const char *states_of(char *line, size_t room)
{
    static const char *const named[] = { "can go on", "waits", "waits for the end of a thread", "ended" };
    size_t length = 0;
    for (int i = 0; i < thread_count && length < room; i++)
        length += (size_t)snprintf(line + length, room - length, "\n  thread %d %s: %s in %s", i, named[threads[i].state],
                                   name_of(threads[i].site), name_of(threads[i].function));
    return line;
}

static void end_run(enum outcome outcome)
{
    common->outcome = outcome;
    _exit(0);
}

void fail(const char *format, ...)
{
    va_list parts;
    if (!common)
        abort();
    va_start(parts, format);
    int length = vsnprintf(common->fault, sizeof common->fault, format, parts);
    va_end(parts);
    if (length > 0 && (size_t)length < sizeof common->fault) {
        states_of(common->fault + length, sizeof common->fault - (size_t)length);
    }
    end_run(FAILED);
    abort();
}

void enter(site_number function) { threads[running].function = function; }

site_number running_function(void) { return threads[running].function; }

int running_thread(void) { return running; }

static void tell(const char *what, site_number site)
{
    if (common->is_told)
        fprintf(stderr, "%6u thread %d %s: %s in %s\n", decisions, running, what, name_of(site), name_of(threads[running].function));
}

/* A word of the program's, found by its address. */
static struct word *word_at(const void *address)
{
    uint64_t at = mixed((uint64_t)(uintptr_t)address, 0);
    for (uint32_t i = 0; i < MOST_WORDS; i++) {
        struct word *it = &words[(at + i) % MOST_WORDS];
        if (!it->address)
            it->address = address;
        if (it->address == address)
            return it;
    }
    fail("more words are touched than there is room for");
}

/* A step goes into the history of the thread that makes it, and of the word. */
static void note_step(struct word *word, bool is_change)
{
    uint64_t *own = &threads[running].history;
    *own = mixed(*own, word->changed);
    if (is_change) {
        *own = mixed(*own, word->looked + 1);
        word->changed = *own;
        word->looked = 0;
    } else {
        word->looked += mixed(*own, 2);
    }
}

/* Whether all was tried from here, with as much of the bound as is left; from now on it is. Two runs whose threads made the same steps, of
 * which those at one word came in the same order, are in one state. */
static bool is_known(bool is_free)
{
    uint64_t sum = (uint64_t)running * 2 + is_free, left = common->bound - spent + 1;
    for (int i = 0; i < thread_count; i++)
        sum = mixed(sum, threads[i].history + (uint64_t)threads[i].state);
    for (uint64_t i = 0; i < 16; i++) {
        uint64_t *it = &common->states[(sum + i * i) % STATES ^ i];
        if (*it && (*it ^ sum) >> 3)
            continue;
        if ((*it & 7) >= left)
            return true;
        *it = (sum & ~(uint64_t)7) | left;
        return false;
    }
    return false;
}

/* Which of so many goes on: the wanted one, or the first. What is left of the bound is needed where the one that runs could go on. */
static int choose(uint32_t at, int options, bool is_free)
{
    int chosen = 0;
    if (wanted < common->wanted_count && common->wanted[wanted].at == at)
        chosen = common->wanted[wanted++].chosen;
    else if (wanted == common->wanted_count && !common->is_told && is_known(is_free))
        end_run(KNOWN);
    if (chosen >= options)
        fail("the schedule isn't one of this program: of %d threads number %d is wanted", options, chosen);
    if (!is_free && spent == common->bound)
        return 0;
    if (common->made_count == MOST_DECISIONS)
        fail("a run has more decisions than there is room for");
    common->made[common->made_count++] = (struct decision){ .at = at, .options = (uint8_t)options, .chosen = (uint8_t)chosen };
    spent += !is_free && chosen;
    return chosen;
}

static bool is_ready(int i)
{
    return threads[i].state == READY || (threads[i].state == JOINS && threads[threads[i].joined].state == ENDED);
}

bool do_others_wait(void)
{
    for (int i = 0; i < thread_count; i++)
        if (i != running && is_ready(i))
            return false;
    return true;
}

static void hand_to(int next)
{
    int before = running;
    if (next == before)
        return;
    for (int i = 0; i < thread_count; i++)
        threads[i].looked_at = NULL;
    running = next;
    sem_post(&threads[next].turn);
    if (threads[before].state != ENDED)
        while (sem_wait(&threads[before].turn)) {
        }
}

/* Somebody goes on; the one that runs only if it can. */
static void go_on(bool can_stay)
{
    int options[MOST_THREADS], count = 0;
    uint32_t at = decisions++;
    if (can_stay)
        options[count++] = running;
    for (int i = 1; i < thread_count; i++)
        if (is_ready((running + i) % thread_count))
            options[count++] = (running + i) % thread_count;
    if (!count && !can_stay && is_ready(running))
        options[count++] = running;
    if (!count)
        fail("no thread can go on");
    int next = options[count > 1 ? choose(at, count, !can_stay) : 0];
    threads[next].state = READY;
    hand_to(next);
}

static void count_point(void)
{
    if (++common->points > common->most_points)
        fail("more than %u points, and no end", common->most_points);
}

void give_way(void)
{
    if (thread_count == 1)
        return;
    count_point();
    if (alive > 1)
        go_on(false);
}

/* One more look at what the thread saw by its last step, and that nobody can have changed. Where it looks on and on others have a turn. */
static bool is_same_look(const void *word, bool is_change)
{
    struct thread *it = &threads[running];
    bool is_same = !is_change && it->looked_at == word;
    it->looks = is_same ? it->looks + 1 : 0;
    if (it->looks > MOST_LOOKS) {
        it->looks = 0;
        give_way();
    }
    return is_same;
}

void come_to(const void *word, site_number site, bool (*changes)(const void *word, const void *with), const void *with)
{
    struct thread *it = &threads[running];
    it->site = site;
    if (thread_count == 1)
        return;
    count_point();
    if (is_same_look(word, changes(word, with)))
        return;
    if (alive > 1)
        go_on(true);
    bool is_change = changes(word, with);
    tell(is_change ? "changes a word" : "looks at a word", site);
    note_step(word_at(word), is_change);
    it->looked_at = is_change ? NULL : word;
}

static bool always(const void *word, const void *with)
{
    (void)word;
    (void)with;
    return true;
}

void come_to_change(const void *word, site_number site) { come_to(word, site, always, NULL); }

void note_change(const void *word, site_number site)
{
    if (thread_count == 1)
        return;
    tell("changes a word", site);
    note_step(word_at(word), true);
}

void wait_at(const void *word, site_number site)
{
    struct thread *it = &threads[running];
    tell("waits", site);
    it->site = site;
    it->state = WAITS;
    it->on = word;
    it->since = moments++;
    go_on(false);
}

int wake_at(const void *word, site_number site, int most)
{
    int woken = 0;
    if (thread_count == 1)
        return 0;
    while (woken < most) {
        int first = -1;
        for (int i = 0; i < thread_count; i++)
            if (threads[i].state == WAITS && threads[i].on == word && (first < 0 || threads[i].since < threads[first].since))
                first = i;
        if (first < 0)
            break;
        threads[first].state = READY;
        threads[first].history = mixed(threads[first].history, threads[running].history);
        woken++;
    }
    tell(woken ? "wakes another" : "wakes nobody", site);
    return woken;
}

static void *run_thread(void *of)
{
    struct thread *it = of;
    while (sem_wait(&it->turn)) {
    }
    it->result = it->work(it->of);
    tell("ends", 0);
    it->state = ENDED;
    alive--;
    go_on(false);
    return NULL;
}

int begin_thread(void *(*work)(void *), void *of)
{
    if (thread_count == 1)
        search();
    if (thread_count == MOST_THREADS)
        fail("a program begins more than %d threads", MOST_THREADS - 1);
    int number = thread_count;
    struct thread *it = &threads[number];
    pthread_t made;
    it->work = work;
    it->of = of;
    it->history = threads[running].history = mixed(threads[running].history, (uint64_t)number);
    if (number == 1)
        sem_init(&threads[0].turn, 0, 0);
    if (sem_init(&it->turn, 0, 0) || pthread_create(&made, NULL, run_thread, it) || pthread_detach(made))
        fail("a thread can't be made");
    thread_count++;
    alive++;
    tell("begins a thread", 0);
    return number;
}

void *await_end(int number)
{
    struct thread *it = &threads[running];
    tell("waits for a thread's end", 0);
    if (threads[number].state != ENDED) {
        it->state = JOINS;
        it->joined = number;
        go_on(false);
    }
    it->history = mixed(it->history, threads[number].history);
    return threads[number].result;
}

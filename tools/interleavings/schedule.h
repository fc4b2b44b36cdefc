/* A program whose threads run one at a time. At each point, where one is about to touch what others touch too, it is decided who goes on;
 * and where one waits, who goes on in its place. The search (search.c) makes a run for each row of decisions. */
#ifndef SCHEDULE_H
#define SCHEDULE_H

#include <stdbool.h>
#include <stdint.h>

#define MOST_THREADS 8
#define MOST_DECISIONS (1 << 16)
#define MOST_SITES (1 << 15)
#define STATES (1 << 22)

/* Where a word is touched: a place of the program, numbered from 1 on. 0 is a place of which nothing is known. */
typedef uint32_t site_number;

/* Of so many threads that could go on, the one that did: 0 is the one that ran, where it could. */
struct decision {
    uint32_t at; /* how many points and waits there were before, whether or not there was something to decide */
    uint8_t options, chosen;
};

enum outcome { RAN, KNOWN, FAILED }; /* to its end; up to a state from which all was tried before; into a fault */

/* What the search and the run have in common. */
struct common {
    uint32_t bound;       /* how often a thread that could go on may be made to wait */
    uint32_t most_points; /* a run with more than these never ends */
    bool is_told;         /* each point is printed */
    uint32_t wanted_count, made_count;
    struct decision wanted[MOST_DECISIONS], made[MOST_DECISIONS];
    enum outcome outcome;
    char fault[2048];
    uint64_t points;
    uint64_t states[STATES];   /* those from which all is tried; the last three bits are how much of the bound was left then, and one */
};
extern struct common *common;

/* The names of sites, where there are any. */
extern const char *(*name_of_site)(site_number);

/* The thread that runs is in this function. */
void enter(site_number function);
site_number running_function(void);

/* The thread that runs is about to touch a word: whether it will change it, by what it is now. */
void come_to(const void *word, site_number site, bool (*changes)(const void *word, const void *with), const void *with);
void come_to_change(const void *word, site_number site);

/* The same where what others do can't matter: nothing is decided. */
void note_change(const void *word, site_number site);

/* It waits until it is woken there. No time passes in a run: where all wait, whoever waits for a time too isn't rescued by that. */
void wait_at(const void *word, site_number site);
/* Those who waited longest are woken, at most so many: how many. */
int wake_at(const void *word, site_number site, int most);
/* Another goes on, if one can. */
void give_way(void);

/* Threads: numbered from 0, the first. */
int begin_thread(void *(*work)(void *), void *of);
void *await_end(int thread);
int running_thread(void);

/* Whether no other thread can go on. */
bool do_others_wait(void);

void fail(const char *words, ...) __attribute__((format(printf, 1, 2), noreturn));

/* Makes runs until all are made; comes back in each run. It is called where the first thread begins: what is before is one for all runs. */
void search(void);

#endif

/* Traces in memory (tirnouch_trace): those of the bus that is there, or of the last one until the next begins. Each session of a core has a
 * text, as it has a file in a trace in files; the first is that of the core which scripted devices share. */
#include "bus.h"

#include <stdio.h>
#include <stdlib.h>

struct kept_trace {
    struct kept_trace *next;
    char ending[32];                  /* of its file's name; empty for the first */
    bool is_told;                     /* that it isn't whole */
    struct growing text;
};

static struct kept_trace *traces, *traces_before;

static void free_all(struct kept_trace **all)
{
    while (*all) {
        struct kept_trace *it = *all;
        *all = it->next;
        free(it->text.at);
        free(it);
    }
}

/* A bus begins. That of the one before stays until it has begun. */
void begin_kept(void)
{
    traces_before = traces;
    traces = NULL;
}

void end_kept_beginning(bool is_begun)
{
    free_all(is_begun ? &traces_before : &traces);
    if (!is_begun)
        traces = traces_before;
    traces_before = NULL;
}

static void tell_lack(const char *ending)
{
    tell_failure("the trace%s%s in memory isn't whole: memory is refused", *ending ? " " : "", ending);
}

/* A session begins. NULL where memory is refused, which is told. */
struct kept_trace *keep_trace(const char *ending)
{
    struct kept_trace **at = &traces, *it = calloc(1, sizeof *it);
    if (!it) {
        tell_lack(ending);
        return NULL;
    }
    snprintf(it->ending, sizeof it->ending, "%s", ending);
    while (*at)
        at = &(*at)->next;
    *at = it;
    return it;
}

void keep_text(struct kept_trace *it, const char *text, size_t length)
{
    grow(&it->text, text, length);
    if (it->text.failed && !it->is_told)
        tell_lack(it->ending);
    it->is_told = it->text.failed;
}

/* All that is kept, a piece behind the other. */
void each_kept(kept_fn *give, void *to)
{
    for (const struct kept_trace *it = traces; it; it = it->next) {
        char line[64];
        if (*it->ending)
            give(to, line, (size_t)snprintf(line, sizeof line, "# file %s\n", it->ending));
        if (it->text.length)
            give(to, it->text.at, it->text.length);
    }
}

/* All runs of a program, as far as the bound goes: one process for each, which makes the wanted decisions and behind them goes on with
 * whoever runs. The next run changes the last decision that has an option left (depth first). What a run prints is its outcome. */
#include "schedule.h"

#include <stdio.h>
#include <stdlib.h>
#include <string.h>
#include <sys/mman.h>
#include <sys/resource.h>
#include <sys/wait.h>
#include <unistd.h>

#define SECONDS_OF_RUN 20
#define MOST_OUTCOMES 256
#define LONGEST_OUTPUT 8192
#define BOUND_OF_SCHEDULE UINT32_MAX

struct common *common;

static struct {
    uint64_t runs, whole, known, points, longest;
    int outcomes;
    uint64_t sums[MOST_OUTCOMES];
    FILE *told;   /* what the search finds: a program reads it */
    FILE *output; /* what a run prints */
} found;

static uint64_t number_of(const char *name, uint64_t otherwise)
{
    const char *it = getenv(name);
    return it && *it ? strtoull(it, NULL, 10) : otherwise;
}

static void tell_schedule(const char *what)
{
    fprintf(found.told, "%s ", what);
    const char *between = "";
    for (uint32_t i = 0; i < common->made_count; i++)
        if (common->made[i].chosen) {
            fprintf(found.told, "%s%u:%u", between, common->made[i].at, common->made[i].chosen);
            between = ",";
        }
    fprintf(found.told, "%s\n", *between ? "" : "0:0");
}

/* The decisions of a schedule that was told: all others are the first option. */
static void want_schedule(const char *text)
{
    unsigned at, chosen;
    int length;
    while (sscanf(text, "%u:%u%n", &at, &chosen, &length) == 2) {
        common->wanted[common->wanted_count++] = (struct decision){ .at = at, .chosen = (uint8_t)chosen };
        text += length;
        text += *text == ',';
    }
}

/* A run that was at its end: what it printed, with its status as its last line, is told once. */
static void note_output(int status)
{
    static char text[LONGEST_OUTPUT];
    rewind(found.output);
    size_t length = fread(text, 1, sizeof text - 32, found.output);
    length += (size_t)snprintf(text + length, 32, "status %d\n", status);
    uint64_t sum = 1469598103934665603U;
    for (size_t i = 0; i < length; i++)
        sum = (sum ^ (unsigned char)text[i]) * 1099511628211U;
    for (int i = 0; i < found.outcomes; i++)
        if (found.sums[i] == sum)
            return;
    if (found.outcomes < MOST_OUTCOMES)
        found.sums[found.outcomes++] = sum;
    tell_schedule("outcome");
    fprintf(found.told, "%zu\n%s", length, text);
}

static void begin_output(void)
{
    fflush(NULL);
    if (ftruncate(fileno(found.output), 0) || lseek(fileno(found.output), 0, SEEK_SET))
        exit(2);
}

/* In the process of a run: its output goes to the file. */
static void be_run(void)
{
    alarm(SECONDS_OF_RUN);
    dup2(fileno(found.output), STDOUT_FILENO);
    if (!common->is_told)
        dup2(fileno(found.output), STDERR_FILENO);
}

/* Makes a run; in its own process it returns true. */
static bool make_run(void)
{
    common->made_count = 0;
    common->points = 0;
    common->outcome = RAN;
    common->fault[0] = 0;
    begin_output();
    pid_t run = fork();
    if (run < 0)
        exit(2);
    if (!run) {
        be_run();
        return true;
    }
    int status;
    if (waitpid(run, &status, 0) != run)
        exit(2);
    found.runs++;
    found.points += common->points;
    if (common->outcome == RAN && WIFSIGNALED(status)) {
        common->outcome = FAILED;
        snprintf(common->fault, sizeof common->fault, "a signal ended it: %d", WTERMSIG(status));
    }
    found.whole += common->outcome == RAN;
    found.known += common->outcome == KNOWN;
    if (common->outcome == RAN)
        note_output(WEXITSTATUS(status));
    return false;
}

/* The next run: the last decision that has an option left is made otherwise. False where none has. */
static bool want_next(void)
{
    uint32_t i = common->made_count;
    while (i && common->made[i - 1].chosen + 1 >= common->made[i - 1].options)
        i--;
    if (!i)
        return false;
    memcpy(common->wanted, common->made, i * sizeof *common->made);
    common->wanted[i - 1].chosen++;
    common->wanted_count = i;
    return true;
}

static void tell_end(const char *how)
{
    fprintf(found.told, "%s runs %lu whole %lu known %lu points %lu outcomes %d\n", how, (unsigned long)found.runs,
            (unsigned long)found.whole, (unsigned long)found.known, (unsigned long)found.points, found.outcomes);
    fflush(found.told);
    exit(0);
}

static void tell_fault(void)
{
    tell_schedule("fault");
    fprintf(found.told, "%s\n", common->fault);
    tell_end("failed");
}

/* How many seconds of the processor's the search took. */
static uint64_t seconds_taken(void)
{
    struct rusage own, runs;
    if (getrusage(RUSAGE_SELF, &own) || getrusage(RUSAGE_CHILDREN, &runs))
        exit(2);
    return (uint64_t)(own.ru_utime.tv_sec + own.ru_stime.tv_sec + runs.ru_utime.tv_sec + runs.ru_stime.tv_sec);
}

/* All of them, or as many as there is time for. A decision that needs a part of the bound has an option left only where that part is there:
 * decisions without one aren't noted (schedule.c). */
static void make_runs(uint64_t seconds)
{
    do {
        if (make_run())
            return;
        if (common->outcome == FAILED)
            tell_fault();
        if (!want_next())
            tell_end("complete");
    } while (seconds_taken() < seconds);
    tell_end("stopped");
}

static void make_told_run(const char *schedule)
{
    common->bound = BOUND_OF_SCHEDULE;
    want_schedule(schedule);
    if (make_run())
        return;
    if (common->outcome == FAILED)
        tell_fault();
    tell_end("complete");
}

void search(void)
{
    const char *told = getenv("INTERLEAVINGS"), *schedule = getenv("INTERLEAVINGS_SCHEDULE");
    if (!told) {
        fprintf(stderr, "this program is run by tools/interleavings\n");
        exit(2);
    }
    common = mmap(NULL, sizeof *common, PROT_READ | PROT_WRITE, MAP_SHARED | MAP_ANONYMOUS, -1, 0);
    found.told = fopen(told, "w");
    int output = memfd_create("output", 0);
    found.output = output < 0 ? NULL : fdopen(output, "w+");
    if (common == MAP_FAILED || !found.told || !found.output) {
        fprintf(stderr, "no room for the search\n");
        exit(2);
    }
    common->bound = (uint32_t)number_of("INTERLEAVINGS_BOUND", 2);
    common->most_points = (uint32_t)number_of("INTERLEAVINGS_POINTS", 20000);
    common->is_told = schedule != NULL;
    if (schedule)
        make_told_run(schedule);
    else
        make_runs(number_of("INTERLEAVINGS_SECONDS", 60));
}

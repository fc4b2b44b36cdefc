/* What a driver wrote differs from what its devices expect: the first difference is told at once, on standard error and in the trace, and
 * once more at the end, with how many there were. TIRNOUCH_DIFFERENCES=FILE names a file for tools/tirnouch-run: a line `begun` of each bus
 * that is judged, `differs` with the sentence of what was told, and `ended` where the end was judged.
 *
 * The end is that of the bus, by the last libusb_exit; or that of the process, where the bus is there still. In a child of fork the bus has
 * no such end: what the child doesn't write its parent may. */
#include "bus.h"

#include <errno.h>
#include <fcntl.h>
#include <inttypes.h>
#include <stdio.h>
#include <stdlib.h>
#include <string.h>
#include <time.h>
#include <unistd.h>

static struct {
    uint64_t count;
    struct sentence first;
    bool is_unwritten;                /* the file can't be written, which was told */
} differences;

/* In one write, so that lines of several processes don't mix. */
void write_down(const char *word, const char *sentence)
{
    const char *name = getenv("TIRNOUCH_DIFFERENCES");
    if (!name || !*name || differences.is_unwritten)
        return;
    int file = open(name, O_WRONLY | O_APPEND | O_CREAT | O_CLOEXEC, 0666);
    differences.is_unwritten = file < 0 || dprintf(file, "%s%s\n", word, sentence) < 0;
    if (differences.is_unwritten)
        fprintf(stderr, "libusb: error TIRNOUCH_DIFFERENCES: %s can't be written: %s\n", name, strerror(errno));
    if (file >= 0)
        close(file);
}

static void tell(const struct device *device, const struct sentence *it)
{
    fprintf(stderr, "libusb: error %s\n", it->text);
    trace_comment(device->core, "differs: %s", it->text);
    write_down("differs ", it->text);
}

/* Whether it is told: the first one is. */
bool tell_difference(const struct device *device, const struct sentence *it)
{
    if (differences.count++)
        return false;
    differences.first = *it;
    tell(device, it);
    return true;
}

/* At the end each place is told: of so many that weren't counted before. */
static void tell_missing(void *to, const struct device *device, const struct sentence *it, uint64_t count)
{
    (void)to;
    differences.count += count;
    tell(device, it);
}

/* Devices that were never there could be written nothing. */
static void each_missing_of_all(missing_fn *say, void *to)
{
    for (int i = 0; i < DEVICES; i++)
        if (process.bus.devices[i]->is_there && !process.bus.devices[i]->is_hidden)
            each_missing(process.bus.devices[i], say, to);
}

/* What differed so far, of which the first is told, and what hasn't come: without an end. */
void each_difference(missing_fn *say, void *to)
{
    if (differences.first.length)
        say(to, NULL, &differences.first, differences.count);
    each_missing_of_all(say, to);
}

void report_differences(void)
{
    each_missing_of_all(tell_missing, NULL);
    if (differences.count)
        fprintf(stderr, "libusb: error what was written isn't what the devices' text expects: %" PRIu64 " difference%s%s%s\n",
                differences.count, plural(differences.count), differences.first.length ? "; the first: " : "", differences.first.text);
    differences.count = 0;
    differences.first = (struct sentence){ 0 };
    process.bus.is_judged = false;
    write_down("ended", "");
}

/* A thread may be in a call for ever. One that exits in a device's function has the lock. */
static void report_at_exit(void)
{
    struct timespec until;
    bool is_within = is_held() && is_held_here();
    clock_gettime(CLOCK_REALTIME, &until);
    until.tv_sec++;
    if (!is_within && pthread_mutex_timedlock(&process.lock, &until))
        return;
    if (process.bus.is_judged)
        report_differences();
    if (!is_within)
        unlock();
}

/* A text of the bus expects something. */
void begin_judging(void)
{
    static bool is_registered;
    if (!is_registered && atexit(report_at_exit))
        fprintf(stderr, "libusb: error there is no memory to judge at the process's end: only libusb_exit does\n");
    is_registered = true;
    write_down("begun", "");
}

/* What is told to people, on standard error or by the program's own function (libusb 1.0, `libusb_set_log_cb`).
 *
 * That function may call the library, so it is called without the lock: a line for it waits (`process.lines`) until the lock is given back,
 * at the latest at the call's end. One thread at a time calls it, with the oldest line first, so that lines come in order, and all of them:
 * what another thread, or the function itself, says meanwhile is behind them. A line holds its context. */
#include "bus.h"

#include <stdarg.h>
#include <stdio.h>
#include <stdlib.h>
#include <string.h>

struct log_line {
    struct log_line *next;
    struct libusb_context *context;
    enum libusb_log_level level;
    char text[];
};

/* Who calls the program's function. */
static struct {
    bool is_on;
    pthread_t thread;
} giving;

static const char *const names[] = { "none", "error", "warning", "info", "debug" };

/* Where lines wait each call looks whether something is told of it (`is_told`), and so finds them as it gives back the lock. */
void set_told_level(struct libusb_context *context)
{
    bool is_all = process.lines || process.looks_closer;
    __atomic_store_n(&context->told_level, is_all ? LIBUSB_LOG_LEVEL_DEBUG : context->log_level, __ATOMIC_RELAXED);
}

void set_told_levels(void)
{
    set_told_level(&process.nobody);
    for (struct libusb_context *it = process.contexts; it; it = it->next)
        set_told_level(it);
}

/* Behind those that wait; false where memory is refused. */
static bool put_by(struct libusb_context *context, enum libusb_log_level level, const char *text)
{
    struct log_line **at = &process.lines, *it = malloc(sizeof *it + strlen(text) + 1);
    if (!it)
        return false;
    *it = (struct log_line){ .context = context, .level = level };
    strcpy(it->text, text);
    context->holds++;
    while (*at)
        at = &(*at)->next;
    *at = it;
    if (process.lines == it)
        set_told_levels();
    return true;
}

/* A line for which there is no memory goes to standard error, whatever function there is. */
static void give_out(struct libusb_context *context, enum libusb_log_level level, char *line, size_t room)
{
    size_t length = strnlen(line, room - 2);
    line[length] = '\n';
    line[length + 1] = 0;
    if ((!context->log && !process.log) || !put_by(context, level, line))
        fputs(line, stderr);
}

/* With the lock, which is given back meanwhile. The function is that of this moment; one for all contexts is given none, as by libusb (core.c,
 * `log_str`). */
static void give_line(void)
{
    struct log_line *it = process.lines;
    libusb_log_cb own = it->context->log, all = process.log;
    process.lines = it->next;
    unlock_alone();
    callbacks_within++;
    if (own)
        own(it->context, it->level, it->text);
    if (all)
        all(NULL, it->level, it->text);
    if (!own && !all)
        fputs(it->text, stderr);
    callbacks_within--;
    lock_again();
    let_go_of(it->context);
    free(it);
}

/* Gives back the lock behind a call, and what was told goes out before that, unless another thread is at it. */
void unlock_and_give(void)
{
    if (process.lines && !giving.is_on) {
        giving.is_on = true;
        giving.thread = pthread_self();
        while (process.lines)
            give_line();
        giving.is_on = false;
        set_told_levels();
    }
    unlock_alone();
}

/* Before a wait. The caller looks again at what it waits for, since the lock is given back meanwhile; the context stays. */
void give_before_waiting(struct libusb_context *context)
{
    context->waiting++;
    unlock_and_give();
    lock_again();
    context->waiting--;
    tell_leaver(context);
}

/* In a child of fork, of whose threads this is the only one: what waits is the parent's to tell. */
void leave_lines(void)
{
    while (process.lines) {
        struct log_line *it = process.lines;
        process.lines = it->next;
        let_go_of(it->context);
        free(it);
    }
    giving.is_on = giving.is_on && pthread_equal(giving.thread, pthread_self());
    set_told_levels();
}

/* With the lock. */
void note(struct libusb_context *context, enum libusb_log_level level, const char *format, ...)
{
    char line[512];
    if ((int)level > context->log_level)
        return;
    int start = snprintf(line, sizeof line, "libusb: %s ", names[level]);
    va_list rest;
    va_start(rest, format);
    vsnprintf(line + start, sizeof line - (size_t)start, format, rest);
    va_end(rest);
    give_out(context, level, line, sizeof line);
}

/* What a call was asked, and what it answered: at level 3 where it was refused, at level 4 else. One with what was closed or freed before is
 * misuse (misuse.c). */
void note_call(struct libusb_context *context, int answer, const char *function, const char *format, ...)
{
    char line[512], what[400];
    enum libusb_log_level level = answer < 0 ? LIBUSB_LOG_LEVEL_INFO : LIBUSB_LOG_LEVEL_DEBUG;
    bool is_misuse = is_dead(context);
    if (!is_misuse && (int)level > context->log_level)
        return;
    va_list rest;
    va_start(rest, format);
    vsnprintf(what, sizeof what, format, rest);
    va_end(rest);
    if (is_misuse) {
        tell_dead(context, function, what);
        return;
    }
    int length = snprintf(line, sizeof line, "libusb: %s [%s] %s", names[level], function, what);
    size_t left = (size_t)length < sizeof line ? sizeof line - (size_t)length : 0;
    if (left && answer < 0)
        snprintf(line + length, left, ": %s", libusb_error_name(answer));
    else if (left)
        snprintf(line + length, left, ": %d", answer);
    give_out(context, level, line, sizeof line);
}

/* What warnings say of a device needs its answers counted, from now on. A bus that begins looks at the levels of its contexts. */
void watch_for(int level)
{
    if (level < LIBUSB_LOG_LEVEL_WARNING || process.bus.is_watched || !process.bus.is_there)
        return;
    process.bus.is_watched = true;
    for (int i = 0; i < DEVICES; i++)
        watch(process.bus.devices[i]);
}

/* A device's function runs with the lock held, and a signal's handler may run amid a call that holds it. A call of the library from within
 * them may not wait for the lock: it reads, is refused, or ends the program, which is told whose function that is. */
#include "bus.h"

#include <stdio.h>
#include <stdlib.h>
#include <string.h>
#include <unistd.h>

/* What is being asked. Whoever doesn't hold the lock reads the thread alone. */
static struct {
    pthread_t thread;                 /* atomic */
    int device;
    const char *of;
    uint8_t ep;                       /* 0 where it isn't of an endpoint */
} asked;

/* With the lock. */
void begin_asking(int device, const char *of, uint8_t ep)
{
    asked.device = device;
    asked.of = of;
    asked.ep = ep;
    __atomic_store_n(&asked.thread, pthread_self(), __ATOMIC_RELAXED);
    __atomic_store_n(&process.is_asking, true, __ATOMIC_RELEASE);
}

void end_asking(void)
{
    __atomic_store_n(&process.is_asking, false, __ATOMIC_RELAXED);
}

/* Whether a device's function is being asked in this thread. */
static bool is_asked_here(void)
{
    return is_asking() && pthread_equal(__atomic_load_n(&asked.thread, __ATOMIC_RELAXED), pthread_self());
}

/* Whether this thread has the lock, as glibc's own lock says. Its number is asked for once, where the lock is somebody's: in a child of fork it
 * is another one. */
static _Thread_local pid_t own_number;

static bool is_mine(void)
{
#ifdef __GLIBC__
    if (!own_number)
        own_number = gettid();
    return __atomic_load_n(&process.lock.__data.__owner, __ATOMIC_RELAXED) == own_number;
#else
    return false;
#endif
}

void forget_own_number(void) { own_number = 0; }

/* Where somebody has the lock: whether this thread does, and so may not wait for it. */
bool is_held_here(void) { return is_asked_here() || is_mine(); }

static struct sentence say_whose(void)
{
    struct sentence it = { 0 };
    append(&it, "device %d: its function for %s", asked.device, asked.of);
    if (asked.ep)
        append(&it, " %02x", asked.ep);
    return it;
}

/* Without the lock, which another thread has for longer than a device may take, at a limit: what is asked there stays. */
void write_who_is_asked(int file)
{
    if (is_asking())
        dprintf(file, "libusb:   %s doesn't return\n", say_whose().text);
    else
        dprintf(file, "libusb:   a thread is in a call of the library that doesn't return\n");
}

static const char *name_of(const char *function)
{
    return strncmp(function, "libusb_", 7) && strncmp(function, "tirnouch_", 9) ? "the library" : function;
}

/* In a signal's handler, which may interrupt whatever this thread is at: in one write, and nothing else of the process is touched. */
static void tell_amid(const char *function, const char *what)
{
    char line[256];
    int length = snprintf(line, sizeof line, "libusb: error %s is called amid another call of this thread, as by a signal's handler: %s\n",
                          name_of(function), what);
    ssize_t written = write(STDERR_FILENO, line, (size_t)length);
    (void)written;
}

/* Before the lock is taken, where somebody has it: whether this thread does, so that the call is refused. Of a device's function that is told
 * once, in the first log that is told of refusals. */
bool refuse_held(const char *function)
{
    if (!is_asked_here()) {
        bool is_amid = is_mine();
        if (is_amid)
            tell_amid(function, "it is refused (LIBUSB_ERROR_BUSY)");
        return is_amid;
    }
    struct libusb_context *context = process.contexts;
    while (context && !is_told(context, LIBUSB_ERROR_BUSY))
        context = context->next;
    if (context)
        note_call(context, LIBUSB_ERROR_BUSY, function, "%s calls it", say_whose().text);
    return true;
}

/* The same for a call that has no answer to be refused by. */
void end_for_held(const char *function)
{
    if (is_asked_here())
        fprintf(stderr, "libusb: error %s calls %s, and may call nothing of libusb: the program is ended\n", say_whose().text,
                name_of(function));
    else if (is_mine())
        tell_amid(function, "the program is ended");
    else
        return;
    abort();
}

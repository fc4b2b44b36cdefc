/* The library is called from within: in the program's log function, in a signal's handler amid a call, and by a device's function that
 * forks or ends the process. What can't be answered is told, and nothing hangs. */
#include "scene.h"

#include <signal.h>
#include <stdio.h>
#include <stdlib.h>
#include <string.h>
#include <sys/syscall.h>
#include <sys/wait.h>
#include <time.h>
#include <unistd.h>

#define SENSOR "device 0 0902200001010080320904000002ff0000000705810240000007050202400000\nids 0 04a9 31c0\n"

/* The signal's handler, and whether the next look at the clock brings the signal: the library looks there with its lock held. */
static void (*volatile in_handler)(void);
static volatile sig_atomic_t is_armed;

int clock_gettime(clockid_t clock, struct timespec *to)
{
    if (is_armed) {
        is_armed = 0;
        raise(SIGUSR1);
    }
    return (int)syscall(SYS_clock_gettime, clock, to);
}

static void on_signal(int signal)
{
    (void)signal;
    in_handler();
}

static void arm(void (*handler)(void))
{
    in_handler = handler;
    signal(SIGUSR1, on_signal);
    is_armed = 1;
}

/* A line of the log that names a call: the call's name. In the first one the function calls the library. */
static int lines_told;
static int calls_within;

static void print_name(libusb_context *of, enum libusb_log_level level, const char *line)
{
    const char *from = strchr(line, '['), *to = from ? strchr(from, ']') : NULL;
    libusb_device **list;
    if (to)
        printf("  told level %d: %.*s\n", (int)level, (int)(to - from - 1), from + 1);
    if (!lines_told++ && calls_within) {
        say("within:");
        if (libusb_get_device_list(of, &list) >= 0)
            libusb_free_device_list(list, 1);
        answer("option", libusb_set_option(of, LIBUSB_OPTION_LOG_LEVEL, LIBUSB_LOG_LEVEL_DEBUG));
    }
}

static void begin_log(int within)
{
    lines_told = 0;
    calls_within = within;
    libusb_set_log_cb(context, print_name, LIBUSB_LOG_CB_CONTEXT);
    libusb_set_option(context, LIBUSB_OPTION_LOG_LEVEL, LIBUSB_LOG_LEVEL_DEBUG);
}

/* Each line comes once, behind those that were told before it, and before its own call returns. The last are those of libusb_exit. */
static void log_function(void)
{
    begin("a log function calls the library", "script 0 81 d:2a\n");
    begin_log(1);
    answer("claim of 0 once more", libusb_claim_interface(handle, 0));
    answer("release of 1", libusb_release_interface(handle, 1));
    struct libusb_transfer *transfer = submit(1, 0x81, 8);
    say("submitted");
    work();
    answer("cancel", libusb_cancel_transfer(transfer));
    discard(transfer);
    end();
}

/* In a log function of a wait no events are handled, as in a callback. */
static int handled;

static void handle_within(libusb_context *of, enum libusb_log_level level, const char *line)
{
    struct timeval none = { 0, 0 };
    (void)level;
    if (strstr(line, "libusb_handle_events") && !handled++)
        answer("events within", libusb_handle_events_timeout(of, &none));
}

static void log_function_of_a_wait(void)
{
    struct timeval moment = { 0, 2000 };
    begin("a log function of a wait", "");
    libusb_set_log_cb(context, handle_within, LIBUSB_LOG_CB_CONTEXT);
    libusb_set_option(context, LIBUSB_OPTION_LOG_LEVEL, LIBUSB_LOG_LEVEL_DEBUG);
    answer("events", libusb_handle_events_timeout(context, &moment));
    libusb_set_log_cb(context, NULL, LIBUSB_LOG_CB_CONTEXT);
    libusb_set_option(context, LIBUSB_OPTION_LOG_LEVEL, LIBUSB_LOG_LEVEL_NONE);
    end();
}

static void interrupt_it(void) { libusb_interrupt_event_handler(context); }

static int not_ready(void *user, uint8_t endpoint, uint8_t *data, int length)
{
    (void)user, (void)endpoint, (void)data, (void)length;
    if (calls_within++ == 0) {
        in_handler = interrupt_it;
        signal(SIGUSR1, on_signal);
        raise(SIGUSR1);
    }
    return TIRNOUCH_NOT_READY;
}

/* Whoever handles events returns, though nothing is called back: at once, and not behind a minute. */
static void interrupted_while_asked(void)
{
    calls_within = 0;
    tirnouch_on_packet(0, 0x81, not_ready, NULL);
    begin_text("a signal's handler interrupts while a device is asked", SENSOR);
    handle = open_standard(context);
    libusb_claim_interface(handle, 0);
    struct libusb_transfer *transfer = submit(1, 0x81, 8);
    long long before = clock_now();
    answer("events", libusb_handle_events(context));
    say(clock_now() - before < 20000 ? "at once" : "late");
    libusb_cancel_transfer(transfer);
    wait_for(1);
    discard(transfer);
    end();
    tirnouch_on_packet(0, 0x81, NULL, NULL);
}

/* An interruption while nobody handles events is for who handles them next, and for that one alone. */
static void interrupted_before(void)
{
    struct timeval moment = { 0, 50000 };
    begin("interrupted by a signal's handler amid a submission", "");
    struct libusb_transfer *transfer = make(1, 0x81, 8);
    transfer->timeout = 100000;
    arm(interrupt_it);
    answer("submit", libusb_submit_transfer(transfer));
    long long before = clock_now();
    answer("events", libusb_handle_events(context));
    say(clock_now() - before < 20000 ? "at once" : "late");
    before = clock_now();
    answer("events", libusb_handle_events_timeout(context, &moment));
    say(clock_now() - before >= 50 ? "behind its time" : "before its time");
    libusb_cancel_transfer(transfer);
    work();
    discard(transfer);
    end();
}

static struct libusb_transfer *flying;
static int within;

static void cancel_it(void) { within = libusb_cancel_transfer(flying); }
static void close_it(void) { libusb_close(handle); }

static void refused_amid(void)
{
    begin("a signal's handler calls amid a submission", "");
    flying = submit(1, 0x81, 8);
    struct libusb_transfer *transfer = make(2, 0x81, 8);
    transfer->timeout = 100000;
    hear_errors();
    arm(cancel_it);
    int result = libusb_submit_transfer(transfer);
    show_errors();
    answer("within", within);
    answer("submit", result);
    libusb_cancel_transfer(flying);
    libusb_cancel_transfer(transfer);
    work();
    discard(flying);
    discard(transfer);
    end();
}

static void wait_for_child(pid_t child)
{
    int status = 0;
    if (waitpid(child, &status, 0) != child)
        say("there is no child");
    else if (WIFSIGNALED(status))
        number("ended by a signal", WTERMSIG(status));
    else
        number("status", WEXITSTATUS(status));
}

/* libusb_close has no answer to be refused by. */
static void ended_amid(void)
{
    puts("a signal's handler closes amid a submission");
    hear_errors();
    fflush(stdout);
    pid_t child = fork();
    if (child == 0) {
        freopen("/dev/null", "w", stdout);
        begin("", "");
        struct libusb_transfer *transfer = make(1, 0x81, 8);
        transfer->timeout = 100000;
        arm(close_it);
        libusb_submit_transfer(transfer);
        _exit(0);
    }
    int status = 0;
    waitpid(child, &status, 0);
    show_errors();
    say(WIFSIGNALED(status) && WTERMSIG(status) == SIGABRT ? "ended by abort" : "not ended");
}

/* What the device's function does, once: it forks, and the child ends at once or goes on with the read; or the process ends there. */
enum { FORKS, FORKS_AND_READS, EXITS };
static int way;
static int is_child;

static int forks(void *user, uint8_t endpoint, uint8_t *data, int length)
{
    (void)user, (void)endpoint, (void)length;
    data[0] = 7;
    if (calls_within++)
        return 1;
    if (way == EXITS)
        exit(7);
    fflush(stdout);
    pid_t child = fork();
    if (child == 0 && way == FORKS)
        _exit(5);
    is_child = child == 0;
    data[0] = is_child ? 8 : 9;
    if (child)
        wait_for_child(child);
    return 1;
}

static void read_by(int how, const char *name)
{
    unsigned char data[8] = { 0 };
    int moved = 0;
    way = how;
    calls_within = 0;
    tirnouch_on_packet(0, 0x81, forks, NULL);
    begin_text(name, SENSOR "control 0 40 01 0000 0000 a:01\n");
    handle = open_standard(context);
    libusb_claim_interface(handle, 0);
    answer("read", libusb_bulk_transfer(handle, 0x81, data, 8, &moved, 0));
    bytes("read", data, moved);
    answer("read once more", libusb_bulk_transfer(handle, 0x81, data, 8, &moved, 0));
    if (is_child) {
        libusb_close(handle);
        libusb_exit(context);
        fflush(stdout);
        _exit(6);
    }
    hear_errors();
    end();
    show_errors();
    tirnouch_on_packet(0, 0x81, NULL, NULL);
}

/* Whoever exits there is judged as at any other exit: the request that is expected never came. */
static void exits_in_a_function(void)
{
    puts("a device's function ends the process");
    hear_errors();
    fflush(stdout);
    pid_t child = fork();
    if (child == 0) {
        freopen("/dev/null", "w", stdout);
        read_by(EXITS, "");
        _exit(0);
    }
    wait_for_child(child);
    show_errors();
}

int main(void)
{
    log_function();
    log_function_of_a_wait();
    interrupted_while_asked();
    interrupted_before();
    refused_amid();
    ended_amid();
    read_by(FORKS, "a device's function forks");
    read_by(FORKS_AND_READS, "a device's function forks, and both read on");
    exits_in_a_function();
    return 0;
}

/* What is told, and to whom: log callbacks, answers that mean nothing, a system without descriptors, a trace's timeouts, a stream's number.
 * The expected lines are written from libusb's manual and its core.c, and from tirnouch.h. */
#include "scene.h"

#include <fcntl.h>
#include <stdio.h>
#include <stdlib.h>
#include <string.h>
#include <sys/resource.h>
#include <unistd.h>

static int with_context, without;

static void LIBUSB_CALL count_log(libusb_context *of, enum libusb_log_level level, const char *line)
{
    (void)level, (void)line;
    with_context += of == context && of;
    without += !of;
}

static void logs(void)
{
    libusb_device **list;
    begin_text("log callbacks", STANDARD);
    libusb_set_option(context, LIBUSB_OPTION_LOG_LEVEL, LIBUSB_LOG_LEVEL_DEBUG);
    libusb_set_log_cb(context, count_log, LIBUSB_LOG_CB_CONTEXT);
    with_context = without = 0;
    libusb_free_device_list(libusb_get_device_list(context, &list) > 0 ? list : NULL, 1);
    number("of the context: with it", with_context > 0);
    number("without", without > 0);
    libusb_set_log_cb(context, NULL, LIBUSB_LOG_CB_CONTEXT);
    libusb_set_log_cb(NULL, count_log, LIBUSB_LOG_CB_GLOBAL);
    with_context = without = 0;
    libusb_free_device_list(libusb_get_device_list(context, &list) > 0 ? list : NULL, 1);
    number("of all: with it", with_context > 0);
    number("without", without > 0);
    libusb_set_option(context, LIBUSB_OPTION_LOG_LEVEL, LIBUSB_LOG_LEVEL_NONE);
    libusb_set_log_cb(NULL, NULL, LIBUSB_LOG_CB_GLOBAL);
    end();
}

static int odd_answer(void *user, const uint8_t setup[8], uint8_t *data, int length)
{
    (void)user, (void)data, (void)length;
    return setup[0] == 0xc0 ? -999 : TIRNOUCH_AS_TEXT;
}

static void odd_answers(void)
{
    unsigned char data[8];
    tirnouch_on_control(0, odd_answer, NULL);
    hear_errors();
    begin("an answer to a request that means nothing", "");
    answer("request", libusb_control_transfer(handle, 0xc0, 1, 2, 3, data, 8, 1000));
    end();
    show_errors();
    tirnouch_on_control(0, NULL, NULL);
}

/* All descriptors are in use. */
static void no_descriptors(void)
{
    struct rlimit before, few = { 60, 60 };
    libusb_context *own = NULL;
    int taken[64], count = 0, result;
    puts("no descriptor is left");
    hear_errors();
    getrlimit(RLIMIT_NOFILE, &before);
    few.rlim_max = before.rlim_max;
    setrlimit(RLIMIT_NOFILE, &few);
    while (count < 64 && (taken[count] = open("/dev/null", O_RDONLY)) >= 0)
        count++;
    unsetenv("TIRNOUCH_TRACE");
    result = libusb_init(&own);
    while (count)
        close(taken[--count]);
    setrlimit(RLIMIT_NOFILE, &before);
    show_errors();
    answer("init", result);
}

/* In a trace that is kept in memory. */
static void timeouts(void)
{
    static const char text[] = STANDARD "script 0 81 d:01 d:02\n";
    struct tirnouch_options options = { .size = sizeof options, .devices = text, .devices_length = sizeof text - 1, .is_virtual = 1,
                                        .keeps_trace = 1 };
    static char trace[4096];
    unsigned char data[8];
    int moved;
    puts("the timeouts of a trace");
    answer("begin", tirnouch_begin(&options));
    answer("init", libusb_init(&context));
    handle = open_standard(context);
    answer("read", libusb_bulk_transfer(handle, 0x81, data, 8, &moved, 250));
    answer("read", libusb_bulk_transfer(handle, 0x81, data, 8, &moved, 0));
    tirnouch_trace(trace, sizeof trace);
    for (char *at = strstr(trace, "submit "); at; at = strstr(at + 1, "\nsubmit ")) {
        at += *at == '\n';
        printf("  %.*s\n", (int)strcspn(at, "\n"), at);
    }
    libusb_close(handle);
    libusb_exit(context);
    answer("end", tirnouch_end());
}

static void streams(void)
{
    struct libusb_transfer *transfer = libusb_alloc_transfer(0);
    puts("a stream's number");
    number("at first", libusb_transfer_get_stream_id(transfer));
    libusb_transfer_set_stream_id(transfer, 7);
    number("set", libusb_transfer_get_stream_id(transfer));
    libusb_free_transfer(transfer);
}

int main(void)
{
    logs();
    odd_answers();
    timeouts();
    streams();
    no_descriptors();
    return 0;
}

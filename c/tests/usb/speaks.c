/* What a program's author is told when a run goes wrong: why a transfer doesn't end, which requests nothing answers, which calls were
 * refused, and what he did that libusb forbids. The messages are those of level 1 to 3; level 4 has a line for each call. */
#include "scene.h"

#include <stdio.h>
#include <stdlib.h>
#include <string.h>

static int lines, most_shown;

static void LIBUSB_CALL show(libusb_context *of, enum libusb_log_level level, const char *text)
{
    (void)of;
    lines++;
    if ((int)level <= most_shown)
        printf("  log: %s", text);
}

static void begin_log(const char *name, const char *more, int level)
{
    lines = 0;
    most_shown = level;
    begin(name, more);
    libusb_set_log_cb(context, show, LIBUSB_LOG_CB_CONTEXT);
    libusb_set_option(context, LIBUSB_OPTION_LOG_LEVEL, level);
}

static void read_in_vain(unsigned char ep, int length)
{
    unsigned char data[64] = { 0 };
    int moved;
    answer("transfer", libusb_bulk_transfer(handle, ep, data, length, &moved, 40));
}

static void at_the_end(void)
{
    begin_log("a script at its end", "script 0 02 a\n", LIBUSB_LOG_LEVEL_WARNING);
    read_in_vain(0x02, 8);
    read_in_vain(0x02, 8);
    read_in_vain(0x81, 8);
    end();
}

static void behind_packets(void)
{
    begin_log("an answer that waits for packets", "script 0 02 a a a a a\nscript 0 81 d:01\nafter 0 81 0 02 5\n", LIBUSB_LOG_LEVEL_WARNING);
    for (int i = 0; i < 4; i++)
        read_in_vain(0x02, 8);
    read_in_vain(0x81, 8);
    end();
}

static void behind_answers(void)
{
    begin_log("an answer that waits for another's", "script 0 83 d:01 d:02\nscript 0 81 d:0a\nafter 0 81 0 83 2\n",
              LIBUSB_LOG_LEVEL_WARNING);
    read_in_vain(0x83, 8);
    read_in_vain(0x81, 8);
    end();
}

static void behind_requests(void)
{
    begin_log("an answer that waits for requests", "control 0 40 * * * a\nscript 0 81 d:01\nafter 0 81 0 40 01 * 0203 2\n", LIBUSB_LOG_LEVEL_WARNING);
    answer("request", libusb_control_transfer(handle, 0x40, 1, 7, 0x203, NULL, 0, 40));
    answer("request", libusb_control_transfer(handle, 0x40, 1, 7, 0x204, NULL, 0, 40));
    read_in_vain(0x81, 8);
    end();
}

static void not_ready(void)
{
    begin_log("a device that isn't ready", "script 0 81 n n n n n n n n n n n n n n n n n n n n n n n n n n n n\n", LIBUSB_LOG_LEVEL_WARNING);
    read_in_vain(0x81, 8);
    end();
}

static void cancelled(void)
{
    struct libusb_transfer *waits, *goes_on;
    begin_log("cancels: of what waits, and of what could go on", "script 0 02 a a\nscript 0 81 d:01\n", LIBUSB_LOG_LEVEL_WARNING);
    waits = submit(0, 0x83, 8);
    work();
    libusb_cancel_transfer(waits);
    goes_on = submit(1, 0x81, 8);
    libusb_cancel_transfer(goes_on);
    work();
    discard(waits);
    discard(goes_on);
    end();
}

static void left(void)
{
    struct libusb_transfer *transfer;
    begin_log("in flight at the end", "script 0 81 d:01\n", LIBUSB_LOG_LEVEL_WARNING);
    transfer = submit(0, 0x83, 16);
    work();
    libusb_exit(context);
    context = NULL;
    discard(transfer);
}

static void requests(void)
{
    unsigned char data[8];
    begin_log("requests that no line fits, and refusals", "", LIBUSB_LOG_LEVEL_INFO);
    answer("request", libusb_control_transfer(handle, 0xc0, 0x01, 0x0203, 0x0004, data, 5, 1000));
    answer("claim", libusb_claim_interface(handle, 7));
    answer("clear_halt", libusb_clear_halt(handle, 0x85));
    end();
}

static void each_call(void)
{
    unsigned char data[18];
    begin_log("level 4 has a line for each call", "script 0 81 d:01\n", LIBUSB_LOG_LEVEL_DEBUG);
    most_shown = LIBUSB_LOG_LEVEL_INFO;
    lines = 0;
    libusb_get_descriptor(handle, LIBUSB_DT_DEVICE, 0, data, sizeof data);
    say(lines >= 3 ? "a request has lines" : "a request has none");
    lines = 0;
    libusb_release_interface(handle, 1);
    number("lines of a release", lines);
    end();
}

/* Of two configurations that a device descriptor says one is there, as its text has it: programs see 1. */
static void configurations(void)
{
    struct libusb_device_descriptor it;
    struct libusb_config_descriptor *config;
    unsigned char data[18] = { 0 };
    most_shown = LIBUSB_LOG_LEVEL_INFO;
    libusb_set_option(NULL, LIBUSB_OPTION_LOG_LEVEL, LIBUSB_LOG_LEVEL_INFO);
    libusb_set_option(NULL, LIBUSB_OPTION_LOG_CB, show);
    begin_text("a device descriptor of two configurations", STANDARD "descriptor 0 1201000200000040a904c03100010000" "0002\n");
    handle = open_standard(context);
    answer("descriptor", libusb_get_device_descriptor(libusb_get_device(handle), &it));
    number("configurations", it.bNumConfigurations);
    answer("the second", libusb_get_config_descriptor(libusb_get_device(handle), 1, &config));
    answer("by request", libusb_get_descriptor(handle, LIBUSB_DT_DEVICE, 0, data, sizeof data));
    number("configurations", data[17]);
    end();
    libusb_set_option(NULL, LIBUSB_OPTION_LOG_CB, NULL);
    libusb_set_option(NULL, LIBUSB_OPTION_LOG_LEVEL, LIBUSB_LOG_LEVEL_NONE);
}

static void languages(void)
{
    static const char *const locales[] = { "nl", "fr", "ru", "de", "hu", "en" };
    puts("errors in other languages");
    for (size_t i = 0; i < sizeof locales / sizeof locales[0]; i++) {
        libusb_setlocale(locales[i]);
        printf("  %s: %s; %s\n", locales[i], libusb_strerror(LIBUSB_ERROR_BUSY), libusb_strerror(LIBUSB_ERROR_TIMEOUT));
    }
}

static void misuses(void)
{
    libusb_device **list;
    begin_log("the default context isn't the program's own", "", LIBUSB_LOG_LEVEL_WARNING);
    list_devices(NULL, &list);
    libusb_free_device_list(list, 1);
    list_devices(NULL, &list);
    libusb_free_device_list(list, 1);
    libusb_exit(context);
    handle = NULL;
    context = NULL;
}

int main(void)
{
    at_the_end();
    behind_packets();
    behind_answers();
    behind_requests();
    not_ready();
    cancelled();
    left();
    requests();
    each_call();
    configurations();
    misuses();
    languages();
    return 0;
}

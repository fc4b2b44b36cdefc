/* What a test asks of a run amid it: what is left and why, what differs from what is expected, what went wrong with the bus, the clock; and a
 * device that is plugged in anew. The expected lines are written from tirnouch.h and docs/DEVICES.md. */
#include "scene.h"

#include <stdio.h>
#include <string.h>

#define SHORT 1000

/* A text's lines, and how long all of it is. */
static void show(const char *what, const char *text, size_t length)
{
    printf("  %s, %zu bytes:\n", what, length);
    for (const char *at = text; *at;) {
        size_t count = strcspn(at, "\n");
        printf("    %.*s\n", (int)count, at);
        at += count + (at[count] == '\n');
    }
}

static void show_left(void)
{
    char text[1024];
    size_t length = tirnouch_left(text, sizeof text);
    show("left", text, length);
}

static void show_report(void)
{
    char text[1024];
    size_t length = tirnouch_report(text, sizeof text);
    show("report", text, length);
}

/* As far as the colon behind the word: why a line isn't taken is the core's to say. */
static void show_error(void)
{
    char text[1024];
    size_t length = tirnouch_error(text, sizeof text);
    char *reason = strstr(text, "\": ");
    if (reason)
        reason[1] = 0;
    text[strcspn(text, "\n")] = 0;
    printf("  error, %s: %s\n", length ? "some bytes" : "no bytes", text);
}

static void left(void)
{
    begin("what is left, and why", "script 0 81 d:01\nafter 0 81 0 02 1\n");
    show_left();
    struct libusb_transfer *read = submit(1, 0x81, 8), *waits = submit(2, 0x83, 8);
    work();
    show_left();
    libusb_cancel_transfer(waits);
    wait_for(1);
    show_left();
    libusb_cancel_transfer(read);
    wait_for(2);
    show_left();
    discard(read);
    discard(waits);
    end();
}

static void cut(void)
{
    char text[16];
    begin("a text that doesn't fit", "");
    struct libusb_transfer *read = submit(1, 0x81, 8);
    size_t whole = tirnouch_left(NULL, 0), again = tirnouch_left(text, sizeof text);
    printf("  %s: \"%s\"\n", whole == again ? "as long with room as without" : "another length", text);
    libusb_cancel_transfer(read);
    wait_for(1);
    discard(read);
    end();
}

static void write_to(unsigned char ep, unsigned char byte)
{
    int moved = 0;
    answer("write", libusb_bulk_transfer(handle, ep, &byte, 1, &moved, SHORT));
}

static void report(void)
{
    hear_errors();
    begin("what differs so far", "script 0 02 a:01 a:02 a:03\n");
    show_report();
    write_to(0x02, 1);
    show_report();
    write_to(0x02, 9);
    show_report();
    end();
    show_errors();
    begin("where nothing is expected", "script 0 02 a\n");
    show_report();
    end();
}

static void error(void)
{
    static const char bad[] = "device 0 " STANDARD_CONFIG "\nhuh 0\n";
    hear_errors();
    say("a text that isn't taken");
    answer("plug", tirnouch_plug(bad, strlen(bad)));
    answer("init", libusb_init(&context));
    show_error();
    begin("the next one is", "");
    show_error();
    end();
}

static void clock_of_the_bus(void)
{
    virtual_time(1);
    begin("virtual time", "");
    number("now", (long long)tirnouch_now());
    struct libusb_transfer *read = submit_with(1, 0x81, 8, 0, 1000);
    answer("advance", tirnouch_advance(400));
    work();
    number("now", (long long)tirnouch_now());
    answer("advance", tirnouch_advance(600));
    wait_for(1);
    number("now", (long long)tirnouch_now());
    discard(read);
    end();
    number("without a bus", (long long)tirnouch_now());
    answer("advance", tirnouch_advance(1));
    virtual_time(0);
    begin("real time", "");
    answer("advance", tirnouch_advance(1));
    end();
}

static void read_one(libusb_device_handle *of)
{
    unsigned char data[8];
    int moved = 0, r = libusb_bulk_transfer(of, 0x81, data, sizeof data, &moved, SHORT);
    answer("read", r);
    if (!r)
        bytes("read", data, moved);
}

static void replug(void)
{
    begin("a scripted device is plugged in anew", "script 0 81 d:01 d:02\n");
    read_one(handle);
    answer("replug", tirnouch_replug(0));
    read_one(handle);
    libusb_device_handle *further = open_standard(context);
    answer("claim", libusb_claim_interface(further, 0));
    read_one(further);
    answer("replug of none", tirnouch_replug(5));
    answer("pull", tirnouch_pull(0));
    answer("replug of one that is out", tirnouch_replug(0));
    libusb_close(further);
    end();
    begin("one that was scripted, and is out", "");
    answer("pull", tirnouch_pull(0));
    answer("replug", tirnouch_replug(0));
    end();
}

/* A context on the bus that is there, with the standard device open and its interface 0 claimed. */
static void open_on_bus(void)
{
    answer("init", libusb_init(&context));
    handle = libusb_open_device_with_vid_pid(context, VENDOR, PRODUCT);
    answer("claim", handle ? libusb_claim_interface(handle, 0) : LIBUSB_ERROR_NOT_FOUND);
}

static void close_on_bus(void)
{
    libusb_close(handle);
    libusb_exit(context);
    handle = NULL;
    context = NULL;
}

static int begin_with(const char *devices, const char *trace)
{
    struct tirnouch_options options = { .size = sizeof options, .devices = devices, .trace = trace, .is_virtual = 1 };
    options.devices_length = strlen(devices);
    return tirnouch_begin(&options);
}

static void bus_of_a_test(void)
{
    static const char name[] = "reports.trace";
    struct tirnouch_options none = { .size = 0 };
    char line[100] = "";
    say("a bus that a test begins");
    answer("begin of another size", tirnouch_begin(&none));
    answer("begin of nothing", tirnouch_begin(NULL));
    answer("end of none", tirnouch_end());
    answer("begin", begin_with(STANDARD "script 0 81 d:01 d:02 d:03\n", name));
    answer("begin again", begin_with(STANDARD, NULL));
    answer("plug", tirnouch_plug("", 0));
    open_on_bus();
    read_one(handle);
    close_on_bus();
    say("another context: the device goes on");
    open_on_bus();
    read_one(handle);
    close_on_bus();
    answer("end", tirnouch_end());
    answer("end again", tirnouch_end());
    FILE *trace = fopen(name, "r");
    printf("  the trace: %s", trace && fgets(line, sizeof line, trace) ? line : "there is none\n");
    if (trace)
        fclose(trace);
    remove(name);
}

static void bus_that_isnt_begun(void)
{
    hear_errors();
    say("a bus that can't begin");
    answer("begin", begin_with(STANDARD "huh 0\n", NULL));
    show_error();
    answer("end", tirnouch_end());
    answer("begin", begin_with(STANDARD, "no such folder/trace"));
    show_error();
    answer("begin", begin_with(STANDARD, NULL));
    show_error();
    answer("end", tirnouch_end());
}

static int begin_plugged(void)
{
    struct tirnouch_options options = { .size = sizeof options, .is_virtual = 1 };
    return tirnouch_begin(&options);
}

/* Neither a bus with a text of its own nor one that can't begin takes the text of tirnouch_plug away. */
static void plugged_text_stays(void)
{
    say("the text of tirnouch_plug stays");
    answer("plug", tirnouch_plug(STANDARD "script 0 81 d:07\n", strlen(STANDARD "script 0 81 d:07\n")));
    answer("begin with another text", begin_with(STANDARD "script 0 81 d:08\n", NULL));
    answer("end", tirnouch_end());
    answer("begin with a bad text", begin_with("huh 0\n", NULL));
    answer("begin with that of plug", begin_plugged());
    open_on_bus();
    read_one(handle);
    close_on_bus();
    answer("end", tirnouch_end());
}

int main(void)
{
    left();
    cut();
    report();
    error();
    clock_of_the_bus();
    replug();
    bus_of_a_test();
    bus_that_isnt_begun();
    plugged_text_stays();
    return 0;
}

/* Calls within a device's function: those that read answer as anywhere, those that change something and those of libusb with a status
 * are refused, and change nothing. One that has no answer to be refused by ends the program by SIGABRT, with a sentence that says whose
 * function it is and what it called: each such program is a child. The expected lines are written from tirnouch.h. */
#include "scene.h"

#include <signal.h>
#include <stdio.h>
#include <stdlib.h>
#include <string.h>
#include <sys/wait.h>
#include <unistd.h>

static struct libusb_transfer *spare;
static libusb_device *known;
static void (*within)(void);

static int for_packet(void *user, uint8_t ep, uint8_t *data, int length)
{
    (void)user, (void)ep, (void)length;
    within();
    data[0] = 7;
    return 1;
}

static int for_request(void *user, const uint8_t setup[8], uint8_t *data, int length)
{
    (void)user, (void)setup, (void)data, (void)length;
    within();
    return 0;
}

static void for_event(void *user, enum tirnouch_event event, int number_of)
{
    (void)user, (void)number_of;
    if (event == TIRNOUCH_EVENT_RESET)
        within();
}

static int never(void *user, uint8_t ep, uint8_t *data, int length)
{
    (void)user, (void)ep, (void)data, (void)length;
    return TIRNOUCH_NOT_READY;
}

static int on_hotplug(libusb_context *of, libusb_device *device, libusb_hotplug_event event, void *user)
{
    (void)of, (void)device, (void)event, (void)user;
    return 0;
}

static void call_those_that_read(void)
{
    char text[400];
    unsigned char packet[8], out[64];
    tirnouch_left(text, sizeof text);
    printf("  left: %s", text);
    number("report, bytes", (long long)tirnouch_report(NULL, 0));
    number("error, bytes", (long long)tirnouch_error(NULL, 0));
    number("trace, bytes", (long long)tirnouch_trace(NULL, 0));
    number("now", (long long)tirnouch_now());
    number("took", tirnouch_took(0, 0x02, 0, packet, sizeof packet));
    number("requests", tirnouch_requests(0, 0, out));
    number("ready", tirnouch_ready(0));
    answer("ready of none", tirnouch_ready(7));
}

static void call_those_that_change(void)
{
    struct tirnouch_options options = { .size = sizeof options };
    answer("plug", tirnouch_plug("", 0));
    answer("begin", tirnouch_begin(&options));
    answer("end", tirnouch_end());
    answer("pull", tirnouch_pull(0));
    answer("show", tirnouch_show(0));
    answer("replug", tirnouch_replug(0));
    answer("advance", tirnouch_advance(1000));
    answer("on_control", tirnouch_on_control(0, NULL, NULL));
    answer("on_packet", tirnouch_on_packet(0, 0x83, NULL, NULL));
    answer("on_event", tirnouch_on_event(0, NULL, NULL));
}

static void call_those_of_devices(void)
{
    libusb_context *other;
    libusb_device **list;
    libusb_device_handle *opened = NULL;
    struct libusb_config_descriptor *config;
    answer("init", libusb_init(&other));
    answer("get_device_list", (int)libusb_get_device_list(context, &list));
    answer("open", libusb_open(known, &opened));
    say(libusb_open_device_with_vid_pid(context, VENDOR, PRODUCT) ? "a handle" : "no handle");
    answer("get_active_config_descriptor", libusb_get_active_config_descriptor(known, &config));
    answer("get_max_packet_size", libusb_get_max_packet_size(known, 0x81));
    answer("get_max_alt_packet_size", libusb_get_max_alt_packet_size(known, 0, 0, 0x81));
    answer("hotplug_register_callback", libusb_hotplug_register_callback(context, LIBUSB_HOTPLUG_EVENT_DEVICE_LEFT, 0, LIBUSB_HOTPLUG_MATCH_ANY,
           LIBUSB_HOTPLUG_MATCH_ANY, LIBUSB_HOTPLUG_MATCH_ANY, on_hotplug, NULL, NULL));
    answer("set_option", libusb_set_option(context, LIBUSB_OPTION_LOG_LEVEL, 0));
}

static void call_those_of_handles(void)
{
    int value;
    answer("get_configuration", libusb_get_configuration(handle, &value));
    answer("set_configuration", libusb_set_configuration(handle, 1));
    answer("claim_interface", libusb_claim_interface(handle, 1));
    answer("release_interface", libusb_release_interface(handle, 0));
    answer("set_interface_alt_setting", libusb_set_interface_alt_setting(handle, 0, 0));
    answer("clear_halt", libusb_clear_halt(handle, 0x81));
    answer("reset_device", libusb_reset_device(handle));
    answer("kernel_driver_active", libusb_kernel_driver_active(handle, 0));
    answer("detach_kernel_driver", libusb_detach_kernel_driver(handle, 0));
    answer("attach_kernel_driver", libusb_attach_kernel_driver(handle, 0));
    answer("set_auto_detach_kernel_driver", libusb_set_auto_detach_kernel_driver(handle, 1));
}

static void call_those_of_transfers(void)
{
    struct timeval none = { 0, 0 };
    unsigned char data[8];
    int moved;
    answer("submit_transfer", libusb_submit_transfer(spare));
    answer("cancel_transfer", libusb_cancel_transfer(spare));
    answer("control_transfer", libusb_control_transfer(handle, 0xc0, 1, 0, 0, data, 8, 0));
    answer("bulk_transfer", libusb_bulk_transfer(handle, 0x81, data, 8, &moved, 0));
    answer("interrupt_transfer", libusb_interrupt_transfer(handle, 0x83, data, 8, &moved, 0));
    answer("get_string_descriptor_ascii", libusb_get_string_descriptor_ascii(handle, 1, data, 8));
    answer("handle_events_timeout", libusb_handle_events_timeout(context, &none));
    answer("handle_events_locked", libusb_handle_events_locked(context, &none));
    answer("wait_for_event", libusb_wait_for_event(context, &none));
}

static void call_some(void)
{
    unsigned char packet[8];
    number("took", tirnouch_took(0, 0x02, 0, packet, sizeof packet));
    number("ready", tirnouch_ready(0));
    answer("pull", tirnouch_pull(0));
    answer("submit_transfer", libusb_submit_transfer(spare));
}

static void prepare(void)
{
    spare = make(9, 0x81, 8);
    known = first_device();
    answer("on_packet", tirnouch_on_packet(0, 0x81, for_packet, NULL));
    answer("on_packet", tirnouch_on_packet(0, 0x83, never, NULL));
    answer("on_control", tirnouch_on_control(0, for_request, NULL));
    answer("on_event", tirnouch_on_event(0, for_event, NULL));
}

static void forget_functions(void)
{
    tirnouch_on_packet(0, 0x81, NULL, NULL);
    tirnouch_on_packet(0, 0x83, NULL, NULL);
    tirnouch_on_control(0, NULL, NULL);
    tirnouch_on_event(0, NULL, NULL);
}

static void read_while(const char *name, void (*calls_within)(void))
{
    puts(name);
    within = calls_within;
    struct libusb_transfer *read = submit(1, 0x81, 8);
    wait_for(calls + 1);
    discard(read);
}

static void in_a_packets_function(void)
{
    begin("in a packet's function", "script 0 02 a\n");
    prepare();
    libusb_release_interface(handle, 1);
    struct libusb_transfer *written = submit(0, 0x02, 3);
    wait_for(1);
    discard(written);
    read_while("those that read", call_those_that_read);
    read_while("those that change something", call_those_that_change);
    read_while("libusb's, of devices", call_those_of_devices);
    read_while("libusb's, of handles", call_those_of_handles);
    read_while("libusb's, of transfers", call_those_of_transfers);
}

static void in_the_other_functions(void)
{
    within = call_some;
    puts("in a request's function");
    answer("request", libusb_control_transfer(handle, 0xc0, 1, 0, 0, NULL, 0, 1000));
    puts("in a listener");
    answer("reset", libusb_reset_device(handle));
    forget_functions();
    discard(spare);
    libusb_unref_device(known);
    end();
}

/* A device that isn't asked any more in this round is ready, says another one of its functions, which isn't. */
static int is_ready;

static int ready_later(void *user, uint8_t ep, uint8_t *data, int length)
{
    (void)user, (void)ep, (void)length;
    data[0] = 5;
    return is_ready ? 1 : TIRNOUCH_NOT_READY;
}

static int tells_ready(void *user, uint8_t ep, uint8_t *data, int length)
{
    (void)user, (void)ep, (void)data, (void)length;
    is_ready = 1;
    tirnouch_ready(0);
    return TIRNOUCH_NOT_READY;
}

static void ready_within(void)
{
    struct timeval none = { 0, 0 };
    begin("a function says that an endpoint is ready which was asked before", "");
    tirnouch_on_packet(0, 0x83, ready_later, NULL);
    tirnouch_on_packet(0, 0x81, tells_ready, NULL);
    struct libusb_transfer *first = submit(1, 0x83, 8), *second = submit(2, 0x81, 8);
    libusb_handle_events_timeout(context, &none);
    number("callbacks", calls);
    tirnouch_on_packet(0, 0x81, NULL, NULL);
    libusb_cancel_transfer(second);
    wait_for(2);
    forget_functions();
    discard(first);
    discard(second);
    end();
}

static void read_81(void)
{
    unsigned char data[8];
    int moved;
    libusb_bulk_transfer(handle, 0x81, data, 8, &moved, 1000);
}

static void request(void)
{
    libusb_control_transfer(handle, 0xc0, 1, 0, 0, NULL, 0, 1000);
}

static void reset(void)
{
    libusb_reset_device(handle);
}

static void close_it(void) { libusb_close(handle); }
static void exit_it(void) { libusb_exit(context); }
static void drop_it(void) { libusb_unref_device(known); }

/* The child's standard error is the file. A child of fork is never traced. */
static void run_child(FILE *errors, void (*act)(void))
{
    static const char text[] = STANDARD;
    dup2(fileno(errors), STDERR_FILENO);
    signal(SIGABRT, SIG_DFL);
    tirnouch_plug(text, sizeof text - 1);
    unsetenv("TIRNOUCH_TRACE");
    if (libusb_init(&context))
        _exit(2);
    handle = libusb_open_device_with_vid_pid(context, VENDOR, PRODUCT);
    libusb_claim_interface(handle, 0);
    known = libusb_get_device(handle);
    tirnouch_on_packet(0, 0x81, for_packet, NULL);
    tirnouch_on_control(0, for_request, NULL);
    tirnouch_on_event(0, for_event, NULL);
    act();
    _exit(0);
}

static void show(FILE *errors)
{
    char line[400];
    rewind(errors);
    while (fgets(line, sizeof line, errors))
        if (!strncmp(line, "libusb: ", 8))
            printf("  %s", line);
    fclose(errors);
}

static void ends(const char *name, void (*act)(void), void (*call)(void))
{
    int status = 0;
    FILE *errors = tmpfile();
    within = call;
    puts(name);
    fflush(stdout);
    pid_t child = errors ? fork() : -1;
    if (!child)
        run_child(errors, act);
    if (child < 0 || waitpid(child, &status, 0) != child)
        exit(1);
    say(WIFSIGNALED(status) && WTERMSIG(status) == SIGABRT ? "ended by SIGABRT" : "ended otherwise");
    show(errors);
}

/* It is the first log that is told of refusals that has it. */
static void told(void)
{
    begin("a refusal is told in the log", "");
    libusb_set_option(context, LIBUSB_OPTION_LOG_LEVEL, LIBUSB_LOG_LEVEL_INFO);
    tirnouch_on_packet(0, 0x81, for_packet, NULL);
    spare = make(9, 0x81, 8);
    within = call_some;
    hear_errors();
    struct libusb_transfer *read = submit(1, 0x81, 8);
    wait_for(1);
    show_errors();
    libusb_set_option(context, LIBUSB_OPTION_LOG_LEVEL, LIBUSB_LOG_LEVEL_NONE);
    forget_functions();
    discard(read);
    discard(spare);
    end();
}

int main(void)
{
    setvbuf(stdout, NULL, _IOLBF, 0);
    ends("a packet's function closes its handle", read_81, close_it);
    ends("a request's function ends the context", request, exit_it);
    ends("a listener drops its device", reset, drop_it);
    virtual_time(1);
    in_a_packets_function();
    in_the_other_functions();
    ready_within();
    told();
    return 0;
}

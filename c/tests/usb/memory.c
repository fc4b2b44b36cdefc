/* Each allocation of a run is refused, one in each run: the first, the second, and so on until a run has none left to refuse; alone,
 * and then with all behind it that the same call makes. The call does without, or it answers LIBUSB_ERROR_NO_MEM or NULL, or a transfer
 * ends with LIBUSB_TRANSFER_ERROR; the same call made again is taken, and the run goes on to its end, with nothing lost. Linked with
 * -Wl,--wrap=malloc,--wrap=calloc,--wrap=realloc. */
#include "libusb.h"
#include "tirnouch.h"

#include <malloc.h>
#include <stdio.h>
#include <stdlib.h>
#include <string.h>
#include <unistd.h>

#define TRANSFERS 24
#define LONG 270000
#define PACKET 1024
#define ROUNDS 50
#define MOST_RUNS 20000
#define AT_ONCE 16
#define ROUNDS_OVER 8
#define REGISTERED 10000

void *__real_malloc(size_t size);
void *__real_calloc(size_t count, size_t size);
void *__real_realloc(void *old, size_t size);
void *__wrap_malloc(size_t size);
void *__wrap_calloc(size_t count, size_t size);
void *__wrap_realloc(void *old, size_t size);

/* Allocations of this run; the one that is refused, 0 for none; whether those behind it are, to the end of its call; whether one was. */
static long allocations, refused_one;
static int refuses_more, was_refused, is_dry;
static const char *step = "none";

static int is_refused(void)
{
    if (++allocations == refused_one)
        was_refused = is_dry = 1;
    return allocations == refused_one || (is_dry && refuses_more);
}

void *__wrap_malloc(size_t size)
{
    return is_refused() ? NULL : __real_malloc(size);
}

void *__wrap_calloc(size_t count, size_t size)
{
    return is_refused() ? NULL : __real_calloc(count, size);
}

void *__wrap_realloc(void *old, size_t size)
{
    return is_refused() ? NULL : __real_realloc(old, size);
}

static void fail(const char *what, int result)
{
    fprintf(stderr, "memory: allocation %ld refused, in %s: %s (%d)\n", refused_one, step, what, result);
    _exit(1);
}

static void require(int is_so, const char *what)
{
    if (!is_so)
        fail(what, 0);
}

/* Nothing may fail but for want of memory. */
static void told(int result)
{
    if (!was_refused)
        fail("an error without a refusal", result);
}

static libusb_context *context;
static libusb_device_handle *handle;
static libusb_device **list;
static struct libusb_config_descriptor *config;
static struct libusb_interface_association_descriptor_array *associations;
static struct libusb_ssplus_usb_device_capability_descriptor *plus;
static struct libusb_platform_descriptor *platform;
static libusb_hotplug_callback_handle watcher;
static const struct libusb_pollfd **descriptors;
static struct libusb_transfer *transfers[TRANSFERS];
static unsigned char buffers[TRANSFERS][64], sync_data[64], *long_data;
static char *text;
static size_t text_length;
static int calls, errors, arrivals, current;

static void on_call(struct libusb_transfer *transfer)
{
    calls++;
    if (transfer->status == LIBUSB_TRANSFER_ERROR)
        errors++;
    else if (transfer->status != LIBUSB_TRANSFER_COMPLETED && transfer->status != LIBUSB_TRANSFER_CANCELLED)
        fail("another status", (int)transfer->status);
}

static int on_arrival(libusb_context *of, libusb_device *device, libusb_hotplug_event event, void *user)
{
    (void)of;
    (void)device;
    (void)event;
    (void)user;
    arrivals++;
    return 0;
}

static int plug(void) { return tirnouch_plug(text, text_length); }
static int init(void) { return libusb_init(&context); }
static int get_list(void) { return (int)libusb_get_device_list(context, &list); }
static int get_config(void) { return libusb_get_config_descriptor(list[1], 0, &config); }
static int get_active(void) { return libusb_get_active_config_descriptor(list[1], &config); }
static int get_value(void) { return libusb_get_config_descriptor_by_value(list[1], 1, &config); }
static int get_associations(void) { return libusb_get_interface_association_descriptors(list[1], 0, &associations); }
static int open_first(void) { return libusb_open(list[1], &handle); }
static int claim(void) { return libusb_claim_interface(handle, 0); }
static int release(void) { return libusb_release_interface(handle, 0); }
static int reset(void) { return libusb_reset_device(handle); }
static int show(void) { return tirnouch_show(1); }
static int pull(void) { return tirnouch_pull(1); }
static int submit(void) { return libusb_submit_transfer(transfers[current]); }
static int cancel(void) { return libusb_cancel_transfer(transfers[current]); }

/* Device capabilities of the fewest bytes. */
static int get_plus(void)
{
    static unsigned char bytes[16] = { 16, 0x10, LIBUSB_BT_SUPERSPEED_PLUS_CAPABILITY };
    return libusb_get_ssplus_usb_device_capability_descriptor(context, (void *)bytes, &plus);
}

static int get_platform(void)
{
    static unsigned char bytes[20] = { 20, 0x10, LIBUSB_BT_PLATFORM_DESCRIPTOR };
    return libusb_get_platform_descriptor(context, (void *)bytes, &platform);
}

static int open_by_numbers(void)
{
    handle = libusb_open_device_with_vid_pid(context, 0x04a9, 0x31c0);
    return handle ? 0 : LIBUSB_ERROR_NO_MEM;
}

static int get_descriptors(void)
{
    descriptors = libusb_get_pollfds(context);
    return descriptors ? 0 : LIBUSB_ERROR_NO_MEM;
}

static int alloc(void)
{
    transfers[current] = libusb_alloc_transfer(0);
    return transfers[current] ? 0 : LIBUSB_ERROR_NO_MEM;
}

static int watch(void)
{
    return libusb_hotplug_register_callback(context, LIBUSB_HOTPLUG_EVENT_DEVICE_ARRIVED, 0, LIBUSB_HOTPLUG_MATCH_ANY,
                                            LIBUSB_HOTPLUG_MATCH_ANY, LIBUSB_HOTPLUG_MATCH_ANY, on_arrival, NULL, &watcher);
}

static int get_string(void)
{
    return libusb_get_string_descriptor_ascii(handle, 1, sync_data, sizeof sync_data);
}

static int ask(void)
{
    return libusb_control_transfer(handle, 0x40, 1, 0, 0, sync_data, 8, 1000);
}

static int write_some(void)
{
    int moved = 0, result = libusb_bulk_transfer(handle, 0x02, sync_data, 8, &moved, 1000);
    return result ? result : moved;
}

static int handle_some(void)
{
    struct timeval none = { 0, 0 };
    return libusb_handle_events_timeout(context, &none);
}

/* A call that is made again where memory was refused. Waiting for a transfer that ended with an error answers IO. */
static int make(const char *name, int (*call)(void))
{
    step = name;
    int result = call();
    is_dry = 0;
    if (result >= 0)
        return result;
    if (result != LIBUSB_ERROR_NO_MEM && !(result == LIBUSB_ERROR_IO && (call == write_some || call == ask || call == get_string)))
        fail("another error", result);
    told(result);
    result = call();
    if (result < 0)
        fail("refused the second time too", result);
    return result;
}

static void wait_for(const char *name, int count)
{
    for (int i = 0; i < ROUNDS && calls < count; i++)
        make(name, handle_some);
    step = name;
    if (calls != count)
        fail("callbacks", calls);
    if (errors)
        told(LIBUSB_TRANSFER_ERROR);
    errors = 0;
}

static void describe(void)
{
    require(make("get_device_list", get_list) == 2, "the hub and one device");
    make("get_config_descriptor", get_config);
    libusb_free_config_descriptor(config);
    make("get_active_config_descriptor", get_active);
    libusb_free_config_descriptor(config);
    make("get_config_descriptor_by_value", get_value);
    require(config->bNumInterfaces == 1 && config->interface[0].altsetting[0].bNumEndpoints == 2, "its endpoints");
    libusb_free_config_descriptor(config);
    make("get_interface_association_descriptors", get_associations);
    libusb_free_interface_association_descriptors(associations);
    make("get_ssplus_usb_device_capability_descriptor", get_plus);
    libusb_free_ssplus_usb_device_capability_descriptor(plus);
    make("get_platform_descriptor", get_platform);
    libusb_free_platform_descriptor(platform);
    make("open", open_first);
    libusb_free_device_list(list, 1);
    libusb_close(handle);
    make("open_device_with_vid_pid", open_by_numbers);
}

static void hotplug(void)
{
    arrivals = 0;
    make("hotplug_register_callback", watch);
    make("show", show);
    for (int i = 0; i < 3; i++)
        make("events of an arrival", handle_some);
    step = "an arrival";
    require(arrivals == 1, "told once");
    make("pull", pull);
    make("events of a pull", handle_some);
    libusb_hotplug_deregister_callback(context, watcher);
    make("get_pollfds", get_descriptors);
    libusb_free_pollfds(descriptors);
}

/* Reads of 8 bytes, more than the core has places for, and one of many bytes behind a write of as many. */
static void transfer_some(void)
{
    calls = errors = 0;
    for (current = 0; current < TRANSFERS; current++) {
        unsigned char ep = current % 3 ? 0x81 : 0x02;
        make("alloc_transfer", alloc);
        libusb_fill_bulk_transfer(transfers[current], handle, ep, buffers[current], 8, on_call, NULL, 0);
        if (current >= TRANSFERS - 2)
            libusb_fill_bulk_transfer(transfers[current], handle, current % 2 ? 0x81 : 0x02, long_data, LONG, on_call, NULL, 0);
        make("submit_transfer", submit);
    }
    wait_for("events of transfers", TRANSFERS);
    current = 0;
    for (int i = 0; i < 2; i++) {
        transfers[0]->endpoint = 0x81;
        make("submit_transfer again", submit);
        if (i)
            make("cancel_transfer", cancel);
        else
            make("reset_device", reset);
        wait_for("events behind it", TRANSFERS + 1 + i);
    }
    for (int i = 0; i < TRANSFERS; i++)
        libusb_free_transfer(transfers[i]);
}

static void run(void)
{
    allocations = 0;
    was_refused = is_dry = 0;
    make("plug", plug);
    make("init", init);
    describe();
    make("claim", claim);
    hotplug();
    transfer_some();
    make("bulk_transfer", write_some);
    make("control_transfer", ask);
    require(make("get_string_descriptor_ascii", get_string) == 5, "its text");
    make("release", release);
    step = "close and exit";
    libusb_close(handle);
    libusb_exit(context);
}

/* Reads of as many bytes, one behind the other, and then so many at once: what the first took serves all others. */
static void read_over_and_over(void)
{
    long taken_before = 0;
    make("plug", plug);
    make("init", init);
    make("open_device_with_vid_pid", open_by_numbers);
    make("claim", claim);
    for (current = 0; current < AT_ONCE; current++) {
        make("alloc_transfer", alloc);
        libusb_fill_bulk_transfer(transfers[current], handle, 0x81, long_data + current * PACKET, PACKET, on_call, NULL, 0);
    }
    calls = errors = 0;
    for (int round = 0; round < 2 * ROUNDS_OVER; round++) {
        int count = round < ROUNDS_OVER ? 1 : AT_ONCE;
        if (round == 1 || round == ROUNDS_OVER + 1)
            taken_before = allocations;
        for (current = 0; current < count; current++)
            make("submit_transfer", submit);
        wait_for("events of reads", calls + count);
        if (round && round != ROUNDS_OVER)
            require(allocations == taken_before, "no memory is taken");
    }
    for (int i = 0; i < AT_ONCE; i++)
        libusb_free_transfer(transfers[i]);
    libusb_close(handle);
    libusb_exit(context);
}

static size_t add_script(size_t length, const char *head, int count, const char *answer, int digits)
{
    length += (size_t)sprintf(text + length, "%s", head);
    for (int i = 0; i < count; i++) {
        length += (size_t)sprintf(text + length, " %s", answer);
        for (int j = 0; j < digits; j++)
            length += (size_t)sprintf(text + length, "5a");
    }
    return length + (size_t)sprintf(text + length, "\n");
}

static void write_text(void)
{
    static const char config_hex[] = "090220000101008032" "0904000002ff000000" "07058102000400" "07050202000400";
    text = __real_malloc(4u << 20);
    long_data = __real_calloc(1, LONG);
    if (!text || !long_data)
        exit(1);
    text_length = (size_t)sprintf(text, "device 0 %s\nids 0 04a9 31c0\nstring 0 1 Maker\ncontrol 0 40 01 * * a\n", config_hex);
    text_length = add_script(text_length, "script 0 81 d:01 d:02 d:03 d:04 d:05 d:06 d:07 d:08 d:09 d:0a d:0b d:0c d:0d d:0e d:0f",
                             270, "d:", PACKET);
    text_length = add_script(text_length, "script 0 02", 300, "a", 0);
    text_length += (size_t)sprintf(text + text_length, "device 1 %s\nids 1 04a9 0002\nhidden 1\n", config_hex);
}

static void refuse_each(const char *how)
{
    int is_over = 0;
    for (refused_one = 1; refused_one < MOST_RUNS && !is_over; refused_one++) {
        run();
        is_over = !was_refused;
    }
    printf("%s: %s\n", how, is_over ? "whole" : "too many allocations");
}

static int LIBUSB_CALL on_nothing(libusb_context *of, libusb_device *device, libusb_hotplug_event event, void *user)
{
    (void)of, (void)device, (void)event, (void)user;
    return 0;
}

/* Entries that are deregistered go at once: the allocator has as much in use behind many as behind few. */
static void register_over_and_over(void)
{
    size_t used = 0;
    is_dry = 1;
    if (tirnouch_plug(text, text_length) || libusb_init(&context))
        exit(1);
    for (int i = 0; i < REGISTERED; i++) {
        libusb_hotplug_callback_handle id;
        libusb_hotplug_register_callback(context, LIBUSB_HOTPLUG_EVENT_DEVICE_LEFT, 0, -1, -1, -1, on_nothing, NULL, &id);
        libusb_hotplug_deregister_callback(context, id);
        if (i == REGISTERED / 10)
            used = mallinfo2().uordblks;
    }
    require(mallinfo2().uordblks <= used, "memory stays with entries that are deregistered");
    libusb_exit(context);
    is_dry = 0;
}

int main(void)
{
    alarm(220);
    setvbuf(stdout, NULL, _IONBF, 0);
    write_text();
    run();
    puts("with ample memory: whole");
    read_over_and_over();
    puts("reads over and over: no memory is taken behind the first");
    register_over_and_over();
    puts("registered and deregistered over and over: no memory is kept");
    refuse_each("with each allocation refused in turn");
    refuses_more = 1;
    refuse_each("with all behind it to the end of the call");
    free(text);
    free(long_data);
    return 0;
}

/* As memory.c, with devices that compute their answers: each allocation of a run is refused, one in each run, alone and with all behind it
 * that the same call makes. A call answers LIBUSB_ERROR_NO_MEM, or a device whose answer can't be kept is pulled out, and comes back; then
 * the run goes on, with nothing wrong. Nothing is traced: each run has a bus, and files, of its own. Linked with
 * -Wl,--wrap=malloc,--wrap=calloc,--wrap=realloc. */
#include "libusb.h"
#include "tirnouch.h"

#include <stdio.h>
#include <stdlib.h>

#define DEVICE "0902200001010080320904000002ff0000000705810208000007050202080000"
#define TEXT "device 0 " DEVICE "\nids 0 1209 0001\ndevice 1 " DEVICE "\nids 1 1209 0002\nscript 1 81 d:0102 d:0304\n"
#define MOST_RUNS 5000
#define TRIES 4

void *__real_malloc(size_t size);
void *__real_calloc(size_t count, size_t size);
void *__real_realloc(void *old, size_t size);
void *__wrap_malloc(size_t size);
void *__wrap_calloc(size_t count, size_t size);
void *__wrap_realloc(void *old, size_t size);

static long allocations, refused_one;
static int refuses_more, was_refused, is_dry;
static const char *step = "none";
static libusb_context *context;
static libusb_device_handle *handle;

static int is_refused(void)
{
    if (++allocations == refused_one)
        was_refused = is_dry = 1;
    return allocations == refused_one || (is_dry && refuses_more);
}

void *__wrap_malloc(size_t size) { return is_refused() ? NULL : __real_malloc(size); }
void *__wrap_calloc(size_t count, size_t size) { return is_refused() ? NULL : __real_calloc(count, size); }
void *__wrap_realloc(void *old, size_t size) { return is_refused() ? NULL : __real_realloc(old, size); }

static void fail(const char *what, int result)
{
    printf("  allocation %ld refused, in %s: %s (%d)\n", refused_one, step, what, result);
    exit(1);
}

static int give(void *user, uint8_t ep, uint8_t *data, int length)
{
    (void)user;
    data[0] = 0x2a;
    return ep & 0x80 ? 1 : length;
}

/* One more try behind a refusal, which alone may be why it failed. */
static int again(const char *name, int (*call)(void))
{
    step = name;
    for (int i = 0; i < TRIES; i++) {
        int result = call();
        is_dry = 0;
        if (!result)
            return 0;
        if (!was_refused || (result != LIBUSB_ERROR_NO_MEM && result != LIBUSB_ERROR_NO_DEVICE && result != LIBUSB_ERROR_IO))
            fail("another answer", result);
        if (result != LIBUSB_ERROR_NO_MEM)
            return result;
    }
    fail("it is refused again and again", 0);
    return -1;
}

static int plug(void) { return tirnouch_plug(TEXT, sizeof TEXT - 1); }
static int init(void) { return libusb_init(&context); }
static int show(void) { return tirnouch_show(0); }
static int come_alive(void) { return tirnouch_on_packet(1, 0x81, give, NULL); }

static unsigned product;

static int open_it(void)
{
    handle = libusb_open_device_with_vid_pid(context, 0x1209, (uint16_t)product);
    return handle ? libusb_claim_interface(handle, 0) : LIBUSB_ERROR_NO_MEM;
}

static int read_it(void)
{
    unsigned char data[8];
    int moved;
    return libusb_bulk_transfer(handle, 0x81, data, 8, &moved, 5000);
}

static int write_it(void)
{
    unsigned char data[20] = { 0 };
    int moved;
    return libusb_bulk_transfer(handle, 0x02, data, sizeof data, &moved, 5000);
}

/* Whether it is as if all memory was there; else the device was lost, or a transfer. */
static int uses(void)
{
    int is_well = !again("open", open_it) && !again("read", read_it) && !again("write", write_it) && !again("read", read_it);
    libusb_close(handle);
    return is_well;
}

/* Behind a loss it is plugged in again. What is refused once isn't the second time. */
static void use_until_well(void)
{
    for (int i = 0; i < TRIES; i++) {
        if (uses())
            return;
        if (tirnouch_pull(0) == LIBUSB_ERROR_NOT_FOUND)
            fail("pull", i);
        if (again("show", show))
            fail("show", i);
    }
    fail("it is lost again and again", 0);
}

/* A device that is scripted, and then isn't. */
static void use_late(void)
{
    product = 2;
    if (!again("open", open_it) && !again("read", read_it) && !again("a first function", come_alive) && !again("read", read_it))
        again("read", read_it);
    libusb_close(handle);
}

static void life(void)
{
    again("plug", plug);
    again("init", init);
    product = 1;
    use_until_well();
    if (tirnouch_pull(0))
        fail("pull", 0);
    again("show", show);
    use_until_well();
    use_late();
    step = "exit";
    libusb_exit(context);
    tirnouch_on_packet(1, 0x81, NULL, NULL);
    is_dry = 0;
}

static int begin_bus(void)
{
    struct tirnouch_options options = { .size = sizeof options, .devices = TEXT, .devices_length = sizeof TEXT - 1, .is_virtual = 1,
                                        .keeps_trace = 1 };
    return tirnouch_begin(&options);
}

static libusb_context *other;
static int ended, told;

static int init_other(void) { return libusb_init(&other); }

static void count_end(struct libusb_transfer *transfer)
{
    if (transfer->status != LIBUSB_TRANSFER_NO_DEVICE)
        fail("a status", transfer->status);
    ended++;
}

static int count_device(libusb_context *of, libusb_device *device, libusb_hotplug_event event, void *user)
{
    (void)of, (void)device, (void)event, (void)user;
    told++;
    return 0;
}

static int register_it(void)
{
    return libusb_hotplug_register_callback(context, LIBUSB_HOTPLUG_EVENT_DEVICE_ARRIVED | LIBUSB_HOTPLUG_EVENT_DEVICE_LEFT, 0,
                                            LIBUSB_HOTPLUG_MATCH_ANY, LIBUSB_HOTPLUG_MATCH_ANY, LIBUSB_HOTPLUG_MATCH_ANY, count_device, NULL,
                                            NULL);
}

static struct libusb_transfer *flying[2];
static unsigned char buffers[2][8];

static int submit_both(void)
{
    for (int i = 0; i < 2; i++) {
        if (!flying[i])
            flying[i] = libusb_alloc_transfer(0);
        if (!flying[i])
            return LIBUSB_ERROR_NO_MEM;
        libusb_fill_bulk_transfer(flying[i], handle, 0x02, buffers[i], 8, count_end, NULL, 0);
        int result = libusb_submit_transfer(flying[i]);
        if (result && result != LIBUSB_ERROR_BUSY)
            return result;
    }
    return 0;
}

/* What is in flight ends once for all, whatever memory is refused; that of the library's own steps isn't asked for twice. */
static void end_bus(void)
{
    step = "end";
    if (tirnouch_end())
        fail("no end", 0);
    is_dry = 0;
}

/* Two contexts are kept over two buses, one with a handle; device 1 has no script at 02. A device that isn't told of may have come or
 * gone where memory was refused alone. */
static void outliving(void)
{
    struct timeval none = { 0, 0 };
    ended = told = 0;
    again("begin", begin_bus);
    again("init", init);
    again("init of another", init_other);
    again("register", register_it);
    product = 2;
    int is_flying = !again("open", open_it) && !again("submit", submit_both);
    end_bus();
    for (int i = 0; i < 3; i++)
        libusb_handle_events_timeout(context, &none);
    if (is_flying && ended != 2)
        fail("callbacks", ended);
    again("begin the next", begin_bus);
    libusb_handle_events_timeout(context, &none);
    libusb_close(handle);
    again("open", open_it);
    end_bus();
    libusb_handle_events_timeout(context, &none);
    if (told != 6 && !(was_refused && told < 6))
        fail("told of devices", told);
    step = "exit";
    libusb_close(handle);
    libusb_exit(context);
    libusb_exit(other);
    for (int i = 0; i < 2; i++) {
        libusb_free_transfer(flying[i]);
        flying[i] = NULL;
    }
    is_dry = 0;
}

static int plug_nothing(void) { return tirnouch_plug("", 0); }

/* Contexts are open over the environment's bus, which has no devices, as a test's takes its place. Where that isn't begun there is none. */
static void in_place(void)
{
    struct timeval none = { 0, 0 };
    told = 0;
    again("plug", plug_nothing);
    again("init", init);
    again("init of another", init_other);
    again("register", register_it);
    again("begin in its place", begin_bus);
    libusb_handle_events_timeout(context, &none);
    product = 1;
    again("open", open_it);
    libusb_close(handle);
    end_bus();
    libusb_handle_events_timeout(context, &none);
    if (told != 4 && !(was_refused && told < 4))
        fail("told of devices", told);
    step = "exit";
    libusb_exit(context);
    libusb_exit(other);
    is_dry = 0;
}

static void (*lives)(void) = life;

/* Whether an allocation was refused: the run had so many. */
static int run(long refuse, int more)
{
    allocations = 0;
    refused_one = refuse;
    refuses_more = more;
    was_refused = is_dry = 0;
    lives();
    return was_refused;
}

static void refuse_each(const char *name, int more)
{
    long count = 0;
    puts(name);
    while (count < MOST_RUNS && run(count + 1, more))
        count++;
    puts(count > 20 && count < MOST_RUNS ? "  each was refused, and each run came to its end" : "  there were too few, or no end of them");
}

int main(void)
{
    FILE *nowhere = freopen("/dev/null", "w", stderr);
    setvbuf(stdout, NULL, _IOLBF, 0);
    unsetenv("TIRNOUCH_TRACE");
    tirnouch_on_packet(0, 0x81, give, NULL);
    tirnouch_on_packet(0, 0x02, give, NULL);
    if (!nowhere || run(0, 0))
        return 1;
    refuse_each("devices that compute: each allocation alone", 0);
    refuse_each("devices that compute: each with those behind it", 1);
    lives = outliving;
    if (run(0, 0))
        return 1;
    refuse_each("a context that outlives buses: each allocation alone", 0);
    refuse_each("a context that outlives buses: each with those behind it", 1);
    lives = in_place;
    if (run(0, 0))
        return 1;
    refuse_each("a bus in the place of one without devices: each allocation alone", 0);
    refuse_each("a bus in the place of one without devices: each with those behind it", 1);
    return 0;
}

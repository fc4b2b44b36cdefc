/* Buses begin and end beside threads: one that handles events of a context that is kept over all of them, and some that read and are
 * told that the device is gone. Each transfer and each device is told of exactly once, and memory doesn't grow. The expected lines are
 * written from tirnouch.h. */
#include "scene.h"

#include <dirent.h>
#include <pthread.h>
#include <stdatomic.h>
#include <stdio.h>
#include <stdlib.h>
#include <string.h>
#include <unistd.h>

#if defined(__SANITIZE_ADDRESS__) || defined(__SANITIZE_THREAD__)
size_t __sanitizer_get_current_allocated_bytes(void);
static size_t used(void) { return __sanitizer_get_current_allocated_bytes(); }
#else
#include <malloc.h>
static size_t used(void) { return mallinfo2().uordblks; }
#endif

#define BUSES 100
#define EACH 3
#define READERS 3
#define MANY_BUSES 200
#define WARM 50

static atomic_int ended, completed, gone, others, arrived, left_behind, is_over, handler_errors;

static int begin_bus(int is_virtual, int keeps_trace)
{
    static const char text[] = STANDARD "script 0 83 d:01\n";
    struct tirnouch_options options = { .size = sizeof options, .devices = text, .devices_length = strlen(text), .is_virtual = is_virtual,
                                        .keeps_trace = keeps_trace };
    return tirnouch_begin(&options);
}

static void count_end(struct libusb_transfer *transfer)
{
    if (transfer->status == LIBUSB_TRANSFER_COMPLETED)
        completed++;
    else if (transfer->status == LIBUSB_TRANSFER_NO_DEVICE)
        gone++;
    else
        others++;
    ended++;
}

static int count_device(libusb_context *of, libusb_device *device, libusb_hotplug_event event, void *user)
{
    (void)of, (void)user, (void)device;
    if (event == LIBUSB_HOTPLUG_EVENT_DEVICE_ARRIVED)
        arrived++;
    else
        left_behind++;
    return 0;
}

static void *handle_events(void *of)
{
    while (!is_over)
        if (libusb_handle_events(of))
            handler_errors++;
    return NULL;
}

static void begin_counts(void)
{
    ended = completed = gone = others = arrived = left_behind = is_over = handler_errors = 0;
}

static void await(atomic_int *count, int most)
{
    for (int i = 0; i < 100000 && *count < most; i++)
        usleep(50);
}

static void need(int is_so, const char *what)
{
    if (is_so)
        return;
    printf("  %s\n", what);
    exit(1);
}

/* What is submitted, at an endpoint that never answers and one that answers once. */
static void submit_all(struct libusb_transfer *all[EACH])
{
    for (int i = 0; i < EACH; i++) {
        all[i] = make(i, i ? 0x81 : 0x83, 8);
        all[i]->callback = count_end;
        need(!libusb_submit_transfer(all[i]), "a transfer isn't taken");
    }
}

static void one_bus(int round, int is_virtual)
{
    struct libusb_transfer *all[EACH];
    int before = completed;
    need(!begin_bus(is_virtual, 0), "no bus");
    handle = open_standard(context);
    need(!libusb_claim_interface(handle, 0) && !libusb_claim_interface(handle, 1), "no interface");
    submit_all(all);
    if (round % 2)
        await(&completed, before + 1);
    need(!tirnouch_end(), "no end");
    await(&ended, (round + 1) * EACH);
    if (round % 3)
        libusb_close(handle);
    for (int i = 0; i < EACH; i++)
        discard(all[i]);
    if (!(round % 3))
        libusb_close(handle);
}

/* The environment's bus begins with another context, where it isn't there yet. It has no devices, and makes room. */
static void one_bus_for_a_bare_one(int round, int is_virtual)
{
    libusb_context *other;
    need(!libusb_init(&other), "no other context");
    one_bus(round, is_virtual);
    libusb_exit(other);
}

static void beside_a_handler(const char *name, int is_virtual, void (*bus)(int round, int is_virtual))
{
    pthread_t thread;
    puts(name);
    begin_counts();
    need(!begin_bus(is_virtual, 0) && !libusb_init(&context) && !tirnouch_end(), "no context");
    libusb_hotplug_register_callback(context, LIBUSB_HOTPLUG_EVENT_DEVICE_ARRIVED | LIBUSB_HOTPLUG_EVENT_DEVICE_LEFT, 0, LIBUSB_HOTPLUG_MATCH_ANY,
                                     LIBUSB_HOTPLUG_MATCH_ANY, LIBUSB_HOTPLUG_MATCH_ANY, count_device, NULL, NULL);
    pthread_create(&thread, NULL, handle_events, context);
    for (int i = 0; i < BUSES; i++)
        bus(i, is_virtual);
    await(&left_behind, BUSES);
    is_over = 1;
    libusb_interrupt_event_handler(context);
    pthread_join(thread, NULL);
    number("callbacks", ended);
    number("of them completed or gone", completed + gone);
    number("others", others);
    number("arrived", arrived);
    number("left", left_behind);
    number("errors of the handler", handler_errors);
    libusb_exit(context);
    context = NULL;
}

static void *handle_once(void *result)
{
    *(int *)result = libusb_handle_events(context);
    return NULL;
}

static void returns_at(const char *what, int (*act)(void))
{
    pthread_t thread;
    int result = 1;
    long long before = clock_now();
    pthread_create(&thread, NULL, handle_once, &result);
    while (!libusb_event_handler_active(context))
        usleep(100);
    need(!act(), "no act");
    pthread_join(thread, NULL);
    printf("  %s: %d, %s\n", what, result, clock_now() - before < 30000 ? "at once" : "behind a minute");
}

static int begin_virtual(void) { return begin_bus(1, 0); }
static int begin_real(void) { return begin_bus(0, 0); }

/* Each wait of a minute is by the clock of a bus that isn't there any more. */
static void waits_end(void)
{
    libusb_context *other;
    puts("a wait of a minute, as buses begin and end");
    need(!begin_bus(0, 0) && !libusb_init(&context), "no context");
    returns_at("the bus ends", tirnouch_end);
    returns_at("the next begins", begin_virtual);
    need(!tirnouch_end(), "no end");
    returns_at("one more begins", begin_real);
    returns_at("it ends", tirnouch_end);
    need(!libusb_init(&other), "no other context");
    returns_at("one takes the place of the environment's", begin_virtual);
    need(!tirnouch_end(), "no end");
    libusb_exit(other);
    libusb_exit(context);
    context = NULL;
}

/* Each reads over a handle of its own; the bus ends anywhere. Any answer is one that libusb's manual has for a device that may be gone. */
static void *read_on(void *unused)
{
    unsigned char data[8];
    int moved;
    (void)unused;
    while (!is_over) {
        libusb_device_handle *it = libusb_open_device_with_vid_pid(context, VENDOR, PRODUCT);
        if (!it) {
            usleep(100);
            continue;
        }
        int r = libusb_bulk_transfer(it, 0x81, data, sizeof data, &moved, 10000);
        if (r == LIBUSB_ERROR_NO_DEVICE)
            gone++;
        else if (r != LIBUSB_ERROR_BUSY)
            others++;
        libusb_get_device_descriptor(libusb_get_device(it), &(struct libusb_device_descriptor){ 0 });
        libusb_close(it);
    }
    return NULL;
}

static void beside_readers(void)
{
    pthread_t threads[READERS];
    puts("threads that read, and are told that the device is gone");
    begin_counts();
    need(!begin_bus(0, 0) && !libusb_init(&context) && !tirnouch_end(), "no context");
    for (int i = 0; i < READERS; i++)
        pthread_create(&threads[i], NULL, read_on, NULL);
    for (int i = 0; i < BUSES; i++) {
        need(!begin_bus(0, 0), "no bus");
        usleep((unsigned)(i % 5) * 300);
        need(!tirnouch_end(), "no end");
    }
    is_over = 1;
    for (int i = 0; i < READERS; i++)
        pthread_join(threads[i], NULL);
    number("other answers", others);
    libusb_exit(context);
    context = NULL;
}

static int threads_of_ours(void)
{
    int count = 0;
    DIR *all = opendir("/proc/self/task");
    for (struct dirent *it; all && (it = readdir(all));)
        count += *it->d_name != '.';
    if (all)
        closedir(all);
    return count;
}

/* The limit of a bus, which has a thread, ends with it. */
static void limits_end(void)
{
    static const char text[] = STANDARD;
    struct tirnouch_options options = { .size = sizeof options, .devices = text, .devices_length = strlen(text), .limit = 600000 };
    puts("buses with a limit of ten minutes");
    int before = threads_of_ours(), after = before + 1;
    for (int i = 0; i < BUSES; i++)
        need(!tirnouch_begin(&options) && !tirnouch_end(), "no bus");
    for (int i = 0; i < 2000 && after > before; i++) {
        usleep(1000);
        after = threads_of_ours();
    }
    number("threads that are left", after - before);
}

static void memory_stays(void)
{
    size_t before = 0;
    puts("a context is kept over many buses");
    need(!begin_bus(1, 1) && !libusb_init(&context) && !tirnouch_end(), "no context");
    for (int i = 0; i < MANY_BUSES; i++) {
        struct libusb_transfer *all[EACH];
        need(!begin_bus(1, 1), "no bus");
        handle = open_standard(context);
        libusb_device *device = first_device();
        submit_all(all);
        need(!tirnouch_pull(0), "no pull");
        need(!tirnouch_end(), "no end");
        if (i < WARM)
            work();
        libusb_close(handle);
        libusb_unref_device(device);
        for (int k = 0; k < EACH; k++)
            discard(all[k]);
        if (i == WARM)
            before = used();
    }
    say(used() <= before ? "memory is as it was" : "memory grew");
    libusb_exit(context);
    context = NULL;
    handle = NULL;
}

int main(void)
{
    setvbuf(stdout, NULL, _IOLBF, 0);
    tirnouch_plug("", 0);
    beside_a_handler("a thread that handles events", 0, one_bus);
    beside_a_handler("the same with time that is virtual", 1, one_bus);
    beside_a_handler("the same where buses take the place of the environment's", 0, one_bus_for_a_bare_one);
    waits_end();
    beside_readers();
    limits_end();
    memory_stays();
    return 0;
}

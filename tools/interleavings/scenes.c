/* Programs of two and three threads over libusb's interface, each as its name says. A hang of one is found by the search; what each call
 * may answer stands in the file of the scene's name in outcomes/. */
#include "libusb.h"
#include "tirnouch.h"

#include <pthread.h>
#include <stdio.h>
#include <stdlib.h>
#include <string.h>

static const char devices[] =
    "device 0 0902200001010080320904000002ff0000000705810208000007050202080000\nids 0 1209 0002\nscript 0 81 d:01 d:02\n";
/* The same where endpoint 81 never answers. */
static const char silent[] = "device 0 0902200001010080320904000002ff0000000705810208000007050202080000\nids 0 1209 0002\n";

static libusb_context *context;
static libusb_device_handle *handle;
static int called, is_done, is_over;

static void check(const char *what, int result)
{
    if (result) {
        printf("%s: %s\n", what, libusb_error_name(result));
        exit(1);
    }
}

static void begin(const char *text)
{
    check("plug", tirnouch_plug(text, strlen(text)));
    check("init", libusb_init(&context));
    handle = libusb_open_device_with_vid_pid(context, 0x1209, 0x0002);
    if (!handle)
        exit(1);
    check("claim", libusb_claim_interface(handle, 0));
}

static void end(void)
{
    if (handle)
        libusb_close(handle);
    libusb_exit(context);
    printf("%d called back\n", called);
}

static void tell(struct libusb_transfer *transfer)
{
    printf("called back with status %d, %d bytes\n", (int)transfer->status, transfer->actual_length);
    called++;
    is_done = 1;
}

static struct libusb_transfer *submit(void)
{
    static unsigned char buffers[4][8];
    static int count;
    struct libusb_transfer *it = libusb_alloc_transfer(0);
    libusb_fill_bulk_transfer(it, handle, 0x81, buffers[count++ % 4], 8, tell, NULL, 0);
    it->flags = LIBUSB_TRANSFER_FREE_TRANSFER;
    check("submit", libusb_submit_transfer(it));
    return it;
}

static pthread_t start(void *(*work)(void *))
{
    pthread_t thread;
    if (pthread_create(&thread, NULL, work, NULL))
        exit(1);
    return thread;
}

static void *handle_until_done(void *of)
{
    while (!is_done)
        check("events", libusb_handle_events_completed(context, &is_done));
    return of;
}

static void *handle_until_over(void *of)
{
    while (!is_over)
        check("events", libusb_handle_events_completed(context, &is_over));
    return of;
}

static void *handle_once(void *of)
{
    check("events", libusb_handle_events(context));
    return of;
}

static void *lock_events_once(void *of)
{
    libusb_lock_events(context);
    libusb_unlock_events(context);
    return of;
}

static void *handle_until_refused(void *of)
{
    while (!libusb_handle_events(context)) {
    }
    return of;
}

/* A thread reads, and handles events itself where nobody else does. */
static void *read_once(void *of)
{
    unsigned char data[8];
    int moved = 0, result = libusb_bulk_transfer(handle, 0x81, data, 8, &moved, 0);
    printf("read: %d, %d bytes\n", result, moved);
    return of;
}

/* As libusb's manual has it ("Multi-threaded applications and asynchronous I/O"). */
static void *wait_for_events(void *of)
{
    while (!is_done) {
        if (!libusb_try_lock_events(context)) {
            struct timeval minute = { .tv_sec = 60 };
            while (!is_done && libusb_event_handling_ok(context))
                check("events", libusb_handle_events_locked(context, &minute));
            libusb_unlock_events(context);
            continue;
        }
        libusb_lock_event_waiters(context);
        while (!is_done && libusb_event_handler_active(context))
            libusb_wait_for_event(context, NULL);
        libusb_unlock_event_waiters(context);
    }
    return of;
}

static void two_handlers(void)
{
    submit();
    pthread_t one = start(handle_until_done), other = start(handle_until_done);
    pthread_join(one, NULL);
    pthread_join(other, NULL);
}

static void submission_to_a_handler(void)
{
    pthread_t handler = start(handle_until_done);
    submit();
    pthread_join(handler, NULL);
}

static void cancel_to_a_handler(void)
{
    pthread_t handler = start(handle_until_done);
    check("cancel", libusb_cancel_transfer(submit()));
    pthread_join(handler, NULL);
}

static void interrupt(void)
{
    pthread_t handler = start(handle_once);
    libusb_interrupt_event_handler(context);
    pthread_join(handler, NULL);
}

static void interrupt_of_two(void)
{
    pthread_t one = start(handle_until_over), other = start(handle_until_over);
    is_over = 1;
    libusb_interrupt_event_handler(context);
    pthread_join(one, NULL);
    pthread_join(other, NULL);
}

static void event_lock(void)
{
    pthread_t one = start(lock_events_once), other = start(lock_events_once);
    pthread_join(one, NULL);
    pthread_join(other, NULL);
}

static void close_amid_events(void)
{
    pthread_t handler = start(handle_until_over);
    submit();
    libusb_close(handle);
    handle = NULL;
    is_over = 1;
    libusb_interrupt_event_handler(context);
    pthread_join(handler, NULL);
}

static void exit_amid_events(void)
{
    pthread_t handler = start(handle_until_refused), other = start(handle_until_refused);
    libusb_close(handle);
    handle = NULL;
    libusb_exit(context);
    pthread_join(handler, NULL);
    pthread_join(other, NULL);
    printf("all threads are back\n");
    exit(0);
}

static void two_readers(void)
{
    pthread_t one = start(read_once), other = start(read_once);
    pthread_join(one, NULL);
    pthread_join(other, NULL);
}

static void event_waiters(void)
{
    pthread_t one = start(wait_for_events), other = start(wait_for_events);
    submit();
    pthread_join(one, NULL);
    pthread_join(other, NULL);
}

static const struct {
    const char *name, *text;
    void (*play)(void);
} scenes[] = {
    { "two_handlers", devices, two_handlers },
    { "submission_to_a_handler", devices, submission_to_a_handler },
    { "cancel_to_a_handler", silent, cancel_to_a_handler },
    { "interrupt", silent, interrupt },
    { "interrupt_of_two", silent, interrupt_of_two },
    { "event_lock", silent, event_lock },
    { "close_amid_events", silent, close_amid_events },
    { "exit_amid_events", silent, exit_amid_events },
    { "two_readers", devices, two_readers },
    { "event_waiters", devices, event_waiters },
};

int main(int count, char **words)
{
    for (size_t i = 0; count == 2 && i < sizeof scenes / sizeof *scenes; i++)
        if (!strcmp(words[1], scenes[i].name)) {
            begin(scenes[i].text);
            scenes[i].play();
            end();
            return 0;
        }
    for (size_t i = 0; i < sizeof scenes / sizeof *scenes; i++)
        puts(scenes[i].name);
    return count == 1 ? 0 : 2;
}

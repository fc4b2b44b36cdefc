/* libusb_exit and libusb_close while another thread is inside libusb_handle_events, and while others wait for that thread; each thread
 * returns, and the library begins again behind it. */
#include "scene.h"

#include <pthread.h>
#include <stdatomic.h>
#include <stdbool.h>
#include <stdio.h>
#include <stdlib.h>
#include <unistd.h>

#define THREADS 3
#define ROUNDS 20

static atomic_int inside, outside, stops;

/* One call of a minute: nothing but the context's end, or an interruption, ends it. */
static void *wait_long(void *user)
{
    struct timeval minute = { 60, 0 };
    (void)user;
    atomic_fetch_add(&inside, 1);
    libusb_handle_events_timeout(context, &minute);
    atomic_fetch_add(&outside, 1);
    return NULL;
}

/* As the manual advises: a variable says when to stop, and an interruption, or a close, wakes the thread. */
static void *wait_until_stopped(void *user)
{
    (void)user;
    while (!atomic_load(&stops))
        libusb_handle_events_completed(context, NULL);
    atomic_fetch_add(&outside, 1);
    return NULL;
}

static void start(pthread_t *thread, void *(*function)(void *))
{
    if (pthread_create(thread, NULL, function, NULL))
        exit(1);
}

static void reset_counts(void)
{
    atomic_store(&inside, 0);
    atomic_store(&outside, 0);
    atomic_store(&stops, 0);
}

static void exit_amid_events(int threads)
{
    pthread_t all[THREADS];
    long long from = clock_now();
    reset_counts();
    begin("exit while events are handled", "");
    for (int i = 0; i < threads; i++)
        start(&all[i], wait_long);
    while (atomic_load(&inside) < threads)
        usleep(1000);
    usleep(50000);
    number("threads inside", threads - atomic_load(&outside));
    libusb_close(handle);
    libusb_exit(context);
    for (int i = 0; i < threads; i++)
        pthread_join(all[i], NULL);
    number("threads outside", atomic_load(&outside));
    say(clock_now() - from < 20000 ? "at once" : "late");
}

static void exit_as_advised(void)
{
    pthread_t thread;
    struct libusb_transfer *transfer;
    long long from = clock_now();
    reset_counts();
    begin("stopped by a close", "");
    start(&thread, wait_until_stopped);
    transfer = submit(0, 0x81, 8);
    usleep(50000);
    atomic_store(&stops, 1);
    libusb_close(handle);
    handle = NULL;
    pthread_join(thread, NULL);
    discard(transfer);
    end();
    say(clock_now() - from < 20000 ? "at once" : "late");

    from = clock_now();
    reset_counts();
    begin("stopped by an interruption", "");
    start(&thread, wait_until_stopped);
    usleep(50000);
    atomic_store(&stops, 1);
    libusb_interrupt_event_handler(context);
    pthread_join(thread, NULL);
    end();
    say(clock_now() - from < 20000 ? "at once" : "late");
}

static void count_cancelled(struct libusb_transfer *transfer)
{
    calls += transfer->status == LIBUSB_TRANSFER_CANCELLED;
    atomic_fetch_add(&inside, 1);
}

/* The manual of libusb_cancel_transfer: the callback comes, with CANCELLED. libusb_close takes the event lock, so the thread that handles
 * events has called it by then. */
static void closed_behind_a_cancel(bool releases)
{
    pthread_t thread;
    struct libusb_transfer *transfer;
    int rounds = 0;
    reset_counts();
    begin(releases ? "closed behind a cancel and a release" : "closed behind a cancel", "script 0 81 d:01\n");
    start(&thread, wait_until_stopped);
    transfer = make(0, 0x81, 8);
    transfer->callback = count_cancelled;
    send_off(transfer);
    while (!atomic_load(&inside))
        usleep(1000);
    for (; rounds < ROUNDS; rounds++) {
        transfer->dev_handle = handle;
        send_off(transfer);
        usleep(10000);
        libusb_cancel_transfer(transfer);
        if (releases)
            libusb_release_interface(handle, 0);
        libusb_close(handle);
        handle = open_standard(context);
        libusb_claim_interface(handle, 0);
    }
    number("closed", rounds);
    number("called back", calls);
    atomic_store(&stops, 1);
    libusb_interrupt_event_handler(context);
    pthread_join(thread, NULL);
    discard(transfer);
    end();
}

static void many_times(void)
{
    pthread_t thread;
    int rounds = 0;
    puts("many times, without a pause");
    for (int i = 0; i < ROUNDS; i++) {
        if (libusb_init(&context))
            break;
        reset_counts();
        start(&thread, wait_until_stopped);
        if (i % 2)
            usleep(500);
        atomic_store(&stops, 1);
        libusb_interrupt_event_handler(context);
        pthread_join(thread, NULL);
        libusb_exit(context);
        rounds++;
    }
    number("rounds", rounds);
}

static void open_at_exit(void)
{
    struct libusb_transfer *transfer;
    begin("exit with an open handle and a transfer in flight", "");
    transfer = submit(0, 0x81, 8);
    libusb_exit(context);
    handle = NULL;
    number("calls", calls);
    discard(transfer);
    begin("again behind it", "script 0 81 d:01\n");
    transfer = submit(0, 0x81, 8);
    work();
    discard(transfer);
    end();
}

int main(void)
{
    exit_as_advised();
    closed_behind_a_cancel(false);
    closed_behind_a_cancel(true);
    exit_amid_events(1);
    exit_amid_events(THREADS);
    many_times();
    open_at_exit();
    return 0;
}

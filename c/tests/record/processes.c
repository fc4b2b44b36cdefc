/* Processes, files and threads that a recording has to do with. */
#include "program.h"

#include <fcntl.h>
#include <pthread.h>
#include <signal.h>
#include <stdio.h>
#include <stdlib.h>
#include <sys/resource.h>
#include <sys/wait.h>
#include <unistd.h>

static void read_once(libusb_device_handle *from)
{
    unsigned char data[8];
    int moved;
    if (libusb_bulk_transfer(from, FROM_DEVICE, data, 8, &moved, 1000))
        _exit(22);
}

/* Two processes, each with a context of its own. */
int forks(void)
{
    begin();
    read_once(handle);
    fflush(NULL);
    pid_t child = fork();
    if (child == 0) {
        libusb_context *own;
        if (libusb_init(&own))
            _exit(23);
        read_once(open_device(own, 0x0002));
        _exit(0);
    }
    int status = 0;
    if (child < 0 || waitpid(child, &status, 0) != child || status)
        return 24;
    return end();
}

/* All files are closed, and others opened in their places. */
int closes_files(void)
{
    begin();
    read_once(handle);
    for (int file = 3; file < 100; file++) {
        int other = open("/dev/null", O_WRONLY);
        if (other >= 0 && other != file) {
            dup2(other, file);
            close(other);
        }
    }
    read_once(handle);
    return end();
}

/* Files can't grow any more. */
int has_no_room(void)
{
    signal(SIGXFSZ, SIG_IGN);
    begin();
    read_once(handle);
    struct rlimit none = { 0, RLIM_INFINITY };
    if (setrlimit(RLIMIT_FSIZE, &none))
        return 25;
    read_once(handle);
    return end();
}

/* Both devices, each in a context of its own. */
int has_two(void)
{
    libusb_context *other;
    begin();
    if (libusb_init(&other))
        return 26;
    libusb_device_handle *second = open_device(other, 0x0002);
    read_once(second);
    read_once(handle);
    libusb_close(second);
    libusb_exit(other);
    return end();
}

enum { THREADS = 4, ROUNDS = 50 };

static void on_counted(struct libusb_transfer *transfer)
{
    __atomic_add_fetch((int *)transfer->user_data, 1, __ATOMIC_RELEASE);
}

/* A request that isn't waited for in its call. */
static void submit_request(libusb_context *own, libusb_device_handle *mine)
{
    unsigned char data[LIBUSB_CONTROL_SETUP_SIZE + 8];
    struct libusb_transfer *transfer = libusb_alloc_transfer(0);
    int count = 0;
    if (!transfer)
        exit(33);
    libusb_fill_control_setup(data, 0xc0, 5, 0x0102, 3, 8);
    libusb_fill_control_transfer(transfer, mine, data, on_counted, &count, 1000);
    if (libusb_submit_transfer(transfer))
        exit(34);
    while (__atomic_load_n(&count, __ATOMIC_ACQUIRE) == 0)
        libusb_handle_events_completed(own, NULL);
    libusb_free_transfer(transfer);
}

/* Requests in a context of its own. */
static void *make_calls(void *unused)
{
    libusb_context *own;
    libusb_device_handle *mine;
    (void)unused;
    if (libusb_init(&own))
        exit(30);
    mine = libusb_open_device_with_vid_pid(own, 0x1209, 0x0001);
    for (int i = 0; mine && i < ROUNDS; i++) {
        unsigned char data[8] = { 0 };
        libusb_control_transfer(mine, 0xc0, 5, 0x0102, 3, data, 8, 1000);
        libusb_control_transfer(mine, 0x40, 6, 0, 0, data, 2, 1000);
        submit_request(own, mine);
    }
    if (!mine)
        exit(31);
    libusb_close(mine);
    libusb_exit(own);
    return unused;
}

static void *handle_events(void *until)
{
    while (__atomic_load_n((int *)until, __ATOMIC_ACQUIRE) == 0)
        libusb_handle_events(context);
    return until;
}

/* Threads with contexts of their own, beside one that submits and cancels while another handles events. */
int threads(void)
{
    pthread_t made[THREADS], handler;
    int is_over = 0, count = 0;
    begin();
    unsigned char data[8];
    libusb_interrupt_transfer(handle, REPORTS, data, 8, NULL, 1000);
    for (int i = 0; i < THREADS; i++)
        pthread_create(&made[i], NULL, make_calls, NULL);
    pthread_create(&handler, NULL, handle_events, &is_over);
    for (int i = 0; i < ROUNDS; i++) {
        struct libusb_transfer *transfer = make(REPORTS, 8, on_counted, 0);
        transfer->type = LIBUSB_TRANSFER_TYPE_INTERRUPT;
        transfer->user_data = &count;
        if (libusb_submit_transfer(transfer) || libusb_cancel_transfer(transfer))
            return 32;
        while (__atomic_load_n(&count, __ATOMIC_ACQUIRE) == i)
            usleep(100);
        libusb_free_transfer(transfer);
    }
    for (int i = 0; i < THREADS; i++)
        pthread_join(made[i], NULL);
    __atomic_store_n(&is_over, 1, __ATOMIC_RELEASE);
    libusb_interrupt_event_handler(context);
    pthread_join(handler, NULL);
    return end();
}

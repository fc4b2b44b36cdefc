/* Devices that compute their answers, under threads: two contexts, whose events three threads handle, drivers that read and write, handles
 * that are closed while a function is asked, and a device that is pulled out and plugged in again all the while. What each call answers is
 * one of what it may; the bytes that come are those that were given, in order. */
#include "scene.h"

#include <pthread.h>
#include <stdatomic.h>
#include <stdio.h>
#include <stdlib.h>
#include <string.h>
#include <unistd.h>

#define READS 400
#define OPENS 60
#define PULLS 60
#define BULK "0902200001010080320904000002ff0000000705810208000007050202080000"

static libusb_context *contexts[2];
static atomic_int is_over, faults, reads, given, opens, refused, told[7];

static void fault(const char *what, int result)
{
    if (atomic_fetch_add(&faults, 1) < 5)
        printf("  %s: %d\n", what, result);
}

/* Device 0 counts its packets, and isn't ready now and then. */
static int count_up(void *user, uint8_t ep, uint8_t *data, int length)
{
    static unsigned dice = 1;
    unsigned number_of = (unsigned)atomic_load(&given);
    (void)user;
    (void)ep;
    dice = dice * 1103515245u + 12345u;
    if (length < 4 || dice >> 16 & 1)
        return dice >> 17 & 1 ? TIRNOUCH_LATER(1) : TIRNOUCH_NOT_READY;
    memcpy(data, &number_of, 4);
    atomic_fetch_add(&given, 1);
    return 4;
}

/* Device 1 takes its time over each packet. */
static int slowly(void *user, uint8_t ep, uint8_t *data, int length)
{
    (void)user;
    usleep(200);
    if (ep & 0x80)
        data[0] = 1;
    return ep & 0x80 ? 1 : length;
}

static void listen(void *user, enum tirnouch_event event, int of)
{
    (void)user;
    (void)of;
    atomic_fetch_add(&told[event], 1);
}

static void *handle_events(void *of)
{
    struct timeval soon = { 0, 2000 };
    while (!atomic_load(&is_over))
        if (libusb_handle_events_timeout(of, &soon))
            fault("events", 0);
    return NULL;
}

static void *make_ready(void *nothing)
{
    while (!atomic_load(&is_over)) {
        tirnouch_ready(0);
        usleep(300);
    }
    return nothing;
}

/* One reader: what it reads has no gap, unless a read failed. */
static void *read_all(void *of)
{
    libusb_device_handle *it = libusb_open_device_with_vid_pid(of, 0x1209, 0x50);
    unsigned expected = 0;
    if (!it || libusb_claim_interface(it, 0))
        fault("open of 0", 0);
    for (int i = 0; i < READS; i++) {
        unsigned got = 0;
        int moved = 0, result = libusb_bulk_transfer(it, 0x81, (unsigned char *)&got, 4, &moved, 20000);
        if (result || moved != 4 || got != expected)
            fault("read", result ? result : (int)got);
        expected = got + 1;
        atomic_fetch_add(&reads, 1);
    }
    libusb_close(it);
    return NULL;
}

static void done(struct libusb_transfer *transfer)
{
    (void)transfer;
}

/* Handles are closed with transfers in flight, while their device's function is asked. */
static void *open_and_close(void *of)
{
    for (int i = 0; i < OPENS; i++) {
        libusb_device_handle *it = libusb_open_device_with_vid_pid(of, 0x1209, 0x51);
        unsigned char data[8], out[8] = { 0 };
        struct libusb_transfer *read = libusb_alloc_transfer(0), *write = libusb_alloc_transfer(0);
        if (!it || libusb_claim_interface(it, 0))
            fault("open of 1", 0);
        libusb_fill_bulk_transfer(read, it, 0x81, data, 8, done, NULL, 0);
        libusb_fill_bulk_transfer(write, it, 0x02, out, 8, done, NULL, 0);
        if (libusb_submit_transfer(read) || libusb_submit_transfer(write))
            fault("submit", 0);
        if (i % 3)
            usleep((unsigned)(i % 7) * 100);
        libusb_close(it);
        libusb_free_transfer(read);
        libusb_free_transfer(write);
        atomic_fetch_add(&opens, 1);
    }
    return NULL;
}

/* What a driver of a device may see that comes and goes. */
static int may_be(int result)
{
    return !result || result == LIBUSB_ERROR_NO_DEVICE || result == LIBUSB_ERROR_TIMEOUT || result == LIBUSB_ERROR_IO;
}

static void *use_what_comes(void *of)
{
    while (!atomic_load(&is_over)) {
        libusb_device_handle *it = libusb_open_device_with_vid_pid(of, 0x1209, 0x52);
        unsigned char data[8];
        int moved, result = 0;
        if (!it) {
            usleep(300);
            continue;
        }
        while (!result && !atomic_load(&is_over)) {
            result = libusb_bulk_transfer(it, 0x81, data, 8, &moved, 100);
            if (!may_be(result))
                fault("read of what comes and goes", result);
        }
        atomic_fetch_add(&refused, result == LIBUSB_ERROR_NO_DEVICE);
        libusb_close(it);
    }
    return NULL;
}

static void *pull_and_show(void *nothing)
{
    for (int i = 0; i < PULLS; i++) {
        usleep(500);
        if (tirnouch_pull(2))
            fault("pull", i);
        usleep((unsigned)(i % 3) * 300);
        if (tirnouch_show(2))
            fault("show", i);
    }
    return nothing;
}

static void begin_both(void)
{
    static const char text[] = "device 0 " BULK "\nids 0 1209 0050\ndevice 1 " BULK "\nids 1 1209 0051\ndevice 2 " BULK "\nids 2 1209 0052\n";
    tirnouch_on_packet(0, 0x81, count_up, NULL);
    tirnouch_on_packet(1, 0x81, slowly, NULL);
    tirnouch_on_packet(1, 0x02, slowly, NULL);
    tirnouch_on_packet(2, 0x81, slowly, NULL);
    tirnouch_on_event(2, listen, NULL);
    begin_text("together", text);
    contexts[0] = context;
    if (libusb_init(&contexts[1]))
        exit(1);
}

int main(void)
{
    pthread_t handlers[3], workers[4];
    begin_both();
    pthread_create(&handlers[0], NULL, handle_events, contexts[0]);
    pthread_create(&handlers[1], NULL, handle_events, contexts[0]);
    pthread_create(&handlers[2], NULL, handle_events, contexts[1]);
    pthread_create(&workers[0], NULL, read_all, contexts[0]);
    pthread_create(&workers[1], NULL, open_and_close, contexts[1]);
    pthread_create(&workers[2], NULL, pull_and_show, NULL);
    pthread_create(&workers[3], NULL, use_what_comes, contexts[1]);
    pthread_t ready;
    pthread_create(&ready, NULL, make_ready, NULL);
    for (int i = 0; i < 3; i++)
        pthread_join(workers[i], NULL);
    atomic_store(&is_over, 1);
    pthread_join(workers[3], NULL);
    pthread_join(ready, NULL);
    for (int i = 0; i < 3; i++)
        pthread_join(handlers[i], NULL);
    libusb_exit(contexts[1]);
    end();
    number("reads", atomic_load(&reads));
    number("opens", atomic_load(&opens));
    number("pulls that were told", atomic_load(&told[TIRNOUCH_EVENT_PULLED]));
    number("shows that were told", atomic_load(&told[TIRNOUCH_EVENT_PLUGGED]));
    say(atomic_load(&refused) ? "handles of before were refused" : "no handle of before was refused");
    number("faults", atomic_load(&faults));
    return atomic_load(&faults) != 0;
}

/* What the environment says: the file of devices, which a plugged text goes before, and time that passes at once. */
#include "scene.h"

#include <poll.h>
#include <pthread.h>
#include <stdatomic.h>
#include <stdio.h>
#include <stdlib.h>
#include <unistd.h>

#define ROUNDS 500

static const char plugged[] = "device 0 " STANDARD_CONFIG "\nids 0 1209 0007\n";
static char name[] = "/tmp/tirnouch_devices_XXXXXX";

static void write_file(const char *text)
{
    FILE *file = fopen(name, "w");
    if (!file || fputs(text, file) < 0 || fclose(file))
        exit(1);
}

static void show_devices(const char *scene)
{
    libusb_device **list;
    struct libusb_device_descriptor descriptor;
    libusb_context *own = NULL;
    puts(scene);
    answer("init", libusb_init(&own));
    number("devices", list_devices(own, &list));
    for (int i = 0; list[i]; i++) {
        libusb_get_device_descriptor(list[i], &descriptor);
        printf("  %04x:%04x\n", descriptor.idVendor, descriptor.idProduct);
    }
    libusb_free_device_list(list, 1);
    libusb_exit(own);
}

static void files(void)
{
    int file = mkstemp(name);
    if (file < 0 || close(file))
        exit(1);
    unsetenv("TIRNOUCH_DEVICES");
    show_devices("without a file");
    setenv("TIRNOUCH_DEVICES", "", 1);
    show_devices("with an empty name");
    setenv("TIRNOUCH_DEVICES", name, 1);
    show_devices("with an empty file");
    write_file("# two devices\n" STANDARD "\ndevice 1 " STANDARD_CONFIG "\n");
    show_devices("with a file of two devices");
    write_file(STANDARD);
    show_devices("with another");
    answer("plug", tirnouch_plug(plugged, sizeof plugged - 1));
    show_devices("with a text that was plugged in");
    unlink(name);
    unsetenv("TIRNOUCH_DEVICES");
}

static void bad_texts(void)
{
    static const char *const texts[] = {
        "ids 0 04a9 31c0\n", "device 1 " STANDARD_CONFIG "\n", "device 0 0902\n", STANDARD "script 0 85 d:01\n", STANDARD "script 0 81 a\n",
        STANDARD "ids 0 4a9 31c0\n", STANDARD "speed 0 super\n", STANDARD "hidden 1\n", STANDARD "open 0 0\n",
    };
    libusb_context *own = NULL;
    int refused = 0;
    puts("texts that aren't taken");
    fflush(stderr);
    if (!freopen("/dev/null", "w", stderr))
        exit(1);
    for (size_t i = 0; i < sizeof texts / sizeof texts[0]; i++) {
        size_t length = 0;
        while (texts[i][length])
            length++;
        refused += tirnouch_plug(texts[i], length) == 0 && libusb_init(&own) < 0;
    }
    number("refused", refused);
    number("texts", (long long)(sizeof texts / sizeof texts[0]));
    tirnouch_plug(STANDARD, sizeof STANDARD - 1);
    show_devices("a good one behind them");
}

static void times(void)
{
    struct libusb_transfer *transfer;
    struct timeval hour = { 3600, 0 };
    long long from = clock_now();
    virtual_time(1);
    begin("an hour at once", "");
    transfer = submit_with(0, 0x81, 8, 0, 1800 * 1000);
    answer("half of it", libusb_handle_events_timeout(context, &hour));
    answer("nothing left", libusb_handle_events_timeout(context, &hour));
    discard(transfer);
    end();
    virtual_time(0);
    say(clock_now() - from < 5000 ? "at once" : "late");
}

/* Who polls finds the next deadline over as soon as nothing else is to be done. */
static void polled(void)
{
    const struct libusb_pollfd **list;
    struct timeval none = { 0, 0 };
    virtual_time(1);
    begin("an hour at once, by polling", "");
    list = libusb_get_pollfds(context);
    struct pollfd it = { .fd = list && list[0] ? list[0]->fd : -1, .events = POLLIN };
    libusb_free_pollfds(list);
    struct libusb_transfer *transfer = submit_with(0, 0x81, 8, 0, 3600 * 1000);
    while (!calls && poll(&it, 1, 2000) > 0)
        libusb_handle_events_timeout(context, &none);
    discard(transfer);
    end();
    virtual_time(0);
}

static atomic_int is_over;

static void *handle_for_ever(void *unused)
{
    struct timeval minute = { 60, 0 };
    (void)unused;
    while (!is_over)
        libusb_handle_events_timeout(context, &minute);
    return NULL;
}

/* What is answered at once is answered, however fast the time of another thread passes. */
static void two_threads(void)
{
    static char script[3 * ROUNDS + 64];
    size_t length = (size_t)sprintf(script, "control 0 c0 01 0000 0000 d:01\nscript 0 02");
    unsigned char data[1] = { 0 };
    int failed = 0, moved;
    pthread_t thread;
    for (int i = 0; i < ROUNDS; i++)
        length += (size_t)sprintf(script + length, " a");
    virtual_time(1);
    begin("two threads at once", script);
    pthread_create(&thread, NULL, handle_for_ever, NULL);
    for (int i = 0; i < ROUNDS; i++) {
        failed += libusb_control_transfer(handle, 0xc0, 1, 0, 0, data, 1, 1000) != 1;
        failed += libusb_bulk_transfer(handle, 0x02, data, 1, &moved, 1000) != 0;
    }
    is_over = 1;
    libusb_interrupt_event_handler(context);
    pthread_join(thread, NULL);
    end();
    virtual_time(0);
    number("failed", failed);
}

int main(void)
{
    files();
    bad_texts();
    times();
    polled();
    two_threads();
    return 0;
}

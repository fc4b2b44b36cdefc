/* races N: six threads, each with a handle of its own, submit, cancel, let time out, submit again in callbacks, release, reset and close
 * in flight, by dice of which N is the seed, while another thread handles events. Each accepted transfer is called back just once, or
 * never where its handle was closed; what is completed comes in order, with the bytes that the device's script has in that order. */
#include "races.h"
#include "tirnouch.h"

#include <stdarg.h>
#include <stdatomic.h>
#include <stdio.h>
#include <stdlib.h>
#include <string.h>
#include <time.h>
#include <unistd.h>

static libusb_context *context;
static struct worker workers[WORKERS];
static atomic_int is_over;

static void require(int is_so, const char *what)
{
    if (is_so)
        return;
    fprintf(stderr, "races: %s\n", what);
    _exit(1);
}

static void require_that(const struct worker *worker, int is_so, const char *format, ...)
{
    va_list rest;
    if (is_so)
        return;
    fprintf(stderr, "races: worker %d: ", worker->number);
    va_start(rest, format);
    vfprintf(stderr, format, rest);
    va_end(rest);
    fprintf(stderr, "\n");
    _exit(1);
}

static unsigned dice(struct worker *worker, unsigned sides)
{
    worker->dice = worker->dice * 1103515245u + 12345u;
    return (worker->dice >> 16) % sides;
}

static unsigned locked_dice(struct worker *worker, unsigned sides)
{
    pthread_mutex_lock(&worker->lock);
    unsigned number = dice(worker, sides);
    pthread_mutex_unlock(&worker->lock);
    return number;
}

/* With the worker's lock, as all that follows up to the callback. */
static void submit(struct slot *slot)
{
    struct line *line = slot->line;
    struct worker *worker = line->worker;
    struct libusb_transfer *transfer = slot->transfer;
    transfer->dev_handle = worker->handle;
    transfer->timeout = dice(worker, 3) ? 0 : 1 + dice(worker, 4);
    slot->ticket = line->tickets++;
    slot->is_asked = 0;
    slot->is_in_flight = 1;
    worker->in_flight++;
    if (!(line->ep & LIBUSB_ENDPOINT_IN))
        memcpy(slot->buffer, &slot->ticket, sizeof slot->ticket);
    int result = libusb_submit_transfer(transfer);
    if (!result)
        return;
    slot->is_in_flight = 0;
    worker->in_flight--;
    require_that(worker, result == LIBUSB_ERROR_NO_DEVICE && (worker->is_ending || worker->is_pulled), "submit: %s",
                 libusb_error_name(result));
}

static void check_completed(struct slot *slot)
{
    struct line *line = slot->line;
    const struct worker *worker = line->worker;
    const unsigned char *data = slot->buffer;
    require_that(worker, slot->ticket >= line->after, "endpoint %02x: out of order", line->ep);
    line->after = slot->ticket + 1;
    line->completed++;
    if (!(line->ep & LIBUSB_ENDPOINT_IN)) {
        require_that(worker, slot->transfer->actual_length == 8, "%d bytes were written", slot->transfer->actual_length);
        return;
    }
    uint32_t answer = (uint32_t)data[0] | (uint32_t)data[1] << 8 | (uint32_t)data[2] << 16;
    require_that(worker, slot->transfer->actual_length == 3, "%d bytes were read", slot->transfer->actual_length);
    require_that(worker, answer >= line->next && answer - line->next <= line->slack, "endpoint %02x: answer %u where %u comes next",
                 line->ep, answer, line->next);
    line->next = answer + 1;
    line->slack = 0;
}

static void check(struct slot *slot)
{
    const struct worker *worker = slot->line->worker;
    const struct libusb_transfer *transfer = slot->transfer;
    if (transfer->status == LIBUSB_TRANSFER_COMPLETED) {
        check_completed(slot);
        return;
    }
    require_that(worker, transfer->actual_length == 0, "status %d with bytes", (int)transfer->status);
    if (transfer->status == LIBUSB_TRANSFER_CANCELLED)
        require_that(worker, slot->is_asked || worker->is_ending, "cancelled by nobody");
    else if (transfer->status == LIBUSB_TRANSFER_TIMED_OUT)
        require_that(worker, transfer->timeout > 0, "timed out without a timeout");
    else
        require_that(worker, transfer->status == LIBUSB_TRANSFER_NO_DEVICE && worker->is_pulled, "status %d", (int)transfer->status);
}

static void on_call(struct libusb_transfer *transfer)
{
    struct slot *slot = transfer->user_data;
    struct worker *worker = slot->line->worker;
    pthread_mutex_lock(&worker->lock);
    require_that(worker, !worker->is_closed, "a callback behind its handle's close");
    require_that(worker, slot->is_in_flight, "a callback of a transfer that isn't in flight");
    slot->is_in_flight = 0;
    worker->in_flight--;
    check(slot);
    if (slot->again > 0 && !worker->is_pausing) {
        slot->again--;
        submit(slot);
    }
    pthread_mutex_unlock(&worker->lock);
}

static struct slot *any_slot(struct worker *worker)
{
    return &worker->lines[dice(worker, (unsigned)worker->line_count)].slots[dice(worker, SLOTS)];
}

/* With the lock. */
static void cancel(struct slot *slot)
{
    if (!slot->is_in_flight)
        return;
    slot->is_asked = 1;
    int result = libusb_cancel_transfer(slot->transfer);
    require_that(slot->line->worker, !result || result == LIBUSB_ERROR_NOT_FOUND, "cancel: %s", libusb_error_name(result));
}

static void wait_a_moment(struct worker *worker)
{
    struct timeval moment = { 0, 1000 };
    if (locked_dice(worker, 2)) {
        usleep(200);
        return;
    }
    int result = libusb_handle_events_timeout(context, &moment);
    require_that(worker, !result || result == LIBUSB_ERROR_INTERRUPTED, "events: %s", libusb_error_name(result));
}

static void wait_until_quiet(struct worker *worker, int cancels)
{
    time_t end = time(NULL) + PATIENCE;
    int left = 1;
    while (left) {
        require_that(worker, time(NULL) <= end, "%d transfers aren't called back", left);
        pthread_mutex_lock(&worker->lock);
        worker->is_pausing = 1;
        for (int i = 0; i < worker->line_count && cancels; i++)
            for (int j = 0; j < SLOTS; j++)
                cancel(&worker->lines[i].slots[j]);
        left = worker->in_flight;
        worker->is_pausing = left > 0;
        pthread_mutex_unlock(&worker->lock);
        if (left)
            wait_a_moment(worker);
    }
}

static void set_ending(struct worker *worker, int is_ending)
{
    pthread_mutex_lock(&worker->lock);
    worker->is_ending = is_ending;
    pthread_mutex_unlock(&worker->lock);
}

static void open_handle(struct worker *worker)
{
    libusb_device_handle *handle = libusb_open_device_with_vid_pid(context, 0x1209, (uint16_t)(1 + worker->device));
    require_that(worker, handle != NULL, "open");
    int result = libusb_claim_interface(handle, worker->interface);
    require_that(worker, !result, "claim: %s", libusb_error_name(result));
    pthread_mutex_lock(&worker->lock);
    worker->handle = handle;
    worker->is_closed = worker->is_ending = 0;
    pthread_mutex_unlock(&worker->lock);
}

/* What is in flight is dropped: the device may have answered it, or not. */
static void close_in_flight(struct worker *worker)
{
    set_ending(worker, 1);
    libusb_close(worker->handle);
    pthread_mutex_lock(&worker->lock);
    worker->is_closed = 1;
    for (int i = 0; i < worker->line_count; i++)
        for (int j = 0; j < SLOTS; j++) {
            worker->lines[i].slack += (uint32_t)worker->lines[i].slots[j].is_in_flight;
            worker->lines[i].slots[j].is_in_flight = 0;
        }
    worker->in_flight = 0;
    pthread_mutex_unlock(&worker->lock);
    open_handle(worker);
}

static void release_in_flight(struct worker *worker)
{
    pthread_mutex_lock(&worker->lock);
    worker->is_pausing = worker->is_ending = 1;
    pthread_mutex_unlock(&worker->lock);
    int result = libusb_release_interface(worker->handle, worker->interface);
    require_that(worker, !result, "release: %s", libusb_error_name(result));
    wait_until_quiet(worker, 0);
    set_ending(worker, 0);
    result = libusb_claim_interface(worker->handle, worker->interface);
    require_that(worker, !result, "claim: %s", libusb_error_name(result));
}

/* Of devices 2 and 3, where nobody else holds an interface: their scripts begin anew. */
static void reset_in_flight(struct worker *worker)
{
    pthread_mutex_lock(&worker->lock);
    worker->is_pausing = worker->is_ending = 1;
    pthread_mutex_unlock(&worker->lock);
    int result = libusb_reset_device(worker->handle);
    require_that(worker, !result, "reset: %s", libusb_error_name(result));
    wait_until_quiet(worker, 0);
    pthread_mutex_lock(&worker->lock);
    for (int i = 0; i < worker->line_count; i++)
        worker->lines[i].next = worker->lines[i].slack = worker->lines[i].completed = 0;
    worker->is_ending = 0;
    pthread_mutex_unlock(&worker->lock);
}

static void ask_for_descriptor(struct worker *worker)
{
    unsigned char data[18];
    int result = libusb_get_descriptor(worker->handle, LIBUSB_DT_DEVICE, 0, data, sizeof data);
    require_that(worker, result == 18 && data[10] == 1 + worker->device, "descriptor: %d", result);
}

static void submit_some(struct worker *worker)
{
    for (unsigned i = 1 + locked_dice(worker, 2 * SLOTS); i > 0; i--) {
        pthread_mutex_lock(&worker->lock);
        struct slot *slot = any_slot(worker);
        if (!slot->is_in_flight) {
            slot->again = (int)dice(worker, 4);
            submit(slot);
        }
        if (dice(worker, 4) == 0)
            cancel(any_slot(worker));
        pthread_mutex_unlock(&worker->lock);
    }
}

/* The device is pulled out with transfers in flight, and takes no more. */
static void pull(struct worker *worker)
{
    submit_some(worker);
    pthread_mutex_lock(&worker->lock);
    worker->is_pulled = 1;
    pthread_mutex_unlock(&worker->lock);
    int result = tirnouch_pull(worker->device);
    require_that(worker, !result, "pull: %s", libusb_error_name(result));
    wait_until_quiet(worker, 0);
    pthread_mutex_lock(&worker->lock);
    submit(any_slot(worker));
    require_that(worker, !worker->in_flight, "a submission at a device that is gone");
    pthread_mutex_unlock(&worker->lock);
}

static void *work(void *user)
{
    struct worker *worker = user;
    open_handle(worker);
    for (int round = 0; round < ROUNDS; round++) {
        submit_some(worker);
        for (unsigned i = locked_dice(worker, 4); i > 0; i--)
            wait_a_moment(worker);
        switch (locked_dice(worker, 8)) {
        case 0:
            close_in_flight(worker);
            break;
        case 1:
            release_in_flight(worker);
            break;
        case 2:
            if (worker->device >= 2)
                reset_in_flight(worker);
            break;
        case 3:
            ask_for_descriptor(worker);
            break;
        case 4:
            wait_until_quiet(worker, 1);
            break;
        default:
            break;
        }
    }
    wait_until_quiet(worker, 1);
    if (worker->device == 3)
        pull(worker);
    libusb_close(worker->handle);
    return NULL;
}

static void *handle_events(void *user)
{
    (void)user;
    while (!atomic_load(&is_over)) {
        struct timeval moment = { 0, 5000 };
        int result = libusb_handle_events_timeout(context, &moment);
        require(!result || result == LIBUSB_ERROR_INTERRUPTED, "events are refused");
    }
    return NULL;
}

/* Each answer is its number, three bytes of them, so that each ends one transfer; now and then the device isn't ready, and 83 has none
 * left before long, so that time ends what is submitted there. */
static size_t write_device(char *text, int device)
{
    static const unsigned endpoints[] = { 0x81, 0x83 }, counts[] = { ANSWERS, FEW_ANSWERS };
    size_t length = (size_t)sprintf(text,
                                    "device %d 0902300002010080320904000002ff00000007058102080000070502020800000904010001ff0000000"
                                    "705830308000a\nids %d 1209 %04x\n",
                                    device, device, (unsigned)device + 1);
    for (int k = 0; k < 2; k++) {
        length += (size_t)sprintf(text + length, "script %d %02x", device, endpoints[k]);
        for (unsigned i = 0, number = 0; i < counts[k]; i++) {
            if (i % 7 == 3)
                length += (size_t)sprintf(text + length, " n");
            else
                length += (size_t)sprintf(text + length, " d:%02x%02x%02x", number % 256, number / 256 % 256, number / 65536 % 256);
            number += i % 7 != 3;
        }
        length += (size_t)sprintf(text + length, "\n");
    }
    length += (size_t)sprintf(text + length, "script %d 02", device);
    for (unsigned i = 0; i < ANSWERS; i++)
        length += (size_t)sprintf(text + length, i % 5 == 3 ? " n" : " a");
    return length + (size_t)sprintf(text + length, "\n");
}

static void begin(void)
{
    char *text = malloc(4 * (22 * ANSWERS + 1024));
    size_t length = 0;
    require(text != NULL, "memory");
    for (int device = 0; device < 4; device++)
        length += write_device(text + length, device);
    require(tirnouch_plug(text, length) == 0, "plug");
    require(libusb_init(&context) == 0, "init");
    free(text);
}

static void make_line(struct line *line, struct worker *worker, unsigned char ep)
{
    line->worker = worker;
    line->ep = ep;
    for (int i = 0; i < SLOTS; i++) {
        struct slot *slot = &line->slots[i];
        slot->line = line;
        slot->transfer = libusb_alloc_transfer(0);
        require(slot->transfer != NULL, "transfer");
        libusb_fill_bulk_transfer(slot->transfer, NULL, ep, slot->buffer, 8, on_call, slot, 0);
        if (ep == 0x83)
            slot->transfer->type = LIBUSB_TRANSFER_TYPE_INTERRUPT;
    }
}

static void make_worker(struct worker *worker, int number, unsigned seed)
{
    worker->number = number;
    worker->device = number % 4;
    worker->interface = number / 4;
    worker->dice = seed * 977u + (unsigned)number;
    pthread_mutex_init(&worker->lock, NULL);
    worker->line_count = worker->interface ? 1 : 2;
    make_line(&worker->lines[0], worker, worker->interface ? 0x83 : 0x81);
    if (!worker->interface)
        make_line(&worker->lines[1], worker, 0x02);
}

/* What a device took are packets that were submitted, in that order, and each that was completed since its script began. */
static void check_taken(const struct worker *worker)
{
    uint64_t packet = 0, last = 0;
    uint32_t count = 0;
    while (tirnouch_took(worker->device, 0x02, count, (uint8_t *)&packet, sizeof packet) >= 0) {
        require_that(worker, !count || packet > last, "packet %u was taken out of order", count);
        last = packet;
        count++;
    }
    require_that(worker, count >= worker->lines[1].completed, "%u packets were taken, %u completed", count, worker->lines[1].completed);
}

static void free_worker(struct worker *worker)
{
    for (int i = 0; i < worker->line_count; i++)
        for (int j = 0; j < SLOTS; j++)
            libusb_free_transfer(worker->lines[i].slots[j].transfer);
    pthread_mutex_destroy(&worker->lock);
}

int main(int count, char **words)
{
    unsigned seed = count > 1 ? (unsigned)atoi(words[1]) : 1;
    pthread_t events;
    begin();
    for (int i = 0; i < WORKERS; i++)
        make_worker(&workers[i], i, seed);
    require(!pthread_create(&events, NULL, handle_events, NULL), "thread");
    for (int i = 0; i < WORKERS; i++)
        require(!pthread_create(&workers[i].thread, NULL, work, &workers[i]), "thread");
    for (int i = 0; i < WORKERS; i++)
        pthread_join(workers[i].thread, NULL);
    atomic_store(&is_over, 1);
    libusb_interrupt_event_handler(context);
    pthread_join(events, NULL);
    for (int i = 0; i < 4; i++)
        check_taken(&workers[i]);
    for (int i = 0; i < WORKERS; i++)
        free_worker(&workers[i]);
    libusb_exit(context);
    puts("ok");
    return 0;
}

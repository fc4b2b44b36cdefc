/* What crosses: a cancel and an answer, a stall, a deadline, a close or an unplug; and what one handle notices of another. Where libusb's
 * manual leaves two ends open, a line says what holds of both. */
#include "scene.h"

#include <pthread.h>
#include <stdatomic.h>
#include <stdint.h>
#include <stdio.h>
#include <stdlib.h>
#include <string.h>
#include <unistd.h>

#define COUNT 5
#define ROUNDS 200

static struct libusb_transfer *transfers[COUNT];
static int status[COUNT], length[COUNT], times[COUNT];
static unsigned char came[64];
static int came_count;

/* Keeps how a transfer ended, and the bytes that came, in the order of the callbacks. */
static void collect(struct libusb_transfer *transfer)
{
    int id = (int)(intptr_t)transfer->user_data;
    calls++;
    times[id]++;
    status[id] = (int)transfer->status;
    length[id] = transfer->actual_length;
    if (transfer->endpoint & LIBUSB_ENDPOINT_IN && came_count + transfer->actual_length <= (int)sizeof came) {
        memcpy(came + came_count, transfer->buffer, (size_t)transfer->actual_length);
        came_count += transfer->actual_length;
    }
}

/* Reads of 8 bytes at 81, from number 0 on. */
static void submit_reads(int count, libusb_transfer_cb_fn callback, unsigned timeout)
{
    came_count = 0;
    memset(times, 0, sizeof times);
    for (int i = 0; i < count; i++) {
        transfers[i] = make(i, 0x81, 8);
        transfers[i]->callback = callback;
        transfers[i]->timeout = timeout;
        send_off(transfers[i]);
    }
}

static void show(int count)
{
    for (int i = 0; i < count; i++)
        if (times[i] == 1)
            printf("  %d: %s %d\n", i, status_name(status[i]), length[i]);
        else
            printf("  %d: %s\n", i, times[i] ? "called twice" : "not called");
}

static void end_all(int count)
{
    for (int i = 0; i < count; i++)
        libusb_cancel_transfer(transfers[i]);
    work();
    for (int i = 0; i < count; i++)
        discard(transfers[i]);
    end();
}

/* The cancel takes effect before the device answers, or it comes too late. */
static void cancel_and_answer(void)
{
    begin("a cancel crosses an answer", "script 0 81 d:01 d:02\n");
    submit_reads(2, collect, 0);
    answer("cancel", libusb_cancel_transfer(transfers[0]));
    work();
    number("calls", calls);
    int is_cancelled = status[0] == LIBUSB_TRANSFER_CANCELLED && length[0] == 0;
    int is_completed = status[0] == LIBUSB_TRANSFER_COMPLETED && length[0] == 1;
    say(is_cancelled || is_completed ? "cancelled, or completed with its byte" : "neither");
    say(came_count >= 1 && came[0] == 1 && (came_count == 1 || came[1] == 2) ? "no byte is lost" : "a byte is lost");
    end_all(2);
}

static void several_cancels(void)
{
    begin("several are cancelled before events are handled", "");
    submit_reads(5, collect, 0);
    answer("cancel of 3", libusb_cancel_transfer(transfers[3]));
    answer("cancel of 1", libusb_cancel_transfer(transfers[1]));
    answer("cancel of 4", libusb_cancel_transfer(transfers[4]));
    answer("cancel of 1 again", libusb_cancel_transfer(transfers[1]));
    work();
    show(5);
    end_all(5);
}

static void cancel_and_stall(void)
{
    begin("a cancel meets a stall", "script 0 81 s d:01\n");
    submit_reads(2, collect, 0);
    answer("cancel of 1", libusb_cancel_transfer(transfers[1]));
    work();
    show(2);
    answer("clear_halt", libusb_clear_halt(handle, 0x81));
    send_off(transfers[0]);
    work();
    bytes("came", came, came_count);
    end_all(2);
}

/* Whichever is first names the status: the cancel is, as events are handled behind it. */
static void cancel_and_deadline(void)
{
    begin("cancelled, and then its time passes", "");
    submit_reads(1, collect, 20);
    answer("cancel", libusb_cancel_transfer(transfers[0]));
    usleep(40000);
    work();
    show(1);
    end_all(1);

    begin("its time passes, and then it is cancelled", "");
    submit_reads(1, collect, 20);
    usleep(40000);
    answer("cancel", libusb_cancel_transfer(transfers[0]));
    work();
    show(1);
    end_all(1);
}

static void sleep_first(struct libusb_transfer *transfer)
{
    collect(transfer);
    if (transfer == transfers[0])
        usleep(60000);
}

static void answer_and_deadline(void)
{
    begin("its time passes while another's callback runs", "script 0 81 d:01 d:02\n");
    submit_reads(2, sleep_first, 40);
    work();
    show(2);
    bytes("came", came, came_count);
    end_all(2);
}

static long long resubmitted;

static void again_once(struct libusb_transfer *transfer)
{
    tell(transfer);
    if (transfer->status != LIBUSB_TRANSFER_COMPLETED)
        return;
    resubmitted = clock_now();
    send_off(transfer);
}

static void deadlines(void)
{
    begin("a deadline runs anew with each submission", "script 0 81 d:01\n");
    submit_reads(1, again_once, 200);
    usleep(120000);
    work();
    wait_for(2);
    say(clock_now() - resubmitted >= 199 ? "not before its time" : "early");
    end_all(1);

    begin("the longest timeout", "");
    submit_reads(1, collect, UINT32_MAX);
    work();
    show(1);
    answer("cancel", libusb_cancel_transfer(transfers[0]));
    work();
    show(1);
    end_all(1);
}

static void close_amid_cancel(void)
{
    begin("closed amid a cancel", "");
    submit_reads(2, collect, 0);
    answer("cancel", libusb_cancel_transfer(transfers[0]));
    libusb_close(handle);
    handle = NULL;
    work();
    show(2);
    handle = open_standard(context);
    answer("claim", libusb_claim_interface(handle, 0));
    discard(transfers[0]);
    discard(transfers[1]);
    end();
}

static void *read_and_wait(void *user)
{
    unsigned char data[8];
    int moved = 0;
    atomic_store((atomic_int *)user, 1);
    answer("read", libusb_bulk_transfer(handle, 0x81, data, sizeof data, &moved, 0));
    return NULL;
}

/* Its read has no time limit: the close ends it. The thread has begun before that: else it would read by a handle that is closed. */
static void close_amid_wait(void)
{
    pthread_t thread;
    atomic_int is_reading = 0;
    begin("closed while another thread waits for a read", "");
    if (pthread_create(&thread, NULL, read_and_wait, &is_reading))
        exit(1);
    while (!atomic_load(&is_reading))
        usleep(1000);
    usleep(200000);
    libusb_close(handle);
    pthread_join(thread, NULL);
    handle = NULL;
    end();
}

static pthread_mutex_t own_lock = PTHREAD_MUTEX_INITIALIZER;
static atomic_int is_done;

static void count_locked(struct libusb_transfer *transfer)
{
    pthread_mutex_lock(&own_lock);
    calls++;
    times[0] += transfer->status == LIBUSB_TRANSFER_CANCELLED;
    pthread_mutex_unlock(&own_lock);
}

static void *submit_locked(void *user)
{
    (void)user;
    for (int i = 0; i < ROUNDS; i++) {
        pthread_mutex_lock(&own_lock);
        if (calls == i) {
            send_off(transfers[0]);
            libusb_cancel_transfer(transfers[0]);
        } else {
            i--;
        }
        pthread_mutex_unlock(&own_lock);
        usleep(100);
    }
    atomic_store(&is_done, 1);
    return NULL;
}

/* A lock of the program's own is taken in a callback, and around calls that take the library's. */
static void shared_lock(void)
{
    pthread_t thread;
    begin("a callback takes the lock under which others submit", "");
    transfers[0] = make(0, 0x81, 8);
    transfers[0]->callback = count_locked;
    times[0] = 0;
    if (pthread_create(&thread, NULL, submit_locked, NULL))
        exit(1);
    while (!atomic_load(&is_done) || calls < ROUNDS) {
        struct timeval moment = { 0, 1000 };
        libusb_handle_events_timeout(context, &moment);
    }
    pthread_join(thread, NULL);
    number("cancelled", times[0]);
    discard(transfers[0]);
    end();
}

static void pull_first(struct libusb_transfer *transfer)
{
    collect(transfer);
    if (transfer == transfers[0])
        answer("pull", tirnouch_pull(0));
}

static void unplugs(void)
{
    begin("pulled out while another has ended", "script 0 81 d:01 d:02\n");
    submit_reads(3, pull_first, 0);
    wait_for(3);
    show(3);
    bytes("came", came, came_count);
    end_all(3);

    begin("pulled out amid a cancel", "script 0 81 d:01\n");
    submit_reads(2, collect, 0);
    work();
    send_off(transfers[0]);
    times[0] = 0;
    answer("cancel of 0", libusb_cancel_transfer(transfers[0]));
    answer("pull", tirnouch_pull(0));
    work();
    int is_over = status[0] == LIBUSB_TRANSFER_CANCELLED || status[0] == LIBUSB_TRANSFER_NO_DEVICE;
    say(is_over && times[0] == 1 ? "0 ended once" : "otherwise");
    printf("  1: %s %d\n", status_name(status[1]), length[1]);
    end_all(2);
}

/* In order of submission, whatever their deadlines are. */
static void order_at_unplug(void)
{
    static const unsigned timeouts[] = { 90000, 50000, 0 };
    begin("pulled out with three deadlines", "");
    for (int i = 0; i < 3; i++)
        transfers[i] = submit_with(i, 0x81, 8, 0, timeouts[i]);
    tirnouch_pull(0);
    wait_for(3);
    end_all(3);
}

static void beside_another(void)
{
    libusb_device_handle *other;
    begin_unclaimed("a stall and a cancel beside another handle", "script 0 81 s\nscript 0 83 d:0b d:0c\n");
    other = open_standard(context);
    answer("claim", libusb_claim_interface(handle, 0));
    answer("claim by the other", libusb_claim_interface(other, 1));
    submit_reads(2, collect, 0);
    for (int i = 2; i < 4; i++) {
        transfers[i] = make(i, 0x83, 8);
        transfers[i]->callback = collect;
        transfers[i]->dev_handle = other;
        send_off(transfers[i]);
    }
    answer("cancel of 1", libusb_cancel_transfer(transfers[1]));
    work();
    show(4);
    bytes("came", came, came_count);
    libusb_close(other);
    for (int i = 0; i < 4; i++)
        discard(transfers[i]);
    end();
}

/* Who claims an interface goes on where the device stands (docs/DEVICES.md, `anew`): its halt is there still. */
static void hands(void)
{
    libusb_device_handle *other;
    struct libusb_transfer *transfer;
    begin("an interface changes hands behind a stall", "script 0 81 s d:01\n");
    transfer = submit(0, 0x81, 8);
    work();
    answer("release", libusb_release_interface(handle, 0));
    other = open_standard(context);
    answer("claim by the other", libusb_claim_interface(other, 0));
    transfer->dev_handle = other;
    send_off(transfer);
    work();
    answer("clear_halt", libusb_clear_halt(other, 0x81));
    send_off(transfer);
    work();
    discard(transfer);
    libusb_close(other);
    end();
}

/* Interface 0 has interrupt OUT 04. */
static void empty_packets(void)
{
    begin_text("an empty packet behind whole ones, interrupt", "device 0 0902190001010080320904000001ff00000007050403080001\n"
                                                               "ids 0 04a9 31c0\nscript 0 04 a a a a a\n");
    handle = open_standard(context);
    answer("claim", libusb_claim_interface(handle, 0));
    for (int i = 0; i < 2; i++) {
        transfers[i] = make(i, 0x04, 16);
        transfers[i]->type = LIBUSB_TRANSFER_TYPE_INTERRUPT;
        transfers[i]->flags = i ? LIBUSB_TRANSFER_ADD_ZERO_PACKET : 0;
        send_off(transfers[i]);
    }
    wait_for(2);
    took(0x04);
    end_all(2);
}

int main(void)
{
    cancel_and_answer();
    several_cancels();
    cancel_and_stall();
    cancel_and_deadline();
    answer_and_deadline();
    deadlines();
    close_amid_cancel();
    close_amid_wait();
    shared_lock();
    unplugs();
    order_at_unplug();
    beside_another();
    hands();
    empty_packets();
    return 0;
}

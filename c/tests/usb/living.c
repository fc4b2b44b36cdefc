/* Devices whose answers a function computes (tirnouch_on_packet, tirnouch_on_control): what each answer is to the driver, when the function
 * is asked, and when it is asked again. The expected lines are written from tirnouch.h, from docs/DEVICES.md and from libusb's manual. */
#include "scene.h"

#include <pthread.h>
#include <stdatomic.h>
#include <stdio.h>
#include <string.h>
#include <unistd.h>

/* What the functions below answer, one after the other, and how often they were asked. The last answer stays. */
static struct {
    int list[16];
    int count, asked;
    unsigned char last[16];
    int last_length;
    int room;
} plan;

#define PLAN(...)                                                                                 \
    do {                                                                                          \
        static const int list_[] = { __VA_ARGS__ };                                               \
        memset(&plan, 0, sizeof plan);                                                            \
        memcpy(plan.list, list_, sizeof list_);                                                   \
        plan.count = (int)(sizeof list_ / sizeof *list_);                                         \
    } while (0)

static int next_answer(void)
{
    int i = plan.asked < plan.count ? plan.asked : plan.count - 1;
    plan.asked++;
    return plan.list[i];
}

/* Bytes count from 0x40 on, and on with each packet. */
static int give(void *user, uint8_t ep, uint8_t *data, int length)
{
    int count = next_answer();
    (void)ep;
    plan.room = length;
    for (int i = 0; i < count && i < 16; i++)
        data[i] = (unsigned char)(0x40 + (*(int *)user)++);
    return count;
}

static int take(void *user, uint8_t ep, uint8_t *data, int length)
{
    (void)user;
    (void)ep;
    memcpy(plan.last, data, length < 16 ? (size_t)length : 16);
    plan.last_length = length;
    return next_answer();
}

static int sent;

static void begin_living(const char *name, const char *more)
{
    sent = 0;
    tirnouch_on_packet(0, 0x81, give, &sent);
    tirnouch_on_packet(0, 0x02, take, NULL);
    begin(name, more);
}

static void end_living(void)
{
    end();
    tirnouch_on_packet(0, 0x81, NULL, NULL);
    tirnouch_on_packet(0, 0x02, NULL, NULL);
}

static void read_once(int length, unsigned timeout)
{
    unsigned char data[64] = { 0 };
    int moved = 0, result = libusb_bulk_transfer(handle, 0x81, data, length, &moved, timeout);
    answer("read", result);
    bytes("  of", data, moved);
}

static void write_once(int length)
{
    unsigned char data[64] = "written to the device, and longer than a packet";
    int moved = 0, result = libusb_bulk_transfer(handle, 0x02, data, length, &moved, 1000);
    answer("write", result);
    number("  moved", moved);
}

static void reads(void)
{
    PLAN(8, 3, 0, 8, 8);
    begin_living("the script first, and then the function", "script 0 81 d:0102\n");
    read_once(8, 1000);
    number("asked", plan.asked);
    read_once(16, 1000);
    number("room of the last packet", plan.room);
    read_once(8, 1000);
    read_once(12, 1000);
    number("asked", plan.asked);
    end_living();
}

static void writes(void)
{
    PLAN(0, 8);
    begin_living("packets that are taken", "");
    write_once(12);
    bytes("the last packet", plan.last, plan.last_length);
    number("asked", plan.asked);
    took(0x02);
    write_once(0);
    number("an empty one", plan.last_length);
    end_living();
}

static void stalls(void)
{
    PLAN(TIRNOUCH_STALL, 2);
    begin_living("a stall, until it is cleared", "");
    read_once(8, 1000);
    read_once(8, 1000);
    number("asked while it is halted", plan.asked - 1);
    answer("clear", libusb_clear_halt(handle, 0x81));
    read_once(8, 1000);
    PLAN(TIRNOUCH_STALL, 0);
    write_once(4);
    write_once(4);
    answer("clear", libusb_clear_halt(handle, 0x02));
    write_once(4);
    end_living();
}

static void faults(void)
{
    PLAN(TIRNOUCH_BROKEN, 2, 9, 4000, -77, TIRNOUCH_AS_TEXT, 1);
    begin_living("broken, babble, and what is no answer", "");
    read_once(8, 1000);
    read_once(8, 1000);
    read_once(8, 1000);
    answer("clear", libusb_clear_halt(handle, 0x81));
    for (int i = 0; i < 4; i++)
        read_once(8, 1000);
    end_living();
}

static void leaves(void)
{
    PLAN(TIRNOUCH_GONE);
    begin_living("gone amid a read", "");
    read_once(8, 1000);
    answer("submit", libusb_reset_device(handle));
    answer("pull", tirnouch_pull(0));
    number("asked", plan.asked);
    end_living();
}

static void times_out(void)
{
    virtual_time(1);
    PLAN(TIRNOUCH_NOT_READY);
    begin_living("never ready, and a timeout", "");
    read_once(8, 1000);
    end_living();
    virtual_time(0);
}

/* Without another thread nothing but the time that passes asks it again. */
static void later(int is_virtual)
{
    virtual_time(is_virtual);
    PLAN(TIRNOUCH_LATER(40), TIRNOUCH_LATER(60), 8);
    begin_living(is_virtual ? "later, in virtual time" : "later, by the clock", "");
    long long from = clock_now();
    read_once(8, 5000);
    long long passed = clock_now() - from;
    number("asked", plan.asked);
    say((is_virtual ? passed < 80 : passed >= 99 && passed < 3000) ? "in that time" : "in another time");
    PLAN(TIRNOUCH_LATER(1000));
    read_once(8, 50);
    number("asked", plan.asked);
    end_living();
    virtual_time(0);
}

static atomic_int pressed;

static int press_answer(void *user, uint8_t ep, uint8_t *data, int length)
{
    (void)user;
    (void)ep;
    (void)length;
    if (!atomic_exchange(&pressed, 0))
        return TIRNOUCH_NOT_READY;
    data[0] = 0x2a;
    return 1;
}

/* What is asked for at 81 waits until it is ready; 02 goes on meanwhile, and behind each write 81 is asked once more. */
static void waits(void)
{
    struct libusb_transfer *read;
    PLAN(0);
    tirnouch_on_packet(0, 0x81, press_answer, NULL);
    tirnouch_on_packet(0, 0x02, take, NULL);
    begin("not ready", "");
    read = submit(1, 0x81, 8);
    work();
    write_once(1);
    say(calls ? "called" : "not called");
    atomic_store(&pressed, 1);
    write_once(1);
    wait_for(1);
    discard(read);
    end_living();
}

static void *press(void *times)
{
    for (int i = 0; i < *(int *)times; i++) {
        while (atomic_load(&pressed))
            usleep(1000);
        usleep(3000);
        atomic_store(&pressed, 1);
        tirnouch_ready(0);
    }
    return NULL;
}

static void is_ready(void)
{
    pthread_t thread;
    int times = 10, read = 0, moved;
    unsigned char data[8];
    tirnouch_on_packet(0, 0x81, press_answer, NULL);
    begin("ready, by another thread", "");
    answer("ready, of no device", tirnouch_ready(3));
    pthread_create(&thread, NULL, press, &times);
    while (read < times && !libusb_bulk_transfer(handle, 0x81, data, 8, &moved, 5000) && moved == 1 && data[0] == 0x2a)
        read++;
    pthread_join(thread, NULL);
    number("presses", read);
    end();
    tirnouch_on_packet(0, 0x81, NULL, NULL);
}

static int answer_request(void *user, const uint8_t setup[8], uint8_t *data, int length)
{
    int count = next_answer();
    (void)user;
    (void)setup;
    for (int i = 0; i < count && i < length && setup[0] & 0x80; i++)
        data[i] = (unsigned char)(0x60 + i);
    return count;
}

static void request(unsigned timeout)
{
    unsigned char data[4] = { 0 };
    int result = libusb_control_transfer(handle, 0xc0, 1, 0, 0, data, 4, timeout);
    answer("request", result);
    bytes("  of", data, result < 0 ? 0 : result);
}

static void requests(void)
{
    virtual_time(1);
    PLAN(2, TIRNOUCH_NOT_READY, 3, TIRNOUCH_LATER(300), 4, TIRNOUCH_BROKEN, TIRNOUCH_STALL, TIRNOUCH_AS_TEXT, TIRNOUCH_LATER(1000));
    tirnouch_on_control(0, answer_request, NULL);
    begin("requests", "control 0 c0 01 * * d:99\n");
    for (int i = 0; i < 6; i++)
        request(1000);
    request(100);
    number("asked", plan.asked);
    PLAN(TIRNOUCH_GONE);
    request(1000);
    request(1000);
    end();
    tirnouch_on_control(0, NULL, NULL);
    virtual_time(0);
}

/* Behind a request that was cancelled nothing is to be asked again: a wait of a second passes at once. */
static void cancelled_request(void)
{
    unsigned char buffer[16];
    struct libusb_transfer *transfer = libusb_alloc_transfer(0);
    struct timeval second = { 1, 0 };
    virtual_time(1);
    PLAN(TIRNOUCH_NOT_READY);
    tirnouch_on_control(0, answer_request, NULL);
    begin("a request that is cancelled while it waits", "");
    libusb_fill_control_setup(buffer, 0xc0, 1, 0, 0, 8);
    libusb_fill_control_transfer(transfer, handle, buffer, tell, (void *)1, 0);
    answer("submit", libusb_submit_transfer(transfer));
    answer("events", libusb_handle_events_timeout(context, &second));
    answer("cancel", libusb_cancel_transfer(transfer));
    answer("events", libusb_handle_events_timeout(context, &second));
    int asked = plan.asked;
    answer("events", libusb_handle_events_timeout(context, &second));
    number("asked", plan.asked - asked);
    libusb_free_transfer(transfer);
    end();
    tirnouch_on_control(0, NULL, NULL);
    virtual_time(0);
}

static void LIBUSB_CALL print_log(libusb_context *of, enum libusb_log_level level, const char *line)
{
    (void)of;
    if (level == LIBUSB_LOG_LEVEL_WARNING)
        printf("  %s", line);
}

/* What a warning says of a transfer that isn't answered. */
static void says_why(void)
{
    virtual_time(1);
    PLAN(TIRNOUCH_NOT_READY, TIRNOUCH_LATER(1000));
    begin_living("why it doesn't end", "");
    libusb_set_log_cb(context, print_log, LIBUSB_LOG_CB_CONTEXT);
    libusb_set_option(context, LIBUSB_OPTION_LOG_LEVEL, LIBUSB_LOG_LEVEL_WARNING);
    read_once(8, 50);
    read_once(8, 50);
    end_living();
    virtual_time(0);
}

static void refusals(void)
{
    puts("what can't be set");
    answer("device 16", tirnouch_on_packet(16, 0x81, give, NULL));
    answer("device -1", tirnouch_on_event(-1, NULL, NULL));
    answer("endpoint 00", tirnouch_on_packet(0, 0x00, give, NULL));
    answer("endpoint 91", tirnouch_on_packet(0, 0x91, give, NULL));
    answer("ready, without a bus", tirnouch_ready(0));
}

int main(void)
{
    reads();
    writes();
    stalls();
    faults();
    leaves();
    waits();
    times_out();
    later(0);
    later(1);
    is_ready();
    requests();
    cancelled_request();
    says_why();
    refusals();
    return 0;
}

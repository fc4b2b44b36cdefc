/* What the files of this folder share: a round of random calls of libusb, all of which its manual allows.
 *
 * Locks are only tried, never waited for: where one is taken, the call is left out. So the program can't hang by itself, and what a
 * callback calls is never waited for by the thread that it stopped. */
#ifndef FUZZ_H
#define FUZZ_H

#include "libusb.h"
#include "tirnouch.h"

#include <pthread.h>
#include <stdatomic.h>
#include <stdbool.h>
#include <stdint.h>

#define THREADS 8
#define CONTEXTS 2
/* The scripted devices come first; those behind them compute their answers. */
#define SCRIPTED 4
#define DEVICES 6
#define PACKET 8
/* Of an endpoint that computes its packets. */
#define MOST_PACKETS (1u << 18)
#define MOST_BYTES 96
/* More than the library gives to its core in one piece. */
#define LONG_BYTES 262400
/* The device whose scripts may begin anew, since it is reset and configured: which of its bytes come is less known. */
#define LONG 0
#define RENEWED 2
#define HIDDEN 3
#define ALSO_HIDDEN 1
/* Of those that compute: one has transfers of more than one piece too, and the last one is pulled out and plugged in again. */
#define LONG_COMPUTED 4
#define REPLUGGED 5

struct slot;

/* A thread, or the program itself. */
struct caller {
    pthread_t id;
    int number;
    uint64_t dice;
    const char *_Atomic doing;
    const struct slot *called; /* whose callback it runs */
};

extern _Thread_local struct caller *me;
extern libusb_context *contexts[CONTEXTS];
/* Whether there are transfers of more than one piece: not in a trace, where each packet is a line. */
extern bool has_long;

unsigned roll(unsigned below);
void dawdle(void);
_Noreturn void fail(const char *format, ...) __attribute__((format(printf, 1, 2)));

/* devices.c: the text, what a device's bytes should be, and what it took */
char *device_text(void);
int number_of(libusb_device *device);
bool has_long_writes(int device);
void put_packet(unsigned char packet[PACKET], int device, int ep, uint32_t index);
void count_packet(int device, const unsigned char *packet, int length);
unsigned came(int device, uint8_t ep);
void check_read(int device, uint8_t ep, const unsigned char *data, int length);
uint32_t fill_write(int device, unsigned char *data, int length);
void wrote(uint32_t serial, int length);
void check_taken(void);

/* living.c: devices that compute their answers */
void begin_living(void);
void say_ready(void);
void lose_packets(int device, uint8_t ep, unsigned count);
void check_living(void);

/* plugs.c: devices are pulled out and plugged in, and which handles are of before that */
struct plugs {
    int device, begun, done;
};
void begin_plugs(int device, struct plugs *seen);
void end_plugs(struct plugs *seen);
bool may_have_left(const struct plugs *seen);
bool has_left(const struct plugs *seen);
bool was_replaced(const struct plugs *seen);
void pull_one(int device);
void replug(void);

/* handles.c: the handles; each belongs to a context, by its place */
void begin_handles(void);
int hold_handle(void);
bool hold_this(int place);
void let_go(int place);
libusb_device_handle *handle_at(int place);
int device_at(int place);
libusb_context *context_at(int place);
const struct plugs *plugs_at(int place);
void sent_by(int place, int more);
void open_one(void);
void close_one(void);
void close_of_context(int context);
void close_all(void);
void call_handle(void);

/* transfers.c */
void begin_transfers(void);
void submit_one(void);
void cancel_one(void);
void free_one(void);
void send_one(void);
void drop_those_of(int place);
void drain_transfers(void);
void free_all(void);
void count_transfers(void);
void tell_transfers(void);

/* waits.c: transfers that are waited for, and contexts that are one thread's own */
void read_and_wait(void);
void write_and_wait(void);
void request_and_wait(void);
void wait_by_hand(void);
void visit(void);
void visit_usual(void);
void let_one_go(void);
void let_all_go(void);

/* events.c: events in all their forms, lists, and hotplug */
void handle_some(void);
void handle_locked(void);
void lock_and_handle(void);
void wait_for_event(void);
void look_at_events(void);
void look_at_devices(void);
void watch_hotplug(void);
void watch_no_more(void);

#endif

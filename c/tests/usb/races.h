/* What races.c keeps of its workers: a thread each, with a handle of its own, endpoints and transfers. */
#ifndef RACES_H
#define RACES_H

#include "libusb.h"

#include <pthread.h>
#include <stdint.h>

#define WORKERS 6
#define SLOTS 20
#define ROUNDS 120
#define ANSWERS 4000
#define FEW_ANSWERS 600
#define PATIENCE 20

struct line;

/* A transfer, and whether it is in flight. `again`: how often its callback submits it again. */
struct slot {
    struct line *line;
    struct libusb_transfer *transfer;
    unsigned char buffer[8];
    uint64_t ticket;
    int is_in_flight, is_asked, again;
};

/* An endpoint of a worker. `after`: the least ticket that may be completed next; `next`: the answer that comes next, or one of as many
 * behind it as a close dropped. */
struct line {
    struct worker *worker;
    unsigned char ep;
    uint64_t tickets, after;
    uint32_t next, slack, completed;
    struct slot slots[SLOTS];
};

struct worker {
    pthread_t thread;
    pthread_mutex_t lock;
    int number, device, interface;
    unsigned dice;
    libusb_device_handle *handle;
    int in_flight, is_closed, is_ending, is_pausing, is_pulled;
    int line_count;
    struct line lines[2];
};

#endif

/* What a driver writes is judged: a device's text may say which packets it expects at an endpoint for OUT, and which data of a request that
 * writes. bus.h includes this file.
 *
 * What differs is taken as ever, and told. The k-th packet that a device took since its script began is compared with the k-th one that the
 * script takes; the data of a request with the answer of its line `control` that it is given. */
#ifndef JUDGED_H
#define JUDGED_H

#include "bus.h"

/* A packet, or the data of a request, as the text has it. */
struct expected {
    size_t at;                        /* of its bytes among all of its line; */
    int length;                       /* -1 where it may be anything */
    bool goes_on;                     /* any bytes may stand behind these */
    bool came;                        /* since the bus began: as expected, or not */
};

/* A line of answers: of an endpoint those that take a packet, of requests all. */
struct judged {
    struct judged *next;              /* of a device's lines `control` the one behind it */
    struct expected *all;
    size_t count;
    int most;                         /* bytes of an answer */
    struct growing bytes;
    uint64_t place;                   /* of the packet, or the request, that comes next since the script began */
    bool is_past;                     /* a packet waits behind the script's end */
    uint64_t untold;                  /* the number of one that did, from 1 on, where another difference was told before; else 0 */
    int fields[4];                    /* of a line `control`: bmRequestType, bRequest, wValue, wIndex; -1 for any */
};

static inline struct judged *expected_at(const struct pipe *pipe) { return pipe->device->packets[place_of(pipe->ep)]; }

/* expected.c: what a text expects */
bool has_expected(struct text text);
void leave_out_expected(struct growing *text);
int learn_expected(struct device *device, struct text text, const char *name);
void forget_expected(struct device *device);

/* judge.c: what came is compared with it */
void judge(struct pipe *pipe);
void judge_end(struct pipe *pipe);
typedef void missing_fn(void *to, const struct device *device, const struct sentence *it, uint64_t count);
void each_missing(const struct device *device, missing_fn *say, void *to);
void judge_request(struct device *device, const uint8_t *setup, const uint8_t *data);
void expect_anew(struct pipe *pipe);
void expect_requests_anew(struct device *device);

/* differences.c: what differs is told, and once more at the end */
bool tell_difference(const struct device *device, const struct sentence *it);
void each_difference(missing_fn *say, void *to);
void write_down(const char *word, const char *sentence);
void begin_judging(void);
void report_differences(void);

#endif

/* A driver's calls of the core, one after another, and what they are answered: each line is a call, and what came of it. The lines that are
 * expected (expected) are written from the rules of the calls, not from what this prints. */
#ifndef TIRNOUCH_TESTS_CORE_H
#define TIRNOUCH_TESTS_CORE_H

#include "tirnouch_core.h"

#include <inttypes.h>
#include <stdio.h>
#include <string.h>

/* The one session, and what its last calls filled, of each kind of answer the last one. */
extern struct tirnouch_slot slot;
extern struct answers {
    struct tirnouch_complaint complaint;
    struct tirnouch_reply reply;
    struct tirnouch_progress progress;
    struct tirnouch_next next;
    struct tirnouch_view view;
    struct tirnouch_result result;
    struct tirnouch_offer offer;
    struct tirnouch_response response;
    struct tirnouch_needed needed;
    struct tirnouch_device device;
    struct tirnouch_gate gate;
    struct tirnouch_departure departure;
    struct tirnouch_endpoint endpoint;
} last;

/* printing.c */
void say(const char *call, int32_t answer);
void tell_reply(const char *call, int32_t answer);
void tell_progress(const char *call, int32_t answer);
void tell_next(const char *call, int32_t answer);
void tell_view(const char *call, int32_t answer);
void tell_result(const char *call, int32_t answer);
void tell_offer(const char *call, int32_t answer);
void tell_response(const char *call, int32_t answer);
void tell_needed(const char *call, int32_t answer);
void bytes(const char *call, int32_t answer, const uint8_t *data, size_t count);
void show_bytes(const uint8_t *at, size_t count);
void show(const char *whose, const struct tirnouch_memory *memory, const uint8_t *place);

/* calls.c */
struct tirnouch_memory filled_with_ee(uint8_t *at, size_t len);
struct tirnouch_memory no_memory(void);
int32_t create(const char *from);
int32_t call(uint8_t verb, uint8_t h, uint8_t a, uint64_t n);
int32_t read_at(uint8_t ep, uint32_t room, uint64_t payload);
int32_t take(void);
int32_t turn(uint8_t dev, uint8_t ep);

/* sessions.c: the session that transfers.c and requests.c use */
void begin_desk(void);
void end_desk(void);

/* transfers.c */
void transfers(void);

/* requests.c */
void requests(void);
void plain_requests(void);

/* descriptions.c: of the desk, and of a device with more than it */
void descriptions(void);
void other_descriptions(void);

/* complaints.c, lending.c and feeding.c, each with sessions of its own */
void complaints(void);
void lending(void);
void feeding(void);

#endif

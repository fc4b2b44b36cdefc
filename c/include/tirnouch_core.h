/* Tirnouch's core, as the static library tirnouch_c has it: every step is proved, and so is what each function answers
 * (crates/tirnouch_c). Made by tools/c_header.py.
 *
 * A slot begins as all zeros, and is passed by its address: one call at a time, from any thread. Buffers are as long as said,
 * and have an address also where they are empty; they don't overlap. A struct that a call doesn't fill stays as
 * it was. A slot without a session answers TIRNOUCH_NO_SESSION. */
#ifndef TIRNOUCH_CORE_H
#define TIRNOUCH_CORE_H

#include <stdbool.h>
#include <stddef.h>
#include <stdint.h>

#ifdef __cplusplus
extern "C" {
#endif

#define TIRNOUCH_NO_SESSION (-99)

/* A step of tirnouch_call. */
enum tirnouch_verb {
    TIRNOUCH_OPEN = 0, TIRNOUCH_CLOSE = 1, TIRNOUCH_CLAIM = 2, TIRNOUCH_RELEASE = 3, TIRNOUCH_RESET = 4,
    TIRNOUCH_CLEAR_HALT = 5, TIRNOUCH_CANCEL = 6, TIRNOUCH_EXPIRE = 7, TIRNOUCH_UNPLUG = 11
};

/* What came of a step: `kind` of `struct tirnouch_reply`. */
enum tirnouch_kind {
    TIRNOUCH_DONE = 0, TIRNOUCH_NUMBER = 1, TIRNOUCH_REFUSED = 2, TIRNOUCH_IDLE = 3, TIRNOUCH_NAK = 4,
    TIRNOUCH_MOVED = 5, TIRNOUCH_ENDED = 6, TIRNOUCH_RAN = 7, TIRNOUCH_FINISHED = 8, TIRNOUCH_PAUSED = 9,
    TIRNOUCH_SETTLED = 10, TIRNOUCH_CALLED = 11
};

/* Completion codes (xHCI 1.2, 6.4.5): `code` of TIRNOUCH_ENDED. */
enum tirnouch_code {
    TIRNOUCH_CODE_SUCCESS = 1, TIRNOUCH_CODE_BABBLE = 3, TIRNOUCH_CODE_TRANSACTION_ERROR = 4,
    TIRNOUCH_CODE_STALL = 6, TIRNOUCH_CODE_SHORT_PACKET = 13
};

/* What waits, whoever it is of: bits of `waiting` of `struct tirnouch_next` and `struct tirnouch_view`. */
enum tirnouch_waiting { TIRNOUCH_WAITS_ORDER = 1, TIRNOUCH_WAITS_EVENT = 2, TIRNOUCH_WAITS_RESULT = 4 };

/* An answer of a device: `kind` of tirnouch_feed. */
enum tirnouch_answer {
    TIRNOUCH_ANSWER_PACKET = 0, TIRNOUCH_ANSWER_TAKEN = 1, TIRNOUCH_ANSWER_NOT_READY = 2,
    TIRNOUCH_ANSWER_STALL = 3, TIRNOUCH_ANSWER_BROKEN = 4
};

/* What a host has to hold: `kind` of `struct tirnouch_needed`. */
enum tirnouch_need { TIRNOUCH_NEEDS_NOTHING = 0, TIRNOUCH_NEEDS_INTERFACE = 1, TIRNOUCH_NEEDS_ENDPOINT = 2 };

/* What answers wait for: `awaited` of `struct tirnouch_gate`. */
enum tirnouch_awaited { TIRNOUCH_AWAITS_ENDPOINT = 0, TIRNOUCH_AWAITS_REQUESTS = 1 };

/* Fields of requests that may be any: bits of `any` of `struct tirnouch_gate`. */
enum tirnouch_any {
    TIRNOUCH_ANY_TYPE = 1, TIRNOUCH_ANY_REQUEST = 2, TIRNOUCH_ANY_VALUE = 4, TIRNOUCH_ANY_INDEX = 8
};

/* In place of a handle or a device: it is nobody's, or there is none. */
#define TIRNOUCH_NOBODY 255

/* What holds a session. Its fields are the library's. */
struct tirnouch_slot {
    void *at;
    bool there;
};

/* Memory that C lends: `len` bytes at `at`, of which the first `filled` stand written. `at` is never NULL, not
 * even where `len` is 0.
 *
 * It is the library's as soon as `tirnouch_submit_in` answers 0, and `len` is 0 here then: C doesn't read,
 * write, free or lend it until it comes back. Else it stays C's, `len` as before.
 *
 * It comes back with its transfer's result, in `back` of `tirnouch_take` or `tirnouch_turn`, however the
 * transfer ended: all `len` bytes are C's again, of which the first `filled` are those that were read.
 * `tirnouch_destroy` ends what is lent, and tells nothing. The library never frees it.
 *
 * Before these two calls `back` is memory of no bytes; it stays so where nothing was lent for the result. */
struct tirnouch_memory {
    uint8_t *at;
    size_t len;
    size_t filled;
};

/* Where a text of devices isn't taken. */
struct tirnouch_complaint {
    /* The number of the first line that isn't taken, from 1 on. */
    uint64_t line;
    /* The word of it that is meant, from 0 on, where `has_word` is 1; else 0. */
    uint32_t word;
    /* 1 where a word is meant; 0 where the whole line is. `tirnouch_create` doesn't say which word is. */
    uint8_t has_word;
};

/* What a step replied: of `tirnouch_serve` the last packet's. */
struct tirnouch_reply {
    /* What came of it: of `enum tirnouch_kind`. */
    uint8_t kind;
    /* The handle whose step or transfer it is, 0 to 63; TIRNOUCH_NOBODY where it is nobody's. */
    uint8_t handle;
    /* The endpoint of an order or of a callback; else 0. */
    uint8_t endpoint;
    /* Of a packet that ended its transfer the completion code (xHCI 1.2, 6.4.5); of an order 1 where it had no
     * fault, else 0; of a callback its status (libusb's `libusb_transfer_status`); else 0. */
    uint8_t code;
    /* How many bytes the packet or the transfer moved; else 0. */
    uint32_t bytes;
    /* How many packets `tirnouch_serve` served; of other calls 0. */
    uint32_t packets;
    /* The transfer's number; else 0. */
    uint64_t number;
};

/* How far `tirnouch_settle` came. */
struct tirnouch_progress {
    /* How many steps were made. */
    uint32_t steps;
    /* 1 where nothing is left to be done, else 0. */
    uint8_t is_settled;
};

/* What is to be done next. */
struct tirnouch_next {
    /* 1 where a packet does something, else 0. */
    uint8_t has_packet;
    /* The device of that packet, 0 to 3; TIRNOUCH_NOBODY where there is none. */
    uint8_t device;
    /* The address of its endpoint; 0 where there is none. */
    uint8_t endpoint;
    /* What else waits: bits of `enum tirnouch_waiting`. */
    uint8_t waiting;
};

/* What is to be done at an endpoint. */
struct tirnouch_view {
    /* 1 where a packet does something there, else 0. */
    uint8_t has_packet;
    /* What else waits, wherever it is: bits of `enum tirnouch_waiting`. */
    uint8_t waiting;
    /* 1 where the endpoint is halted, which tirnouch_call's clear halt ends (USB 2.0, 9.4.5), else 0. It means
     * nothing where no handle holds the endpoint. */
    uint8_t is_halted;
    /* How many answers its device has left. It means nothing where no handle holds the endpoint. */
    uint64_t answers_left;
};

/* A result that went out. */
struct tirnouch_result {
    /* The handle, 0 to 63; TIRNOUCH_NOBODY where no result went out, and then all else is 0. */
    uint8_t handle;
    /* The address of the endpoint. */
    uint8_t endpoint;
    /* Its status (libusb's `libusb_transfer_status`). */
    uint8_t status;
    /* How many bytes moved (libusb's `actual_length`). */
    uint32_t actual_length;
    /* The transfer's number. */
    uint64_t number;
    /* What C keeps with the transfer. */
    uint64_t payload;
};

/* The packet that a device is to answer next at an endpoint. */
struct tirnouch_offer {
    /* 1 where there is one; 0 where nobody holds the endpoint, it isn't running, or no transfer waits. */
    uint8_t has_packet;
    /* 1 where the device is asked, since its script has no answer left; 0 where it isn't: it has one, is halted
     * there, or is gone. */
    uint8_t is_asked;
    /* The handle whose transfer it is of; TIRNOUCH_NOBODY where there is no packet. */
    uint8_t handle;
    /* How many bytes the packet has where the host sends; the most that it may have where the host reads. */
    uint32_t length;
    /* The transfer's number. */
    uint64_t number;
};

/* What a device answers to a request. */
struct tirnouch_response {
    /* 1 where the request ended; 0 where the device isn't ready and the request waits. */
    uint8_t is_ready;
    /* Its status (libusb's `libusb_transfer_status`); 0 where it waits. */
    uint8_t status;
    /* 1 where a line `control` of the text answered, also that the device isn't ready or by a stall; 0 where
     * its descriptors did, or nothing is said of such a request, which stalls. */
    uint8_t by_line;
    /* How many bytes moved (libusb's `actual_length`); 0 where it waits. */
    uint32_t actual_length;
};

/* What a host has to hold for a request. */
struct tirnouch_needed {
    /* Of `enum tirnouch_need`. */
    uint8_t kind;
    /* The number of the interface, where the request is to one; else 0. */
    uint8_t interface;
    /* The address of the endpoint, where the request is to one; else 0. */
    uint8_t endpoint;
};

/* A device by its lines. */
struct tirnouch_device {
    /* Its speed (libusb's `libusb_speed`). */
    uint8_t speed;
    /* 1 where it isn't there yet, else 0. */
    uint8_t is_hidden;
    /* 1 where it begins anew with each claim, else 0. */
    uint8_t begins_anew;
    /* 1 where a reset doesn't begin it anew, else 0. */
    uint8_t lasts;
};

/* Answers of a device that wait: those of `endpoint` from the one at `place` on, until there were `count` of
 * what they wait for. */
struct tirnouch_gate {
    /* The address of the endpoint. */
    uint8_t endpoint;
    /* What they wait for: of `enum tirnouch_awaited`. */
    uint8_t awaited;
    /* Of TIRNOUCH_AWAITS_ENDPOINT: the endpoint at which packets are to be taken; where that is `endpoint`
     * itself, transfers are to end there without an answer; where it is 0, requests are to be made. Else 0. */
    uint8_t other;
    /* Of TIRNOUCH_AWAITS_REQUESTS: which of the next four fields may be any in the requests that are to be
     * made: bits of `enum tirnouch_any`. Else 0. */
    uint8_t any;
    /* bmRequestType (USB 2.0, 9.3); 0 where it may be any. */
    uint8_t request_type;
    /* bRequest; 0 where it may be any. */
    uint8_t request;
    /* wValue; 0 where it may be any. */
    uint16_t value;
    /* wIndex; 0 where it may be any. */
    uint16_t index;
    /* The first of the answers that wait, from 0 on. */
    uint32_t place;
    /* How many packets, transfers or requests are waited for. */
    uint32_t count;
};

/* When a device is pulled out: behind so many answers of an endpoint. */
struct tirnouch_departure {
    /* The address of the endpoint. */
    uint8_t endpoint;
    /* How many answers. */
    uint32_t answers;
};

/* An endpoint of a device, by the first setting of its interface (USB 2.0, 9.6.6). */
struct tirnouch_endpoint {
    /* Its address. */
    uint8_t address;
    /* The number of its interface. */
    uint8_t interface;
    /* Its transfer type (libusb's `libusb_transfer_type`). */
    uint8_t transfer_type;
    /* Its packet size in bytes. */
    uint16_t packet_size;
};

/* Makes a session with the devices of a text: 0. InvalidParam where a line of the text isn't taken, and
 * `complaint` has its number; NoMem where memory is refused; Busy where the slot holds a session already. Then
 * nothing changed. */
int32_t tirnouch_create(struct tirnouch_slot *slot, const uint8_t *text, size_t text_length,
    struct tirnouch_complaint *complaint);

/* What is wrong with a text of devices: 0 where nothing is. Else how long the sentence is that says it to a
 * person, in ASCII, and its bytes, as far as there is room; and `complaint` has the first line that isn't
 * taken, and the word of it that is meant. NoMem where memory is refused. */
int32_t tirnouch_complain(const uint8_t *text, size_t text_length, uint8_t *buffer, size_t buffer_room,
    struct tirnouch_complaint *complaint);

/* Frees the session of a slot. */
int32_t tirnouch_destroy(struct tirnouch_slot *slot);

/* A step of a handle, or that a device is unplugged. `verb` is of `enum tirnouch_verb`. `a`: the device of an
 * open and an unplug, the interface of a claim and a release, the endpoint of a clear halt. `n`: the transfer
 * of a cancel and an expire. */
int32_t tirnouch_call(struct tirnouch_slot *slot, uint8_t verb, uint8_t h, uint8_t a, uint64_t n,
    struct tirnouch_reply *reply);

/* Submits a transfer (libusb's `libusb_submit_transfer`); `reply` has its number. It reads at most `room`
 * bytes, where the endpoint is for IN, and else writes these. With it `payload` is kept, which the result has
 * when it goes out. */
int32_t tirnouch_submit(struct tirnouch_slot *slot, uint8_t h, uint8_t ep, uint8_t kind, uint8_t flags,
    uint32_t timeout, uint32_t room, const uint8_t *buffer, size_t buffer_length, uint64_t payload,
    struct tirnouch_reply *reply);

/* Submits a transfer that reads straight into memory that C lends, all of it (libusb's
 * `libusb_submit_transfer`). It is the library's from then on, with `len` 0 here, and goes back with the
 * result: till then C doesn't touch it. Where the transfer is refused, C has it as before; so it is at an
 * endpoint for OUT, by LIBUSB_ERROR_INVALID_PARAM. All else is as of `tirnouch_submit`. */
int32_t tirnouch_submit_in(struct tirnouch_slot *slot, uint8_t h, uint8_t ep, uint8_t kind, uint8_t flags,
    uint32_t timeout, struct tirnouch_memory *memory, uint64_t payload, struct tirnouch_reply *reply);

/* A device answers at most so many packets at an endpoint: until one ends a transfer, or it has no answer.
 * `reply` is that of the last one, with how many they were. */
int32_t tirnouch_serve(struct tirnouch_slot *slot, uint8_t dev, uint8_t ep, uint32_t most,
    struct tirnouch_reply *reply);

/* Makes what is to be done, at most so many steps: events are handled and orders run, and packets are served
 * where `packets` isn't 0. `progress` has how many they were, and whether nothing is left. */
int32_t tirnouch_settle(struct tirnouch_slot *slot, uint8_t packets, uint32_t most,
    struct tirnouch_progress *progress);

/* The oldest result goes out, and its callback ends: 1; 0 where none waits. `out` is that result. Memory that
 * was lent for it is C's again, and stands in `back`: its first `filled` bytes were read. Else its bytes are
 * still to be fetched. It takes no memory. */
int32_t tirnouch_take(struct tirnouch_slot *slot, struct tirnouch_memory *back, struct tirnouch_result *out);

/* `tirnouch_serve`, `tirnouch_settle` without packets, and `tirnouch_take`, in one call: at most so many
 * packets, and so many steps. Answer, `out` and `back` are those of `tirnouch_take`. */
int32_t tirnouch_turn(struct tirnouch_slot *slot, uint8_t dev, uint8_t ep, uint32_t packets, uint32_t steps,
    struct tirnouch_memory *back, struct tirnouch_result *out);

/* The bytes of the result that went out last, as far as there is room, just once; how many they were. */
int32_t tirnouch_fetch(struct tirnouch_slot *slot, uint8_t *buffer, size_t buffer_room);

/* One more answer behind the script of a device's endpoint, as if it had stood there from the beginning; no
 * step is made. `kind` is of `enum tirnouch_answer`; a packet has these bytes. InvalidParam where the endpoint
 * can't have it: there is none, it is of the other direction, its packet has more than 2,048 bytes, or the
 * script has 65,536 answers. NoMem where memory is refused. Then nothing changed. */
int32_t tirnouch_feed(struct tirnouch_slot *slot, uint8_t dev, uint8_t ep, uint8_t kind, const uint8_t *bytes,
    size_t bytes_length);

/* A device answers a request on its default control endpoint (USB 2.0, 9.3), of which these are the 8 bytes of
 * the setup packet. What is read stands in `buffer`, as far as there is room. */
int32_t tirnouch_request(struct tirnouch_slot *slot, uint8_t dev, const uint8_t setup[8], uint8_t *buffer,
    size_t buffer_room, struct tirnouch_response *response);

/* What is to be done next. A packet that does something is looked for from behind this endpoint on. */
int32_t tirnouch_pending(struct tirnouch_slot *slot, uint8_t dev, uint8_t ep, struct tirnouch_next *next);

/* The packet of this index, from 0 on, that a device took at an endpoint: its length, and its bytes, as far as
 * there is room; -1 past the last. */
int32_t tirnouch_taken(struct tirnouch_slot *slot, uint8_t dev, uint8_t ep, size_t i, uint8_t *buffer,
    size_t buffer_room);

/* What is to be done at an endpoint, without a look at others. */
int32_t tirnouch_look(struct tirnouch_slot *slot, uint8_t dev, uint8_t ep, struct tirnouch_view *view);

/* The packet that a device is to answer next at an endpoint; no step is made. Where the host sends, its bytes
 * stand in `buffer`, as far as there is room. */
int32_t tirnouch_offer(struct tirnouch_slot *slot, uint8_t dev, uint8_t ep, uint8_t *buffer, size_t buffer_room,
    struct tirnouch_offer *offer);

/* What a host has to hold for a request, of which these are the 8 bytes of the setup packet, as Linux has it:
 * where a standard or class request is to an interface, that; where it is to an endpoint but 0, that; else
 * nothing. */
int32_t tirnouch_needs(const uint8_t setup[8], struct tirnouch_needed *needed);

/* A descriptor of a device by its type (libusb's `libusb_descriptor_type`; USB 2.0, 9.4): its device
 * descriptor, its configuration, or the string of an index, where index 0 has the languages of the others, if
 * there are any. How long it is, and its bytes, as far as there is room; NotFound where there is none. */
int32_t tirnouch_describe(struct tirnouch_slot *slot, uint8_t dev, uint8_t kind, uint8_t index, uint8_t *buffer,
    size_t buffer_room);

/* What the lines of the text say of a device: its speed, and how it comes and goes on; NotFound where there is
 * no such device. */
int32_t tirnouch_device(struct tirnouch_slot *slot, uint8_t dev, struct tirnouch_device *device);

/* An interface of a device for which the system has a driver, by its index from 0 on: its number; NotFound past
 * the last. */
int32_t tirnouch_driver(struct tirnouch_slot *slot, uint8_t dev, size_t i);

/* How many answers a line `control` of a device's text has left, by its index from 0 on; the last one stays.
 * NotFound past the last line. */
int32_t tirnouch_answers_left(struct tirnouch_slot *slot, uint8_t dev, size_t i);

/* Answers of a device that wait, by their index from 0 on; NotFound past the last. */
int32_t tirnouch_gate(struct tirnouch_slot *slot, uint8_t dev, size_t i, struct tirnouch_gate *gate);

/* When a device is pulled out, by the index from 0 on of what the text says of it; NotFound past the last. */
int32_t tirnouch_departure(struct tirnouch_slot *slot, uint8_t dev, size_t i,
    struct tirnouch_departure *departure);

/* An interface of a device's configuration, by its index from 0 on in the order of their descriptors (USB 2.0,
 * 9.6.5): its number; NotFound past the last. */
int32_t tirnouch_interface(struct tirnouch_slot *slot, uint8_t dev, size_t i);

/* An endpoint of a device's configuration, by its index from 0 on in the order of their descriptors (USB 2.0,
 * 9.6.6); NotFound past the last. */
int32_t tirnouch_endpoint(struct tirnouch_slot *slot, uint8_t dev, size_t i,
    struct tirnouch_endpoint *endpoint);

/* What the library is and how its core was built: "tirnouch, proved core", "tirnouch, unproved core", or "tirnouch, trusted core" of
 * an unproved one without checks. */
extern const char tirnouch_description[];

#ifdef __cplusplus
}
#endif

#endif

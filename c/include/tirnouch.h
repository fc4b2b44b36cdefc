/* What Tirnouch has beside libusb's own functions: devices are plugged in and pulled out, and a test sees what they took.
 *
 * The environment steers a run too: TIRNOUCH_DEVICES, TIRNOUCH_TRACE, TIRNOUCH_SEED, TIRNOUCH_TIME, TIRNOUCH_LIMIT,
 * TIRNOUCH_PROGRAMS, TIRNOUCH_PATIENCE and TIRNOUCH_BUSES (docs/C.md). */
#ifndef TIRNOUCH_H
#define TIRNOUCH_H

#include <stddef.h>
#include <stdint.h>

#ifdef __cplusplus
extern "C" {
#endif

/* The devices, as a text, in place of the file that TIRNOUCH_DEVICES names. The text is copied. It counts from the next
 * `libusb_init` on that finds no bus: LIBUSB_ERROR_BUSY where there is one, LIBUSB_ERROR_NO_MEM where memory is
 * refused. Whether each line is taken is told by that `libusb_init`. */
int tirnouch_plug(const char *text, size_t length);

/* How a bus begins that a test begins by itself. Zeros are none, and what is pointed to is copied. */
struct tirnouch_options {
    size_t size;           /* sizeof (struct tirnouch_options); or that of before `keeps_trace` was a field, as if it were 0 */
    const char *devices;   /* the text of the devices; NULL for that of tirnouch_plug, or of the file that TIRNOUCH_DEVICES names */
    size_t devices_length;
    const char *trace;     /* the file of the trace, as TIRNOUCH_TRACE */
    uint64_t seed;         /* single steps by dice, as TIRNOUCH_SEED */
    unsigned limit;        /* after so many milliseconds the process ends with status 124, as by TIRNOUCH_LIMIT, if the bus is there still */
    int is_virtual;        /* time passes only where nothing else is to be done, as by TIRNOUCH_TIME=virtual */
    int keeps_trace;       /* the trace is kept in memory, for tirnouch_trace; beside the file, where `trace` names one */
};

/* The bus begins now, with its devices, and is there until `tirnouch_end`: contexts come and go meanwhile, and the devices go on.
 * Contexts that outlived the bus before have its devices, and their hotplug callbacks are told that these arrived when events are
 * handled next. Of the variables TIRNOUCH_TRACE, TIRNOUCH_SEED and TIRNOUCH_TIME none steers it. A bus of the environment that has no
 * devices makes room for it, also while contexts are open. LIBUSB_ERROR_BUSY where there is another bus, or within a callback where there is
 * one, LIBUSB_ERROR_INVALID_PARAM for another size, LIBUSB_ERROR_NO_MEM where memory is refused, LIBUSB_ERROR_OTHER where a line isn't taken
 * or the trace can't be written (`tirnouch_error` says why): then there is none. The text of `tirnouch_plug` stays for what comes behind
 * it. */
int tirnouch_begin(const struct tirnouch_options *options);

/* The bus ends: what never came of what is expected is told, and the trace ends. Contexts may be open, and threads may handle events.
 *
 * - What is in flight ends with LIBUSB_TRANSFER_NO_DEVICE, as where each device is pulled out. It is called back, once, when its context
 *   handles events next, and so are hotplug callbacks that are registered now: LIBUSB_HOTPLUG_EVENT_DEVICE_LEFT for each device that was
 *   there; a context without such callbacks isn't told later. Whoever waits in `libusb_handle_events` is woken for it, and returns.
 *   Functions of devices aren't told.
 * - A context stays open, till `libusb_exit`. Until the next bus begins, by `tirnouch_begin` or by a `libusb_init`, its list of devices
 *   has the root hub alone, as that of a bus without devices. The root hub is the same `libusb_device` all the time, and never arrives
 *   or leaves. A `libusb_init` that finds no bus begins one by the environment, which is there until the last context ends.
 * - A `libusb_device` of the bus is there until its last reference is dropped, and a handle until it is closed, in any order, behind
 *   later buses too. The device still tells its numbers and descriptors; `libusb_open` of it answers LIBUSB_ERROR_NO_DEVICE, and so does
 *   each call on the handle, but for those that don't of a device that is pulled out: `libusb_reset_device`, and
 *   `libusb_release_interface` of one that it didn't claim, answer LIBUSB_ERROR_NOT_FOUND, and `libusb_set_auto_detach_kernel_driver` 0.
 * - How many contexts, handles and transfers it left open is told in the log: as a warning, where it is more than contexts.
 * - Functions of devices that were set while the bus was there are taken back. Those that were set before stay.
 *
 * LIBUSB_ERROR_NOT_FOUND where `tirnouch_begin` didn't begin it. LIBUSB_ERROR_BUSY in a callback of libusb's, of a transfer or of
 * hotplug, which stands on what would end; behind the callback it ends. */
int tirnouch_end(void);

/* A device's functions compute what it answers. They are set for the device of a number, 0 to 15, at any time; NULL in place of one
 * takes it back. Set before the `libusb_init` that begins the bus, or while the bus is there. What is set while a bus of `tirnouch_begin` is
 * there, its `tirnouch_end` takes back; what is set before counts for all later buses. LIBUSB_ERROR_NOT_FOUND for another number,
 * LIBUSB_ERROR_NO_MEM where memory is refused: then nothing changed.
 *
 * They are called with the library's lock held. Within such a function, in its thread,
 *
 * - `tirnouch_left`, `_report`, `_error`, `_trace`, `_now`, `_took` and `_requests` answer as anywhere, and so does `tirnouch_ready`;
 * - the other calls of this header answer LIBUSB_ERROR_BUSY, and change nothing;
 * - calls of libusb with a status answer LIBUSB_ERROR_BUSY, and `libusb_open_device_with_vid_pid` NULL. That is told in the log, as
 *   other refusals;
 * - calls of libusb without one that need the lock, as `libusb_close`, end the program by abort, with a sentence that says whose
 *   function it is.
 *
 * Within a callback of libusb's all calls of this header do what they say, but `tirnouch_end`. */

/* What a function may answer in place of a number of bytes. */
#define TIRNOUCH_STALL (-1)     /* a stall: the endpoint halts until its halt is cleared; a request is refused */
#define TIRNOUCH_AS_TEXT (-2)   /* of requests: as the device's text has it */
#define TIRNOUCH_NOT_READY (-3) /* a packet: it is asked again when events are handled, behind anything else that is done, or
                                 * `tirnouch_ready`, and with a seed before any call; a request: within a millisecond */
#define TIRNOUCH_BROKEN (-4)    /* the transaction failed in all its retries: LIBUSB_TRANSFER_ERROR */
#define TIRNOUCH_GONE (-5)      /* the device is gone: it is pulled out */
/* Not ready for so many milliseconds, at most 1,000,000,000: it isn't asked before, unless by `tirnouch_ready`. */
#define TIRNOUCH_LATER(milliseconds) (-1000 - (int)(milliseconds))

/* What a device answers to requests on its default control endpoint, in place of its text. `setup` is the setup packet; `data`
 * has the bytes that were written, or room for those that are read. The answer is how many bytes moved, or one of those above. */
typedef int (*tirnouch_control)(void *user, const uint8_t setup[8], uint8_t *data, int length);
int tirnouch_on_control(int device, tirnouch_control answer, void *user);

/* What a device answers to a packet at a bulk or interrupt endpoint, where its script has no answer left: it is asked just before the
 * packet is served, where events are handled, and with a seed in any call of libusb's too; never while the endpoint is halted. OUT: `data` has the packet, of `length` bytes; an answer of 0 or more takes it.
 * IN: `length` is how many bytes the host takes, there is room for 2,048, and the answer is how many bytes were put into `data`. Else
 * one of those above but TIRNOUCH_AS_TEXT. A device with such a function has a session of the core of its own: more than four devices
 * may be there, and `libusb_reset_device` and claims don't begin its scripts anew. LIBUSB_ERROR_NOT_FOUND for an endpoint that none can
 * have, too. */
typedef int (*tirnouch_packet)(void *user, uint8_t endpoint, uint8_t *data, int length);
int tirnouch_on_packet(int device, uint8_t endpoint, tirnouch_packet answer, void *user);

/* What happened to a device, and the number of an interface or an endpoint. */
enum tirnouch_event {
    TIRNOUCH_EVENT_CLAIMED = 1,  /* an interface was claimed: `number` */
    TIRNOUCH_EVENT_RELEASED = 2, /* it was released */
    TIRNOUCH_EVENT_RESET = 3,    /* the device was reset: its halts are cleared, what was in flight has ended */
    TIRNOUCH_EVENT_CLEARED = 4,  /* an endpoint's halt was cleared: `number` */
    TIRNOUCH_EVENT_PLUGGED = 5,  /* the device was plugged in, by tirnouch_show or by itself */
    TIRNOUCH_EVENT_PULLED = 6    /* it was pulled out, or left */
};
typedef void (*tirnouch_listener)(void *user, enum tirnouch_event event, int number);
int tirnouch_on_event(int device, tirnouch_listener listener, void *user);

/* A device has something to answer now: its functions are asked again where they weren't ready, and whoever waits in
 * `libusb_handle_events` is woken for it. From any thread. LIBUSB_ERROR_NOT_FOUND where there is no such device. */
int tirnouch_ready(int device);

/* A device is pulled out: its transfers end with LIBUSB_TRANSFER_NO_DEVICE, and hotplug callbacks are told when events are
 * handled. LIBUSB_ERROR_NOT_FOUND where there is no such device, or it is hidden; LIBUSB_ERROR_NO_DEVICE where it is gone already. */
int tirnouch_pull(int device);

/* A device is plugged in that its text calls `hidden`, or one that computes its answers and is gone: it begins anew then, with its
 * scripts. It is another `libusb_device` then, with another address: that of before keeps its numbers as long as it is referenced, and to
 * open it, and to call with handles of before, is answered LIBUSB_ERROR_NO_DEVICE. Where the text says that it comes back as another device, that one
 * stands at its port. LIBUSB_ERROR_NOT_FOUND where there is no such device, it is there, or it is scripted and gone; LIBUSB_ERROR_NO_DEVICE
 * where it is a program that ended; LIBUSB_ERROR_NO_MEM where memory is refused. */
int tirnouch_show(int device);

/* The same behind each other: a device that is there is pulled out, and is plugged in again; one that isn't there is plugged in, as by
 * `tirnouch_show`. So a scripted device begins anew, too; its script goes on over claims and resets from then on, as that of a device with a
 * function does. LIBUSB_ERROR_NOT_FOUND where there is no such device, or where it is scripted and
 * was gone before; else as `tirnouch_show`. */
int tirnouch_replug(int device);

/* What isn't finished, and why: a line each, as `the transfer of 8 bytes at 81 is in flight: the script of 81 is at its end behind 2
 * answers`. How many bytes that are; as many of them as there is room for are put into `text`, with a NUL behind them. 0 where nothing is
 * in flight. From any thread. */
size_t tirnouch_left(char *text, size_t room);

/* What of a run differs so far from what the devices' text expects: the first difference, and which packets and requests haven't come, in
 * the sentences of docs/DEVICES.md, a line each. Sizes as above; 0 where nothing differs. */
size_t tirnouch_report(char *text, size_t room);

/* What went wrong last with the bus, since it began or wasn't begun: which line of a text isn't taken and why, which file can't be read or
 * written, what a device's program did. A line, as on standard error. Sizes as above; 0 where nothing did. */
size_t tirnouch_error(char *text, size_t room);

/* The trace of the bus that is there, or of the last one until the next begins, where it was begun with `keeps_trace`: the bytes of the
 * file that `trace` names, or would. Where devices have cores of their own, the traces of their sessions stand behind it, each behind a
 * line `# file ` with the ending of its file's name, as `# file .d0.2`. Where memory is refused it ends there, and `tirnouch_error` says
 * so. Sizes as above; 0 where nothing was kept. */
size_t tirnouch_trace(char *text, size_t room);

/* The milliseconds since the bus began, by the clock of timeouts: 0 where there is none. */
uint64_t tirnouch_now(void);

/* With TIRNOUCH_TIME=virtual so many milliseconds pass at once. What is due then is done where events are handled next.
 * LIBUSB_ERROR_NOT_SUPPORTED where time is real, or there is no bus. */
int tirnouch_advance(unsigned milliseconds);

/* The packet of this index, from 0 on, that a device took at an endpoint since it was plugged in: its length, and its bytes, as far as
 * there is room; -1 past the last. Of a device that computes its answers the last ones are kept, at most some 32,000 answers back: -2
 * where that packet isn't any more. */
int tirnouch_took(int device, uint8_t endpoint, size_t index, uint8_t *data, size_t room);

/* How many requests a device was sent on its default control endpoint since it was plugged in. Of the first 4,096 that of this index, from 0 on, is put
 * into `out`, where that isn't NULL: 8 bytes of setup, and at most 56 of what was written, with zeros behind them. */
int tirnouch_requests(int device, size_t index, uint8_t out[64]);

#ifdef __cplusplus
}
#endif

#endif

/* What the files of this folder share: the bus with its devices, the contexts and handles over it, and the transfers.
 *
 * There is one lock, `process.lock`. Everything here is read and written under it, but what a comment excepts. The program's callbacks
 * run without it, its log function too (log.c). A context's `waiters` is a second one, for those who wait by libusb_wait_for_event: it is taken first, and never
 * while `process.lock` is held.
 *
 * What outlives a call has an owner and a count:
 *
 *   context     `holds`: one while it is open, one for each thread that handles its events or is in a hotplug callback of it, one for
 *               each device of a bus that it has, or that is referenced; and it stays while its root hub is referenced (release_context)
 *   device      as a context has it, `libusb_device`: `references`: one of its context while that is open and the bus is there, one for
 *               each handle and each notice, and those of the program. As the bus has it, `device`: `holds`: one of the bus, one for each
 *               `libusb_device`; behind the bus's end its numbers and descriptors are left of it
 *   handle      the program's, from libusb_open to libusb_close, which waits for a callback of its that runs elsewhere. It may outlive the
 *               bus, and is lost then
 *   core        the bus's; a device's own is begun and ended with it, or made where the device is given its first function while the bus
 *               is there
 *   program     its device's, from its beginning to the bus's end, where it is waited for; in a child of fork it is nobody's
 *   transfer    the program's; in flight, the library's too: freed in flight, it goes when it has ended
 *   hotplug     `holds`: one while it is registered, one for each call of it that runs */
#ifndef BUS_H
#define BUS_H

#include "libusb.h"
#include "tirnouch.h"
#include "tirnouch_core.h"

#include <pthread.h>
#include <stdbool.h>
#include <stddef.h>
#include <stdint.h>

/* The devices of a text, by their numbers. Those that are scripted share one core, which has room for 4; one that computes its answers has
 * its own. The root hub has a number too, but isn't in the core, and is there without a bus. */
#define DEVICES 16
#define HUB DEVICES
#define HUB_ADDRESS 1
#define INTERFACES 32
#define ENDPOINTS 32
/* The core's handles: each interface that was ever claimed has one of its own. */
#define NAMES 64
/* The places of an endpoint in the core, and the most bytes of a transfer there. */
#define PLACES 16
#define MOST_BYTES 262144
/* How many control requests of a device are kept, and how often one is asked again that isn't ready. */
#define MOST_REQUESTS 4096
#define MOST_NAKS 4096
/* How soon, in nanoseconds, a request is asked again for which a program's function wasn't ready. */
#define ASK_AGAIN 1000000u
/* More than a device can answer, and the core can have to do, at once. */
#define ALL (1u << 20)

/* Some text, from its first character to its end, where one may stand or not: both go about together. Of no text both are NULL. */
struct text {
    const char *at, *end;
};

struct core;
struct device;
struct hotplug;
struct judged;
struct kept_trace;
struct log_line;
struct pipe;
struct program;

enum stage { AT_REST, QUEUED, IN_CORE, AT_CONTROL, ENDED, FREED };
enum ask { ASKED_NOTHING, ASKED_TO_CANCEL, ASKED_TO_EXPIRE };
/* What whoever handles events looks at behind that (`behind`). */
enum behind { INTERRUPTED = 1, POLLED = 2, CLOSED = 4 };

/* A transfer as it is kept here. What the program sees of it stands behind it in memory (`seen`). */
struct transfer {
    struct transfer *previous, *next; /* those in progress in its context, in order of submission */
    struct transfer *behind;          /* in its endpoint's queue, among control transfers, or among those that ended; */
    struct transfer *ahead;           /* in the first two: the one before it, where it isn't the first */
    struct libusb_context *context;
    struct libusb_device_handle *handle;
    struct pipe *pipe;                /* its endpoint; NULL for a control transfer */
    uint64_t number;                  /* in the core: of the piece that is there */
    uint64_t deadline;                /* a moment in nanoseconds; 0 for none */
    uint8_t *lent;                    /* the memory of that piece, where it reads (`core_submit`) */
    int moved, piece;                 /* bytes of the pieces before, and of the one in the core */
    unsigned naks;                    /* of a control transfer: how often it was asked, and its device wasn't ready */
    uint64_t later;                   /* before this moment its device isn't asked, where that is known; 0 for none */
    uint64_t stir;                    /* its own among the bus's `stirs`: where that isn't settled, its device wasn't asked at all */
    enum stage stage;
    enum ask ask;
    bool is_dropped, is_freed;        /* no callback: its handle was closed; and nobody has it any more */
    bool is_stalled;                  /* its endpoint was halted by a request: the cancel that ends it is told as a stall */
    bool is_moving;                   /* it goes on in a new session of its device's core: the cancel that ends it there isn't told */
    uint32_t stream;                  /* as the program has set it, for nothing here */
};

struct transfers {
    struct transfer *first, *last;
};

/* An endpoint but 0. Where its line in the core is full, or a transfer goes in pieces, the others wait here. */
struct pipe {
    struct device *device;
    struct core *core;                /* its device's, and */
    uint8_t number;                   /* the device's number there; and */
    int name;                         /* the handle there that claimed its interface; -1 for none so far */
    struct transfers queue;
    struct transfer *cut;             /* the one that goes in pieces, while there are more than the one in the core */
    int most;                         /* bytes of a piece but the last: whole packets, so that none goes past a piece's end */
    struct gate *gates;               /* its answers that wait, by place; */
    size_t gate_count, gates_passed;  /* and how many of them it is past */
    uint32_t answers, naks;           /* how many it gave since it was made new, and of these not ready, where that counts (`is_watched`) */
    uint32_t script;                  /* how many its device has for it, where its interface was claimed once */
    uint16_t packet, lag;             /* lag: with a seed, for how many looks it is passed over */
    uint8_t ep, kind, interface;      /* kind: libusb_transfer_type; 0 where the device has no such endpoint */
    uint8_t in_core;                  /* at most PLACES */
    bool is_halted, is_active;
    bool is_stopped;                  /* halted by a request of the program's: it stalls until the halt is cleared */
    bool is_unset;                    /* its interface is in another setting, which has no endpoints */
    bool is_watched;                  /* its answers are looked at one by one */
    bool is_judged;                   /* something is expected of the driver there; `expected_at` has it */
    bool is_asked;                    /* behind its script a function, or a program, is asked for its answers; */
    uint32_t fed;                     /* so many were in this session of the core; */
    uint64_t later;                   /* it isn't before this moment, 0 for none */
    uint64_t took;                    /* packets that it took in sessions before */
    uint64_t withdrawn;               /* transfers that ended there without an answer since it was made new: cancelled, or out of time */
};

struct interface {
    bool is_there, has_driver, is_detached;
    bool is_left;                     /* a handle that held it was open at libusb_exit */
    int name;                         /* the core's handle that claimed it; -1 for none so far */
    struct libusb_device_handle *holder;
    uint8_t setting;
};

/* Requests of which the first six bytes of the setup packet (USB 2.0, 9.3: type, number, value, index), the first byte lowest, are these
 * where the mask has them. */
struct meant {
    uint64_t mask, bytes;
};

/* And how many of these a device was asked. */
struct tally {
    struct meant meant;
    uint64_t came;
};

/* The answers of an endpoint from this place on wait until `count` packets were taken at `other`, or answers given there where that is for
 * IN, or control requests where it is 0, or transfers ended without an answer where it is the endpoint itself, for IN; or until so many of
 * the requests that are meant came. */
struct gate {
    uint32_t place;
    uint8_t other;
    bool is_of_requests;
    struct meant meant;
    uint64_t count;
};

/* A session of the core, with its devices: what is in flight in it, and what of it is kept here. */
struct core {
    struct tirnouch_slot slot;
    struct core *next;                /* of the devices' own */
    uint32_t fed;                     /* answers that were computed, since this session began */
    unsigned sessions;                /* how many there were before */
    int trace;                        /* the file of its steps; -1 for none; */
    struct kept_trace *kept;          /* and their text in memory; NULL for none */
    bool named[NAMES];
};

struct device {
    int holds;
    int number;
    int port;                         /* the number of the device in whose place it stands: its own, or that which came back as this one; */
    uint8_t address;                  /* and its address on the bus: another one each time it is plugged in again */
    int successor;                    /* the device as which it comes back, where it leaves; -1 for itself */
    struct core *core;                /* its own, or the one that is shared; and */
    uint8_t number_there;             /* its number there */
    bool is_there, is_hidden, is_gone, begins_anew;
    bool lasts;                       /* a reset doesn't begin its scripts anew, but ends the halts that were seen */
    bool is_living;                   /* it computes answers, and has a core of its own */
    bool is_awaking;                  /* remote wakeup is enabled (USB 2.0, 9.4.5) */
    uint8_t configurations;           /* how many its descriptor says, of which one is there */
    uint8_t descriptor[18];
    uint8_t *config;
    int config_length, speed;
    uint8_t configuration;            /* the value of the one that is set; 0 for none */
    struct interface interfaces[INTERFACES];
    struct pipe pipes[ENDPOINTS];
    bool is_watched;                  /* so are all of its endpoints' */
    bool leaves;                      /* pulled out behind so many answers of an endpoint */
    uint8_t leaves_ep;
    uint32_t leaves_behind;
    uint8_t (*requests)[64];
    size_t request_count;
    struct tally *tallies;            /* of requests for which its answers wait, by mask and bytes; NULL for none */
    size_t tally_count;
    struct program *program;          /* what is asked in place of functions; NULL for none */
    struct text text;                 /* its lines, its own, where it has a core of its own, */
    size_t program_lines;             /* of which so many are its program's, before those of the text */
    struct judged *judged;            /* its lines `control`, where one of them expects something of the driver; else NULL */
    struct judged *packets[ENDPOINTS]; /* and what is expected at its endpoints; NULL for nothing */
};

struct libusb_device {
    struct libusb_context *context;
    struct device *device;
    int references;                   /* atomic */
    uint8_t port, address;            /* as long as somebody has it, they stay, and are read without the lock */
    bool is_past;                     /* the device was plugged in again since, and its context has another one for it */
};

struct libusb_device_handle {
    struct libusb_device_handle *next;
    struct libusb_context *context;
    struct libusb_device *of;
    struct device *device;
    unsigned number;                  /* counted by the bus from 1 on; for logs */
    uint32_t claimed;                 /* a bit an interface that it holds */
    uint32_t asked;                   /* of these, those that the program claimed itself */
    bool is_closing;                  /* where misuse is told: libusb_close was called */
    bool is_shut;                     /* it takes no transfer: it is being closed, or its device was plugged in anew since; */
    bool is_lost, detaches;           /* is_lost: the latter. All but a close is answered NO_DEVICE, as where its bus ended */
};

/* That a device came, or went. It has a reference to it. */
struct notice {
    struct notice *next;
    struct libusb_device *device;
    libusb_hotplug_event event;
    bool is_waiting, is_further;      /* in its context's list; in memory of its own, since a device may come and go again */
};

/* A callback that was called: of a transfer at this endpoint, of so many bytes, and when by the clock (`real_time`). */
struct called {
    uint8_t ep;
    int length;
    uint64_t moment;
};

struct libusb_context {
    struct libusb_context *next;
    struct transfers flying, ended;   /* in progress; to be called back */
    uint64_t earliest;                /* no deadline is before this moment; 0 for none */
    pthread_t handler;                /* who handles events, where `is_handled` */
    struct libusb_device_handle *calling; /* whose callback runs there; */
    bool is_calling;                      /* or one of hotplug */
    struct called called;                 /* where a transfer's runs, and `process.looks_closer` */
    bool is_open, is_handled;
    bool is_asleep;
    bool is_working;                  /* the handler isn't back yet: it sees by itself what is to be done */
    bool is_polled, is_rung;          /* is_polled: the program polls by itself; is_rung, atomic: `event` can be read, or will be at once */
    unsigned behind;                  /* atomic, of `enum behind`: it was interrupted, `is_polled`, `closers` */
    bool is_blind;                    /* it has no devices (LIBUSB_OPTION_NO_DEVICE_DISCOVERY) */
    int holds;
    int users;                        /* of the default context: how often it was begun */
    int lockers;                      /* who holds `waiters`, or is about to */
    int waiting;                      /* for `moved` */
    int closers;                      /* of them those that wait in libusb_close for the handler's callbacks */
    int event;                        /* an eventfd: it ends the handler's sleep, and tells those who poll by themselves */
    int timer, poller;                /* a timerfd and the epoll over both, for those; -1 where nobody polls */
    struct notice *notices;           /* not told yet, of `all_notices` */
    struct hotplug *hotplugs;
    pthread_cond_t moved;             /* with process.lock: a callback returned, or nobody handles events any more; with closers:
                                       * a callback begins, or the handler is back */
    pthread_mutex_t waiters;
    pthread_cond_t happened;          /* with `waiters`: a callback returned, or nobody handles events any more */
    struct notice all_notices[DEVICES][2];
    struct libusb_device *devices[DEVICES]; /* of the bus that is there; NULL where it has no such device; */
    struct libusb_device hub;         /* and the root hub, in each bus and without any */
    int hotplug_ids;
    int log_level;
    int told_level;                   /* atomic, and written under `process.lock`: the same, or that of all calls (`set_told_level`) */
    bool log_is_fixed;                /* by LIBUSB_DEBUG */
    libusb_log_cb log;
    pthread_cond_t left;              /* with process.lock, once it isn't open: who handled events, or waited for that, doesn't any more */
};

/* What an endpoint has left of its script, and whether it is halted. */
struct rest {
    uint32_t answers;
    bool is_halted;
};

/* What all contexts share, as programs on one machine share its bus. Without one all is zeros but `stirs` and `settled`. */
struct bus {
    bool is_there;
    int in_core;                      /* transfers, or pieces of them, in all cores */
    struct core core;                 /* the one that scripted devices share; */
    struct core *own;                 /* and those that have one device each */
    struct text text;                 /* the devices, as a person wrote them: of tirnouch_plug, or */
    struct text file_text;            /* of the file, which is the bus's own; */
    struct text whole_text;           /* and with the bytes of files that it names, the bus's own too; none where it names none */
    char *trace;                      /* the name of the trace's file, the bus's own; NULL for none; */
    unsigned trace_number;            /* and what stands behind it, where it is more than 1 */
    bool keeps_trace;                 /* in memory */
    unsigned turn;                    /* which bus of the process it is, from 1 on */
    uint64_t seed;                    /* 0 for none */
    bool is_traced, is_watched;       /* is_watched: answers are counted one by one, for the trace or the log */
    struct transfers controls;
    uint64_t again;                   /* when a request is to be asked again; 0 for none */
    uint8_t last_address;             /* that was given to a device; */
    uint64_t stirs, settled;          /* how often there was something to be done, in all buses; and how often when all was done */
    uint64_t past;                    /* events are handled late: time stands before a deadline, and went back to this moment; else 0 */
    uint64_t moment;                  /* of virtual time; */
    uint64_t begun;                   /* when the bus began */
    bool is_virtual;                  /* time passes only where nothing else is to be done */
    bool is_judged;                   /* a text expects something of the driver, of which the end isn't told yet */
    size_t active_count;
    struct pipe *active[DEVICES * ENDPOINTS]; /* where something waits or is in the core */
    unsigned handle_count;
    bool is_ending;                   /* transfers that end stay in progress till all have: they leave in order (outliving.c) */
    bool is_readied;                  /* a device's function said that some device has something to answer now */
    bool holds_back;                  /* an answer waits for a callback (gates.c), since events were handled last */
    struct device *devices[DEVICES];
};

/* What a context that is begun later has (`libusb_set_option` without a context). */
struct defaults {
    int log_level;
    libusb_log_cb log;
    bool is_blind;
};

extern struct process {
    pthread_mutex_t lock;
    struct bus bus;
    struct device hub, absent[DEVICES]; /* there without a bus; and in place of what a text doesn't have. Held by it */
    struct libusb_context *default_context, *fallback; /* atomic where they are written */
    struct libusb_context *contexts;
    struct libusb_device_handle *handles; /* of all buses */
    struct libusb_context nobody;     /* the default context where none is open */
    struct defaults defaults;
    struct text text;                 /* of tirnouch_plug, or tirnouch_begin, its own, */
    const char *text_name;            /* by which it is told of */
    struct {
        tirnouch_control answer;
        void *user;
        bool is_of_bus;               /* set while a bus of tirnouch_begin was there, whose end takes it back; */
    } controls[DEVICES];
    struct {
        tirnouch_packet answer;
        void *user;
        bool is_of_bus;               /* so here, */
    } packets[DEVICES][ENDPOINTS];
    struct {
        tirnouch_listener tell;
        void *user;
        bool is_of_bus;               /* and here */
    } listeners[DEVICES];
    libusb_log_cb log;
    struct log_line *lines;           /* for the program's own function, which wasn't called for them yet; the oldest first */
    char failure[1024];               /* what was told last of what went wrong with the bus; empty for nothing */
    unsigned traces;                  /* how many were begun by the environment */
    unsigned buses;                   /* how many were begun */
    bool has_begun;                   /* the bus that is there was begun by tirnouch_begin, and tirnouch_end ends it */
    bool was_misused;                 /* it was told that the default context isn't the program's */
    bool tells_misuse;                /* what libusb's manual forbids is told (misuse.c); */
    bool looks_closer;                /* so each call is looked at as where it is told (`is_told`) */
    void (*release_transfer)(void *); /* what is freed, and */
    void (*release_handle)(void *);   /* what is closed: `free`, but where misuse is told */
    bool is_asking;                   /* atomic: a function of a device's is being asked */
    uint8_t nowhere[1];               /* where memory of no bytes lies: nobody reads or writes it */
} process;

/* How many of the program's callbacks this thread is in, one within the other. */
extern _Thread_local int callbacks_within;

static inline struct libusb_transfer *public_of(struct transfer *transfer) { return (struct libusb_transfer *)(void *)(transfer + 1); }
static inline struct transfer *private_of(struct libusb_transfer *transfer) { return (struct transfer *)(void *)transfer - 1; }

static inline size_t length_of(struct text text) { return text.at ? (size_t)(text.end - text.at) : 0; }
static inline bool is_in(uint8_t ep) { return ep & LIBUSB_ENDPOINT_DIR_MASK; }
static inline unsigned two_bytes(const uint8_t *at) { return (unsigned)at[0] | (unsigned)at[1] << 8; }
/* An endpoint's place among 32: twice its number, and one more for IN. */
static inline unsigned place_of(uint8_t ep) { return (ep & 15u) * 2 + (ep >> 7); }

#include "locking.h"
#include "calls.h"
#include "inline.h"
#include "living.h"
#include "judged.h"

#endif

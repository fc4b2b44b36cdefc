/* What each file of this folder gives to the others; living.h has those of devices that compute. bus.h includes this file. */
#ifndef CALLS_H
#define CALLS_H

#include "bus.h"

/* How a bus begins: what steers it. */
struct beginning {
    const char *trace;                /* a file's name; NULL for none */
    bool keeps_trace;                 /* in memory */
    unsigned limit;                   /* in milliseconds; 0 for none */
    unsigned trace_number;            /* behind it, where it is more than 1 */
    uint64_t seed;                    /* 0 for none */
    bool is_virtual;
};

/* bus.c: the bus begins with the first context, and ends with the last; or it does by tirnouch_begin and tirnouch_end. */
int bus_begin(void);
int bus_begin_so(const struct beginning *so);
void bus_end(void);
void bus_end_with_last(void);

/* tirnouch.c */
void take_back_functions(void);

/* outliving.c: contexts and handles over the end of a bus, and the beginning of the next */
int give_devices_to_all(void);
void tell_arrivals(void);
void tell_left_open(void);
void end_all_flights(void);
void outlive_bus(void);
void wake_all(void);

/* devices.c */
void give_address(struct device *device);
int prepare_anew(struct device *device);
void give_anew(struct device *device, const int *port);
void stand_at(struct device *device, int port);
int give_devices(struct libusb_context *context);
void take_devices(struct libusb_context *context);
bool drop_device(struct libusb_device *device);

/* learn.c: what a device's lines and descriptors say */
int learn(struct device *device);
void watch(struct device *device);
void forget(struct device *device);
void let_go_of_device(struct device *device);
bool is_present(const struct device *device);
bool is_lost(const struct libusb_device_handle *handle);

/* hub.c */
void learn_hub(void);

/* log.c */
void note(struct libusb_context *context, enum libusb_log_level level, const char *format, ...) __attribute__((format(printf, 3, 4)));
void note_call(struct libusb_context *context, int answer, const char *function, const char *format, ...)
    __attribute__((format(printf, 4, 5)));
void watch_for(int level);
void set_told_level(struct libusb_context *context);
void set_told_levels(void);
void give_before_waiting(struct libusb_context *context);
void leave_lines(void);

/* sentences.c: a sentence that is put together; what doesn't fit is left out */
struct sentence {
    size_t length;
    char text[400];
};
void append(struct sentence *it, const char *format, ...) __attribute__((format(printf, 2, 3)));
const char *plural(uint64_t count);

/* why.c: why a transfer doesn't end */
void tell_why(struct transfer *transfer, const char *what, bool always);
void tell_all_why(struct libusb_context *context, const char *what);
void write_all_why(int file);
typedef void left_fn(void *to, struct transfer *transfer, const struct sentence *left);
void each_left_of_all(left_fn *say, void *to);


/* misuse.c: what libusb's manual forbids */
void begin_misuse(void);
bool is_dead(const struct libusb_context *context);
void tell_misuse(const char *format, ...) __attribute__((format(printf, 1, 2)));
void tell_dead(const struct libusb_context *context, const char *function, const char *what);
void tell_free(struct transfer *transfer);
void tell_flying(struct transfer *transfer, const char *function);
int refuse_wait(const struct libusb_context *context, const char *function, uint8_t ep);
void tell_unclaimed(const struct libusb_transfer *transfer, int interface);
void tell_open(const struct libusb_device_handle *handle);
void tell_unreferenced(const struct libusb_device *device);

/* hints.c: what helps to see why a run failed */
void begin_hints(void);
void hint_at_overflow(const struct transfer *transfer, int moved);
int hint_at_no_endpoint(const struct device *device, uint8_t ep);
void hint_at_end(void);
void write_hints(int file);

/* sync.c: transfers of synchronous calls, and the name of such a one's call */
bool is_awaited(const struct libusb_transfer *transfer);
const char *name_of_awaited(const struct libusb_transfer *transfer);

/* limit.c: TIRNOUCH_LIMIT, and the limit of one bus */
void begin_limit(void);
bool has_limit(void);
int begin_limit_of(unsigned turn, unsigned milliseconds);
void end_limit_of_bus(void);
void hold_limit_for_fork(void);
void go_on_with_limit(void);
void leave_limit(void);

/* context.c */
struct libusb_context *default_context(void);
void tell_configurations(struct libusb_context *context);
void release_context(struct libusb_context *context);

/* core.c: the core's calls, each of which the trace has. A negative answer is libusb's. */
int core_call(struct core *core, enum tirnouch_verb verb, int name, uint8_t a, uint64_t n);
_Noreturn void end_for_memory(void);
int core_submit_watched(struct transfer *transfer, int length, uint8_t flags) __attribute__((cold));
void fill_unwritten(uint8_t *at, int length);
struct rest core_rest(const struct pipe *pipe);
bool core_serves(const struct pipe *pipe);
bool core_serve(struct pipe *pipe, uint32_t most, struct tirnouch_reply *reply);
bool core_settle_in(struct core *core, uint32_t most);
bool core_settle(uint32_t most);
struct transfer *core_take(struct core *core, struct tirnouch_result *result);
void trace_feed(const struct pipe *pipe, uint8_t kind, const uint8_t *bytes, int count);

/* claims.c */
int claim(struct libusb_device_handle *handle, int interface);
int claim_unasked(struct libusb_device_handle *handle, int interface, const struct libusb_transfer *transfer);
void unclaim(struct libusb_device_handle *handle, int interface);
void use_setting(struct device *device, int interface, int setting);
int name_interface(struct device *device, int interface, int name);
int make_new(struct device *device, int interface);
void give_back(struct device *device);

/* gates.c: answers that wait for what is to happen elsewhere */
int learn_gates(struct device *device);
const struct gate *gate_before(struct pipe *pipe);
uint64_t packets_taken(const struct pipe *pipe);
uint64_t came_for(const struct pipe *pipe, const struct gate *gate);

/* tallies.c: how often a device was asked for what its answers wait for */
int learn_tallies(struct device *device);
struct meant meant_by(const struct tirnouch_gate *gate);
void tally_request(struct device *device, const uint8_t *setup);
uint64_t tallied(const struct device *device, struct meant meant);
void tally_anew(struct device *device);

/* lines.c: from the endpoints' queues into the core, and out of it */
int submit_at_endpoint(struct transfer *transfer);
void queue_up(struct transfer *transfer);
bool feed(struct pipe *pipe);
bool reap_one(void);
bool reap(void);
bool turn_only_one(void);
void leave_amid(struct transfers *queue, struct transfer *transfer);
void leave_between(struct transfers *queue, struct transfer *transfer);
void take_out(struct device *device);

/* work.c: devices, controller and events */
bool work_on(bool waits);
bool work_again(bool waits);
void work_to_end(void);
void work_in_past(void);
void work_at_endpoints(void);
bool serve(struct pipe *pipe, uint32_t most);
bool feed_all(void);
void settle_all(void);
void reap_all(void);
int pull_out(struct device *device);

/* dice.c: the same by single steps, where a seed is given */
bool work_by_dice(bool waits);
void random_steps_by_dice(void);
bool is_late_by_dice(uint64_t deadline);

/* transfers.c */
void end_transfer(struct transfer *transfer, enum libusb_transfer_status status, int moved);
int cancel(struct transfer *transfer, enum ask ask);
bool has_ended(const struct libusb_device_handle *handle);
void withdraw(struct libusb_device_handle *handle, int interface, bool drops);

/* living.c: when a device is to be asked again; 0 for never */
uint64_t next_ask(void);

/* control.c */
int submit_control(struct transfer *transfer);
bool answer_controls(void);
void leave_unanswered(struct transfer *transfer, const char *status);
void end_requests(const struct device *device);

/* standard.c: standard requests that tell and change what is kept here */
bool is_standard(struct device *device, const uint8_t *setup);
int answer_standard(struct device *device, const uint8_t *setup, uint8_t *data);
void carry_out_request(struct device *device, const uint8_t *setup);

/* timeouts.c */
uint64_t now(void);
uint64_t real_time(void);
uint64_t end_of(const struct timeval *wait);
struct timespec moment_behind(const struct timeval *wait);
struct timespec moment_of(uint64_t nanoseconds);
struct timespec moment_in(uint64_t nanoseconds);
void expire(struct libusb_context *context);

/* late.c: what was due before a deadline comes before it */
void catch_up(uint64_t moment);
uint64_t begun(struct transfer *transfer);
uint64_t begun_at(const struct pipe *pipe);
uint64_t moment_asked_at(const struct pipe *pipe);
uint64_t moment_later(uint64_t asked, int answer);
uint64_t moment_asked(uint64_t later, uint64_t begun);
void hold_behind(const struct transfer *transfer, uint64_t moment);

/* events.c */
void ring(struct libusb_context *context);
void drain(struct libusb_context *context);
void wake_others(const struct libusb_context *context);
void interrupt(struct libusb_context *context);
void disturb(struct libusb_context *context);
void tell_lockers(struct libusb_context *context);
void wait_for_move(struct libusb_context *context);
void tell_leaver(struct libusb_context *context);
void step_down(struct libusb_context *context);

/* pollfds.c */
void show_readiness(struct libusb_context *context);
int poll_in_child(struct libusb_context *context);
void end_polling(struct libusb_context *context);

/* hotplug.c */
void add_notice(struct libusb_context *context, int device, libusb_hotplug_event event);
void tell_all(struct device *device, libusb_hotplug_event event);
void forget_notices(struct libusb_context *context);
bool call_hotplugs(struct libusb_context *context);
void end_hotplugs(struct libusb_context *context);

/* kept.c: traces in memory, those of a bus and those of the one before */
struct kept_trace *keep_trace(const char *ending);
void keep_text(struct kept_trace *it, const char *text, size_t length);
void begin_kept(void);
void end_kept_beginning(bool is_begun);
typedef void kept_fn(void *to, const char *text, size_t length);
void each_kept(kept_fn *give, void *to);

/* trace.c: words are put behind each other, and written out when a step is whole */
bool trace_begin(struct core *core, const struct device *device);
void trace_end(struct core *core);
void trace_forget(void);
void trace_to(struct core *core);
void trace_devices(struct core *core, struct text text);
void trace_text(const char *text);
void trace_number(uint64_t number);
void trace_hex(const uint8_t *bytes, int count);
void trace_comment(struct core *core, const char *format, ...) __attribute__((format(printf, 2, 3)));
void trace_out(void);

#endif

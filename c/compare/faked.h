/* What the files of this folder share: a USB bus that is faked in the process, under libusb's own binary. The scenes of c/tests/usb run
 * over it unchanged, with the devices' text that Tirnouch reads (docs/DEVICES.md).
 *
 * The program's `open`, `close`, `ioctl`, `poll` and `mmap` stand before libc's (system.c), and its functions of libudev before libudev's
 * (udev.c). What an ioctl answers is what drivers/usb/core of Linux 6.1 does for a device at an xHCI controller; where a comment
 * names a function of the kernel, it is that one's rule. Devices answer while somebody polls, and at no other time.
 *
 * There is one lock, `faked_lock`: everything here is read and written under it. */
#ifndef FAKED_H
#define FAKED_H

#include "tirnouch.h"

#include <linux/usbdevice_fs.h>
#include <pthread.h>
#include <stdbool.h>
#include <stddef.h>
#include <stdint.h>
#include <sys/ioctl.h>

#define DEVICES 4
#define INTERFACES 32
#define PLACES 32
#define MOST_ENDPOINTS 64
#define MOST_LINES 64
#define MOST_REQUESTS 4096
#define MOST_ANSWERS 65536
#define SETUP 8

/* An answer of a script: `d` with its bytes, `a`, `n`, `s` or `b`. */
struct answer {
    char kind;
    uint8_t *bytes;
    int length;
};

struct script {
    struct answer *answers;
    size_t count, next;
};

struct packet {
    uint8_t *bytes;
    int length;
};

/* An endpoint's state, by its address. */
struct pipe {
    struct script script;
    bool is_halted;
    struct packet *taken;
    size_t taken_count, withdrawn; /* requests that were discarded before they had an answer */
};

/* An endpoint of a setting of an interface. */
struct endpoint {
    uint8_t address, kind, interface, setting;
    int packet;
};

struct interface {
    bool is_there, has_driver, is_bound; /* a driver of the system's: the text has one, and it holds the interface */
    struct file *holder;
    uint8_t setting;
    uint32_t settings; /* a bit a setting */
};

/* A `control` line: -1 fits any. */
struct control {
    int fields[4];
    struct script script;
};

/* An `after` line: of another endpoint, or of requests with these fields. */
struct gate {
    uint8_t ep, other;
    bool is_of_requests;
    int fields[4];
    size_t place, count;
};

/* A request of the program's to the kernel (an URB), until it is reaped. */
struct request {
    struct request *next;
    struct file *file;
    struct usbdevfs_urb *urb;
    uint8_t ep;
    int length, moved, status;
    bool is_asked;
};

struct device {
    int number;
    unsigned port, address;
    struct device *becomes; /* the one that stands at its port where it comes back: itself, unless a line says so */
    bool is_there, is_hidden, is_gone, is_leaving, begins_anew, lasts, is_waking; /* is_waking: it may wake its host now */
    uint8_t descriptor[18], *config, *strings[256];
    int config_length, configuration, value; /* the value that is set, 0 for none, and the one there is */
    const char *speed;
    struct interface interfaces[INTERFACES];
    struct endpoint endpoints[MOST_ENDPOINTS];
    int endpoint_count;
    struct pipe pipes[PLACES];
    struct control controls[MOST_LINES];
    int control_count;
    struct gate gates[MOST_LINES];
    int gate_count, leaves_ep;
    size_t leaves_behind;
    struct request *pending;
    uint8_t (*requests)[64];
    size_t request_count;
};

/* An open file of a device: an eventfd that can be written to when a request is to be reaped. */
struct file {
    struct file *next;
    int descriptor;
    struct device *device;
    uint32_t claimed;
    struct request *done;
    bool is_ready, is_gone; /* is_gone: its device left, and may have come back as another since */
};

extern pthread_mutex_t faked_lock;
extern struct device faked_devices[DEVICES];

/* The root hub's address. Those of devices go on behind it, up to the last, and begin anew then (choose_devnum). */
#define HUB_ADDRESS 1
#define LAST_ADDRESS 127

static inline unsigned two_bytes(const uint8_t *at) { return (unsigned)at[0] | (unsigned)at[1] << 8; }
static inline unsigned place_of(unsigned ep) { return (ep & 15u) * 2 + (ep >> 7 & 1u); }

/* text.c: the devices of a text, anew. */
void read_devices(const char *text);

/* ports.c: who is there, and who comes with an address of its own. */
bool is_present(const struct device *device);
struct device *device_at_address(unsigned address);
struct device *device_at_port(unsigned port);
void give_addresses(void);
void show_device(struct device *device);
void come_back(struct device *device);

/* bus.c: packets and requests */
bool run_bus(void);
const struct endpoint *find_endpoint(const struct device *device, unsigned ep);
void begin_scripts(struct device *device, int interface);

/* answers.c: how many bytes moved, or one of tirnouch.h's answers, or BROKEN */
#define BROKEN (-4)
bool has_fields(const uint8_t *setup, const int fields[4]);
int answer_request(struct device *device, const uint8_t *setup, uint8_t *data, int length);

/* requests.c */
int submit_request(struct file *file, struct usbdevfs_urb *urb);
int reap_request(struct file *file, struct usbdevfs_urb **urb);
int discard_request(struct file *file, const struct usbdevfs_urb *urb);
void end_request(struct request *request, int status);
void end_requests(struct device *device, const struct file *file, int interface, int status);
void forget_requests(struct file *file);

/* claims.c: 0, or the error with its sign turned, as in the kernel */
int claim_interface(struct file *file, unsigned interface);
int need_interface(struct file *file, unsigned interface);
int release_interface(struct file *file, unsigned interface);
int find_interface(const struct device *device, unsigned ep);
void end_halts(struct device *device, int interface);
int driver_of(const struct file *file, struct usbdevfs_getdriver *asked);
int driver_command(struct file *file, const struct usbdevfs_ioctl *command);
int claim_from_driver(struct file *file, const struct usbdevfs_disconnect_claim *asked);
int set_setting(struct file *file, const struct usbdevfs_setinterface *asked);
int set_configuration(struct file *file, int value);
int clear_halt(struct file *file, unsigned ep);
int reset_device(struct file *file);

/* system.c */
void show_ready(struct file *file);
bool is_polled(void);
int pull_device(struct device *device);

/* udev.c: that a device came or left; and whether libusb watches. */
void tell_udev(struct device *device, bool is_arrival);
bool is_watched(void);
int watched_descriptor(void);
void watch_begins(bool begins);
void wait_until_told(void);

/* sysfs.c: a descriptor of an attribute's contents, or -1 where there is none */
int open_attribute(const char *path);

#endif

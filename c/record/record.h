/* A recorder of what a program moves by libusb, as Linux's usbmon would show it (Linux, Documentation/usb/usbmon.rst): the parts of
 * libtirnouch-record.so, which stands before libusb by LD_PRELOAD. From a constructor, or a callback, or any thread: no call of libusb is
 * made while the one lock is held, which file.c and flights.c take for what they keep. */
#ifndef TIRNOUCH_RECORD_H
#define TIRNOUCH_RECORD_H

#include <libusb.h>

#include <stdbool.h>
#include <stddef.h>
#include <stdint.h>

/* usbmon's numbers of transfer types (Linux, usbmon.rst, "Raw binary format") */
enum mon_type { MON_NONE, MON_INTERRUPT = 1, MON_CONTROL = 2, MON_BULK = 3 };

/* A transfer or a request from its submission to its end. Of one that is longer than usbmon keeps, each piece has an id of its own. */
struct flight {
    uint64_t id;
    uint8_t bus, device;
    enum mon_type type;
    uint8_t endpoint; /* of a request 80 where it reads, else 00 */
    uint32_t length;  /* what is asked for, or sent */
    uint32_t flags;   /* libusb's, of the transfer */
    uint16_t packet;  /* the endpoint's packet size; 0 where that isn't known */
};

/* A transfer in flight, and the program's callback. */
struct flying {
    struct libusb_transfer *transfer;
    libusb_transfer_cb_fn callback;
    struct flight flight;
};

/* libusb's own functions, which stand behind those of this library. */
struct real {
    int (*submit_transfer)(struct libusb_transfer *transfer);
    void (*free_transfer)(struct libusb_transfer *transfer);
    int (*control_transfer)(libusb_device_handle *handle, uint8_t type, uint8_t request, uint16_t value, uint16_t index,
                            unsigned char *data, uint16_t length, unsigned int timeout);
    int (*bulk_transfer)(libusb_device_handle *handle, unsigned char ep, unsigned char *data, int length, int *moved, unsigned int timeout);
    int (*interrupt_transfer)(libusb_device_handle *handle, unsigned char ep, unsigned char *data, int length, int *moved,
                              unsigned int timeout);
    int (*clear_halt)(libusb_device_handle *handle, unsigned char ep);
    int (*set_configuration)(libusb_device_handle *handle, int configuration);
    int (*set_interface_alt_setting)(libusb_device_handle *handle, int interface, int setting);
    int (*reset_device)(libusb_device_handle *handle);
    int (*open)(libusb_device *device, libusb_device_handle **handle);
    libusb_device_handle *(*open_device_with_vid_pid)(libusb_context *context, uint16_t vendor, uint16_t product);
    int (*wrap_sys_device)(libusb_context *context, intptr_t file, libusb_device_handle **handle);
    void *(*dlopen)(const char *name, int flags);
};

/* loading.c */
const struct real *real(void);

/* file.c: the capture */
bool is_recording(void);
bool is_wanted(uint16_t vendor, uint16_t product);
bool wants_strings(void);
uint64_t new_ids(uint32_t count);
void write_record(const uint8_t *head, size_t head_length, const uint8_t *data, size_t length);
void tell_fault(const char *what, const char *why);
void lock(void);
void unlock(void);

/* events.c: what stands in it */
uint32_t piece_count(uint32_t length);
void record_submission(const struct flight *flight, const uint8_t *setup, const uint8_t *data);
void record_end(const struct flight *flight, int status, uint32_t moved, const uint8_t *data);
void record_refusal(const struct flight *flight, int status);

/* flights.c: which transfers are in flight */
bool put_flying(struct flying *now, struct flying *before);
void take_back_flying(const struct libusb_transfer *transfer, const struct flying *before);
bool take_flying(const struct libusb_transfer *transfer, struct flying *found);

/* transfers.c */
void LIBUSB_CALL on_end(struct libusb_transfer *transfer);
bool begin_flight(struct flight *flight, libusb_device_handle *handle, enum mon_type type, uint8_t ep, uint32_t length);

/* calls.c: whether a submission is the one that a synchronous call makes, which stands in the capture already */
bool is_of_call(const struct libusb_transfer *transfer);

/* descriptors.c: what a device is, as it is opened or configured */
void record_device(libusb_device_handle *handle);
void record_configuration(libusb_device_handle *handle);
uint8_t configuration_of(libusb_device_handle *handle);
bool is_interrupt_endpoint(libusb_device_handle *handle, uint8_t ep);

#endif

/* What the files of this program share: a context, and a handle on device 0 of devices.txt. */
#ifndef PROGRAM_H
#define PROGRAM_H

#include <libusb.h>

#define FROM_DEVICE 0x81
#define TO_DEVICE 0x02
#define REPORTS 0x83

extern libusb_context *context;
extern libusb_device_handle *handle;

/* A device of this product, with its interface 0 claimed. */
libusb_device_handle *open_device(libusb_context *of, uint16_t product);
/* A context and a handle on device 0, with both interfaces; and their end, which answers 0. */
void begin(void);
int end(void);
/* A transfer with a buffer of its own, which is freed with it. */
struct libusb_transfer *make(unsigned char ep, int length, libusb_transfer_cb_fn called, unsigned timeout);

/* processes.c */
int forks(void);
int closes_files(void);
int has_no_room(void);
int has_two(void);
int threads(void);

#endif

/* What the scenes of this folder share: a device from a text, a handle on it, transfers whose callback prints what it is told. Each line
 * of a scene is indented; a scene's name isn't. */
#ifndef SCENE_H
#define SCENE_H

#include "libusb.h"
#include "tirnouch.h"

/* Interface 0 has bulk IN 81 and bulk OUT 02, interface 1 interrupt IN 83; packets of 8 bytes. */
#define STANDARD_CONFIG "0902300002010080320904000002ff00000007058102080000070502020800000904010001ff0000000705830308000a"
#define STANDARD "device 0 " STANDARD_CONFIG "\nids 0 04a9 31c0\n"
#define VENDOR 0x04a9
#define PRODUCT 0x31c0

/* The scene's context and its first handle, and how many callbacks ran in it. */
extern libusb_context *context;
extern libusb_device_handle *handle;
extern int calls;

/* Plugs in the devices of this text alone, and begins a context. */
void begin_text(const char *name, const char *text);
/* The same with the standard device and what more is said of it, and opens it; `begin` claims its interfaces too. */
void begin_unclaimed(const char *name, const char *more);
void begin(const char *name, const char *more);
/* Closes the handle, where it is open, and ends the context. */
void end(void);
/* One more handle on the standard device. */
libusb_device_handle *open_standard(libusb_context *of);
/* Whether it is the root hub, which is no device of the text. */
int is_hub(libusb_device *device);
/* The list of devices without the hub, and how many they are. */
ssize_t list_devices(libusb_context *of, libusb_device ***list);
/* The first of them, with a reference of its own. */
libusb_device *first_device(void);

/* Prints what a call answered: a name where it is an error, else the number. */
void answer(const char *call, int result);
void say(const char *line);
/* Prints a number of the scene, and bytes in hexadecimal digits. */
void number(const char *what, long long value);
void bytes(const char *what, const unsigned char *data, int count);

/* The callback: prints the transfer's number (its user data), status, length, first and last byte. */
void tell(struct libusb_transfer *transfer);
const char *status_name(int status);

/* A transfer of this number at an endpoint of the scene's handle, with a buffer of its own: for OUT it counts from 0 on. */
struct libusb_transfer *make(long id, unsigned char ep, int length);
struct libusb_transfer *submit(long id, unsigned char ep, int length);
struct libusb_transfer *submit_with(long id, unsigned char ep, int length, int flags, unsigned timeout);
/* Submits it, and prints where that is refused. */
int send_off(struct libusb_transfer *transfer);
/* Frees a transfer and its buffer. */
void discard(struct libusb_transfer *transfer);

/* Handles events without waiting, until no callback comes any more. */
void work(void);
/* Handles events until so many callbacks ran in the scene, at most some seconds. */
void wait_for(int count);
/* The packets that device 0 took at an endpoint, by their lengths. */
void took(unsigned char ep);

/* Standard error goes to a file from here on; then the library's lines of it are printed. */
void hear_errors(void);
void show_errors(void);

/* Plugs in the devices of a text and begins a context of its own: prints what is said of the text on standard error, and the answer. */
void refuse_text(const char *what, const char *text);
/* The bytes that these hexadecimal digits spell: how many they are. */
size_t read_digits(const char *digits, unsigned char *data);

/* Milliseconds of a clock that only goes on. */
long long clock_now(void);
/* Whether time passes only where nothing else is to be done: from the next scene on. */
void virtual_time(int is_on);

#endif

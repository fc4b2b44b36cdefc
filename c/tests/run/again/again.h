/* What tools/trace_run_test.py runs: small drivers, each of another kind, that print what they read. A file has those of one subject. */
#ifndef AGAIN_H
#define AGAIN_H

#include <libusb.h>
#include <stdint.h>

#define FROM_DEVICE 0x81
#define TO_DEVICE 0x02
#define VENDOR_IN 0xc0
#define VENDOR_OUT 0x40
#define SECOND 1000
#define SOON 50
#define ROUNDS 8

/* calls.c: the device that is used; and the bits of the first byte that is written that are flipped. */
extern libusb_device_handle *handle;
extern int flips;

void begin(uint16_t product);
int finish(void);
void show(const char *what, int result, const unsigned char *data, int length);
void flip(unsigned char *data);
void ask_for(uint8_t request, int length, unsigned milliseconds);
void ask(uint8_t request, int length);
void tell_for(uint8_t request, int length, unsigned milliseconds);
void tell(uint8_t request, int length);
void take(int length);
void put(unsigned char first, int length);

/* transfers.c */
void LIBUSB_CALL on_end(struct libusb_transfer *transfer);
struct libusb_transfer *begin_asking(uint8_t request, unsigned char *setup, int *ended);
struct libusb_transfer *begin_taking(unsigned char *data, int length, int *ended);
void wait_for(int *ended);

/* requests.c */
int requests(void);
int silent(void);
int vanishes(void);
int readies(void);

/* devices.c */
int tells(void);
int lists(void);
int returns(void);
int loader(void);

/* reads.c */
int waits(void);
int stalls(void);
int halts(void);
int resets(void);
int large(void);
int counts(void);

/* threads.c */
int threads(void);

/* buses.c */
int moves(void);
int twice(void);
int otherwise(void);
int moves_later(void);

#endif

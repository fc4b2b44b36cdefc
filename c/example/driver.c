/* A driver for a meter that answers a request of one byte with a reading of 8 bytes; and its test, in main. It knows nothing of Tirnouch. */
#include <libusb.h>

#include <stdio.h>

#define VENDOR 0x1209
#define PRODUCT 0x0002
#define TO_METER 0x02
#define FROM_METER 0x81

static int read_meter(libusb_device_handle *meter, unsigned char reading[8])
{
    unsigned char ask[1] = { 0x10 };
    int moved = 0;
    int r = libusb_bulk_transfer(meter, TO_METER, ask, sizeof ask, &moved, 1000);
    if (!r)
        r = libusb_bulk_transfer(meter, FROM_METER, reading, 8, &moved, 1000);
    if (!r && moved < 8)
        r = LIBUSB_ERROR_IO;
    return r;
}

int main(void)
{
    unsigned char reading[8];
    if (libusb_init(NULL))
        return 1;
    libusb_device_handle *meter = libusb_open_device_with_vid_pid(NULL, VENDOR, PRODUCT);
    if (!meter) {
        fprintf(stderr, "no meter\n");
        return 1;
    }
    int r = libusb_claim_interface(meter, 0);
    for (int i = 0; !r && i < 2; i++) {
        r = read_meter(meter, reading);
        if (!r)
            printf("reading %d: %d\n", i, reading[0]);
    }
    if (r)
        printf("%s\n", libusb_error_name(r));
    libusb_close(meter);
    libusb_exit(NULL);
    return 0;
}

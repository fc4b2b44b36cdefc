/* What tools/traces_test.py runs: three reads, and then an end of the kind that the first word says. */
#include <libusb.h>

#include <signal.h>
#include <stdlib.h>
#include <string.h>
#include <unistd.h>

#define READS 3

static libusb_device_handle *handle;

static void read_some(void)
{
    unsigned char data[8];
    int moved;
    if (libusb_init(NULL))
        exit(10);
    handle = libusb_open_device_with_vid_pid(NULL, 0x1209, 0x0001);
    if (!handle || libusb_claim_interface(handle, 0))
        exit(11);
    for (int i = 0; i < READS; i++)
        if (libusb_bulk_transfer(handle, 0x81, data, sizeof data, &moved, 1000))
            exit(12);
}

int main(int count, char **words)
{
    const char *end = count > 1 ? words[1] : "";
    read_some();
    if (!strcmp(end, "abort"))
        abort();
    if (!strcmp(end, "exit"))
        _exit(0);
    if (!strcmp(end, "kill"))
        raise(SIGKILL);
    if (!strcmp(end, "segv"))
        raise(SIGSEGV);
    if (strcmp(end, "open"))
        libusb_close(handle);
    libusb_exit(NULL);
    return 0;
}

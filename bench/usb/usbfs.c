/* A kernel faked in the process, under libusb's own library: the program's `ioctl` and `poll` stand before libc's, and answer for one
 * descriptor what Linux answers for a USB device (linux/usbdevice_fs.h). Each transfer is done as soon as it is submitted.
 *
 * The word `faked` has `poll` say at once that the device is ready, without the system. By `waits` two threads may call at once, and `poll`
 * waits by the system until a transfer is done; by `spins` two may as well, and the device is always ready by the system, as it is by
 * any other word. */
#include "device.h"

#include <errno.h>
#include <linux/usbdevice_fs.h>
#include <poll.h>
#include <pthread.h>
#include <stdarg.h>
#include <stdbool.h>
#include <stdlib.h>
#include <sys/eventfd.h>
#include <sys/ioctl.h>
#include <sys/mman.h>
#include <sys/syscall.h>
#include <unistd.h>

#define LINE 64
#define HIGH_SPEED 3

/* The device's descriptor, and behind it its configuration's. The bytes at 39 and 40 are the size of a packet. */
static uint8_t descriptors[] = {
    18, 1, 0x00, 2, 0, 0, 0, 64, 0x09, 0x12, 0x01, 0, 0x00, 1, 0, 0, 0, 1,
    9, 2, 25, 0, 1, 1, 0, 0x80, 0x32, 9, 4, 0, 0, 1, 0xff, 0, 0, 0, 7, 5, ENDPOINT, 2, 8, 0, 0,
};
#define PACKET_SIZE 40

/* Its file, and one that can be read while a transfer is done, or -1; the bytes that it gives, and how many it gave; the transfers that
 * are done, in order. With two threads the lock guards all that a submission or a result changes. */
static int file = -1, bell = -1;
static pthread_mutex_t lock = PTHREAD_MUTEX_INITIALIZER;
static bool is_ready, is_shared;
static uint8_t *bytes;
static size_t byte_count, given;
static struct usbdevfs_urb *line[LINE];
static unsigned first, last;

static int refuse(int why)
{
    errno = why;
    return -1;
}

/* The bell can be read as long as the line isn't empty. */
static void ring(void)
{
    if (bell >= 0)
        eventfd_write(bell, 1);
}

static void still(void)
{
    eventfd_t count;
    if (bell >= 0)
        eventfd_read(bell, &count);
}

static int submit(struct usbdevfs_urb *urb)
{
    size_t length = (size_t)urb->buffer_length;
    if (urb->endpoint != ENDPOINT || length > byte_count - given || last - first == LINE)
        return refuse(EINVAL);
    memcpy(urb->buffer, bytes + given, length);
    given += length;
    urb->status = 0;
    urb->actual_length = urb->buffer_length;
    if (first == last)
        ring();
    line[last++ % LINE] = urb;
    return 0;
}

static int reap(struct usbdevfs_urb **urb)
{
    if (first == last)
        return refuse(EAGAIN);
    *urb = line[first++ % LINE];
    if (first == last)
        still();
    return 0;
}

static int control(const struct usbdevfs_ctrltransfer *it)
{
    if (it->bRequestType != LIBUSB_ENDPOINT_IN || it->bRequest != LIBUSB_REQUEST_GET_CONFIGURATION || !it->wLength)
        return refuse(EPIPE);
    *(uint8_t *)it->data = 1;
    return 1;
}

static int answer(unsigned long request, void *argument)
{
    switch (request) {
    case USBDEVFS_SUBMITURB: return submit(argument);
    case USBDEVFS_REAPURBNDELAY: return reap(argument);
    case USBDEVFS_DISCARDURB: return refuse(EINVAL); /* as of one that is done */
    case USBDEVFS_IOCTL: return refuse(ENODATA);     /* no driver of the system has the interface */
    case USBDEVFS_CONTROL: return control(argument);
    case USBDEVFS_GET_SPEED: return HIGH_SPEED;
    case USBDEVFS_CLAIMINTERFACE:
    case USBDEVFS_RELEASEINTERFACE: return 0;
    case USBDEVFS_GET_CAPABILITIES:
        *(uint32_t *)argument = USBDEVFS_CAP_ZERO_PACKET | USBDEVFS_CAP_BULK_CONTINUATION | USBDEVFS_CAP_NO_PACKET_SIZE_LIM |
                                USBDEVFS_CAP_BULK_SCATTER_GATHER | USBDEVFS_CAP_REAP_AFTER_DISCONNECT;
        return 0;
    case USBDEVFS_CONNECTINFO: *(struct usbdevfs_connectinfo *)argument = (struct usbdevfs_connectinfo){ .devnum = 1 }; return 0;
    case USBDEVFS_RESET: given = 0; return 0;
    default: return refuse(ENOTTY);
    }
}

int ioctl(int descriptor, unsigned long request, ...)
{
    va_list rest;
    va_start(rest, request);
    void *argument = va_arg(rest, void *);
    va_end(rest);
    if (descriptor != file)
        return (int)syscall(SYS_ioctl, descriptor, request, argument);
    if (!is_shared)
        return answer(request, argument);
    pthread_mutex_lock(&lock);
    int answered = answer(request, argument);
    pthread_mutex_unlock(&lock);
    return answered;
}

/* It is `poll`, under a name of its own here: libc's header says of `poll` that it reads nothing of what it is given. */
int poll_first(struct pollfd *polled, nfds_t count, int timeout) __asm__("poll");

/* The device is ready when the bell can be read. */
static int wait_for_bell(struct pollfd *polled, nfds_t count, int timeout)
{
    struct pollfd asked[8];
    if (count > sizeof asked / sizeof *asked)
        return refuse(EINVAL);
    for (nfds_t i = 0; i < count; i++)
        asked[i] = polled[i].fd == file ? (struct pollfd){ .fd = bell, .events = POLLIN } : polled[i];
    int found = (int)syscall(SYS_poll, asked, count, timeout);
    for (nfds_t i = 0; i < count; i++)
        polled[i].revents = asked[i].fd != bell ? asked[i].revents : asked[i].revents ? POLLOUT : 0;
    return found;
}

int poll_first(struct pollfd *polled, nfds_t count, int timeout)
{
    int found = 0;
    if (bell >= 0)
        return wait_for_bell(polled, count, timeout);
    for (nfds_t i = 0; is_ready && i < count; i++) {
        polled[i].revents = polled[i].fd == file ? polled[i].events & POLLOUT : 0;
        found += polled[i].revents != 0;
    }
    return found ? found : (int)syscall(SYS_poll, polled, count, timeout);
}

static bool make_file(int packet)
{
    descriptors[PACKET_SIZE] = (uint8_t)(packet & 255);
    descriptors[PACKET_SIZE + 1] = (uint8_t)(packet >> 8);
    if (file >= 0)
        close(file);
    file = memfd_create("device", 0);
    return file >= 0 && write(file, descriptors, sizeof descriptors) == (ssize_t)sizeof descriptors;
}

libusb_device_handle *attach(int packet, const char *word, libusb_context **context)
{
    libusb_device_handle *handle = NULL;
    is_ready = word && !strcmp(word, "faked");
    bool waits = word && !strcmp(word, "waits");
    is_shared = waits || (word && !strcmp(word, "spins"));
    if (waits && bell < 0)
        bell = eventfd(0, EFD_NONBLOCK);
    byte_count = PACKETS * (size_t)packet;
    bytes = realloc(bytes, byte_count);
    if (!bytes || !make_file(packet))
        return NULL;
    for (size_t i = 0; i < byte_count; i++)
        bytes[i] = byte_at(i);
    given = 0;
    if (libusb_set_option(NULL, LIBUSB_OPTION_NO_DEVICE_DISCOVERY) || libusb_init(context))
        return NULL;
    return libusb_wrap_sys_device(*context, file, &handle) ? NULL : handle;
}

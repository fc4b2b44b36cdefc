/* The calls of the system that libusb makes, before libc's: what isn't of a faked device goes on to the system. */
#include "faked.h"

#include <errno.h>
#include <fcntl.h>
#include <poll.h>
#include <stdarg.h>
#include <stdio.h>
#include <stdlib.h>
#include <string.h>
#include <sys/eventfd.h>
#include <sys/mman.h>
#include <sys/syscall.h>
#include <time.h>
#include <unistd.h>

/* With this in it an eventfd can't be written to, so that POLLOUT isn't told. */
#define FULL 0xfffffffffffffffeu
/* How long until a device that wasn't ready is asked again. */
#define PAUSE 5

pthread_mutex_t faked_lock = PTHREAD_MUTEX_INITIALIZER;

static struct file *files;
static int pollers;

static struct file *file_of(int descriptor)
{
    struct file *it = files;
    while (it && it->descriptor != descriptor)
        it = it->next;
    return it;
}

/* Whether devices answer at once: somebody waits in `poll`, or FAKED_BUS=fast says so. */
bool is_polled(void)
{
    const char *word = getenv("FAKED_BUS");
    return pollers > 0 || (word && !strcmp(word, "fast"));
}

/* A file can be written to while there is something to reap, and from its device's end on (usbdev_poll). */
void show_ready(struct file *file)
{
    uint64_t value = FULL;
    bool is_ready = file->done || file->is_gone;
    if (is_ready == file->is_ready)
        return;
    ssize_t moved = is_ready ? read(file->descriptor, &value, sizeof value) : write(file->descriptor, &value, sizeof value);
    if (moved != sizeof value)
        abort();
    file->is_ready = is_ready;
}

/* usb_disconnect. Its files stay without it, whoever comes in its place. */
int pull_device(struct device *device)
{
    device->is_gone = true;
    end_requests(device, NULL, -1, -ESHUTDOWN);
    for (int i = 0; i < INTERFACES; i++) {
        device->interfaces[i].holder = NULL;
        device->interfaces[i].setting = 0;
    }
    for (struct file *it = files; it; it = it->next)
        if (it->device == device) {
            it->claimed = 0;
            it->is_gone = true;
            show_ready(it);
        }
    tell_udev(device, false);
    return 0;
}

/* The root hub is root's alone. */
static int open_device(const char *path)
{
    unsigned address = (unsigned)atoi(path + strlen("/dev/bus/usb/001/"));
    struct device *device = device_at_address(address);
    if (address == HUB_ADDRESS)
        return errno = EACCES, -1;
    if (strncmp(path, "/dev/bus/usb/001/", 17) || !device)
        return errno = ENOENT, -1;
    struct file *file = calloc(1, sizeof *file);
    if (!file)
        return errno = ENOMEM, -1;
    file->descriptor = eventfd(0, EFD_NONBLOCK | EFD_CLOEXEC);
    file->device = device;
    file->is_ready = true;
    file->next = files;
    files = file;
    show_ready(file);
    return file->descriptor;
}

static int open_faked(const char *path)
{
    pthread_mutex_lock(&faked_lock);
    int opened = strncmp(path, "/sys/", 5) ? open_device(path) : open_attribute(path);
    pthread_mutex_unlock(&faked_lock);
    return opened;
}

int open(const char *path, int flags, ...)
{
    va_list rest;
    va_start(rest, flags);
    unsigned mode = flags & (O_CREAT | O_TMPFILE) ? va_arg(rest, unsigned) : 0;
    va_end(rest);
    if (!strncmp(path, "/dev/bus/usb/", 13) || !strncmp(path, "/sys/bus/usb/", 13))
        return open_faked(path);
    return (int)syscall(SYS_openat, AT_FDCWD, path, flags, mode);
}

/* What libc's headers make of `open` where its words are checked. */
int open_checked(const char *path, int flags) __asm__("__open_2");

int open_checked(const char *path, int flags)
{
    return open(path, flags);
}

/* usbdev_release */
static void release_file(struct file *file)
{
    struct file **at = &files;
    for (unsigned i = 0; i < INTERFACES; i++)
        release_interface(file, i);
    forget_requests(file);
    while (*at != file)
        at = &(*at)->next;
    *at = file->next;
    free(file);
}

int close(int descriptor)
{
    pthread_mutex_lock(&faked_lock);
    struct file *file = file_of(descriptor);
    if (file)
        release_file(file);
    pthread_mutex_unlock(&faked_lock);
    return (int)syscall(SYS_close, descriptor);
}

/* proc_get_capabilities, at an xHCI controller. */
static int capabilities(uint32_t *them)
{
    *them = USBDEVFS_CAP_ZERO_PACKET | USBDEVFS_CAP_NO_PACKET_SIZE_LIM | USBDEVFS_CAP_BULK_SCATTER_GATHER |
            USBDEVFS_CAP_REAP_AFTER_DISCONNECT | USBDEVFS_CAP_MMAP;
    return 0;
}

/* 0 or more, or the error with its sign turned. A device that is gone has its requests reaped, and no more. */
static int answer(struct file *file, unsigned long request, void *argument)
{
    if (request == USBDEVFS_REAPURBNDELAY)
        return reap_request(file, argument);
    if (file->is_gone)
        return -ENODEV;
    switch (request) {
    case USBDEVFS_GET_CAPABILITIES: return capabilities(argument);
    case USBDEVFS_SUBMITURB: return submit_request(file, argument);
    case USBDEVFS_DISCARDURB: return discard_request(file, argument);
    case USBDEVFS_CLAIMINTERFACE: return claim_interface(file, *(unsigned *)argument);
    case USBDEVFS_RELEASEINTERFACE: return release_interface(file, *(unsigned *)argument);
    case USBDEVFS_GETDRIVER: return driver_of(file, argument);
    case USBDEVFS_IOCTL: return driver_command(file, argument);
    case USBDEVFS_DISCONNECT_CLAIM: return claim_from_driver(file, argument);
    case USBDEVFS_SETINTERFACE: return set_setting(file, argument);
    case USBDEVFS_SETCONFIGURATION: return set_configuration(file, *(int *)argument);
    case USBDEVFS_CLEAR_HALT: return clear_halt(file, *(unsigned *)argument);
    case USBDEVFS_RESET: return reset_device(file);
    case USBDEVFS_ALLOC_STREAMS:
    case USBDEVFS_FREE_STREAMS: return -EINVAL; /* USB 2.0 has none (usb_alloc_streams) */
    default: return -ENOTTY;
    }
}

int ioctl(int descriptor, unsigned long request, ...)
{
    va_list rest;
    va_start(rest, request);
    void *argument = va_arg(rest, void *);
    va_end(rest);
    pthread_mutex_lock(&faked_lock);
    struct file *file = file_of(descriptor);
    int result = file ? answer(file, request, argument) : 0;
    pthread_mutex_unlock(&faked_lock);
    if (!file)
        return (int)syscall(SYS_ioctl, descriptor, request, argument);
    if (result >= 0)
        return result;
    errno = -result;
    return -1;
}

static long long now(void)
{
    struct timespec time;
    clock_gettime(CLOCK_MONOTONIC, &time);
    return (long long)time.tv_sec * 1000 + time.tv_nsec / 1000000;
}

/* Of a device that is gone its files tell an error too (usbdev_poll). */
static void tell_errors(struct pollfd *polled, nfds_t count)
{
    for (nfds_t i = 0; i < count; i++) {
        const struct file *file = polled[i].revents ? file_of(polled[i].fd) : NULL;
        if (file && file->is_gone)
            polled[i].revents |= POLLERR | POLLHUP;
    }
}

/* It polls as long as it may, and not past a pause where a device is to be asked again. */
static int poll_once(struct pollfd *polled, nfds_t count, int timeout, bool *asks)
{
    *asks = run_bus();
    pollers++;
    pthread_mutex_unlock(&faked_lock);
    int wait = *asks && (timeout < 0 || timeout > PAUSE) ? PAUSE : timeout;
    int found = (int)syscall(SYS_poll, polled, count, wait), error = errno;
    pthread_mutex_lock(&faked_lock);
    pollers--;
    if (found > 0)
        tell_errors(polled, count);
    errno = error;
    return found;
}

static int poll_devices(struct pollfd *polled, nfds_t count, int timeout)
{
    long long end = timeout < 0 ? -1 : now() + timeout;
    int left = timeout, found;
    bool asks;
    pthread_mutex_lock(&faked_lock);
    do {
        found = poll_once(polled, count, left, &asks);
        left = end < 0 ? -1 : end > now() ? (int)(end - now()) : 0;
    } while (!found && asks && left);
    pthread_mutex_unlock(&faked_lock);
    return found;
}

/* The thread in which libusb watches for devices. */
static int poll_watch(struct pollfd *polled, nfds_t count, int timeout)
{
    watch_begins(true);
    int found = (int)syscall(SYS_poll, polled, count, timeout), error = errno;
    watch_begins(false);
    errno = error;
    return found;
}

/* It is `poll`, under a name of its own here: libc's header says of `poll` that it reads nothing of what it is given. */
int poll_first(struct pollfd *polled, nfds_t count, int timeout) __asm__("poll");

int poll_first(struct pollfd *polled, nfds_t count, int timeout)
{
    for (nfds_t i = 0; i < count; i++)
        if (polled[i].fd == watched_descriptor())
            return poll_watch(polled, count, timeout);
    return poll_devices(polled, count, timeout);
}

/* A device's memory for transfers is any (usbdev_mmap). */
void *mmap(void *at, size_t length, int protection, int flags, int descriptor, off_t offset)
{
    pthread_mutex_lock(&faked_lock);
    bool is_device = descriptor >= 0 && file_of(descriptor);
    pthread_mutex_unlock(&faked_lock);
    if (is_device)
        return (void *)syscall(SYS_mmap, at, length, protection, MAP_SHARED | MAP_ANONYMOUS, -1, 0L);
    return (void *)syscall(SYS_mmap, at, length, protection, flags, descriptor, offset);
}

/* The functions of libudev that libusb calls, before libudev's own: which devices there are, and that one came or left. */
#include "faked.h"

#include <stdio.h>
#include <stdlib.h>
#include <string.h>
#include <sys/eventfd.h>
#include <time.h>
#include <unistd.h>

#define MOST_EVENTS 64
#define PATIENCE 5

struct udev { int is_used; };
struct udev_monitor { int descriptor; };
struct udev_device {
    const char *action;
    char name[8], node[24];
};
struct udev_list_entry {
    char path[40];
    struct udev_list_entry *next;
};
struct udev_enumerate { struct udev_list_entry entries[1 + DEVICES]; };

static struct udev_device *events[MOST_EVENTS];
static int event_count, watched = -1, is_watching;
static pthread_cond_t changed = PTHREAD_COND_INITIALIZER;

void begin_devices(void);

bool is_watched(void)
{
    return watched >= 0;
}

int watched_descriptor(void)
{
    return watched;
}

/* Whether libusb's thread waits for news. */
void watch_begins(bool begins)
{
    pthread_mutex_lock(&faked_lock);
    is_watching = begins;
    pthread_cond_broadcast(&changed);
    pthread_mutex_unlock(&faked_lock);
}

/* Of a device, or of the root hub for NULL. */
static struct udev_device *make_device(const struct device *device, const char *action)
{
    struct udev_device *made = calloc(1, sizeof *made);
    if (!made)
        abort();
    made->action = action;
    if (device)
        snprintf(made->name, sizeof made->name, "1-%u", device->port & 7u);
    else
        strcpy(made->name, "usb1");
    snprintf(made->node, sizeof made->node, "/dev/bus/usb/001/%03u", device ? device->address & 127u : HUB_ADDRESS);
    return made;
}

/* With the lock. */
void tell_udev(struct device *device, bool is_arrival)
{
    uint64_t one = 1;
    if (watched < 0 || event_count == MOST_EVENTS)
        return;
    events[event_count++] = make_device(device, is_arrival ? "add" : "remove");
    if (write(watched, &one, sizeof one) != sizeof one)
        abort();
}

/* Until libusb has taken the news up, and waits again. */
void wait_until_told(void)
{
    struct timespec end;
    clock_gettime(CLOCK_REALTIME, &end);
    end.tv_sec += PATIENCE;
    pthread_mutex_lock(&faked_lock);
    while (watched >= 0 && (event_count || !is_watching))
        if (pthread_cond_timedwait(&changed, &faked_lock, &end))
            break;
    pthread_mutex_unlock(&faked_lock);
}

struct udev *udev_new(void)
{
    return calloc(1, sizeof(struct udev));
}

struct udev *udev_unref(struct udev *udev)
{
    free(udev);
    return NULL;
}

/* libusb's first context begins. */
struct udev_monitor *udev_monitor_new_from_netlink(struct udev *udev, const char *name)
{
    struct udev_monitor *made = calloc(1, sizeof *made);
    (void)udev;
    (void)name;
    begin_devices();
    pthread_mutex_lock(&faked_lock);
    if (made)
        made->descriptor = watched = eventfd(0, EFD_NONBLOCK | EFD_CLOEXEC);
    pthread_mutex_unlock(&faked_lock);
    return made;
}

struct udev_monitor *udev_monitor_unref(struct udev_monitor *monitor)
{
    pthread_mutex_lock(&faked_lock);
    while (event_count)
        free(events[--event_count]);
    watched = -1;
    is_watching = 0;
    pthread_mutex_unlock(&faked_lock);
    close(monitor->descriptor);
    free(monitor);
    return NULL;
}

int udev_monitor_filter_add_match_subsystem_devtype(struct udev_monitor *monitor, const char *subsystem, const char *kind)
{
    (void)monitor;
    (void)subsystem;
    (void)kind;
    return 0;
}

int udev_monitor_enable_receiving(struct udev_monitor *monitor)
{
    (void)monitor;
    return 0;
}

int udev_monitor_get_fd(struct udev_monitor *monitor)
{
    return monitor->descriptor;
}

/* The earliest news, or NULL where there is none, and for no monitor: libusb asks for news when it watches no more. */
struct udev_device *udev_monitor_receive_device(struct udev_monitor *monitor)
{
    struct udev_device *first = NULL;
    uint64_t some;
    if (!monitor)
        return NULL;
    pthread_mutex_lock(&faked_lock);
    if (event_count) {
        first = events[0];
        memmove(events, events + 1, (size_t)--event_count * sizeof *events);
    }
    if (!event_count && read(monitor->descriptor, &some, sizeof some) < 0)
        some = 0;
    pthread_mutex_unlock(&faked_lock);
    return first;
}

const char *udev_device_get_action(struct udev_device *device)
{
    return device->action;
}

const char *udev_device_get_sysname(struct udev_device *device)
{
    return device->name;
}

const char *udev_device_get_devnode(struct udev_device *device)
{
    return device->node;
}

struct udev_device *udev_device_unref(struct udev_device *device)
{
    free(device);
    return NULL;
}

struct udev_device *udev_device_new_from_syspath(struct udev *udev, const char *path)
{
    (void)udev;
    const char *port = strrchr(path, '-');
    pthread_mutex_lock(&faked_lock);
    struct udev_device *made = make_device(port ? device_at_port((unsigned)atoi(port + 1)) : NULL, NULL);
    pthread_mutex_unlock(&faked_lock);
    return made;
}

struct udev_enumerate *udev_enumerate_new(struct udev *udev)
{
    (void)udev;
    return calloc(1, sizeof(struct udev_enumerate));
}

struct udev_enumerate *udev_enumerate_unref(struct udev_enumerate *enumerate)
{
    free(enumerate);
    return NULL;
}

int udev_enumerate_add_match_subsystem(struct udev_enumerate *enumerate, const char *subsystem)
{
    (void)enumerate;
    (void)subsystem;
    return 0;
}

int udev_enumerate_add_match_property(struct udev_enumerate *enumerate, const char *property, const char *value)
{
    (void)enumerate;
    (void)property;
    (void)value;
    return 0;
}

int udev_enumerate_scan_devices(struct udev_enumerate *enumerate)
{
    struct udev_list_entry *last = &enumerate->entries[0];
    pthread_mutex_lock(&faked_lock);
    strcpy(last->path, "/sys/bus/usb/devices/usb1");
    for (int i = 0; i < DEVICES; i++) {
        struct udev_list_entry *it = &enumerate->entries[1 + i];
        if (!is_present(&faked_devices[i]))
            continue;
        snprintf(it->path, sizeof it->path, "/sys/bus/usb/devices/1-%u", faked_devices[i].port);
        last->next = it;
        last = it;
    }
    pthread_mutex_unlock(&faked_lock);
    return 0;
}

struct udev_list_entry *udev_enumerate_get_list_entry(struct udev_enumerate *enumerate)
{
    return enumerate->entries;
}

const char *udev_list_entry_get_name(struct udev_list_entry *entry)
{
    return entry->path;
}

struct udev_list_entry *udev_list_entry_get_next(struct udev_list_entry *entry)
{
    return entry->next;
}

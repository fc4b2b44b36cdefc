/* The handles. One that is read-locked stays open; who closes it holds its lock for writing, so that nobody calls it meanwhile. */
#include "fuzz.h"

#define HANDLES 14

static struct handle {
    pthread_rwlock_t lock;
    libusb_device_handle *it;
    struct plugs plugs;
    atomic_int sent; /* transfers of `send_one` that aren't called back yet */
} handles[HANDLES];

libusb_device_handle *handle_at(int place) { return handles[place].it; }
int device_at(int place) { return handles[place].plugs.device; }
const struct plugs *plugs_at(int place) { return &handles[place].plugs; }
libusb_context *context_at(int place) { return contexts[place % CONTEXTS]; }
void let_go(int place) { pthread_rwlock_unlock(&handles[place].lock); }
void sent_by(int place, int more) { atomic_fetch_add(&handles[place].sent, more); }

void begin_handles(void)
{
    for (int i = 0; i < HANDLES; i++)
        if (pthread_rwlock_init(&handles[i].lock, NULL))
            fail("no lock");
}

bool hold_this(int place)
{
    if (pthread_rwlock_tryrdlock(&handles[place].lock))
        return false;
    if (handles[place].it)
        return true;
    let_go(place);
    return false;
}

/* Some open handle, which stays open until it is let go; -1 for none. */
int hold_handle(void)
{
    unsigned first = roll(HANDLES);
    for (unsigned i = 0; i < HANDLES; i++)
        if (hold_this((int)((first + i) % HANDLES)))
            return (int)((first + i) % HANDLES);
    return -1;
}

static void open_at(struct handle *handle, libusb_context *context)
{
    libusb_device **list;
    ssize_t count = libusb_get_device_list(context, &list);
    if (count < 0)
        fail("device list: %s", libusb_error_name((int)count));
    if (count > 0) {
        libusb_device *device = list[roll((unsigned)count)];
        begin_plugs(number_of(device), &handle->plugs);
        int r = libusb_open(device, &handle->it);
        end_plugs(&handle->plugs);
        if (r)
            handle->it = NULL;
        else if (number_of(libusb_get_device(handle->it)) != handle->plugs.device)
            fail("a handle of another device");
        if (r && r != (number_of(device) == DEVICES ? LIBUSB_ERROR_ACCESS : LIBUSB_ERROR_NO_DEVICE))
            fail("open: %s", libusb_error_name(r));
    }
    libusb_free_device_list(list, 1);
}

void open_one(void)
{
    unsigned place = roll(HANDLES);
    if (pthread_rwlock_trywrlock(&handles[place].lock))
        return;
    if (!handles[place].it)
        open_at(&handles[place], context_at((int)place));
    let_go((int)place);
}

/* With the lock for writing. What is in flight is dropped: no callback of it comes any more. */
static void close_at(int place)
{
    if (!handles[place].it || atomic_load(&handles[place].sent))
        return;
    libusb_close(handles[place].it);
    handles[place].it = NULL;
    drop_those_of(place);
}

static void try_close(int place)
{
    if (pthread_rwlock_trywrlock(&handles[place].lock))
        return;
    close_at(place);
    let_go(place);
}

/* Where its device has left it is closed the sooner, so that the one that came back is opened. */
void close_one(void)
{
    int place = (int)roll(HANDLES);
    if (pthread_rwlock_trywrlock(&handles[place].lock))
        return;
    if (!roll(3) || has_left(&handles[place].plugs))
        close_at(place);
    let_go(place);
}

/* In a callback: a close waits for callbacks of other threads, so that two that close the other's context's would wait for ever. */
void close_of_context(int context)
{
    try_close((int)roll(HANDLES / CONTEXTS) * CONTEXTS + context);
}

void close_all(void)
{
    for (int i = 0; i < HANDLES; i++) {
        close_at(i);
        if (handles[i].it)
            fail("%d transfers of a handle weren't called back", atomic_load(&handles[i].sent));
    }
}

/* Where the device has left, a call says so; and else it doesn't. */
static void expect(int place, int r, int said, bool is_sure, const char *call)
{
    if (is_sure && r != said)
        fail("%s of device %d, which has left: %s", call, device_at(place), libusb_error_name(r));
    if (r == LIBUSB_ERROR_NO_DEVICE && !may_have_left(plugs_at(place)))
        fail("%s: device %d is said to be gone", call, device_at(place));
}

/* What was claimed stays so until the device is plugged in again. */
static void claim_or_release(int place)
{
    int interface = (int)roll(2);
    bool is_sure = was_replaced(plugs_at(place));
    if (roll(8))
        expect(place, libusb_claim_interface(handle_at(place), interface), LIBUSB_ERROR_NO_DEVICE, is_sure, "claim");
    else
        libusb_release_interface(handle_at(place), interface);
}

static void clear_one(int place)
{
    uint8_t ep = (uint8_t[]){ 0x81, 0x02, 0x83 }[roll(3)];
    bool is_sure = has_left(plugs_at(place));
    expect(place, libusb_clear_halt(handle_at(place), ep), LIBUSB_ERROR_NO_DEVICE, is_sure, "clear_halt");
}

/* libusb says of a device that has left that it isn't found. */
static void reset_one(int place)
{
    bool is_sure = has_left(plugs_at(place));
    expect(place, libusb_reset_device(handle_at(place)), LIBUSB_ERROR_NOT_FOUND, is_sure, "reset_device");
}

/* Calls of a handle that end at once. */
void call_handle(void)
{
    int place = hold_handle(), configuration;
    if (place < 0)
        return;
    libusb_device_handle *handle = handle_at(place);
    bool may_reset = device_at(place) == RENEWED || device_at(place) >= SCRIPTED;
    switch (roll(may_reset ? 14 : 12)) {
    case 0: case 8: case 9: clear_one(place); break;
    case 1: libusb_get_configuration(handle, &configuration); break;
    case 2: libusb_kernel_driver_active(handle, (int)roll(2)); break;
    case 3: libusb_detach_kernel_driver(handle, (int)roll(2)); break;
    case 4: libusb_attach_kernel_driver(handle, (int)roll(2)); break;
    case 5: libusb_set_auto_detach_kernel_driver(handle, (int)roll(2)); break;
    case 6: libusb_set_interface_alt_setting(handle, (int)roll(2), 0); break;
    case 12: reset_one(place); break;
    case 13: libusb_set_configuration(handle, 1); break;
    default: claim_or_release(place); break;
    }
    let_go(place);
}

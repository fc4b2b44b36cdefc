/* Transfers that are waited for, and contexts that are one thread's own from their beginning to their end. */
#include "fuzz.h"

#include <stdlib.h>

#define KEPT 4

/* Devices whose context has ended. libusb warns of such; here the last reference takes the context's memory with it. */
static _Atomic(libusb_device *) kept[KEPT];

static unsigned some_time(void)
{
    return 1 + roll(12);
}

/* What such a call may answer. */
static void expect(int r, int place, bool had_left, const char *call)
{
    if (had_left && r != LIBUSB_ERROR_NO_DEVICE)
        fail("%s of device %d, which has left: %s", call, device_at(place), libusb_error_name(r));
    switch (r) {
    case LIBUSB_SUCCESS: case LIBUSB_ERROR_TIMEOUT: case LIBUSB_ERROR_PIPE: case LIBUSB_ERROR_IO: case LIBUSB_ERROR_BUSY:
    case LIBUSB_ERROR_NOT_FOUND: case LIBUSB_ERROR_INTERRUPTED: case LIBUSB_ERROR_OVERFLOW:
        return;
    case LIBUSB_ERROR_NO_DEVICE:
        if (may_have_left(plugs_at(place)))
            return;
        break;
    }
    if (r < 0)
        fail("%s: %s", call, libusb_error_name(r));
}

void read_and_wait(void)
{
    unsigned char data[MOST_BYTES];
    int place = hold_handle(), moved = 0, length = PACKET * (1 + (int)roll(MOST_BYTES / PACKET));
    if (place < 0)
        return;
    uint8_t ep = roll(2) ? 0x81 : 0x83;
    bool had_left = has_left(plugs_at(place));
    int r = ep == 0x81 ? libusb_bulk_transfer(handle_at(place), ep, data, length, &moved, some_time())
                       : libusb_interrupt_transfer(handle_at(place), ep, data, length, &moved, some_time());
    expect(r, place, had_left, "read");
    check_read(device_at(place), ep, data, moved);
    let_go(place);
}

void write_and_wait(void)
{
    unsigned char data[MOST_BYTES];
    int place = hold_handle(), moved = 0, length = PACKET / 2 * (1 + (int)roll(2 * MOST_BYTES / PACKET));
    if (place < 0)
        return;
    uint32_t serial = fill_write(device_at(place), data, length);
    bool had_left = has_left(plugs_at(place));
    int r = libusb_bulk_transfer(handle_at(place), 0x02, data, length, &moved, some_time());
    expect(r, place, had_left, "write");
    if (!r && moved != length)
        fail("%d bytes of %d were written", moved, length);
    wrote(serial, moved);
    let_go(place);
}

/* Control requests. */
void request_and_wait(void)
{
    unsigned char data[64] = { 0 };
    int place = hold_handle(), r;
    if (place < 0)
        return;
    libusb_device_handle *handle = handle_at(place);
    bool had_left = has_left(plugs_at(place));
    if (roll(2)) {
        r = libusb_get_string_descriptor_ascii(handle, 2, data, sizeof data);
        if (r >= 0 && (r != 4 || data[0] != 'F'))
            fail("a string of %d bytes", r);
    } else {
        r = libusb_control_transfer(handle, 0xc0, 1, 0, 0, data, 8, some_time());
        if (r >= 0 && (r != 8 || data[7] != 8))
            fail("a request gave %d bytes", r);
    }
    expect(r, place, had_left, "control");
    let_go(place);
}

static void on_done(struct libusb_transfer *transfer)
{
    __atomic_store_n((int *)transfer->user_data, 1, __ATOMIC_RELEASE);
}

/* As the manual has a wait for a transfer, while others handle events too. */
void wait_by_hand(void)
{
    unsigned char data[2 * PACKET];
    int place = hold_handle(), done = 0;
    if (place < 0)
        return;
    struct libusb_transfer *transfer = libusb_alloc_transfer(0);
    if (!transfer)
        fail("no memory");
    libusb_fill_bulk_transfer(transfer, handle_at(place), 0x81, data, sizeof data, on_done, &done, some_time());
    if (!libusb_submit_transfer(transfer)) {
        while (!__atomic_load_n(&done, __ATOMIC_ACQUIRE)) {
            int r = libusb_handle_events_completed(context_at(place), &done);
            if (r && r != LIBUSB_ERROR_INTERRUPTED)
                fail("handle_events_completed: %s", libusb_error_name(r));
        }
        check_read(device_at(place), 0x81, data, transfer->actual_length);
    }
    libusb_free_transfer(transfer);
    let_go(place);
}

/* A transfer of a context of one's own; it counts how often it is called back. */
static void on_own(struct libusb_transfer *transfer)
{
    ++*(int *)transfer->user_data;
}

/* It is cancelled and waited for; or its handle is closed first, and it never comes. */
static void submit_own(libusb_context *context, libusb_device_handle *handle)
{
    unsigned char data[PACKET];
    int calls = 0;
    struct libusb_transfer *transfer = libusb_alloc_transfer(0);
    if (!transfer)
        fail("no memory");
    libusb_fill_control_setup(data, 0x40, 2, 0, 0, 0);
    libusb_fill_control_transfer(transfer, handle, data, on_own, &calls, 0);
    int r = libusb_submit_transfer(transfer);
    bool is_closed = roll(2);
    if (!r && !is_closed) {
        libusb_cancel_transfer(transfer);
        for (int i = 0; i < 4000 && !calls; i++)
            libusb_handle_events_timeout(context, &(struct timeval){ 0, 2000 });
    }
    int before = calls;
    libusb_close(handle);
    libusb_handle_events_timeout(context, &(struct timeval){ 0, 0 });
    if (calls != before || calls > 1 || (calls == 0 && !r && !is_closed))
        fail("a transfer of a context of its own was called back %d times, %d of them before the close", calls, before);
    libusb_free_transfer(transfer);
}

void let_one_go(void)
{
    libusb_unref_device(atomic_exchange(&kept[roll(KEPT)], NULL));
}

void let_all_go(void)
{
    for (int i = 0; i < KEPT; i++)
        libusb_unref_device(atomic_exchange(&kept[i], NULL));
}

static void keep_one(libusb_device *device)
{
    libusb_unref_device(atomic_exchange(&kept[roll(KEPT)], libusb_ref_device(device)));
}

void visit(void)
{
    libusb_context *context = NULL;
    libusb_device_handle *handle = NULL;
    libusb_device **list;
    if (libusb_init(&context))
        fail("init");
    ssize_t count = libusb_get_device_list(context, &list);
    for (unsigned i = roll(3); count > 0 && i > 0; i--)
        keep_one(list[roll((unsigned)count)]);
    if (count > 0 && roll(3) && !libusb_open(list[roll((unsigned)count)], &handle) && roll(4))
        submit_own(context, handle);
    if (count >= 0)
        libusb_free_device_list(list, 1);
    libusb_exit(context);
}

/* The default context, which several threads begin and end: it is there as long as one of them has it. */
void visit_usual(void)
{
    libusb_device **list;
    if (libusb_init(NULL))
        fail("init of the default context");
    if (roll(2))
        libusb_handle_events_timeout(NULL, &(struct timeval){ 0, (int)roll(1000) });
    if (libusb_get_device_list(NULL, &list) >= 0)
        libusb_free_device_list(list, 1);
    libusb_exit(NULL);
}

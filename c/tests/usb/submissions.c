/* Counts the bulk and interrupt transfers that a scene submits, for tools/c_test.py, which compares that with the run's traces. Each that is
 * accepted adds a + to the file that SCENE_SUBMISSIONS names, and so does a call that waited for one and went well. Each that is cancelled
 * adds a -, since it may not have come to the core so far. They stand there however the run ends. Not counted is what has no trace by
 * TIRNOUCH_TRACE: a bus of tirnouch_begin, one where that isn't set, and what a child of fork does.
 *
 * The linker puts these functions before the library's own (--wrap). */
#include "libusb.h"
#include "tirnouch.h"

#include <fcntl.h>
#include <stdatomic.h>
#include <stdbool.h>
#include <stdlib.h>
#include <unistd.h>

int __real_libusb_submit_transfer(struct libusb_transfer *transfer);
int __wrap_libusb_submit_transfer(struct libusb_transfer *transfer);
int __real_libusb_cancel_transfer(struct libusb_transfer *transfer);
int __wrap_libusb_cancel_transfer(struct libusb_transfer *transfer);
int __real_libusb_bulk_transfer(libusb_device_handle *of, unsigned char ep, unsigned char *data, int length, int *moved, unsigned timeout);
int __wrap_libusb_bulk_transfer(libusb_device_handle *of, unsigned char ep, unsigned char *data, int length, int *moved, unsigned timeout);
int __real_libusb_interrupt_transfer(libusb_device_handle *of, unsigned char ep, unsigned char *data, int length, int *moved,
                                     unsigned timeout);
int __wrap_libusb_interrupt_transfer(libusb_device_handle *of, unsigned char ep, unsigned char *data, int length, int *moved,
                                     unsigned timeout);
int __real_tirnouch_begin(const struct tirnouch_options *options);
int __wrap_tirnouch_begin(const struct tirnouch_options *options);
int __real_tirnouch_end(void);
int __wrap_tirnouch_end(void);

static pid_t owner;
static atomic_bool is_of_program;
/* Whether the next transfer that this thread submits is that of a call that waits for it, where the linker finds that one too. */
static _Thread_local bool waits;

__attribute__((constructor)) static void know_owner(void)
{
    owner = getpid();
}

static void count(char sign)
{
    const char *name = getenv("SCENE_SUBMISSIONS");
    if (!name || !getenv("TIRNOUCH_TRACE") || is_of_program || getpid() != owner)
        return;
    int file = open(name, O_WRONLY | O_CREAT | O_APPEND | O_CLOEXEC, 0666);
    if (file < 0 || write(file, &sign, 1) != 1)
        abort();
    close(file);
}

int __wrap_libusb_submit_transfer(struct libusb_transfer *transfer)
{
    bool is_counted = transfer->type != LIBUSB_TRANSFER_TYPE_CONTROL && !waits;
    waits = false;
    int result = __real_libusb_submit_transfer(transfer);
    if (!result && is_counted)
        count('+');
    return result;
}

int __wrap_libusb_cancel_transfer(struct libusb_transfer *transfer)
{
    int result = __real_libusb_cancel_transfer(transfer);
    if (!result)
        count('-');
    return result;
}

static int count_waited(int result)
{
    waits = false;
    if (!result)
        count('+');
    return result;
}

int __wrap_libusb_bulk_transfer(libusb_device_handle *of, unsigned char ep, unsigned char *data, int length, int *moved, unsigned timeout)
{
    waits = true;
    return count_waited(__real_libusb_bulk_transfer(of, ep, data, length, moved, timeout));
}

int __wrap_libusb_interrupt_transfer(libusb_device_handle *of, unsigned char ep, unsigned char *data, int length, int *moved,
                                     unsigned timeout)
{
    waits = true;
    return count_waited(__real_libusb_interrupt_transfer(of, ep, data, length, moved, timeout));
}

int __wrap_tirnouch_begin(const struct tirnouch_options *options)
{
    int result = __real_tirnouch_begin(options);
    if (!result)
        is_of_program = true;
    return result;
}

int __wrap_tirnouch_end(void)
{
    int result = __real_tirnouch_end();
    if (!result)
        is_of_program = false;
    return result;
}

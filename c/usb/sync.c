/* Transfers that are waited for, over those that aren't (libusb 1.0, "Synchronous device I/O"). */
#include "bus.h"

#include <errno.h>
#include <stdlib.h>
#include <string.h>

static void complete(struct libusb_transfer *transfer)
{
    __atomic_store_n((int *)transfer->user_data, 1, __ATOMIC_RELEASE);
}

bool is_awaited(const struct libusb_transfer *transfer) { return transfer->callback == complete; }

const char *name_of_awaited(const struct libusb_transfer *transfer)
{
    return transfer->type == LIBUSB_TRANSFER_TYPE_CONTROL ? "libusb_control_transfer"
           : transfer->type == LIBUSB_TRANSFER_TYPE_BULK  ? "libusb_bulk_transfer"
                                                          : "libusb_interrupt_transfer";
}

/* A callback may not wait for another, nor may a device's function; `function` is what it calls. */
static bool may_not_wait(struct libusb_context *context, const char *function)
{
    if (!lock_unless_asked_for(function))
        return true;
    bool r = is_handler(context) && context->is_calling;
    unlock_alone();
    return r;
}

/* Where the handle is closed meanwhile, the transfer was dropped. */
static void await(struct libusb_transfer *transfer, struct libusb_context *context, int *completed)
{
    while (!is_set(completed)) {
        int r = libusb_handle_events_completed(context, completed);
        if (r < 0 && r != LIBUSB_ERROR_INTERRUPTED)
            libusb_cancel_transfer(transfer);
        if (!is_set(completed) && !__atomic_load_n(&transfer->dev_handle, __ATOMIC_ACQUIRE)) {
            transfer->status = LIBUSB_TRANSFER_NO_DEVICE;
            transfer->actual_length = 0;
            return;
        }
    }
}

static int error_of(enum libusb_transfer_status status)
{
    switch (status) {
    case LIBUSB_TRANSFER_COMPLETED: return 0;
    case LIBUSB_TRANSFER_TIMED_OUT: return LIBUSB_ERROR_TIMEOUT;
    case LIBUSB_TRANSFER_STALL: return LIBUSB_ERROR_PIPE;
    case LIBUSB_TRANSFER_NO_DEVICE: return LIBUSB_ERROR_NO_DEVICE;
    case LIBUSB_TRANSFER_OVERFLOW: return LIBUSB_ERROR_OVERFLOW;
    case LIBUSB_TRANSFER_ERROR:
    case LIBUSB_TRANSFER_CANCELLED: return LIBUSB_ERROR_IO;
    }
    return LIBUSB_ERROR_OTHER;
}

static void note_end(struct libusb_context *context, const struct libusb_transfer *transfer, int answer, const char *function)
{
    const unsigned char *setup = transfer->buffer;
    lock();
    if (transfer->type != LIBUSB_TRANSFER_TYPE_CONTROL)
        note_call(context, answer, function, "endpoint %02x, %d bytes, timeout %u, moved %d", transfer->endpoint, transfer->length,
                  transfer->timeout, transfer->actual_length);
    else
        note_call(context, answer, function, "%02x %02x %04x %04x, %u bytes, timeout %u, moved %d", setup[0], setup[1], two_bytes(setup + 2),
                  two_bytes(setup + 4), two_bytes(setup + 6), transfer->timeout, transfer->actual_length);
    unlock();
}

/* Submits it and waits for its end. What is left in errno is what libusb leaves there, which asks the system until nothing is left. */
static int carry_out(struct libusb_transfer *transfer, struct libusb_context *context, int *completed)
{
    int r = libusb_submit_transfer(transfer);
    if (r)
        return r;
    await(transfer, context, completed);
    errno = EAGAIN;
    return error_of(transfer->status);
}

/* The most bytes of a request's data for which no memory is asked for: what most requests have, as USB 2.0, 5.5.3 limits a packet of theirs. */
#define FEW_BYTES 64

int libusb_control_transfer(libusb_device_handle *handle, uint8_t type, uint8_t request, uint16_t value, uint16_t index,
                            unsigned char *data, uint16_t length, unsigned int timeout)
{
    struct libusb_context *context = handle->context;
    int completed = 0;
    if (may_not_wait(context, __func__))
        return refuse_wait(context, __func__, 0);
    struct libusb_transfer *transfer = libusb_alloc_transfer(0);
    unsigned char few[LIBUSB_CONTROL_SETUP_SIZE + FEW_BYTES];
    unsigned char *buffer = length <= FEW_BYTES ? few : malloc(LIBUSB_CONTROL_SETUP_SIZE + length);
    int r = transfer && buffer ? 0 : LIBUSB_ERROR_NO_MEM;
    if (!r) {
        libusb_fill_control_setup(buffer, type, request, value, index, length);
        if (!(type & LIBUSB_ENDPOINT_IN) && length)
            memcpy(buffer + LIBUSB_CONTROL_SETUP_SIZE, data, length);
        libusb_fill_control_transfer(transfer, handle, buffer, complete, &completed, timeout);
        r = carry_out(transfer, context, &completed);
        if (is_told(context, r))
            note_end(context, transfer, r, __func__);
    }
    if (!r) {
        r = transfer->actual_length;
        if (type & LIBUSB_ENDPOINT_IN && r)
            memcpy(data, buffer + LIBUSB_CONTROL_SETUP_SIZE, (size_t)r);
    }
    if (buffer != few)
        free(buffer);
    libusb_free_transfer(transfer);
    return r;
}

static int move(libusb_device_handle *handle, uint8_t ep, uint8_t type, unsigned char *data, int length, int *moved, unsigned timeout,
                const char *function)
{
    struct libusb_context *context = handle->context;
    int completed = 0;
    if (may_not_wait(context, function))
        return refuse_wait(context, function, ep);
    struct libusb_transfer *transfer = libusb_alloc_transfer(0);
    if (!transfer)
        return LIBUSB_ERROR_NO_MEM;
    libusb_fill_bulk_transfer(transfer, handle, ep, data, length, complete, &completed, timeout);
    transfer->type = type;
    int r = carry_out(transfer, context, &completed);
    if (is_told(context, r))
        note_end(context, transfer, r, function);
    if (moved)
        *moved = transfer->actual_length;
    libusb_free_transfer(transfer);
    return r;
}

int libusb_bulk_transfer(libusb_device_handle *handle, unsigned char ep, unsigned char *data, int length, int *moved, unsigned timeout)
{
    return move(handle, ep, LIBUSB_TRANSFER_TYPE_BULK, data, length, moved, timeout, __func__);
}

int libusb_interrupt_transfer(libusb_device_handle *handle, unsigned char ep, unsigned char *data, int length, int *moved,
                              unsigned timeout)
{
    return move(handle, ep, LIBUSB_TRANSFER_TYPE_INTERRUPT, data, length, moved, timeout, __func__);
}

/* Transfers: each submission, and the callback that ends it (libusb 1.0, "Asynchronous device I/O"). */
#include "record.h"

#include <errno.h>

/* Whose it is, and its first id; false where the device isn't recorded. Of a bulk transfer at an interrupt endpoint the kernel makes an
 * interrupt one (Linux, drivers/usb/core/devio.c, proc_do_submiturb). */
bool begin_flight(struct flight *flight, libusb_device_handle *handle, enum mon_type type, uint8_t ep, uint32_t length)
{
    struct libusb_device_descriptor seen;
    libusb_device *device = handle ? libusb_get_device(handle) : NULL;
    if (!is_recording() || !device || libusb_get_device_descriptor(device, &seen) || !is_wanted(seen.idVendor, seen.idProduct))
        return false;
    int packet = type == MON_CONTROL ? 0 : libusb_get_max_packet_size(device, ep);
    if (type == MON_BULK && is_interrupt_endpoint(handle, ep))
        type = MON_INTERRUPT;
    *flight = (struct flight){ .id = new_ids(piece_count(length)), .type = type, .endpoint = ep, .length = length,
                               .bus = libusb_get_bus_number(device), .device = libusb_get_device_address(device),
                               .packet = (uint16_t)(packet > 0 ? packet : 0) };
    return true;
}

/* A read that got less than it asked for, where that was an error: the kernel calls it EREMOTEIO. */
static bool is_short(const struct flying *flying, uint32_t moved)
{
    return flying->flight.flags & LIBUSB_TRANSFER_SHORT_NOT_OK && moved < flying->flight.length &&
           (!flying->flight.packet || moved % flying->flight.packet);
}

/* What the kernel says of a URB that libusb tells of so. */
static int status_of(const struct flying *flying, uint32_t moved)
{
    switch (flying->transfer->status) {
    case LIBUSB_TRANSFER_COMPLETED: return 0;
    case LIBUSB_TRANSFER_STALL: return -EPIPE;
    case LIBUSB_TRANSFER_OVERFLOW: return -EOVERFLOW;
    case LIBUSB_TRANSFER_NO_DEVICE: return -ESHUTDOWN;
    case LIBUSB_TRANSFER_ERROR: return is_short(flying, moved) ? -EREMOTEIO : -EPROTO;
    case LIBUSB_TRANSFER_CANCELLED:
    case LIBUSB_TRANSFER_TIMED_OUT: return -ENOENT;
    }
    return -EPROTO;
}

static uint8_t *data_of(const struct libusb_transfer *transfer)
{
    bool is_request = transfer->type == LIBUSB_TRANSFER_TYPE_CONTROL;
    return transfer->buffer ? transfer->buffer + (is_request ? LIBUSB_CONTROL_SETUP_SIZE : 0) : NULL;
}

/* Called in place of the program's callback, which is given back before it is called: there the transfer may be submitted again, or
 * freed. */
void LIBUSB_CALL on_end(struct libusb_transfer *transfer)
{
    struct flying flying;
    if (!take_flying(transfer, &flying)) {
        tell_fault("a transfer", "it ended twice, and its callback isn't known");
        return;
    }
    uint32_t moved = transfer->actual_length > 0 ? (uint32_t)transfer->actual_length : 0;
    record_end(&flying.flight, status_of(&flying, moved), moved, data_of(transfer));
    transfer->callback = flying.callback;
    if (transfer->callback)
        transfer->callback(transfer);
}

/* usbmon's type; 0 for isochronous transfers, which aren't recorded. */
static enum mon_type type_of(const struct libusb_transfer *transfer)
{
    switch ((enum libusb_transfer_type)transfer->type) {
    case LIBUSB_TRANSFER_TYPE_CONTROL: return MON_CONTROL;
    case LIBUSB_TRANSFER_TYPE_INTERRUPT: return MON_INTERRUPT;
    case LIBUSB_TRANSFER_TYPE_BULK:
    case LIBUSB_TRANSFER_TYPE_BULK_STREAM: return MON_BULK;
    case LIBUSB_TRANSFER_TYPE_ISOCHRONOUS: break;
    }
    return MON_NONE;
}

/* How much it asks for, or sends: of a request by its setup packet. Below 0 where its buffer isn't for that. */
static int length_of(const struct libusb_transfer *transfer)
{
    const uint8_t *setup = transfer->buffer;
    if (!setup && transfer->length)
        return -1;
    if (transfer->type != LIBUSB_TRANSFER_TYPE_CONTROL)
        return transfer->length;
    if (transfer->length < (int)LIBUSB_CONTROL_SETUP_SIZE)
        return -1;
    int length = setup[6] | setup[7] << 8;
    return transfer->length - (int)LIBUSB_CONTROL_SETUP_SIZE >= length ? length : -1;
}

static bool begin_transfer(struct flight *flight, const struct libusb_transfer *transfer)
{
    enum mon_type type = type_of(transfer);
    int length = length_of(transfer);
    if (type == MON_NONE || length < 0)
        return false;
    uint8_t ep = type == MON_CONTROL ? transfer->buffer[0] & LIBUSB_ENDPOINT_IN : transfer->endpoint;
    if (!begin_flight(flight, transfer->dev_handle, type, ep, (uint32_t)length))
        return false;
    flight->flags = transfer->flags;
    return true;
}

/* It stands in the capture before libusb is asked, since it may end, in another thread, before that answers. */
int libusb_submit_transfer(struct libusb_transfer *transfer)
{
    struct flying now = { .transfer = transfer, .callback = transfer->callback }, before;
    if (is_of_call(transfer) || !begin_transfer(&now.flight, transfer))
        return real()->submit_transfer(transfer);
    if (!put_flying(&now, &before)) {
        tell_fault("a transfer", "it isn't recorded: there is no memory for it");
        return real()->submit_transfer(transfer);
    }
    record_submission(&now.flight, now.flight.type == MON_CONTROL ? transfer->buffer : NULL, data_of(transfer));
    transfer->callback = on_end;
    int r = real()->submit_transfer(transfer);
    if (r) {
        record_refusal(&now.flight, -EIO);
        take_back_flying(transfer, &before);
        transfer->callback = before.transfer ? on_end : now.callback;
    }
    return r;
}

/* One that libusb_close has dropped is called back no more. */
void libusb_free_transfer(struct libusb_transfer *transfer)
{
    struct flying last;
    if (transfer)
        take_flying(transfer, &last);
    real()->free_transfer(transfer);
}

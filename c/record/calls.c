/* Calls that wait (libusb 1.0, "Synchronous device I/O"), and those for which the kernel makes a request ("Device handling"). */
#include "record.h"

#include <errno.h>
#include <string.h>

/* A synchronous call stands in the capture by itself. Where libusb makes it of a submission by the name that this library has too, that
 * submission is the first one of this thread within the call, and is passed over. */
struct call {
    libusb_device_handle *handle;
    const uint8_t *setup; /* of a request, else NULL */
    const unsigned char *data;
    int length;
    uint8_t ep;
    bool is_met;
};

static _Thread_local struct call *current;

bool is_of_call(const struct libusb_transfer *transfer)
{
    struct call *it = current;
    if (!it || it->is_met || transfer->dev_handle != it->handle)
        return false;
    bool is_request = transfer->type == LIBUSB_TRANSFER_TYPE_CONTROL;
    if (is_request && it->setup)
        it->is_met = transfer->buffer && !memcmp(transfer->buffer, it->setup, LIBUSB_CONTROL_SETUP_SIZE);
    else if (!is_request && !it->setup)
        it->is_met = transfer->buffer == it->data && transfer->endpoint == it->ep && transfer->length == it->length;
    return it->is_met;
}

/* What the kernel says of a URB where libusb answers so; 0 where the call was refused before there was one. */
static int status_of(int answer)
{
    switch (answer) {
    case LIBUSB_ERROR_PIPE: return -EPIPE;
    case LIBUSB_ERROR_TIMEOUT: return -ENOENT;
    case LIBUSB_ERROR_OVERFLOW: return -EOVERFLOW;
    case LIBUSB_ERROR_NO_DEVICE: return -ESHUTDOWN;
    case LIBUSB_ERROR_IO: return -EPROTO;
    default: return 0;
    }
}

static int refusal_of(int answer)
{
    switch (answer) {
    case LIBUSB_ERROR_INVALID_PARAM: return -EINVAL;
    case LIBUSB_ERROR_ACCESS: return -EACCES;
    case LIBUSB_ERROR_NOT_FOUND: return -ENOENT;
    case LIBUSB_ERROR_BUSY: return -EBUSY;
    case LIBUSB_ERROR_NO_MEM: return -ENOMEM;
    default: return -EIO;
    }
}

static void end_call(const struct flight *flight, int answer, uint32_t moved, const uint8_t *data)
{
    if (answer >= 0)
        record_end(flight, 0, moved, data);
    else if (status_of(answer))
        record_end(flight, status_of(answer), moved, data);
    else
        record_refusal(flight, refusal_of(answer));
}

int libusb_control_transfer(libusb_device_handle *handle, uint8_t type, uint8_t request, uint16_t value, uint16_t index,
                            unsigned char *data, uint16_t length, unsigned int timeout)
{
    uint8_t setup[LIBUSB_CONTROL_SETUP_SIZE];
    struct flight flight;
    libusb_fill_control_setup(setup, type, request, value, index, length);
    if ((!data && length) || !begin_flight(&flight, handle, MON_CONTROL, type & LIBUSB_ENDPOINT_IN, length))
        return real()->control_transfer(handle, type, request, value, index, data, length, timeout);
    struct call call = { .handle = handle, .setup = setup }, *outer = current;
    record_submission(&flight, setup, data);
    current = &call;
    int r = real()->control_transfer(handle, type, request, value, index, data, length, timeout);
    current = outer;
    end_call(&flight, r, r > 0 ? (uint32_t)r : 0, data);
    return r;
}

typedef int move_function(libusb_device_handle *handle, unsigned char ep, unsigned char *data, int length, int *moved,
                          unsigned int timeout);

/* Where the program doesn't ask how much moved, it is asked for the capture. */
static int move(move_function *real_move, enum mon_type type, libusb_device_handle *handle, uint8_t ep, unsigned char *data, int length,
                int *moved, unsigned int timeout)
{
    struct flight flight;
    if ((!data && length) || length < 0 || !begin_flight(&flight, handle, type, ep, (uint32_t)length))
        return real_move(handle, ep, data, length, moved, timeout);
    struct call call = { .handle = handle, .data = data, .length = length, .ep = ep }, *outer = current;
    int own = 0, *counted = moved ? moved : &own;
    *counted = 0;
    record_submission(&flight, NULL, data);
    current = &call;
    int r = real_move(handle, ep, data, length, counted, timeout);
    current = outer;
    end_call(&flight, r, *counted > 0 ? (uint32_t)*counted : 0, data);
    return r;
}

int libusb_bulk_transfer(libusb_device_handle *handle, unsigned char ep, unsigned char *data, int length, int *moved, unsigned int timeout)
{
    return move(real()->bulk_transfer, MON_BULK, handle, ep, data, length, moved, timeout);
}

int libusb_interrupt_transfer(libusb_device_handle *handle, unsigned char ep, unsigned char *data, int length, int *moved,
                              unsigned int timeout)
{
    return move(real()->interrupt_transfer, MON_INTERRUPT, handle, ep, data, length, moved, timeout);
}

/* A request without data, which the kernel makes for a call: its beginning. */
static bool begin_request(struct flight *flight, libusb_device_handle *handle, uint8_t recipient, uint8_t request, uint16_t value,
                          uint16_t index)
{
    uint8_t setup[LIBUSB_CONTROL_SETUP_SIZE];
    if (!begin_flight(flight, handle, MON_CONTROL, LIBUSB_ENDPOINT_OUT, 0))
        return false;
    libusb_fill_control_setup(setup, recipient, request, value, index, 0);
    record_submission(flight, setup, NULL);
    return true;
}

int libusb_clear_halt(libusb_device_handle *handle, unsigned char ep)
{
    struct flight flight;
    bool is_begun = begin_request(&flight, handle, LIBUSB_RECIPIENT_ENDPOINT, LIBUSB_REQUEST_CLEAR_FEATURE, 0, ep);
    int r = real()->clear_halt(handle, ep);
    if (is_begun)
        end_call(&flight, r, 0, NULL);
    return r;
}

int libusb_set_configuration(libusb_device_handle *handle, int configuration)
{
    struct flight flight;
    uint16_t value = configuration > 0 ? (uint16_t)configuration : 0;
    bool is_begun = begin_request(&flight, handle, LIBUSB_RECIPIENT_DEVICE, LIBUSB_REQUEST_SET_CONFIGURATION, value, 0);
    int r = real()->set_configuration(handle, configuration);
    if (is_begun) {
        end_call(&flight, r, 0, NULL);
        if (!r)
            record_configuration(handle);
    }
    return r;
}

int libusb_set_interface_alt_setting(libusb_device_handle *handle, int interface, int setting)
{
    struct flight flight;
    bool is_begun = begin_request(&flight, handle, LIBUSB_RECIPIENT_INTERFACE, LIBUSB_REQUEST_SET_INTERFACE, (uint16_t)setting,
                                  (uint16_t)interface);
    int r = real()->set_interface_alt_setting(handle, interface, setting);
    if (is_begun)
        end_call(&flight, r, 0, NULL);
    return r;
}

/* Behind a reset the kernel sets the configuration that the device had (Linux, drivers/usb/core/hub.c, usb_reset_and_verify_device). */
int libusb_reset_device(libusb_device_handle *handle)
{
    struct flight flight;
    uint8_t value = handle ? configuration_of(handle) : 0;
    bool is_begun = value && begin_request(&flight, handle, LIBUSB_RECIPIENT_DEVICE, LIBUSB_REQUEST_SET_CONFIGURATION, value, 0);
    int r = real()->reset_device(handle);
    if (is_begun)
        end_call(&flight, r == LIBUSB_ERROR_NOT_FOUND ? LIBUSB_ERROR_NO_DEVICE : r, 0, NULL);
    return r;
}

int libusb_open(libusb_device *device, libusb_device_handle **handle)
{
    int r = real()->open(device, handle);
    if (!r)
        record_device(*handle);
    return r;
}

libusb_device_handle *libusb_open_device_with_vid_pid(libusb_context *context, uint16_t vendor, uint16_t product)
{
    libusb_device_handle *handle = real()->open_device_with_vid_pid(context, vendor, product);
    if (handle)
        record_device(handle);
    return handle;
}

int libusb_wrap_sys_device(libusb_context *context, intptr_t file, libusb_device_handle **handle)
{
    int r = real()->wrap_sys_device(context, file, handle);
    if (!r)
        record_device(*handle);
    return r;
}

/* What the library says of itself: the names of its errors, its version, and what it can do (libusb 1.0, "Library
 * initialization/deinitialization" and "Miscellaneous"). The errors' sentences are in languages.c. */
#include "bus.h"

static const struct {
    int code;
    const char *name;
} errors[LIBUSB_ERROR_COUNT] = {
    { LIBUSB_SUCCESS, "LIBUSB_SUCCESS / LIBUSB_TRANSFER_COMPLETED" },
    { LIBUSB_ERROR_IO, "LIBUSB_ERROR_IO" },
    { LIBUSB_ERROR_INVALID_PARAM, "LIBUSB_ERROR_INVALID_PARAM" },
    { LIBUSB_ERROR_ACCESS, "LIBUSB_ERROR_ACCESS" },
    { LIBUSB_ERROR_NO_DEVICE, "LIBUSB_ERROR_NO_DEVICE" },
    { LIBUSB_ERROR_NOT_FOUND, "LIBUSB_ERROR_NOT_FOUND" },
    { LIBUSB_ERROR_BUSY, "LIBUSB_ERROR_BUSY" },
    { LIBUSB_ERROR_TIMEOUT, "LIBUSB_ERROR_TIMEOUT" },
    { LIBUSB_ERROR_OVERFLOW, "LIBUSB_ERROR_OVERFLOW" },
    { LIBUSB_ERROR_PIPE, "LIBUSB_ERROR_PIPE" },
    { LIBUSB_ERROR_INTERRUPTED, "LIBUSB_ERROR_INTERRUPTED" },
    { LIBUSB_ERROR_NO_MEM, "LIBUSB_ERROR_NO_MEM" },
    { LIBUSB_ERROR_NOT_SUPPORTED, "LIBUSB_ERROR_NOT_SUPPORTED" },
    { LIBUSB_ERROR_OTHER, "LIBUSB_ERROR_OTHER" },
};

/* A transfer's statuses have names too; that of 0 stands above. */
static const char *const status_names[] = {
    [LIBUSB_TRANSFER_ERROR] = "LIBUSB_TRANSFER_ERROR",
    [LIBUSB_TRANSFER_TIMED_OUT] = "LIBUSB_TRANSFER_TIMED_OUT",
    [LIBUSB_TRANSFER_CANCELLED] = "LIBUSB_TRANSFER_CANCELLED",
    [LIBUSB_TRANSFER_STALL] = "LIBUSB_TRANSFER_STALL",
    [LIBUSB_TRANSFER_NO_DEVICE] = "LIBUSB_TRANSFER_NO_DEVICE",
    [LIBUSB_TRANSFER_OVERFLOW] = "LIBUSB_TRANSFER_OVERFLOW",
};

const char *libusb_error_name(int error_code)
{
    if (error_code > LIBUSB_TRANSFER_COMPLETED && error_code <= LIBUSB_TRANSFER_OVERFLOW)
        return status_names[error_code];
    for (int i = 0; i < LIBUSB_ERROR_COUNT; i++)
        if (errors[i].code == error_code)
            return errors[i].name;
    return "**UNKNOWN**";
}

const struct libusb_version *libusb_get_version(void)
{
    static const struct libusb_version version = { 1, 0, 28, 11946, "", tirnouch_description };
    return &version;
}

int libusb_has_capability(uint32_t capability)
{
    switch (capability) {
    case LIBUSB_CAP_HAS_CAPABILITY:
    case LIBUSB_CAP_HAS_HOTPLUG:
    case LIBUSB_CAP_HAS_HID_ACCESS:
    case LIBUSB_CAP_SUPPORTS_DETACH_KERNEL_DRIVER:
        return 1;
    default:
        return 0;
    }
}

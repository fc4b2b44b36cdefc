/* Calls that these devices have no use for. They answer as documented for a platform that doesn't have them (libusb 1.0, "Device
 * handling and enumeration" and "Asynchronous device I/O"): devices of the system, streams of USB 3, and the system's own memory
 * for transfers. */
#include "bus.h"

int libusb_wrap_sys_device(libusb_context *ctx, intptr_t sys_dev, libusb_device_handle **dev_handle)
{
    (void)ctx, (void)sys_dev, (void)dev_handle;
    return LIBUSB_ERROR_NOT_SUPPORTED;
}

int libusb_alloc_streams(libusb_device_handle *dev_handle, uint32_t num_streams, unsigned char *endpoints, int num_endpoints)
{
    (void)dev_handle, (void)num_streams, (void)endpoints, (void)num_endpoints;
    return LIBUSB_ERROR_NOT_SUPPORTED;
}

int libusb_free_streams(libusb_device_handle *dev_handle, unsigned char *endpoints, int num_endpoints)
{
    (void)dev_handle, (void)endpoints, (void)num_endpoints;
    return LIBUSB_ERROR_NOT_SUPPORTED;
}

/* NULL: the program takes memory of its own. */
unsigned char *libusb_dev_mem_alloc(libusb_device_handle *dev_handle, size_t length)
{
    (void)dev_handle, (void)length;
    return NULL;
}

int libusb_dev_mem_free(libusb_device_handle *dev_handle, unsigned char *buffer, size_t length)
{
    (void)dev_handle, (void)buffer, (void)length;
    return LIBUSB_ERROR_NOT_SUPPORTED;
}

/* No transfer is one of a stream, since there are none: it is only kept, as the program's own. */
void libusb_transfer_set_stream_id(struct libusb_transfer *transfer, uint32_t stream_id)
{
    private_of(transfer)->stream = stream_id;
}

uint32_t libusb_transfer_get_stream_id(struct libusb_transfer *transfer)
{
    return private_of(transfer)->stream;
}

/* Interface associations: which interfaces of a configuration are one function together (USB 3.2, 9.6.4).
 *
 * An array is one block of memory: the struct, and behind it the descriptors, to which it points. */
#include "descriptors.h"

#include <stdlib.h>

/* How many there are among the descriptors; LIBUSB_ERROR_IO where a length leads nowhere. One whose last bytes are lacking counts too,
 * as it does with libusb. */
static int count_associations(const uint8_t *bytes, int total)
{
    int count = 0;
    for (int at = 0; at < total; at += bytes[at]) {
        if (at + 2 > total || bytes[at] < 2 || bytes[at] > total)
            return LIBUSB_ERROR_IO;
        count += bytes[at + 1] == LIBUSB_DT_INTERFACE_ASSOCIATION;
    }
    return count;
}

static void fill_association(struct libusb_interface_association_descriptor *one, const uint8_t *at)
{
    *one = (struct libusb_interface_association_descriptor){
        .bLength = at[0],
        .bDescriptorType = at[1],
        .bFirstInterface = at[2],
        .bInterfaceCount = at[3],
        .bFunctionClass = at[4],
        .bFunctionSubClass = at[5],
        .bFunctionProtocol = at[6],
        .iFunction = at[7],
    };
}

/* Those that are whole; the others stay zeros. */
static void fill_associations(struct libusb_interface_association_descriptor *next, const uint8_t *bytes, int total)
{
    for (int at = 0; at < total; at += bytes[at])
        if (bytes[at + 1] == LIBUSB_DT_INTERFACE_ASSOCIATION && total - at >= LIBUSB_DT_INTERFACE_ASSOCIATION_SIZE)
            fill_association(next++, bytes + at);
}

static int read_associations(const struct device *device, struct libusb_interface_association_descriptor_array **iad_array)
{
    if (!has_config(device))
        return LIBUSB_ERROR_IO;
    int total = (int)two_bytes(device->config + 2);
    if (total > device->config_length)
        total = device->config_length;
    int count = total < LIBUSB_DT_CONFIG_SIZE ? LIBUSB_ERROR_IO : count_associations(device->config, total);
    if (count < 0)
        return count;
    struct libusb_interface_association_descriptor_array *array = calloc(1, sizeof *array + (size_t)count * sizeof *array->iad);
    if (!array)
        return LIBUSB_ERROR_NO_MEM;
    struct libusb_interface_association_descriptor *all = (struct libusb_interface_association_descriptor *)(array + 1);
    fill_associations(all, device->config, total);
    array->length = count;
    array->iad = count ? all : NULL;
    *iad_array = array;
    return LIBUSB_SUCCESS;
}

int libusb_get_interface_association_descriptors(libusb_device *dev, uint8_t config_index,
                                                 struct libusb_interface_association_descriptor_array **iad_array)
{
    if (!iad_array)
        return LIBUSB_ERROR_INVALID_PARAM;
    if (config_index != 0)
        return LIBUSB_ERROR_NOT_FOUND;
    return read_associations(dev->device, iad_array);
}

int libusb_get_active_interface_association_descriptors(libusb_device *dev,
                                                        struct libusb_interface_association_descriptor_array **iad_array)
{
    if (!iad_array)
        return LIBUSB_ERROR_INVALID_PARAM;
    int r = check_configured(dev->device, LIBUSB_ERROR_NOT_FOUND);
    return r ? r : read_associations(dev->device, iad_array);
}

void libusb_free_interface_association_descriptors(struct libusb_interface_association_descriptor_array *iad_array)
{
    free(iad_array);
}

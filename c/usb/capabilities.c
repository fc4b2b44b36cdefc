/* What a device can do beside USB 2.0's: its BOS descriptor with the device capabilities, and the companion of a SuperSpeed
 * endpoint (USB 3.2, 9.6.2 and 9.6.7). The BOS descriptor is asked of the device; one that has none stalls the request.
 *
 * A BOS descriptor is one block of memory: the struct with its pointers, and behind them a copy of the bytes. A device capability
 * has the layout of its bytes, so that each pointer is to these. */
#include "bus.h"

#include <stdlib.h>
#include <string.h>

static uint32_t four_bytes(const uint8_t *at)
{
    return (uint32_t)two_bytes(at) | (uint32_t)two_bytes(at + 2) << 16;
}

/* The device capability at this place; NULL where none stands there whole. */
static const uint8_t *capability_at(const uint8_t *bytes, int at, int total)
{
    if (at + LIBUSB_DT_DEVICE_CAPABILITY_SIZE > total || bytes[at + 1] != LIBUSB_DT_DEVICE_CAPABILITY)
        return NULL;
    if (bytes[at] < LIBUSB_DT_DEVICE_CAPABILITY_SIZE || bytes[at] > total - at)
        return NULL;
    return bytes + at;
}

/* How many of them stand there, at most as many as the descriptor says. */
static int count_capabilities(const uint8_t *bytes, int total)
{
    int count = 0;
    for (int at = bytes[0]; count < bytes[4] && capability_at(bytes, at, total); at += bytes[at])
        count++;
    return count;
}

static int read_bos(const uint8_t *bytes, int total, struct libusb_bos_descriptor **bos)
{
    if (total < LIBUSB_DT_BOS_SIZE || bytes[1] != LIBUSB_DT_BOS || bytes[0] < LIBUSB_DT_BOS_SIZE || bytes[0] > total)
        return LIBUSB_ERROR_IO;
    int count = count_capabilities(bytes, total);
    size_t pointers = (size_t)count * sizeof(struct libusb_bos_dev_capability_descriptor *);
    struct libusb_bos_descriptor *made = malloc(sizeof *made + pointers + (size_t)total);
    if (!made)
        return LIBUSB_ERROR_NO_MEM;
    made->bLength = bytes[0];
    made->bDescriptorType = bytes[1];
    made->wTotalLength = (uint16_t)two_bytes(bytes + 2);
    made->bNumDeviceCaps = (uint8_t)count;
    uint8_t *copy = (uint8_t *)(made->dev_capability + count);
    memcpy(copy, bytes, (size_t)total);
    for (int i = 0, at = copy[0]; i < count; at += copy[at])
        made->dev_capability[i++] = (struct libusb_bos_dev_capability_descriptor *)(void *)(copy + at);
    *bos = made;
    return LIBUSB_SUCCESS;
}

/* A device tells in the first 5 bytes how long all of it is. */
int libusb_get_bos_descriptor(libusb_device_handle *dev_handle, struct libusb_bos_descriptor **bos)
{
    uint8_t head[LIBUSB_DT_BOS_SIZE] = { 0 };
    int count = libusb_get_descriptor(dev_handle, LIBUSB_DT_BOS, 0, head, sizeof head);
    if (count < 0)
        return count;
    int total = (int)two_bytes(head + 2);
    if (count < LIBUSB_DT_BOS_SIZE || total < LIBUSB_DT_BOS_SIZE)
        return LIBUSB_ERROR_IO;
    uint8_t *bytes = malloc((size_t)total);
    if (!bytes)
        return LIBUSB_ERROR_NO_MEM;
    count = libusb_get_descriptor(dev_handle, LIBUSB_DT_BOS, 0, bytes, total);
    if (count >= 0)
        count = read_bos(bytes, count, bos);
    free(bytes);
    return count;
}

void libusb_free_bos_descriptor(struct libusb_bos_descriptor *bos)
{
    free(bos);
}

/* Whether a device capability is of this type, and long enough for it. */
static int check_capability(const struct libusb_bos_dev_capability_descriptor *dev_cap, uint8_t type, uint8_t size)
{
    if (dev_cap->bDevCapabilityType != type)
        return LIBUSB_ERROR_INVALID_PARAM;
    return dev_cap->bLength < size ? LIBUSB_ERROR_IO : LIBUSB_SUCCESS;
}

int libusb_get_usb_2_0_extension_descriptor(libusb_context *ctx, struct libusb_bos_dev_capability_descriptor *dev_cap,
                                            struct libusb_usb_2_0_extension_descriptor **usb_2_0_extension)
{
    int answer = check_capability(dev_cap, LIBUSB_BT_USB_2_0_EXTENSION, LIBUSB_BT_USB_2_0_EXTENSION_SIZE);
    (void)ctx;
    if (answer < 0)
        return answer;
    struct libusb_usb_2_0_extension_descriptor *made = malloc(sizeof *made);
    if (!made)
        return LIBUSB_ERROR_NO_MEM;
    *made = (struct libusb_usb_2_0_extension_descriptor){
        .bLength = dev_cap->bLength,
        .bDescriptorType = dev_cap->bDescriptorType,
        .bDevCapabilityType = dev_cap->bDevCapabilityType,
        .bmAttributes = four_bytes(dev_cap->dev_capability_data),
    };
    *usb_2_0_extension = made;
    return LIBUSB_SUCCESS;
}

void libusb_free_usb_2_0_extension_descriptor(struct libusb_usb_2_0_extension_descriptor *usb_2_0_extension)
{
    free(usb_2_0_extension);
}

int libusb_get_ss_usb_device_capability_descriptor(libusb_context *ctx, struct libusb_bos_dev_capability_descriptor *dev_cap,
                                                   struct libusb_ss_usb_device_capability_descriptor **ss_usb_device_cap)
{
    int answer = check_capability(dev_cap, LIBUSB_BT_SS_USB_DEVICE_CAPABILITY, LIBUSB_BT_SS_USB_DEVICE_CAPABILITY_SIZE);
    const uint8_t *data = dev_cap->dev_capability_data;
    (void)ctx;
    if (answer < 0)
        return answer;
    struct libusb_ss_usb_device_capability_descriptor *made = malloc(sizeof *made);
    if (!made)
        return LIBUSB_ERROR_NO_MEM;
    *made = (struct libusb_ss_usb_device_capability_descriptor){
        .bLength = dev_cap->bLength,
        .bDescriptorType = dev_cap->bDescriptorType,
        .bDevCapabilityType = dev_cap->bDevCapabilityType,
        .bmAttributes = data[0],
        .wSpeedSupported = (uint16_t)two_bytes(data + 1),
        .bFunctionalitySupport = data[3],
        .bU1DevExitLat = data[4],
        .bU2DevExitLat = (uint16_t)two_bytes(data + 5),
    };
    *ss_usb_device_cap = made;
    return LIBUSB_SUCCESS;
}

void libusb_free_ss_usb_device_capability_descriptor(struct libusb_ss_usb_device_capability_descriptor *ss_usb_device_cap)
{
    free(ss_usb_device_cap);
}

/* A sublink's speed, of four bytes. */
static struct libusb_ssplus_sublink_attribute read_sublink(const uint8_t *at)
{
    uint32_t bits = four_bytes(at);
    return (struct libusb_ssplus_sublink_attribute){
        .ssid = (uint8_t)(bits & 15),
        .exponent = (enum libusb_superspeedplus_sublink_attribute_exponent)(bits >> 4 & 3),
        .type = (bits & 1u << 6) ? LIBUSB_SSPLUS_ATTR_TYPE_ASYM : LIBUSB_SSPLUS_ATTR_TYPE_SYM,
        .direction = (bits & 1u << 7) ? LIBUSB_SSPLUS_ATTR_DIR_TX : LIBUSB_SSPLUS_ATTR_DIR_RX,
        .protocol = (bits & 1u << 14) ? LIBUSB_SSPLUS_ATTR_PROT_SSPLUS : LIBUSB_SSPLUS_ATTR_PROT_SS,
        .mantissa = (uint16_t)(bits >> 16),
    };
}

/* The sublinks' speeds stand behind the fixed part; how many, less one, is in its lowest bits (USB 3.1, 9.6.2.5). */
int libusb_get_ssplus_usb_device_capability_descriptor(libusb_context *ctx, struct libusb_bos_dev_capability_descriptor *dev_cap,
                                                       struct libusb_ssplus_usb_device_capability_descriptor **ssplus_usb_device_cap)
{
    int answer = check_capability(dev_cap, LIBUSB_BT_SUPERSPEED_PLUS_CAPABILITY, LIBUSB_BT_SSPLUS_USB_DEVICE_CAPABILITY_SIZE);
    const uint8_t *data = dev_cap->dev_capability_data;
    (void)ctx;
    if (answer < 0)
        return answer;
    uint8_t count = (uint8_t)((data[1] & 15) + 1);
    unsigned support = two_bytes(data + 5);
    if (dev_cap->bLength < LIBUSB_BT_SSPLUS_USB_DEVICE_CAPABILITY_SIZE + 4 * count)
        return LIBUSB_ERROR_IO;
    struct libusb_ssplus_usb_device_capability_descriptor *made = malloc(sizeof *made + count * sizeof *made->sublinkSpeedAttributes);
    if (!made)
        return LIBUSB_ERROR_NO_MEM;
    made->numSublinkSpeedAttributes = count;
    made->numSublinkSpeedIDs = (uint8_t)((data[1] >> 4) + 1);
    made->ssid = (uint8_t)(support & 15);
    made->minRxLaneCount = (uint8_t)(support >> 8 & 15);
    made->minTxLaneCount = (uint8_t)(support >> 12);
    for (int i = 0; i < count; i++)
        made->sublinkSpeedAttributes[i] = read_sublink(data + 9 + 4 * i);
    *ssplus_usb_device_cap = made;
    return LIBUSB_SUCCESS;
}

void libusb_free_ssplus_usb_device_capability_descriptor(
    struct libusb_ssplus_usb_device_capability_descriptor *ssplus_usb_device_cap)
{
    free(ssplus_usb_device_cap);
}

int libusb_get_container_id_descriptor(libusb_context *ctx, struct libusb_bos_dev_capability_descriptor *dev_cap,
                                       struct libusb_container_id_descriptor **container_id)
{
    int answer = check_capability(dev_cap, LIBUSB_BT_CONTAINER_ID, LIBUSB_BT_CONTAINER_ID_SIZE);
    (void)ctx;
    if (answer < 0)
        return answer;
    struct libusb_container_id_descriptor *made = malloc(sizeof *made);
    if (!made)
        return LIBUSB_ERROR_NO_MEM;
    made->bLength = dev_cap->bLength;
    made->bDescriptorType = dev_cap->bDescriptorType;
    made->bDevCapabilityType = dev_cap->bDevCapabilityType;
    made->bReserved = dev_cap->dev_capability_data[0];
    memcpy(made->ContainerID, dev_cap->dev_capability_data + 1, sizeof made->ContainerID);
    *container_id = made;
    return LIBUSB_SUCCESS;
}

void libusb_free_container_id_descriptor(struct libusb_container_id_descriptor *container_id)
{
    free(container_id);
}

/* What the platform says of itself stands behind its UUID (USB 3.2, 9.6.2.4). */
int libusb_get_platform_descriptor(libusb_context *ctx, struct libusb_bos_dev_capability_descriptor *dev_cap,
                                   struct libusb_platform_descriptor **platform_descriptor)
{
    int answer = check_capability(dev_cap, LIBUSB_BT_PLATFORM_DESCRIPTOR, LIBUSB_BT_PLATFORM_DESCRIPTOR_MIN_SIZE);
    const uint8_t *data = dev_cap->dev_capability_data;
    (void)ctx;
    if (answer < 0)
        return answer;
    struct libusb_platform_descriptor *made = malloc(dev_cap->bLength);
    if (!made)
        return LIBUSB_ERROR_NO_MEM;
    made->bLength = dev_cap->bLength;
    made->bDescriptorType = dev_cap->bDescriptorType;
    made->bDevCapabilityType = dev_cap->bDevCapabilityType;
    made->bReserved = data[0];
    memcpy(made->PlatformCapabilityUUID, data + 1, sizeof made->PlatformCapabilityUUID);
    memcpy(made->CapabilityData, data + 17, (size_t)dev_cap->bLength - LIBUSB_BT_PLATFORM_DESCRIPTOR_MIN_SIZE);
    *platform_descriptor = made;
    return LIBUSB_SUCCESS;
}

void libusb_free_platform_descriptor(struct libusb_platform_descriptor *platform_descriptor)
{
    free(platform_descriptor);
}

/* The companion among the descriptors behind an endpoint's: its first byte is at `found`. */
static int find_companion(const struct libusb_endpoint_descriptor *endpoint, const uint8_t **found)
{
    const uint8_t *extra = endpoint->extra;
    int at = 0;
    for (; extra && at + 2 <= endpoint->extra_length; at += extra[at]) {
        if (extra[at] < 2 || extra[at] > endpoint->extra_length - at)
            return LIBUSB_ERROR_IO;
        if (extra[at + 1] == LIBUSB_DT_SS_ENDPOINT_COMPANION) {
            *found = extra + at;
            return extra[at] < LIBUSB_DT_SS_ENDPOINT_COMPANION_SIZE ? LIBUSB_ERROR_IO : LIBUSB_SUCCESS;
        }
    }
    return LIBUSB_ERROR_NOT_FOUND;
}

int libusb_get_ss_endpoint_companion_descriptor(libusb_context *ctx, const struct libusb_endpoint_descriptor *endpoint,
                                                struct libusb_ss_endpoint_companion_descriptor **ep_comp)
{
    const uint8_t *found = NULL;
    int answer = find_companion(endpoint, &found);
    (void)ctx;
    *ep_comp = NULL;
    if (answer < 0)
        return answer;
    struct libusb_ss_endpoint_companion_descriptor *made = malloc(sizeof *made);
    if (!made)
        return LIBUSB_ERROR_NO_MEM;
    *made = (struct libusb_ss_endpoint_companion_descriptor){
        .bLength = found[0],
        .bDescriptorType = found[1],
        .bMaxBurst = found[2],
        .bmAttributes = found[3],
        .wBytesPerInterval = (uint16_t)two_bytes(found + 4),
    };
    *ep_comp = made;
    return LIBUSB_SUCCESS;
}

void libusb_free_ss_endpoint_companion_descriptor(struct libusb_ss_endpoint_companion_descriptor *ep_comp)
{
    free(ep_comp);
}

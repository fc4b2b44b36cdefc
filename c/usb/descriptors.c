/* Descriptors as C structs (USB 2.0, 9.6): the device's, its configuration's with interfaces, alternate settings and endpoints, and
 * strings in ASCII.
 *
 * A device has one configuration. It is read in two passes: the first counts what there is, the second fills one block of memory
 * with the structs, and with a copy of the bytes, into which each `extra` points. So memory is asked for once, and freed once.
 * Reading ends where a length breaks off, or where there is more than a device may have. */
#include "descriptors.h"

#include <stdlib.h>
#include <string.h>

/* What a configuration's bytes have, as far as they are read. */
struct measure {
    int end; /* the first byte that isn't read */
    int interfaces, settings, endpoints;
    uint8_t numbers[INTERFACES]; /* the interfaces, in order of appearance */
    int counts[INTERFACES];      /* how many settings each has */
};

/* The block: behind it stand the settings, the endpoints, and the bytes. */
struct block {
    struct libusb_config_descriptor config;
    struct libusb_interface interfaces[INTERFACES];
};

/* Where the second pass is. */
struct filling {
    struct block *block;
    const struct measure *measure;
    const uint8_t *bytes;                          /* the block's copy */
    struct libusb_interface_descriptor *settings;  /* all of them */
    struct libusb_interface_descriptor *setting;   /* the one that was read last; NULL for none */
    struct libusb_endpoint_descriptor *endpoint;   /* in the same way */
    struct libusb_endpoint_descriptor *unused;     /* where the next one goes */
};

int libusb_get_device_descriptor(libusb_device *dev, struct libusb_device_descriptor *desc)
{
    const uint8_t *at = dev->device->descriptor;
    *desc = (struct libusb_device_descriptor){
        .bLength = at[0],
        .bDescriptorType = at[1],
        .bcdUSB = (uint16_t)two_bytes(at + 2),
        .bDeviceClass = at[4],
        .bDeviceSubClass = at[5],
        .bDeviceProtocol = at[6],
        .bMaxPacketSize0 = at[7],
        .idVendor = (uint16_t)two_bytes(at + 8),
        .idProduct = (uint16_t)two_bytes(at + 10),
        .bcdDevice = (uint16_t)two_bytes(at + 12),
        .iManufacturer = at[14],
        .iProduct = at[15],
        .iSerialNumber = at[16],
        .bNumConfigurations = at[17],
    };
    return LIBUSB_SUCCESS;
}

/* The first pass */

/* The place of an interface among those that were found; -1 where it wasn't. */
static int find_interface(const struct measure *measure, uint8_t number)
{
    for (int i = 0; i < measure->interfaces; i++)
        if (measure->numbers[i] == number)
            return i;
    return -1;
}

/* Counts a setting; false where it ends the reading. */
static bool count_setting(struct measure *measure, const uint8_t *at)
{
    if (at[0] < LIBUSB_DT_INTERFACE_SIZE)
        return false;
    int place = find_interface(measure, at[2]);
    if (place < 0 && measure->interfaces == INTERFACES)
        return false;
    if (place < 0) {
        place = measure->interfaces++;
        measure->numbers[place] = at[2];
    }
    measure->counts[place]++;
    measure->settings++;
    return true;
}

/* Whether a descriptor stands at this place whole, as its length has it. */
static bool is_whole(const uint8_t *bytes, int at, int total)
{
    return at + 2 <= total && bytes[at] >= 2 && bytes[at] <= total - at;
}

static struct measure measure_config(const uint8_t *bytes, int length)
{
    struct measure measure = { 0 };
    int total = (int)two_bytes(bytes + 2), of_setting = 0, at = bytes[0];
    if (total > length)
        total = length;
    for (; is_whole(bytes, at, total); at += bytes[at]) {
        uint8_t type = bytes[at + 1];
        if (type == LIBUSB_DT_INTERFACE) {
            if (!count_setting(&measure, bytes + at))
                break;
            of_setting = 0;
        } else if (type == LIBUSB_DT_ENDPOINT && measure.settings) {
            if (bytes[at] < LIBUSB_DT_ENDPOINT_SIZE || of_setting++ == ENDPOINTS)
                break;
            measure.endpoints++;
        }
    }
    measure.end = at;
    return measure;
}

/* The second pass */

/* Where the settings of each interface go. */
static void place_settings(const struct filling *filling)
{
    struct libusb_interface_descriptor *next = filling->settings;
    for (int i = 0; i < filling->measure->interfaces; i++) {
        filling->block->interfaces[i].altsetting = next;
        next += filling->measure->counts[i];
    }
}

static void fill_setting(struct filling *filling, const uint8_t *at)
{
    struct libusb_interface *interface = &filling->block->interfaces[find_interface(filling->measure, at[2])];
    ptrdiff_t place = interface->altsetting - filling->settings + interface->num_altsetting++;
    filling->endpoint = NULL;
    filling->setting = &filling->settings[place];
    *filling->setting = (struct libusb_interface_descriptor){
        .bLength = at[0],
        .bDescriptorType = at[1],
        .bInterfaceNumber = at[2],
        .bAlternateSetting = at[3],
        .bInterfaceClass = at[5],
        .bInterfaceSubClass = at[6],
        .bInterfaceProtocol = at[7],
        .iInterface = at[8],
    };
}

static void fill_endpoint(struct filling *filling, const uint8_t *at)
{
    bool is_audio = at[0] >= LIBUSB_DT_ENDPOINT_AUDIO_SIZE;
    filling->endpoint = filling->unused++;
    if (filling->setting->bNumEndpoints++ == 0)
        filling->setting->endpoint = filling->endpoint;
    *filling->endpoint = (struct libusb_endpoint_descriptor){
        .bLength = at[0],
        .bDescriptorType = at[1],
        .bEndpointAddress = at[2],
        .bmAttributes = at[3],
        .wMaxPacketSize = (uint16_t)two_bytes(at + 4),
        .bInterval = at[6],
        .bRefresh = is_audio ? at[7] : 0,
        .bSynchAddress = is_audio ? at[8] : 0,
    };
}

/* A descriptor of another type belongs to what stands before it. Those of one owner stand one behind the other in the bytes. */
static void add_extra(const unsigned char **extra, int *length, const uint8_t *at)
{
    if (!*length)
        *extra = at;
    *length += at[0];
}

static void fill_extra(struct filling *filling, const uint8_t *at)
{
    if (filling->endpoint)
        add_extra(&filling->endpoint->extra, &filling->endpoint->extra_length, at);
    else if (filling->setting)
        add_extra(&filling->setting->extra, &filling->setting->extra_length, at);
    else
        add_extra(&filling->block->config.extra, &filling->block->config.extra_length, at);
}

static void fill_config(struct filling *filling)
{
    const uint8_t *bytes = filling->bytes;
    filling->block->config = (struct libusb_config_descriptor){
        .bLength = bytes[0],
        .bDescriptorType = bytes[1],
        .wTotalLength = (uint16_t)two_bytes(bytes + 2),
        .bNumInterfaces = (uint8_t)filling->measure->interfaces,
        .bConfigurationValue = bytes[5],
        .iConfiguration = bytes[6],
        .bmAttributes = bytes[7],
        .MaxPower = bytes[8],
        .interface = filling->block->interfaces,
    };
    place_settings(filling);
    for (int at = bytes[0]; at < filling->measure->end; at += bytes[at]) {
        if (bytes[at + 1] == LIBUSB_DT_INTERFACE)
            fill_setting(filling, bytes + at);
        else if (bytes[at + 1] == LIBUSB_DT_ENDPOINT && filling->setting)
            fill_endpoint(filling, bytes + at);
        else
            fill_extra(filling, bytes + at);
    }
}

/* A block for what was counted, with a copy of the bytes, and nothing else filled in; NULL where there is no memory. */
static struct block *new_block(const struct measure *measure, const uint8_t *bytes, struct filling *filling)
{
    size_t settings = (size_t)measure->settings * sizeof *filling->settings;
    size_t endpoints = (size_t)measure->endpoints * sizeof *filling->endpoint;
    struct block *block = calloc(1, sizeof *block + settings + endpoints + (size_t)measure->end);
    if (!block)
        return NULL;
    char *behind = (char *)(block + 1);
    memcpy(behind + settings + endpoints, bytes, (size_t)measure->end);
    *filling = (struct filling){
        .block = block,
        .measure = measure,
        .bytes = (const uint8_t *)behind + settings + endpoints,
        .settings = (struct libusb_interface_descriptor *)(void *)behind,
        .unused = (struct libusb_endpoint_descriptor *)(void *)(behind + settings),
    };
    return block;
}

bool has_config(const struct device *device)
{
    return device->config_length >= LIBUSB_DT_CONFIG_SIZE && device->config[0] >= LIBUSB_DT_CONFIG_SIZE
        && device->config[0] <= device->config_length;
}

static int read_config(const struct device *device, struct libusb_config_descriptor **config)
{
    struct filling filling;
    if (!has_config(device))
        return LIBUSB_ERROR_IO;
    struct measure measure = measure_config(device->config, device->config_length);
    struct block *block = new_block(&measure, device->config, &filling);
    if (!block)
        return LIBUSB_ERROR_NO_MEM;
    fill_config(&filling);
    *config = (struct libusb_config_descriptor *)block;
    return LIBUSB_SUCCESS;
}

/* The calls */

int check_configured(const struct device *device, int unset)
{
    if (!lock_unless_asked_for("libusb"))
        return LIBUSB_ERROR_BUSY;
    int r = device->configuration ? 0 : unset;
    unlock();
    return r;
}

int libusb_get_config_descriptor(libusb_device *dev, uint8_t config_index, struct libusb_config_descriptor **config)
{
    if (config_index != 0)
        return LIBUSB_ERROR_NOT_FOUND;
    return read_config(dev->device, config);
}

int libusb_get_active_config_descriptor(libusb_device *dev, struct libusb_config_descriptor **config)
{
    int r = check_configured(dev->device, LIBUSB_ERROR_NOT_FOUND);
    return r ? r : read_config(dev->device, config);
}

int libusb_get_config_descriptor_by_value(libusb_device *dev, uint8_t bConfigurationValue, struct libusb_config_descriptor **config)
{
    if (!has_config(dev->device) || dev->device->config[5] != bConfigurationValue)
        return LIBUSB_ERROR_NOT_FOUND;
    return read_config(dev->device, config);
}

void libusb_free_config_descriptor(struct libusb_config_descriptor *config)
{
    /* The block begins with it. */
    free(config);
}

/* The first descriptor of an endpoint in the active configuration; NULL where it has none. */
static const uint8_t *find_endpoint(const struct device *device, unsigned char endpoint)
{
    struct measure measure = measure_config(device->config, device->config_length);
    bool is_within = false;
    for (int at = device->config[0]; at < measure.end; at += device->config[at]) {
        const uint8_t *found = device->config + at;
        if (found[1] == LIBUSB_DT_INTERFACE)
            is_within = true;
        else if (found[1] == LIBUSB_DT_ENDPOINT && is_within && found[2] == endpoint)
            return found;
    }
    return NULL;
}

/* Its wMaxPacketSize, and its type in `type`. */
static int packet_size(libusb_device *dev, unsigned char endpoint, uint8_t *type)
{
    int r = has_config(dev->device) ? check_configured(dev->device, LIBUSB_ERROR_OTHER) : LIBUSB_ERROR_OTHER;
    if (r)
        return r;
    const uint8_t *found = find_endpoint(dev->device, endpoint);
    if (!found)
        return LIBUSB_ERROR_NOT_FOUND;
    *type = found[3] & LIBUSB_TRANSFER_TYPE_MASK;
    return (int)two_bytes(found + 4);
}

int libusb_get_max_packet_size(libusb_device *dev, unsigned char endpoint)
{
    uint8_t type;
    return packet_size(dev, endpoint, &type);
}

/* Bits 10..0 are the size, and bits 12..11 the further transactions of a microframe, where the type has such (USB 2.0, 9.6.6). */
static int bytes_of_microframe(int size, uint8_t type)
{
    if (type != LIBUSB_TRANSFER_TYPE_ISOCHRONOUS && type != LIBUSB_TRANSFER_TYPE_INTERRUPT)
        return size & 0x7ff;
    return (size & 0x7ff) * (1 + (size >> 11 & 3));
}

int libusb_get_max_iso_packet_size(libusb_device *dev, unsigned char endpoint)
{
    uint8_t type;
    int size = packet_size(dev, endpoint, &type);
    return size < 0 ? size : bytes_of_microframe(size, type);
}

/* The setting at these places; NULL where there is none. */
static const struct libusb_interface_descriptor *setting_at(const struct libusb_config_descriptor *config, int interface, int setting)
{
    if (interface < 0 || interface >= config->bNumInterfaces)
        return NULL;
    const struct libusb_interface *at = &config->interface[interface];
    return setting < 0 || setting >= at->num_altsetting ? NULL : &at->altsetting[setting];
}

/* The manual speaks of bInterfaceNumber and bAlternateSetting. libusb takes both as places in the configuration's arrays, and so do we:
 * for most devices that is the same. */
int libusb_get_max_alt_packet_size(libusb_device *dev, int interface_number, int alternate_setting, unsigned char endpoint)
{
    struct libusb_config_descriptor *config;
    int size = LIBUSB_ERROR_NOT_FOUND;
    int r = libusb_get_active_config_descriptor(dev, &config);
    if (r < 0)
        return r == LIBUSB_ERROR_BUSY ? r : LIBUSB_ERROR_OTHER;
    const struct libusb_interface_descriptor *setting = setting_at(config, interface_number, alternate_setting);
    for (int i = 0; setting && i < setting->bNumEndpoints; i++) {
        const struct libusb_endpoint_descriptor *it = &setting->endpoint[i];
        if (it->bEndpointAddress == endpoint) {
            size = bytes_of_microframe(it->wMaxPacketSize, it->bmAttributes & LIBUSB_TRANSFER_TYPE_MASK);
            break;
        }
    }
    libusb_free_config_descriptor(config);
    return size;
}

/* Strings (USB 2.0, 9.6.7) */

/* The first language for which a device has strings; negative for none. */
static int first_language(libusb_device_handle *dev_handle)
{
    uint8_t bytes[4] = { 0 };
    int count = libusb_get_string_descriptor(dev_handle, 0, 0, bytes, sizeof bytes);
    if (count < 0)
        return count;
    if (count < 4 || bytes[0] < 4 || bytes[1] != LIBUSB_DT_STRING)
        return LIBUSB_ERROR_IO;
    return (int)two_bytes(bytes + 2);
}

int libusb_get_string_descriptor_ascii(libusb_device_handle *dev_handle, uint8_t desc_index, unsigned char *data, int length)
{
    uint8_t bytes[255] = { 0 };
    int written = 0;
    if (desc_index == 0 || !data || length < 1)
        return LIBUSB_ERROR_INVALID_PARAM;
    int language = first_language(dev_handle);
    if (language < 0)
        return language;
    int count = libusb_get_string_descriptor(dev_handle, desc_index, (uint16_t)language, bytes, sizeof bytes);
    if (count < 0)
        return count;
    if (count < 2 || bytes[0] > count || bytes[1] != LIBUSB_DT_STRING)
        return LIBUSB_ERROR_IO;
    for (int at = 2; at + 1 < bytes[0] && written < length - 1; at += 2) {
        unsigned unit = two_bytes(bytes + at);
        data[written++] = unit < 0x80 ? (unsigned char)unit : '?';
    }
    data[written] = 0;
    return written;
}

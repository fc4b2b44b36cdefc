/* What a device is, as a program opens it: its descriptors, as answers to the requests that a host makes for them (USB 2.0, 9.4.3). The
 * device's and the configuration's are what libusb has of them, without a word to the device; its strings are asked for, as the program
 * itself may ask. */
#include "record.h"

#include <stdlib.h>
#include <string.h>

enum {
    DEVICES = 256,
    MOST_STRINGS = 256,
    ENGLISH = 0x0409,
    AUDIO_ENDPOINT = 9, /* the length of an endpoint's descriptor with two more fields (USB Audio 1.0, 4.6.1.1) */
    PATIENCE = 1000
};

/* Which devices were recorded so, and of which the strings were asked for, by bus and address: their vendors and products, since another
 * device may come to that place. */
static uint32_t described[DEVICES][DEVICES], asked[DEVICES][DEVICES];

/* Bytes of a descriptor, of which those that find no room are counted too. */
struct bytes {
    uint8_t *at;
    size_t length, room;
};

static void put(struct bytes *bytes, const void *data, size_t length)
{
    if (length && bytes->length + length <= bytes->room)
        memcpy(bytes->at + bytes->length, data, length);
    bytes->length += length;
}

static uint8_t low(uint16_t value)
{
    return (uint8_t)value;
}

static uint8_t high(uint16_t value)
{
    return (uint8_t)(value >> 8);
}

static void put_endpoint(struct bytes *bytes, const struct libusb_endpoint_descriptor *it)
{
    const uint8_t fields[] = { it->bLength, it->bDescriptorType, it->bEndpointAddress, it->bmAttributes, low(it->wMaxPacketSize),
                               high(it->wMaxPacketSize), it->bInterval, it->bRefresh, it->bSynchAddress };
    put(bytes, fields, it->bLength >= AUDIO_ENDPOINT ? AUDIO_ENDPOINT : LIBUSB_DT_ENDPOINT_SIZE);
    put(bytes, it->extra, (size_t)it->extra_length);
}

static void put_setting(struct bytes *bytes, const struct libusb_interface_descriptor *it)
{
    const uint8_t fields[] = { it->bLength, it->bDescriptorType, it->bInterfaceNumber, it->bAlternateSetting, it->bNumEndpoints,
                               it->bInterfaceClass, it->bInterfaceSubClass, it->bInterfaceProtocol, it->iInterface };
    put(bytes, fields, sizeof fields);
    put(bytes, it->extra, (size_t)it->extra_length);
    for (int i = 0; i < it->bNumEndpoints; i++)
        put_endpoint(bytes, &it->endpoint[i]);
}

static void put_configuration(struct bytes *bytes, const struct libusb_config_descriptor *it)
{
    const uint8_t fields[] = { it->bLength, it->bDescriptorType, low(it->wTotalLength), high(it->wTotalLength), it->bNumInterfaces,
                               it->bConfigurationValue, it->iConfiguration, it->bmAttributes, it->MaxPower };
    put(bytes, fields, sizeof fields);
    put(bytes, it->extra, (size_t)it->extra_length);
    for (int i = 0; i < it->bNumInterfaces; i++)
        for (int setting = 0; setting < it->interface[i].num_altsetting; setting++)
            put_setting(bytes, &it->interface[i].altsetting[setting]);
}

static void record_answer(libusb_device_handle *handle, uint16_t value, const uint8_t *data, uint16_t length)
{
    uint8_t setup[LIBUSB_CONTROL_SETUP_SIZE];
    struct flight flight;
    libusb_fill_control_setup(setup, LIBUSB_ENDPOINT_IN, LIBUSB_REQUEST_GET_DESCRIPTOR, value, 0, length);
    if (!begin_flight(&flight, handle, MON_CONTROL, LIBUSB_ENDPOINT_IN, length))
        return;
    record_submission(&flight, setup, NULL);
    record_end(&flight, 0, length, data);
}

static void record_device_descriptor(libusb_device_handle *handle, const struct libusb_device_descriptor *it)
{
    const uint8_t fields[LIBUSB_DT_DEVICE_SIZE] = {
        it->bLength, it->bDescriptorType, low(it->bcdUSB), high(it->bcdUSB), it->bDeviceClass, it->bDeviceSubClass, it->bDeviceProtocol,
        it->bMaxPacketSize0, low(it->idVendor), high(it->idVendor), low(it->idProduct), high(it->idProduct), low(it->bcdDevice),
        high(it->bcdDevice), it->iManufacturer, it->iProduct, it->iSerialNumber, it->bNumConfigurations,
    };
    record_answer(handle, LIBUSB_DT_DEVICE << 8, fields, sizeof fields);
}

/* The configuration that is set, or the first one; NULL where libusb tells none. */
static struct libusb_config_descriptor *configuration(libusb_device_handle *handle)
{
    struct libusb_config_descriptor *found = NULL;
    libusb_device *device = libusb_get_device(handle);
    if (libusb_get_active_config_descriptor(device, &found) && libusb_get_config_descriptor(device, 0, &found))
        return NULL;
    return found;
}

/* Its bConfigurationValue; 0 where there is none. */
uint8_t configuration_of(libusb_device_handle *handle)
{
    struct libusb_config_descriptor *found = configuration(handle);
    uint8_t value = found ? found->bConfigurationValue : 0;
    libusb_free_config_descriptor(found);
    return value;
}

static bool has_interrupt_endpoint(const struct libusb_interface_descriptor *it, uint8_t ep)
{
    for (int i = 0; i < it->bNumEndpoints; i++)
        if (it->endpoint[i].bEndpointAddress == ep)
            return (it->endpoint[i].bmAttributes & LIBUSB_TRANSFER_TYPE_MASK) == LIBUSB_TRANSFER_TYPE_INTERRUPT;
    return false;
}

/* Whether a setting of the configuration has an interrupt endpoint of this address. */
bool is_interrupt_endpoint(libusb_device_handle *handle, uint8_t ep)
{
    struct libusb_config_descriptor *found = configuration(handle);
    bool is_any = false;
    for (int i = 0; found && i < found->bNumInterfaces; i++)
        for (int setting = 0; setting < found->interface[i].num_altsetting; setting++)
            is_any = is_any || has_interrupt_endpoint(&found->interface[i].altsetting[setting], ep);
    libusb_free_config_descriptor(found);
    return is_any;
}

/* The place of a configuration among the device's, by which a host asks for it. */
static uint8_t index_of(libusb_device_handle *handle, uint8_t value)
{
    struct libusb_config_descriptor *found;
    for (uint8_t i = 0; !libusb_get_config_descriptor(libusb_get_device(handle), i, &found); i++) {
        bool is_it = found->bConfigurationValue == value;
        libusb_free_config_descriptor(found);
        if (is_it)
            return i;
    }
    return 0;
}

/* Where libusb's parts don't make up the length that the descriptor says, the device is asked for it. */
void record_configuration(libusb_device_handle *handle)
{
    struct libusb_config_descriptor *it = configuration(handle);
    struct bytes bytes = { .at = it ? malloc(it->wTotalLength) : NULL, .room = it ? it->wTotalLength : 0 };
    uint16_t value = (uint16_t)(LIBUSB_DT_CONFIG << 8 | (it ? index_of(handle, it->bConfigurationValue) : 0));
    if (bytes.at) {
        put_configuration(&bytes, it);
        if (bytes.length == bytes.room)
            record_answer(handle, value, bytes.at, it->wTotalLength);
        else
            libusb_control_transfer(handle, LIBUSB_ENDPOINT_IN, LIBUSB_REQUEST_GET_DESCRIPTOR, value, 0, bytes.at, it->wTotalLength,
                                    PATIENCE);
    } else {
        tell_fault("a device", "its configuration isn't recorded: libusb tells none, or there is no memory for it");
    }
    free(bytes.at);
    libusb_free_config_descriptor(it);
}

static int ask_string(libusb_device_handle *handle, uint8_t number, uint16_t language, unsigned char *text)
{
    return libusb_control_transfer(handle, LIBUSB_ENDPOINT_IN, LIBUSB_REQUEST_GET_DESCRIPTOR,
                                   (uint16_t)(LIBUSB_DT_STRING << 8 | number), language, text, 255, PATIENCE);
}

/* Which strings the descriptors name. */
static void list_strings(libusb_device_handle *handle, const struct libusb_device_descriptor *it, bool *is_named)
{
    struct libusb_config_descriptor *config = configuration(handle);
    is_named[it->iManufacturer] = is_named[it->iProduct] = is_named[it->iSerialNumber] = true;
    for (int i = 0; config && i < config->bNumInterfaces; i++)
        for (int setting = 0; setting < config->interface[i].num_altsetting; setting++)
            is_named[config->interface[i].altsetting[setting].iInterface] = true;
    if (config)
        is_named[config->iConfiguration] = true;
    libusb_free_config_descriptor(config);
}

/* In the device's first language. Within a callback libusb answers BUSY: then it is done at a later open. */
static bool record_strings(libusb_device_handle *handle, const struct libusb_device_descriptor *it)
{
    bool is_named[MOST_STRINGS] = { false }, is_any = false;
    unsigned char text[MOST_STRINGS];
    list_strings(handle, it, is_named);
    for (int i = 1; i < MOST_STRINGS; i++)
        is_any = is_any || is_named[i];
    int r = is_any ? ask_string(handle, 0, 0, text) : 0;
    uint16_t language = r >= 4 ? (uint16_t)(text[2] | text[3] << 8) : ENGLISH;
    for (int i = 1; i < MOST_STRINGS && r >= 4; i++)
        if (is_named[i])
            ask_string(handle, (uint8_t)i, language, text);
    return r != LIBUSB_ERROR_BUSY;
}

/* Whether this device wasn't the last one to be there; it is then. */
static bool is_other(uint32_t *there, uint32_t ids)
{
    lock();
    uint32_t before = *there;
    *there = ids;
    unlock();
    return before != ids;
}

void record_device(libusb_device_handle *handle)
{
    struct libusb_device_descriptor it;
    libusb_device *device = libusb_get_device(handle);
    if (libusb_get_device_descriptor(device, &it) || !is_wanted(it.idVendor, it.idProduct))
        return;
    uint8_t bus = libusb_get_bus_number(device), address = libusb_get_device_address(device);
    uint32_t ids = (uint32_t)it.idVendor << 16 | it.idProduct;
    if (is_other(&described[bus][address], ids)) {
        record_device_descriptor(handle, &it);
        record_configuration(handle);
    }
    if (wants_strings() && is_other(&asked[bus][address], ids) && !record_strings(handle, &it))
        is_other(&asked[bus][address], 0);
}

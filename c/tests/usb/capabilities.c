/* What libusb has since 1.0.27: interface associations, the capabilities of a platform and of SuperSpeedPlus, packet sizes by alternate
 * setting; and its version and languages. */
#include "scene.h"

#include <stdio.h>
#include <string.h>

/* Two functions of two interfaces each, and an interface by itself. The second association stands amid the interfaces, and the
 * configuration's last descriptor is an unknown one. */
#define FUNCTIONS \
    "device 0 09024900050100c032" "080b00020e030005" "0904000000ff000000" "0904010000ff000000" "080b020202020106" "0904020000ff000000" \
    "0904030000ff000000" "0904040000ff000000" "0324ff"
/* The last association has five bytes alone, with which the configuration ends. */
#define SHORT "device 0 09021f00010100c032" "080b00010e030005" "0904000000ff000000" "050b0102ff"
/* An interface with two alternate settings, and one whose number isn't its place. Endpoint 81 is an interrupt endpoint of three
 * transactions of 1,024 bytes in a microframe, then of one of 64; 02 is for bulk transfers. */
#define SETTINGS \
    "device 0 09024000020100c032" "0904000002ff000000" "07058103001404" "07050202000200" "0904000101ff000000" "07058103400004" \
    "0904050001ff000000" "07058302000200"

static struct libusb_bos_descriptor *bos;

static void version(void)
{
    const struct libusb_version *it = libusb_get_version();
    puts("the version");
    printf("  %u.%u.%u\n", it->major, it->minor, it->micro);
    printf("  API %#x\n", LIBUSB_API_VERSION);
}

static int code_at(int place)
{
    return place == LIBUSB_ERROR_COUNT - 1 ? LIBUSB_ERROR_OTHER : -place;
}

/* How many sentences there are, each another than the English one. */
static int other_sentences(const char *const *english)
{
    int count = 0;
    for (int place = 0; place < LIBUSB_ERROR_COUNT; place++)
        count += strcmp(libusb_strerror(code_at(place)), english[place]) != 0;
    return count;
}

static void say_in(const char *locale, const char *const *english)
{
    char call[64];
    snprintf(call, sizeof call, "setlocale %s", locale);
    answer(call, libusb_setlocale(locale));
    number("sentences of its own", other_sentences(english));
}

static void languages(void)
{
    static const char *const refused[] = { "", "d", "deu", "german", "de@euro", "C" };
    const char *english[LIBUSB_ERROR_COUNT];
    puts("languages");
    for (int place = 0; place < LIBUSB_ERROR_COUNT; place++)
        english[place] = libusb_strerror(code_at(place));
    say_in("nl", english);
    say_in("fr-CA", english);
    say_in("ru_RU", english);
    say_in("de.ISO-8859-1", english);
    say_in("HU_hu.UTF-8", english);
    answer("none", libusb_setlocale(NULL));
    for (size_t i = 0; i < sizeof refused / sizeof refused[0]; i++)
        answer(refused[i], libusb_setlocale(refused[i]));
    answer("xx", libusb_setlocale("xx"));
    number("still", other_sentences(english));
    say(strcmp(libusb_strerror(4711), libusb_strerror(LIBUSB_ERROR_OTHER)) ? "an error of its own" : "any other error");
    say(strcmp(libusb_strerror(-13), libusb_strerror(LIBUSB_ERROR_OTHER)) ? "an error of its own" : "any other error");
    say(libusb_error_name(LIBUSB_ERROR_BUSY));
    answer("en", libusb_setlocale("en"));
    say(libusb_strerror(LIBUSB_ERROR_BUSY));
}

static void show_associations(const struct libusb_interface_association_descriptor_array *array)
{
    number("associations", array->length);
    for (int i = 0; i < array->length; i++) {
        const struct libusb_interface_association_descriptor *it = &array->iad[i];
        printf("  %u %02x first %u count %u class %02x %02x %02x string %u\n", it->bLength, it->bDescriptorType, it->bFirstInterface,
               it->bInterfaceCount, it->bFunctionClass, it->bFunctionSubClass, it->bFunctionProtocol, it->iFunction);
    }
    if (!array->iad)
        say("no array");
}

static void associations(const char *name, const char *text)
{
    struct libusb_interface_association_descriptor_array *array = NULL;
    libusb_device_handle *opened = NULL;
    begin_text(name, text);
    libusb_device *device = first_device();
    answer("of the first configuration", libusb_get_interface_association_descriptors(device, 0, &array));
    if (array)
        show_associations(array);
    libusb_free_interface_association_descriptors(array);
    array = NULL;
    answer("of the second", libusb_get_interface_association_descriptors(device, 1, &array));
    answer("for nobody", libusb_get_interface_association_descriptors(device, 0, NULL));
    answer("of the active one, for nobody", libusb_get_active_interface_association_descriptors(device, NULL));
    answer("of the active one", libusb_get_active_interface_association_descriptors(device, &array));
    number("associations", array ? array->length : -1);
    libusb_free_interface_association_descriptors(array);
    libusb_free_interface_association_descriptors(NULL);
    answer("open", libusb_open(device, &opened));
    answer("set to none", libusb_set_configuration(opened, -1));
    answer("of the active one", libusb_get_active_interface_association_descriptors(device, &array));
    libusb_close(opened);
    libusb_unref_device(device);
    end();
}

static void all_associations(void)
{
    associations("associations", FUNCTIONS);
    associations("no association", STANDARD);
    associations("an association that is short", SHORT);
}

static void packet(libusb_device *device, int interface, int setting, unsigned char endpoint)
{
    char call[64];
    snprintf(call, sizeof call, "%d %d %02x", interface, setting, endpoint);
    answer(call, libusb_get_max_alt_packet_size(device, interface, setting, endpoint));
}

static void settings(void)
{
    libusb_device_handle *opened = NULL;
    begin_text("packets by alternate setting", SETTINGS);
    libusb_device *device = first_device();
    packet(device, 0, 0, 0x81);
    packet(device, 0, 0, 0x02);
    packet(device, 0, 1, 0x81);
    packet(device, 0, 1, 0x02);
    packet(device, 0, 2, 0x81);
    packet(device, 1, 0, 0x83);
    packet(device, 1, 1, 0x83);
    packet(device, 2, 0, 0x83);
    answer("whatever the setting", libusb_get_max_iso_packet_size(device, 0x81));
    answer("open", libusb_open(device, &opened));
    answer("set to none", libusb_set_configuration(opened, -1));
    packet(device, 0, 0, 0x81);
    libusb_close(opened);
    libusb_unref_device(device);
    end();
}

/* The standard device, with these device capabilities behind the head of a BOS descriptor. */
static void begin_capabilities(const char *name, const char *capabilities, int count)
{
    char text[512];
    snprintf(text, sizeof text, "control 0 80 06 0f00 0000 d:050f%02x00%02x%s\n", 5 + (int)strlen(capabilities) / 2, count, capabilities);
    begin_unclaimed(name, text);
    answer("capabilities", libusb_get_bos_descriptor(handle, &bos));
    number("count", bos->bNumDeviceCaps);
}

static void end_capabilities(void)
{
    libusb_free_bos_descriptor(bos);
    end();
}

static void show_plus(struct libusb_bos_dev_capability_descriptor *capability)
{
    struct libusb_ssplus_usb_device_capability_descriptor *it = NULL;
    int result = libusb_get_ssplus_usb_device_capability_descriptor(context, capability, &it);
    answer("of SuperSpeedPlus", result);
    if (result < 0)
        return;
    printf("  speeds %u ids %u minimum %u lanes %u %u\n", it->numSublinkSpeedAttributes, it->numSublinkSpeedIDs, it->ssid,
           it->minRxLaneCount, it->minTxLaneCount);
    for (int i = 0; i < it->numSublinkSpeedAttributes; i++) {
        const struct libusb_ssplus_sublink_attribute *speed = &it->sublinkSpeedAttributes[i];
        printf("  %u: %u by exponent %d type %d direction %d protocol %d\n", speed->ssid, speed->mantissa, (int)speed->exponent,
               (int)speed->type, (int)speed->direction, (int)speed->protocol);
    }
    libusb_free_ssplus_usb_device_capability_descriptor(it);
}

static void show_platform(struct libusb_bos_dev_capability_descriptor *capability)
{
    struct libusb_platform_descriptor *it = NULL;
    int result = libusb_get_platform_descriptor(context, capability, &it);
    answer("of a platform", result);
    if (result < 0)
        return;
    printf("  %u %02x %02x reserved %02x\n", it->bLength, it->bDescriptorType, it->bDevCapabilityType, it->bReserved);
    bytes("UUID", it->PlatformCapabilityUUID, 16);
    bytes("data", it->CapabilityData, it->bLength - LIBUSB_BT_PLATFORM_DESCRIPTOR_MIN_SIZE);
    libusb_free_platform_descriptor(it);
}

/* Two speeds; then as many as are told, but one byte is lacking; then less than the fixed part. */
static void plus(void)
{
    begin_capabilities("SuperSpeedPlus",
                       "14100a00110000000121000030400a00e1008813"
                       "13100a00110000000121000030400a00e10088"
                       "0b100a0000000000012100"
                       "07100202000000", 4);
    for (int i = 0; i < 4; i++)
        show_plus(bos->dev_capability[i]);
    libusb_free_ssplus_usb_device_capability_descriptor(NULL);
    end_capabilities();
}

/* With data, without, and with one byte too few. */
static void platform(void)
{
    begin_capabilities("a platform",
                       "17100500000102030405060708090a0b0c0d0e0faabbcc"
                       "14100507000102030405060708090a0b0c0d0e0f"
                       "13100500000102030405060708090a0b0c0d0e"
                       "07100202000000", 4);
    for (int i = 0; i < 4; i++)
        show_platform(bos->dev_capability[i]);
    libusb_free_platform_descriptor(NULL);
    end_capabilities();
}

int main(void)
{
    version();
    languages();
    all_associations();
    settings();
    plus();
    platform();
    return 0;
}

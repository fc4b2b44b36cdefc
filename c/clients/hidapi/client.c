/* What hidapi makes of a device: its strings, reports by interrupt, which it reads in a thread of its own, and feature reports. */
#include <stdio.h>
#include <string.h>
#include <wchar.h>

/* Of hidapi.h, so that the library alone is needed. */
typedef struct hid_device_ hid_device;
struct hid_device_info {
    char *path;
    unsigned short vendor_id, product_id;
    wchar_t *serial_number;
    unsigned short release_number;
    wchar_t *manufacturer_string, *product_string;
    unsigned short usage_page, usage;
    int interface_number;
    struct hid_device_info *next;
};
int hid_init(void);
int hid_exit(void);
struct hid_device_info *hid_enumerate(unsigned short vendor, unsigned short product);
void hid_free_enumeration(struct hid_device_info *devices);
hid_device *hid_open(unsigned short vendor, unsigned short product, const wchar_t *serial);
int hid_write(hid_device *device, const unsigned char *data, size_t length);
int hid_read_timeout(hid_device *device, unsigned char *data, size_t length, int milliseconds);
int hid_send_feature_report(hid_device *device, const unsigned char *data, size_t length);
int hid_get_feature_report(hid_device *device, unsigned char *data, size_t length);
int hid_get_product_string(hid_device *device, wchar_t *string, size_t length);
void hid_close(hid_device *device);

static void read_report(hid_device *device, int milliseconds)
{
    unsigned char bytes[65];
    int count = hid_read_timeout(device, bytes, sizeof bytes, milliseconds);
    printf("read %d:", count);
    for (int i = 0; i < count; i++)
        printf(" %02x", bytes[i]);
    puts("");
}

int main(void)
{
    unsigned char bytes[9] = { 0 };
    wchar_t string[100];
    if (hid_init())
        return 1;
    struct hid_device_info *all = hid_enumerate(0, 0);
    for (struct hid_device_info *it = all; it; it = it->next)
        printf("%04hx:%04hx %04hx, %ls, %ls, %ls, interface %d\n", it->vendor_id, it->product_id, it->release_number,
               it->manufacturer_string, it->product_string, it->serial_number, it->interface_number);
    hid_free_enumeration(all);
    hid_device *device = hid_open(0x1209, 5, L"P1");
    if (!device)
        return 2;
    hid_get_product_string(device, string, 100);
    printf("product %ls\n", string);
    read_report(device, 5000);
    read_report(device, 5000);
    read_report(device, 30);
    memset(bytes + 1, 7, 8);
    printf("write %d\n", hid_write(device, bytes, 9));
    read_report(device, 5000);
    printf("write %d\n", hid_write(device, bytes, 9));
    bytes[0] = 5;
    printf("feature %d:", hid_get_feature_report(device, bytes, 3));
    printf(" %02x %02x %02x\n", bytes[0], bytes[1], bytes[2]);
    printf("feature %d\n", hid_send_feature_report(device, bytes, 3));
    bytes[0] = 6;
    printf("feature %d\n", hid_send_feature_report(device, bytes, 3));
    read_report(device, 30);
    hid_close(device);
    puts("end");
    return hid_exit();
}

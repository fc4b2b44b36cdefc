/* What libftdi1 makes of a serial converter: its settings are requests, and its line's bytes come without each packet's status. */
#include <stdio.h>
#include <string.h>

/* Of ftdi.h, so that the library alone is needed. */
struct ftdi_context;
struct ftdi_transfer_control;
enum { BITS_8 = 8, STOP_BIT_1 = 0, NONE = 0, BITMODE_BITBANG = 1, SIO_RTS_CTS_HS = 0x100 };
struct ftdi_context *ftdi_new(void);
void ftdi_free(struct ftdi_context *ftdi);
int ftdi_usb_open_desc(struct ftdi_context *ftdi, int vendor, int product, const char *description, const char *serial);
int ftdi_usb_close(struct ftdi_context *ftdi);
int ftdi_set_baudrate(struct ftdi_context *ftdi, int baudrate);
int ftdi_set_line_property(struct ftdi_context *ftdi, int bits, int stop_bits, int parity);
int ftdi_setflowctrl(struct ftdi_context *ftdi, int control);
int ftdi_set_bitmode(struct ftdi_context *ftdi, unsigned char mask, unsigned char mode);
int ftdi_set_latency_timer(struct ftdi_context *ftdi, unsigned char milliseconds);
int ftdi_get_latency_timer(struct ftdi_context *ftdi, unsigned char *milliseconds);
int ftdi_poll_modem_status(struct ftdi_context *ftdi, unsigned short *status);
int ftdi_read_pins(struct ftdi_context *ftdi, unsigned char *pins);
int ftdi_read_data(struct ftdi_context *ftdi, unsigned char *bytes, int count);
int ftdi_write_data(struct ftdi_context *ftdi, const unsigned char *bytes, int count);
struct ftdi_transfer_control *ftdi_read_data_submit(struct ftdi_context *ftdi, unsigned char *bytes, int count);
struct ftdi_transfer_control *ftdi_write_data_submit(struct ftdi_context *ftdi, unsigned char *bytes, int count);
int ftdi_transfer_data_done(struct ftdi_transfer_control *control);
const char *ftdi_get_error_string(struct ftdi_context *ftdi);

int main(void)
{
    struct ftdi_context *ftdi = ftdi_new();
    unsigned char bytes[200] = { 0 }, byte = 0;
    unsigned short status = 0;
    if (!ftdi)
        return 1;
    printf("another's number: %d\n", ftdi_usb_open_desc(ftdi, 0x0403, 0x6001, NULL, "B2"));
    printf("open: %d\n", ftdi_usb_open_desc(ftdi, 0x0403, 0x6001, "Converter", "A1"));
    printf("115200 baud: %d\n", ftdi_set_baudrate(ftdi, 115200));
    printf("8N1: %d\n", ftdi_set_line_property(ftdi, BITS_8, STOP_BIT_1, NONE));
    printf("RTS and CTS: %d\n", ftdi_setflowctrl(ftdi, SIO_RTS_CTS_HS));
    printf("latency: %d", ftdi_set_latency_timer(ftdi, 2));
    printf(" %d", ftdi_get_latency_timer(ftdi, &byte));
    printf(", %d ms\n", byte);
    printf("modem: %d", ftdi_poll_modem_status(ftdi, &status));
    printf(", %04x\n", status);
    int count = ftdi_read_data(ftdi, bytes, sizeof bytes);
    printf("read %d: %.*s\n", count, count > 0 ? count : 0, (char *)bytes);
    count = ftdi_read_data(ftdi, bytes, sizeof bytes);
    printf("read %d\n", count);
    printf("write %d\n", ftdi_write_data(ftdi, (const unsigned char *)"question", 8));
    count = ftdi_read_data(ftdi, bytes, sizeof bytes);
    printf("read %d: %.*s\n", count, count > 0 ? count : 0, (char *)bytes);
    struct ftdi_transfer_control *write = ftdi_write_data_submit(ftdi, (unsigned char *)"another", 7);
    struct ftdi_transfer_control *read = ftdi_read_data_submit(ftdi, bytes, 14);
    printf("written %d\n", write ? ftdi_transfer_data_done(write) : -1);
    count = read ? ftdi_transfer_data_done(read) : -1;
    printf("read %d: %.*s\n", count, count > 0 ? count : 0, (char *)bytes);
    printf("pins as bits: %d", ftdi_set_bitmode(ftdi, 0x0f, BITMODE_BITBANG));
    printf(" %d", ftdi_read_pins(ftdi, &byte));
    printf(", %02x\n", byte);
    printf("no such mode: %d", ftdi_set_bitmode(ftdi, 0x0f, 0x40));
    printf(", %s\n", ftdi_get_error_string(ftdi));
    printf("close: %d\n", ftdi_usb_close(ftdi));
    ftdi_free(ftdi);
    return 0;
}

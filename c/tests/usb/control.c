/* Control transfers: what the descriptors answer, what the device's text answers, what a function of the test's answers, and how one
 * ends that isn't completed. */
#include "scene.h"

#include <stdio.h>
#include <stdlib.h>
#include <string.h>

#define MOST 4096

static unsigned char data[8192];

static int ask(int type, int request, int value, int index, int length, unsigned timeout)
{
    return libusb_control_transfer(handle, (uint8_t)type, (uint8_t)request, (uint16_t)value, (uint16_t)index, data, (uint16_t)length,
                                   timeout);
}

static void show(const char *call, int result)
{
    if (result > 0)
        bytes(call, data, result);
    else
        answer(call, result);
}

static void tell_data(struct libusb_transfer *transfer)
{
    calls++;
    printf("  called %ld %s %d", (long)(intptr_t)transfer->user_data, status_name((int)transfer->status), transfer->actual_length);
    for (int i = 0; i < transfer->actual_length && transfer->buffer[0] & LIBUSB_ENDPOINT_IN && i < 8; i++)
        printf(" %02x", libusb_control_transfer_get_data(transfer)[i]);
    printf("\n");
}

static struct libusb_transfer *make_control(long id, int type, int request, int length, unsigned timeout)
{
    struct libusb_transfer *transfer = libusb_alloc_transfer(0);
    unsigned char *buffer = calloc(1, (size_t)length + LIBUSB_CONTROL_SETUP_SIZE);
    if (!transfer || !buffer)
        exit(1);
    libusb_fill_control_setup(buffer, (uint8_t)type, (uint8_t)request, 0, 0, (uint16_t)length);
    for (int i = 0; i < length; i++)
        buffer[8 + i] = (unsigned char)(0x10 + i);
    libusb_fill_control_transfer(transfer, handle, buffer, tell_data, (void *)(intptr_t)id, timeout);
    return transfer;
}

static void descriptors(void)
{
    begin("descriptors by requests", "string 0 1 Maker\nstring 0 2 Thing\nstring 0 3 0001\n");
    show("device", libusb_get_descriptor(handle, LIBUSB_DT_DEVICE, 0, data, 18));
    show("its first half", libusb_get_descriptor(handle, LIBUSB_DT_DEVICE, 0, data, 8));
    show("configuration's head", libusb_get_descriptor(handle, LIBUSB_DT_CONFIG, 0, data, 9));
    number("configuration", libusb_get_descriptor(handle, LIBUSB_DT_CONFIG, 0, data, 255));
    answer("a second configuration", libusb_get_descriptor(handle, LIBUSB_DT_CONFIG, 1, data, 255));
    answer("capabilities", libusb_get_descriptor(handle, LIBUSB_DT_BOS, 0, data, 255));
    show("get configuration", ask(0x80, LIBUSB_REQUEST_GET_CONFIGURATION, 0, 0, 1, 100));
    show("get status", ask(0x80, LIBUSB_REQUEST_GET_STATUS, 0, 0, 2, 100));
    show("get interface", ask(0x81, LIBUSB_REQUEST_GET_INTERFACE, 0, 1, 1, 100));
    show("get status of an interface", ask(0x81, LIBUSB_REQUEST_GET_STATUS, 0, 1, 2, 100));
    answer("set interface", ask(0x01, LIBUSB_REQUEST_SET_INTERFACE, 0, 0, 0, 100));
    answer("a vendor's request that nothing answers", ask(0xc0, 1, 0, 0, 8, 100));
    end();
}

static void ascii(int index, int room)
{
    memset(data, 0, sizeof data);
    int result = libusb_get_string_descriptor_ascii(handle, (uint8_t)index, data, room);
    if (result < 0)
        answer("string", result);
    else
        printf("  string: %d %s\n", result, (const char *)data);
}

static void strings(void)
{
    begin("strings", "string 0 1 Maker of things\nstring 0 2 u:4100e9004200\n");
    ascii(1, 64);
    ascii(1, 6);
    ascii(2, 64);
    ascii(0, 64);
    ascii(9, 64);
    show("languages", libusb_get_string_descriptor(handle, 0, 0, data, 255));
    show("string 2", libusb_get_string_descriptor(handle, 2, 0x0409, data, 255));
    end();
}

static void vendor(void)
{
    begin("a vendor's requests", "control 0 c0 01 0203 0004 d:0a0b s d:0c\n"
                                 "control 0 40 02 * * a\n"
                                 "control 0 c0 03 * 0000 d:01020304\n"
                                 "control 0 c0 * * * d:ff\n"
                                 "control 0 40 04 0000 0000 b\n");
    for (int i = 0; i < 4; i++)
        show("in order", ask(0xc0, 1, 0x0203, 4, 64, 100));
    answer("written", ask(0x40, 2, 1, 1, 5, 100));
    answer("written without bytes", ask(0x40, 2, 7, 7, 0, 100));
    show("cut", ask(0xc0, 3, 9, 0, 2, 100));
    show("the first line that fits", ask(0xc0, 3, 9, 1, 2, 100));
    show("any", ask(0xc0, 0xee, 9, 9, 2, 100));
    answer("refused", ask(0x40, 3, 0, 0, 5, 100));
    answer("broken", ask(0x40, 4, 0, 0, 0, 100));
    answer("an answer to no room", ask(0xc0, 3, 9, 0, 0, 100));
    end();
}

static void by_callback(void)
{
    struct libusb_transfer *transfers[4];
    begin("by callbacks", "control 0 c0 01 0000 0000 d:0a0b\ncontrol 0 40 02 0000 0000 a\n");
    transfers[0] = make_control(0, 0xc0, 1, 2, 0);
    transfers[1] = make_control(1, 0xc0, 1, 8, 0);
    transfers[1]->flags = LIBUSB_TRANSFER_SHORT_NOT_OK;
    transfers[2] = make_control(2, 0x40, 2, 5, 0);
    transfers[3] = make_control(3, 0xc0, 9, 5, 0);
    for (int i = 0; i < 4; i++)
        send_off(transfers[i]);
    number("calls before events are handled", calls);
    wait_for(4);
    send_off(transfers[0]);
    work();
    for (int i = 0; i < 4; i++)
        discard(transfers[i]);
    end();
}

static void lengths(void)
{
    struct libusb_transfer *transfer;
    begin("lengths", "control 0 40 02 0000 0000 a\n");
    transfer = make_control(0, 0x40, 2, MOST, 0);
    send_off(transfer);
    work();
    discard(transfer);
    transfer = make_control(1, 0x40, 2, MOST + 1, 0);
    send_off(transfer);
    discard(transfer);
    transfer = make_control(2, 0x40, 2, 0, 0);
    transfer->length = 7;
    send_off(transfer);
    discard(transfer);
    answer("4,096 bytes, waited for", ask(0x40, 2, 0, 0, MOST, 100));
    answer("4,097 bytes, waited for", ask(0x40, 2, 0, 0, MOST + 1, 100));
    end();
}

static int answered, is_ready, asked_in_vain;

static int by_function(void *user, const uint8_t setup[8], uint8_t *out, int length)
{
    ++*(int *)user;
    switch (setup[1]) {
    case 1:
        return TIRNOUCH_STALL;
    case 2:
        return TIRNOUCH_AS_TEXT;
    case 3:
        if (!is_ready) {
            is_ready = 1;
            return TIRNOUCH_NOT_READY;
        }
        break;
    case 4:
        return out[0] == 0x55 && length == 2 ? length : TIRNOUCH_STALL;
    case 5:
        if (++asked_in_vain < 4)
            return TIRNOUCH_NOT_READY;
        break;
    default:
        break;
    }
    for (int i = 0; i < length && i < 3; i++)
        out[i] = setup[2];
    return length < 3 ? length : 3;
}

static void functions(void)
{
    begin("answered by a function", "control 0 c0 * * * d:77\n");
    answered = 0;
    answer("set", tirnouch_on_control(0, by_function, &answered));
    answer("set of device 16", tirnouch_on_control(16, by_function, &answered));
    show("computed", ask(0xc0, 0, 0x21, 0, 8, 100));
    show("refused", ask(0xc0, 1, 0, 0, 8, 100));
    show("as the text", ask(0xc0, 2, 0, 0, 8, 100));
    show("ready the second time", ask(0xc0, 3, 0x44, 0, 8, 1000));
    long long from = clock_now();
    show("ready the fourth time", ask(0xc0, 5, 0x45, 0, 8, 5000));
    say(clock_now() - from < 2000 ? "soon" : "late");
    data[0] = 0x55;
    answer("written", ask(0x40, 4, 0, 0, 2, 100));
    data[0] = 0x56;
    answer("written", ask(0x40, 4, 0, 0, 2, 100));
    show("no room", ask(0xc0, 0, 0x21, 0, 0, 100));
    number("asked", answered);
    answer("no more", tirnouch_on_control(0, NULL, NULL));
    show("by the text again", ask(0xc0, 0, 0x21, 0, 8, 100));
    end();
}

static void not_ready(void)
{
    struct libusb_transfer *transfer;
    long long from;
    begin("not ready", "control 0 c0 01 0000 0000 n n d:07\ncontrol 0 c0 02 0000 0000 n\n");
    show("ready the third time", ask(0xc0, 1, 0, 0, 8, 1000));
    from = clock_now();
    show("never ready", ask(0xc0, 2, 0, 0, 8, 60));
    say(clock_now() - from >= 59 ? "in time" : "early");
    transfer = make_control(0, 0xc0, 2, 8, 0);
    send_off(transfer);
    work();
    answer("cancel", libusb_cancel_transfer(transfer));
    answer("cancel again", libusb_cancel_transfer(transfer));
    work();
    transfer->timeout = 30;
    send_off(transfer);
    wait_for(2);
    transfer->timeout = 0;
    send_off(transfer);
    tirnouch_pull(0);
    work();
    send_off(transfer);
    discard(transfer);
    end();
}

static void requests(void)
{
    unsigned char record[64];
    struct libusb_transfer *transfer;
    int result;
    begin("requests that a device had", "script 0 81 d:01\nafter 0 81 0 00 2\ncontrol 0 40 02 * * a\n");
    number("requests", tirnouch_requests(0, 0, NULL));
    transfer = submit(0, 0x81, 8);
    work();
    data[0] = 0xab;
    data[1] = 0xcd;
    answer("written", ask(0x40, 2, 0x0102, 0x0304, 2, 100));
    number("calls", calls);
    result = ask(0xc0, 5, 6, 7, 9, 100);
    work();
    answer("refused", result);
    number("requests", tirnouch_requests(0, 0, record));
    bytes("the first", record, 12);
    number("requests", tirnouch_requests(0, 1, record));
    bytes("the second", record, 12);
    discard(transfer);
    end();
}

static void to_interfaces(void)
{
    libusb_device_handle *other;
    begin_unclaimed("requests to interfaces", "control 0 c1 01 * * d:0a\n");
    other = open_standard(context);
    show("a vendor's, to interface 0", ask(0xc1, 1, 0, 0, 8, 100));
    answer("claim of 0 by the other", libusb_claim_interface(other, 0));
    show("a vendor's, to the other's", ask(0xc1, 1, 0, 0, 8, 100));
    show("a standard one, to interface 1", ask(0x81, LIBUSB_REQUEST_GET_INTERFACE, 0, 1, 1, 100));
    answer("claim of 1 by the other", libusb_claim_interface(other, 1));
    say(ask(0x81, LIBUSB_REQUEST_GET_INTERFACE, 0, 0, 1, 100) < 0 ? "a standard one, to the other's, is refused" : "answered");
    libusb_close(other);
    end();
}

int main(void)
{
    descriptors();
    strings();
    vendor();
    by_callback();
    lengths();
    functions();
    not_ready();
    requests();
    to_interfaces();
    return 0;
}

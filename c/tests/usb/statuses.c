/* How a transfer ends: each status that libusb has, and the bytes that came with it. The expected lines are written from libusb's manual
 * and the rules of the devices' text. */
#include "scene.h"

#include <stddef.h>

static void completed(void)
{
    struct libusb_transfer *transfer;
    begin("completed", "script 0 81 d:0102030405060708\n");
    transfer = submit(0, 0x81, 8);
    number("calls before events are handled", calls);
    work();
    discard(transfer);
    end();

    begin("completed in two packets, not ready before and between", "script 0 81 n d:0102030405060708 n n d:1112131415161718\n");
    transfer = submit(0, 0x81, 16);
    work();
    discard(transfer);
    end();

    begin("completed by the interrupt endpoint", "script 0 83 d:0b0c\n");
    transfer = submit(0, 0x83, 8);
    work();
    discard(transfer);
    end();

    begin("written", "script 0 02 a a a\n");
    transfer = submit(0, 0x02, 17);
    work();
    took(0x02);
    discard(transfer);
    end();
}

static void short_read(void)
{
    struct libusb_transfer *transfers[3];
    begin("short", "script 0 81 d:0102030405060708 d:11 d:\n");
    transfers[0] = submit(0, 0x81, 24);
    transfers[1] = submit(1, 0x81, 24);
    work();
    discard(transfers[0]);
    discard(transfers[1]);
    end();

    begin("short where that isn't ok", "script 0 81 d:0102030405060708 d:11 d:21 d:3132333435363738\n");
    transfers[0] = submit_with(0, 0x81, 24, LIBUSB_TRANSFER_SHORT_NOT_OK, 0);
    transfers[1] = submit(1, 0x81, 8);
    transfers[2] = submit_with(2, 0x81, 8, LIBUSB_TRANSFER_SHORT_NOT_OK, 0);
    work();
    for (int i = 0; i < 3; i++)
        discard(transfers[i]);
    end();
}

static void overflow(void)
{
    struct libusb_transfer *transfers[2];
    begin("overflow", "script 0 81 d:0102030405 d:0a0b\n");
    transfers[0] = submit(0, 0x81, 4);
    transfers[1] = submit(1, 0x81, 8);
    work();
    discard(transfers[0]);
    discard(transfers[1]);
    end();

    begin("overflow behind a packet", "script 0 81 d:0102030405060708 d:1112\n");
    transfers[0] = submit(0, 0x81, 9);
    work();
    discard(transfers[0]);
    end();

    begin("a packet over the endpoint's size", "script 0 81 d:010203040506070809\n");
    transfers[0] = submit(0, 0x81, 16);
    work();
    discard(transfers[0]);
    end();
}

static void stall(void)
{
    struct libusb_transfer *transfers[4];
    begin("stall and clear_halt", "script 0 81 s d:01\n");
    transfers[0] = submit(0, 0x81, 8);
    transfers[1] = submit(1, 0x81, 8);
    work();
    transfers[2] = submit(2, 0x81, 8);
    work();
    answer("clear_halt", libusb_clear_halt(handle, 0x81));
    transfers[3] = submit(3, 0x81, 8);
    work();
    for (int i = 0; i < 4; i++)
        discard(transfers[i]);
    end();

    begin("stall behind a packet", "script 0 81 d:0102030405060708 s\nscript 0 02 a s a\n");
    transfers[0] = submit(0, 0x81, 24);
    work();
    transfers[1] = submit(1, 0x02, 16);
    work();
    answer("clear_halt", libusb_clear_halt(handle, 0x02));
    transfers[2] = submit(2, 0x02, 3);
    work();
    took(0x02);
    for (int i = 0; i < 3; i++)
        discard(transfers[i]);
    end();
}

static void cancelled(void)
{
    struct libusb_transfer *transfer;
    begin("cancelled", "");
    transfer = make(0, 0x81, 8);
    answer("cancel before it is submitted", libusb_cancel_transfer(transfer));
    send_off(transfer);
    answer("cancel", libusb_cancel_transfer(transfer));
    answer("cancel again", libusb_cancel_transfer(transfer));
    number("calls before events are handled", calls);
    work();
    answer("cancel behind the callback", libusb_cancel_transfer(transfer));
    discard(transfer);
    end();

    begin("cancelled with what had moved", "script 0 81 d:0102030405060708\nscript 0 02 a\n");
    transfer = submit(0, 0x81, 16);
    work();
    answer("cancel", libusb_cancel_transfer(transfer));
    work();
    discard(transfer);
    transfer = submit(1, 0x02, 16);
    work();
    answer("cancel", libusb_cancel_transfer(transfer));
    work();
    discard(transfer);
    end();

    begin("submitted twice", "script 0 81 d:01\n");
    transfer = submit(0, 0x81, 8);
    answer("submit again", libusb_submit_transfer(transfer));
    work();
    discard(transfer);
    end();
}

static void timed_out(void)
{
    struct libusb_transfer *transfer;
    long long from, took_time;
    begin("timed out", "");
    from = clock_now();
    transfer = submit_with(0, 0x81, 8, 0, 50);
    wait_for(1);
    took_time = clock_now() - from;
    say(took_time >= 49 && took_time < 1000 ? "in time" : "early or late");
    discard(transfer);
    end();

    virtual_time(1);
    begin("timed out with what had moved", "script 0 81 d:0102030405060708\nscript 0 02 a\n");
    transfer = submit_with(0, 0x81, 16, 0, 5000);
    wait_for(1);
    answer("cancel behind it", libusb_cancel_transfer(transfer));
    discard(transfer);
    transfer = submit_with(1, 0x02, 16, 0, 5000);
    wait_for(2);
    took(0x02);
    discard(transfer);
    end();
    virtual_time(0);
}

static void no_device(void)
{
    struct libusb_transfer *transfers[4];
    begin("pulled out", "script 0 81 d:01\n");
    transfers[0] = submit(0, 0x81, 8);
    work();
    transfers[1] = submit_with(1, 0x81, 8, 0, 60000);
    transfers[2] = submit_with(2, 0x83, 8, 0, 50000);
    answer("pull", tirnouch_pull(0));
    number("calls before events are handled", calls);
    work();
    transfers[3] = submit(3, 0x81, 8);
    answer("pull again", tirnouch_pull(0));
    answer("pull of no device", tirnouch_pull(3));
    answer("pull of a number that no device has", tirnouch_pull(4));
    for (int i = 0; i < 4; i++)
        discard(transfers[i]);
    end();

    begin("pulled out before it was asked", "script 0 81 d:01\n");
    transfers[0] = submit(0, 0x81, 8);
    answer("pull", tirnouch_pull(0));
    work();
    discard(transfers[0]);
    end();

    begin("leaves in the midst", "script 0 81 d:0102030405060708 d:1112131415161718 d:2122232425262728\nleaves 0 81 2\n");
    transfers[0] = submit(0, 0x81, 24);
    transfers[1] = submit(1, 0x81, 8);
    wait_for(2);
    discard(transfers[0]);
    discard(transfers[1]);
    end();
}

static void after_a_pull(void)
{
    libusb_device *device;
    libusb_device_handle *other = NULL;
    int configuration;
    begin_unclaimed("calls behind a pull", "");
    device = libusb_get_device(handle);
    tirnouch_pull(0);
    answer("claim", libusb_claim_interface(handle, 0));
    answer("get_configuration", libusb_get_configuration(handle, &configuration));
    answer("set_configuration", libusb_set_configuration(handle, 1));
    answer("reset", libusb_reset_device(handle));
    answer("kernel_driver_active", libusb_kernel_driver_active(handle, 0));
    answer("control", libusb_control_transfer(handle, 0x80, 0x06, 0x0100, 0, (unsigned char[18]){ 0 }, 18, 100));
    answer("open", libusb_open(device, &other));
    say(libusb_open_device_with_vid_pid(context, VENDOR, PRODUCT) ? "found" : "not found");
    end();
}

static void broken(void)
{
    struct libusb_transfer *transfers[3];
    begin("broken", "script 0 81 b d:0102030405060708 b d:11\n");
    transfers[0] = submit(0, 0x81, 8);
    transfers[1] = submit(1, 0x81, 16);
    transfers[2] = submit(2, 0x81, 8);
    work();
    for (int i = 0; i < 3; i++)
        discard(transfers[i]);
    end();
}

static void no_callback(void)
{
    struct libusb_transfer *transfer;
    begin("no callback", "script 0 81 d:0102\n");
    transfer = make(0, 0x81, 8);
    transfer->callback = NULL;
    send_off(transfer);
    work();
    say(status_name((int)transfer->status));
    number("length", transfer->actual_length);
    send_off(transfer);
    answer("cancel", libusb_cancel_transfer(transfer));
    work();
    say(status_name((int)transfer->status));
    discard(transfer);
    end();
}

int main(void)
{
    completed();
    short_read();
    overflow();
    stall();
    cancelled();
    timed_out();
    no_device();
    after_a_pull();
    broken();
    no_callback();
    return 0;
}

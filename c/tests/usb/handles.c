/* Handles and their interfaces: who may claim, what a close, a release and a reset do to transfers in flight, where a device's script
 * goes on and where it begins anew, kernel drivers, configurations and alternate settings, and two contexts. */
#include "scene.h"

#include <stddef.h>

/* Interface 0 has a second setting, without endpoints, and a third with one that no other has. */
static const char three_settings[] =
    "device 0 090239000101008032" "0904000002ff000000" "07058102080000" "07050202080000" "0904000100ff000000" "0904000201ff000000"
    "07058402080000\nids 0 04a9 31c0\n";

static void read_one(libusb_device_handle *by, const char *call)
{
    unsigned char data[8] = { 0 };
    int moved = 0, result = libusb_bulk_transfer(by, 0x81, data, 8, &moved, 1000);
    if (result)
        answer(call, result);
    else
        bytes(call, data, moved);
}

static void claims(void)
{
    libusb_device_handle *other;
    begin_unclaimed("claims of one handle", "");
    answer("claim of 0", libusb_claim_interface(handle, 0));
    answer("claim of 0 again", libusb_claim_interface(handle, 0));
    answer("claim of 1", libusb_claim_interface(handle, 1));
    answer("claim of 2", libusb_claim_interface(handle, 2));
    answer("claim of 31", libusb_claim_interface(handle, 31));
    answer("claim of 32", libusb_claim_interface(handle, 32));
    answer("claim of -1", libusb_claim_interface(handle, -1));
    answer("release of 2", libusb_release_interface(handle, 2));
    answer("release of 32", libusb_release_interface(handle, 32));
    answer("release of 0", libusb_release_interface(handle, 0));
    answer("release of 0 again", libusb_release_interface(handle, 0));
    end();

    begin_unclaimed("claims of two handles", "");
    other = open_standard(context);
    say(libusb_get_device(handle) == libusb_get_device(other) ? "one device" : "two devices");
    answer("claim", libusb_claim_interface(handle, 0));
    answer("claim by the other", libusb_claim_interface(other, 0));
    answer("claim of another interface by the other", libusb_claim_interface(other, 1));
    answer("release by the other", libusb_release_interface(other, 0));
    answer("release", libusb_release_interface(handle, 0));
    answer("claim by the other", libusb_claim_interface(other, 0));
    answer("claim", libusb_claim_interface(handle, 0));
    libusb_close(other);
    answer("claim behind the other's close", libusb_claim_interface(handle, 0));
    end();
}

static void in_passing(void)
{
    libusb_device_handle *other;
    struct libusb_transfer *transfer;
    begin_unclaimed("claimed in passing", "script 0 81 d:01 d:02\n");
    other = open_standard(context);
    transfer = submit(0, 0x81, 8);
    work();
    answer("claim by the other", libusb_claim_interface(other, 0));
    transfer->dev_handle = other;
    send_off(transfer);
    answer("release", libusb_release_interface(handle, 0));
    send_off(transfer);
    work();
    answer("claim", libusb_claim_interface(handle, 0));
    discard(transfer);
    libusb_close(other);
    end();
}

static void refused_submissions(void)
{
    struct libusb_transfer *transfer;
    begin("submissions that are refused", "");
    transfer = submit(0, 0x85, 8);
    discard(transfer);
    transfer = make(1, 0x81, 8);
    transfer->type = LIBUSB_TRANSFER_TYPE_INTERRUPT;
    send_off(transfer);
    discard(transfer);
    transfer = make(2, 0x81, 8);
    transfer->length = -1;
    send_off(transfer);
    work();
    discard(transfer);
    end();
}

/* As Linux takes it. */
static void bulk_at_an_interrupt_endpoint(void)
{
    struct libusb_transfer *transfer;
    begin("bulk at an interrupt endpoint", "script 0 83 d:0b\n");
    transfer = make(0, 0x83, 8);
    transfer->type = LIBUSB_TRANSFER_TYPE_BULK;
    send_off(transfer);
    work();
    discard(transfer);
    end();
}

static void close_in_flight(void)
{
    struct libusb_transfer *transfers[3];
    begin("closed in flight", "script 0 81 d:01\n");
    transfers[0] = submit(0, 0x81, 8);
    transfers[1] = submit(1, 0x83, 8);
    transfers[2] = make(2, 0x00, 8 + 18);
    libusb_fill_control_setup(transfers[2]->buffer, 0x80, 0x06, 0x0100, 0, 18);
    libusb_fill_control_transfer(transfers[2], handle, transfers[2]->buffer, tell, (void *)2, 0);
    send_off(transfers[2]);
    libusb_close(handle);
    handle = NULL;
    work();
    number("calls", calls);
    handle = open_standard(context);
    answer("claim of 0", libusb_claim_interface(handle, 0));
    answer("claim of 1", libusb_claim_interface(handle, 1));
    transfers[1]->dev_handle = handle;
    send_off(transfers[1]);
    answer("cancel", libusb_cancel_transfer(transfers[1]));
    work();
    for (int i = 0; i < 3; i++)
        discard(transfers[i]);
    end();
}

static void release_in_flight(void)
{
    struct libusb_transfer *transfers[3];
    begin("released in flight", "script 0 83 n d:0b\nscript 0 81 d:0102030405060708\n");
    transfers[0] = submit(0, 0x81, 16);
    work();
    transfers[1] = submit(1, 0x81, 8);
    transfers[2] = submit(2, 0x83, 8);
    answer("release", libusb_release_interface(handle, 0));
    number("calls before events are handled", calls);
    wait_for(2);
    work();
    for (int i = 0; i < 3; i++)
        discard(transfers[i]);
    end();

    begin("reset in flight", "script 0 81 d:01 d:02\n");
    transfers[0] = submit(0, 0x83, 8);
    answer("reset", libusb_reset_device(handle));
    number("calls before events are handled", calls);
    work();
    transfers[1] = submit(1, 0x81, 8);
    work();
    discard(transfers[0]);
    discard(transfers[1]);
    end();
}

static void script_goes_on(void)
{
    libusb_device_handle *other;
    begin("the script goes on", "script 0 81 d:01 d:02 d:03 d:04 d:05\n");
    read_one(handle, "read");
    answer("release", libusb_release_interface(handle, 0));
    answer("claim", libusb_claim_interface(handle, 0));
    read_one(handle, "read");
    answer("release", libusb_release_interface(handle, 0));
    other = open_standard(context);
    answer("claim by the other", libusb_claim_interface(other, 0));
    read_one(other, "read by the other");
    libusb_close(other);
    answer("claim", libusb_claim_interface(handle, 0));
    read_one(handle, "read");
    libusb_close(handle);
    handle = open_standard(context);
    answer("claim", libusb_claim_interface(handle, 0));
    read_one(handle, "read");
    end();

    begin("the script begins anew", "script 0 81 d:01 d:02 s d:03\n");
    read_one(handle, "read");
    answer("reset", libusb_reset_device(handle));
    read_one(handle, "read");
    read_one(handle, "read");
    read_one(handle, "read");
    answer("reset", libusb_reset_device(handle));
    read_one(handle, "read");
    end();
}

/* A reset ends its halts, and no more. */
static void script_lasts(void)
{
    begin("the script lasts", "script 0 81 d:01 s d:02 d:03\nlasts 0\n");
    read_one(handle, "read");
    answer("reset", libusb_reset_device(handle));
    read_one(handle, "read");
    answer("reset", libusb_reset_device(handle));
    read_one(handle, "read");
    read_one(handle, "read");
    end();
}

static void script_begins_with_each_claim(void)
{
    begin("the script begins anew with each claim", "script 0 81 d:01 d:02 d:03\nanew 0\n");
    read_one(handle, "read");
    read_one(handle, "read");
    answer("release", libusb_release_interface(handle, 0));
    answer("claim", libusb_claim_interface(handle, 0));
    read_one(handle, "read");
    answer("claim again", libusb_claim_interface(handle, 0));
    read_one(handle, "read");
    libusb_close(handle);
    handle = open_standard(context);
    answer("claim", libusb_claim_interface(handle, 0));
    read_one(handle, "read");
    end();
}

static void others_and_resets(void)
{
    libusb_device_handle *other;
    struct libusb_transfer *transfer;
    begin_unclaimed("reset while another holds an interface", "");
    other = open_standard(context);
    answer("claim", libusb_claim_interface(handle, 0));
    answer("claim of 1 by the other", libusb_claim_interface(other, 1));
    answer("reset", libusb_reset_device(handle));
    answer("release by the other", libusb_release_interface(other, 1));
    answer("reset", libusb_reset_device(handle));
    libusb_close(other);
    end();

    begin("clear_halt", "");
    answer("at rest", libusb_clear_halt(handle, 0x81));
    answer("of no endpoint", libusb_clear_halt(handle, 0x85));
    transfer = submit(0, 0x81, 8);
    answer("in flight", libusb_clear_halt(handle, 0x81));
    answer("of another endpoint in flight", libusb_clear_halt(handle, 0x02));
    libusb_cancel_transfer(transfer);
    work();
    answer("behind it", libusb_clear_halt(handle, 0x81));
    discard(transfer);
    end();
}

static void driver(void)
{
    begin_unclaimed("a kernel driver", "driver 0 0\n");
    answer("active at 0", libusb_kernel_driver_active(handle, 0));
    answer("set_configuration beside it", libusb_set_configuration(handle, 1));
    answer("active at 1", libusb_kernel_driver_active(handle, 1));
    answer("active at 32", libusb_kernel_driver_active(handle, 32));
    answer("claim", libusb_claim_interface(handle, 0));
    answer("detach at 1", libusb_detach_kernel_driver(handle, 1));
    answer("detach", libusb_detach_kernel_driver(handle, 0));
    answer("active at 0", libusb_kernel_driver_active(handle, 0));
    answer("detach again", libusb_detach_kernel_driver(handle, 0));
    answer("claim", libusb_claim_interface(handle, 0));
    answer("attach", libusb_attach_kernel_driver(handle, 0));
    answer("release", libusb_release_interface(handle, 0));
    answer("attach", libusb_attach_kernel_driver(handle, 0));
    answer("active at 0", libusb_kernel_driver_active(handle, 0));
    answer("attach at 1", libusb_attach_kernel_driver(handle, 1));
    answer("claim", libusb_claim_interface(handle, 0));
    end();

    begin_unclaimed("a kernel driver that is detached by itself", "driver 0 0\n");
    answer("detach by itself", libusb_set_auto_detach_kernel_driver(handle, 1));
    answer("claim", libusb_claim_interface(handle, 0));
    answer("active", libusb_kernel_driver_active(handle, 0));
    answer("release", libusb_release_interface(handle, 0));
    answer("active", libusb_kernel_driver_active(handle, 0));
    answer("not by itself", libusb_set_auto_detach_kernel_driver(handle, 0));
    answer("claim", libusb_claim_interface(handle, 0));
    end();

    begin_unclaimed("a kernel driver behind a close without a release", "driver 0 0\n");
    answer("detach by itself", libusb_set_auto_detach_kernel_driver(handle, 1));
    answer("claim", libusb_claim_interface(handle, 0));
    libusb_close(handle);
    handle = open_standard(context);
    answer("active", libusb_kernel_driver_active(handle, 0));
    end();
}

static void get(void)
{
    int value = -1;
    answer("get_configuration", libusb_get_configuration(handle, &value));
    number("configuration", value);
}

static void configurations(void)
{
    struct libusb_config_descriptor *active = NULL;
    begin_unclaimed("configurations", "");
    get();
    answer("set to 1", libusb_set_configuration(handle, 1));
    answer("set to 9", libusb_set_configuration(handle, 9));
    get();
    answer("set to none", libusb_set_configuration(handle, -1));
    get();
    answer("active descriptor", libusb_get_active_config_descriptor(libusb_get_device(handle), &active));
    answer("claim", libusb_claim_interface(handle, 1));
    answer("set to 1", libusb_set_configuration(handle, 1));
    get();
    answer("claim", libusb_claim_interface(handle, 1));
    answer("set to 1 while an interface is claimed", libusb_set_configuration(handle, 1));
    answer("set to none while an interface is claimed", libusb_set_configuration(handle, -1));
    get();
    end();
}

static void settings(void)
{
    begin_text("alternate settings", three_settings);
    handle = open_standard(context);
    answer("setting 0, unclaimed", libusb_set_interface_alt_setting(handle, 0, 0));
    answer("claim", libusb_claim_interface(handle, 0));
    answer("setting 0", libusb_set_interface_alt_setting(handle, 0, 0));
    answer("setting 1", libusb_set_interface_alt_setting(handle, 0, 1));
    answer("setting 2, with an endpoint", libusb_set_interface_alt_setting(handle, 0, 2));
    answer("setting 3", libusb_set_interface_alt_setting(handle, 0, 3));
    answer("packet of its endpoint", libusb_get_max_packet_size(libusb_get_device(handle), 0x84));
    answer("setting 0", libusb_set_interface_alt_setting(handle, 0, 0));
    answer("setting 0 of interface 1", libusb_set_interface_alt_setting(handle, 1, 0));
    answer("setting 0 of interface 32", libusb_set_interface_alt_setting(handle, 32, 0));
    answer("setting -1", libusb_set_interface_alt_setting(handle, 0, -1));
    end();
}

static void two_contexts(void)
{
    libusb_context *second = NULL;
    libusb_device_handle *other;
    begin_unclaimed("two contexts", "script 0 81 d:01 d:02\n");
    answer("plug while a context is open", tirnouch_plug(STANDARD, sizeof STANDARD - 1));
    answer("init", libusb_init(&second));
    other = open_standard(second);
    answer("claim", libusb_claim_interface(handle, 0));
    answer("claim in the second", libusb_claim_interface(other, 0));
    read_one(handle, "read");
    answer("reset in the second", libusb_reset_device(other));
    answer("release", libusb_release_interface(handle, 0));
    answer("claim in the second", libusb_claim_interface(other, 0));
    read_one(other, "read in the second");
    libusb_close(other);
    libusb_exit(second);
    answer("claim behind the second's end", libusb_claim_interface(handle, 0));
    end();
}

int main(void)
{
    claims();
    in_passing();
    refused_submissions();
    bulk_at_an_interrupt_endpoint();
    close_in_flight();
    release_in_flight();
    script_goes_on();
    script_lasts();
    script_begins_with_each_claim();
    others_and_resets();
    driver();
    configurations();
    settings();
    two_contexts();
    return 0;
}

/* A device that computes its answers goes on over claims and resets, and is plugged in again, as itself or as another device; there may be
 * sixteen of them. The expected lines are written from tirnouch.h and docs/DEVICES.md. */
#include "scene.h"

#include <stdio.h>
#include <string.h>

#define LOADER_IDS "ids 0 1209 0040\n"
#define CAMERA "device 1 0902190001010080320904000001ff00000007058102080000\nids 1 1209 0041\n"
#define SIXTEEN 16

static int counter, silent;

/* Its packets are counted: the number stands in the first two bytes. Every 4th is a stall, where that is asked for. */
static int count_up(void *user, uint8_t ep, uint8_t *data, int length)
{
    int *stalls = user;
    (void)ep;
    if (silent || length < 2)
        return TIRNOUCH_NOT_READY;
    if (stalls && *stalls && ++counter % 4 == 0)
        return TIRNOUCH_STALL;
    counter += !stalls || !*stalls;
    data[0] = (uint8_t)counter;
    data[1] = (uint8_t)(counter >> 8);
    return 2;
}

static int take(void *user, uint8_t ep, uint8_t *data, int length)
{
    (void)user;
    (void)ep;
    (void)data;
    return length;
}

static void told(void *user, enum tirnouch_event event, int of)
{
    static const char *const names[] = { "", "claimed", "released", "reset", "cleared", "plugged", "pulled" };
    (void)user;
    if (event == TIRNOUCH_EVENT_CLAIMED || event == TIRNOUCH_EVENT_RELEASED)
        printf("  told %s %d\n", names[event], of);
    else if (event == TIRNOUCH_EVENT_CLEARED)
        printf("  told %s %02x\n", names[event], (unsigned)of);
    else
        printf("  told %s\n", names[event]);
}

static void listen(int *stalls)
{
    counter = silent = 0;
    tirnouch_on_packet(0, 0x81, count_up, stalls);
    tirnouch_on_packet(0, 0x02, take, NULL);
    tirnouch_on_event(0, told, NULL);
}

static void forget(void)
{
    tirnouch_on_packet(0, 0x81, NULL, NULL);
    tirnouch_on_packet(0, 0x02, NULL, NULL);
    tirnouch_on_event(0, NULL, NULL);
}

static void read_by(libusb_device_handle *by)
{
    unsigned char data[8] = { 0 };
    int moved = 0, result = libusb_bulk_transfer(by, 0x81, data, 8, &moved, 1000);
    answer("read", result);
    if (!result)
        bytes("  of", data, moved);
}

static void claims(void)
{
    listen(NULL);
    begin_unclaimed("a claim, a release, a claim: it goes on", "anew 0\nscript 0 81 d:aaaa\n");
    answer("claim", libusb_claim_interface(handle, 0));
    read_by(handle);
    read_by(handle);
    answer("release", libusb_release_interface(handle, 0));
    answer("claim", libusb_claim_interface(handle, 0));
    read_by(handle);
    end();
    forget();
}

static void resets(void)
{
    int stalls = 1;
    listen(&stalls);
    begin_unclaimed("a reset ends halts and what is in flight, and it goes on", "script 0 81 d:aaaa\n");
    libusb_claim_interface(handle, 0);
    for (int i = 0; i < 5; i++)
        read_by(handle);
    read_by(handle);
    answer("reset", libusb_reset_device(handle));
    read_by(handle);
    silent = 1;
    struct libusb_transfer *waiting = submit(1, 0x81, 8);
    work();
    answer("reset", libusb_reset_device(handle));
    work();
    silent = 0;
    read_by(handle);
    discard(waiting);
    end();
    forget();
}

static int LIBUSB_CALL come_and_go(libusb_context *of, libusb_device *device, libusb_hotplug_event event, void *user)
{
    struct libusb_device_descriptor it;
    (void)of;
    (void)user;
    libusb_get_device_descriptor(device, &it);
    printf("  %s %04x:%04x at port %u\n", event == LIBUSB_HOTPLUG_EVENT_DEVICE_ARRIVED ? "arrived" : "left", it.idVendor, it.idProduct,
           libusb_get_port_number(device));
    return 0;
}

static void watch(void)
{
    int events = LIBUSB_HOTPLUG_EVENT_DEVICE_ARRIVED | LIBUSB_HOTPLUG_EVENT_DEVICE_LEFT, any = LIBUSB_HOTPLUG_MATCH_ANY;
    libusb_hotplug_register_callback(context, events, 0, any, any, any, come_and_go, NULL, NULL);
}

static void asks_old(libusb_device_handle *old)
{
    int value;
    unsigned char data[8];
    answer("old claim", libusb_claim_interface(old, 0));
    answer("old release", libusb_release_interface(old, 0));
    answer("old clear", libusb_clear_halt(old, 0x81));
    answer("old reset", libusb_reset_device(old));
    answer("old configuration", libusb_get_configuration(old, &value));
    answer("old setting", libusb_set_interface_alt_setting(old, 0, 0));
    answer("old driver", libusb_kernel_driver_active(old, 0));
    answer("old request", libusb_control_transfer(old, 0x80, 6, 0x0100, 0, data, 8, 100));
    answer("old read", libusb_bulk_transfer(old, 0x81, data, 8, &value, 100));
}

/* The handle of before is open all the time, with a read in flight that the pull ends. */
static void replugs(void)
{
    libusb_device_handle *old;
    struct libusb_transfer *written, *ended;
    listen(NULL);
    begin_unclaimed("pulled out and plugged in again", "script 0 81 d:aaaa\n");
    watch();
    libusb_claim_interface(handle, 0);
    read_by(handle);
    read_by(handle);
    written = submit(2, 0x02, 3);
    work();
    took(0x02);
    answer("show while it is there", tirnouch_show(0));
    silent = 1;
    ended = submit(1, 0x81, 8);
    work();
    answer("pull", tirnouch_pull(0));
    answer("pull again", tirnouch_pull(0));
    answer("show", tirnouch_show(0));
    silent = 0;
    work();
    old = handle;
    asks_old(old);
    handle = open_standard(context);
    answer("claim", libusb_claim_interface(handle, 0));
    read_by(handle);
    read_by(handle);
    took(0x02);
    libusb_close(old);
    read_by(handle);
    answer("release", libusb_release_interface(handle, 0));
    discard(written);
    discard(ended);
    end();
    forget();
}

/* Twice, with nobody who handles events between. */
static void replugs_unseen(void)
{
    listen(NULL);
    begin_unclaimed("plugged in twice before events are handled", "");
    watch();
    for (int i = 0; i < 2; i++) {
        answer("pull", tirnouch_pull(0));
        answer("show", tirnouch_show(0));
    }
    work();
    end();
    forget();
}

/* A scripted device can't begin again. */
static void scripted(void)
{
    begin_unclaimed("a scripted device", "script 0 81 d:01\n");
    answer("pull", tirnouch_pull(0));
    answer("show", tirnouch_show(0));
    end();
}

/* The first function comes while a read is in flight, behind one answer of three. */
static void alive_later(void)
{
    begin("a function that is set later", "script 0 81 d:0101 d:0202 n d:0303\nafter 0 81 3 02 2\n");
    read_by(handle);
    struct libusb_transfer *first = submit(2, 0x02, 1);
    answer("set", tirnouch_on_packet(0, 0x02, take, NULL));
    work();
    read_by(handle);
    struct libusb_transfer *third = submit(3, 0x81, 8);
    work();
    counter = 0x30;
    answer("set", tirnouch_on_packet(0, 0x81, count_up, NULL));
    work();
    say("the second packet at 02");
    struct libusb_transfer *second = submit(4, 0x02, 1);
    wait_for(3);
    read_by(handle);
    took(0x02);
    discard(first);
    discard(second);
    discard(third);
    end();
    forget();
}

static void ask(void)
{
    unsigned char data[4];
    int count = libusb_control_transfer(handle, 0xc0, 1, 0, 0, data, sizeof data, 1000);
    answer("request", count);
    if (count > 0)
        bytes("  of", data, count);
}

static void write_request(unsigned char byte)
{
    answer("written", libusb_control_transfer(handle, 0x40, 2, 0, 0, &byte, 1, 1000));
}

/* Answers to requests go on where the device moves into a core of its own, and what is expected of them; plugged in again it begins anew. */
static void requests_go_on(void)
{
    hear_errors();
    begin("requests are answered in order, before and behind a first function",
          "control 0 c0 01 * 0000 d:b0 d:b1 d:b2\ncontrol 0 40 02 0000 0000 a:01 a:02 a:03\ncontrol 0 c0 03 * * d:c0 s\n");
    ask();
    ask();
    write_request(1);
    write_request(2);
    answer("set", tirnouch_on_packet(0, 0x02, take, NULL));
    ask();
    ask();
    write_request(3);
    answer("pull", tirnouch_pull(0));
    answer("show", tirnouch_show(0));
    libusb_close(handle);
    handle = open_standard(context);
    ask();
    ask();
    write_request(1);
    end();
    show_errors();
    forget();
}

/* A loader takes its firmware by vendor requests, as fxload sends it; the last one starts it, and the device leaves. */
static unsigned char firmware[64];
static int loaded, answers_gone;

static int load(void *user, const uint8_t setup[8], uint8_t *data, int length)
{
    unsigned at = (unsigned)setup[2] | (unsigned)setup[3] << 8;
    (void)user;
    if (setup[0] != 0x40 || setup[1] != 0xa0)
        return TIRNOUCH_AS_TEXT;
    if (at == 0xe600)
        return !data[0] && answers_gone ? TIRNOUCH_GONE : length;
    memcpy(firmware + at % 32, data, (size_t)length);
    loaded += length;
    return length;
}

static void upload(libusb_device_handle *to)
{
    unsigned char stop = 1, run = 0, bytes_of[16] = "firmware";
    answer("stop", libusb_control_transfer(to, 0x40, 0xa0, 0xe600, 0, &stop, 1, 1000));
    answer("write", libusb_control_transfer(to, 0x40, 0xa0, 0x0000, 0, bytes_of, 16, 1000));
    answer("run", libusb_control_transfer(to, 0x40, 0xa0, 0xe600, 0, &run, 1, 1000));
    number("loaded", loaded);
}

static libusb_device_handle *open_of(unsigned product)
{
    libusb_device_handle *it = libusb_open_device_with_vid_pid(context, 0x1209, (uint16_t)product);
    printf("  open of %04x: %s\n", product, it ? "done" : "not there");
    return it;
}

static void comes_back(int by_itself)
{
    static const char more[] = "hidden 1\nscript 1 81 d:c0\ncomes back 0 as 1\n";
    char text[1024];
    unsigned char data[8];
    int moved;
    answers_gone = by_itself;
    loaded = 0;
    snprintf(text, sizeof text, "device 0 0902190001010080320904000001ff00000007058102080000\n%s%s%s", LOADER_IDS, CAMERA, more);
    tirnouch_on_control(0, load, NULL);
    begin_text(by_itself ? "a loader that comes back by itself" : "a loader that is plugged in again", text);
    watch();
    open_of(0x41);
    libusb_device_handle *loader = open_of(0x40), *camera;
    upload(loader);
    if (!by_itself) {
        answer("pull", tirnouch_pull(0));
        answer("show", tirnouch_show(0));
    }
    work();
    answer("old request", libusb_control_transfer(loader, 0x80, 6, 0x0100, 0, data, 8, 100));
    open_of(0x40);
    camera = open_of(0x41);
    answer("read", libusb_bulk_transfer(camera, 0x81, data, 8, &moved, 1000));
    answer("show, of what is there", tirnouch_show(1));
    libusb_close(loader);
    libusb_close(camera);
    end();
    tirnouch_on_control(0, NULL, NULL);
}

static int name_itself(void *user, uint8_t ep, uint8_t *data, int length)
{
    (void)ep;
    (void)length;
    data[0] = (uint8_t)*(int *)user;
    return 1;
}

/* Device 5 is scripted, all others aren't. */
static void sixteen(void)
{
    static int names[SIXTEEN];
    char text[4096];
    int length = 0, right = 0;
    for (int i = 0; i < SIXTEEN; i++) {
        names[i] = i;
        if (i != 5)
            tirnouch_on_packet(i, 0x81, name_itself, &names[i]);
        length += snprintf(text + length, sizeof text - (size_t)length,
                           "device %d 0902190001010080320904000001ff00000007058102080000\nids %d 1209 01%02x\n%s", i, i, (unsigned)i,
                           i == 5 ? "script 5 81 d:05\n" : "");
    }
    begin_text("sixteen devices", text);
    libusb_device **list;
    number("devices", list_devices(context, &list));
    libusb_free_device_list(list, 1);
    for (int i = 0; i < SIXTEEN; i++) {
        unsigned char data[8] = { 255 };
        int moved;
        libusb_device_handle *it = libusb_open_device_with_vid_pid(context, 0x1209, (uint16_t)(0x100 + i));
        right += it && !libusb_claim_interface(it, 0) && !libusb_bulk_transfer(it, 0x81, data, 8, &moved, 1000) && data[0] == i;
        libusb_close(it);
    }
    number("right", right);
    end();
    for (int i = 0; i < SIXTEEN; i++)
        tirnouch_on_packet(i, 0x81, NULL, NULL);
}

int main(void)
{
    claims();
    resets();
    replugs();
    replugs_unseen();
    scripted();
    alive_later();
    requests_go_on();
    comes_back(0);
    comes_back(1);
    sixteen();
    return 0;
}

/* What a driver writes is judged where its device's text says what is expected. What the library says on standard error is printed behind
 * each scene. The expected lines are written from docs/DEVICES.md: which packet differs, at which byte, both packets; and at the end what never
 * came. */
#include "scene.h"

#include <stdio.h>
#include <stdlib.h>
#include <sys/wait.h>
#include <unistd.h>

#define SHORT 20

static void begin_judged(const char *name, const char *more)
{
    hear_errors();
    begin(name, more);
}

static void end_judged(void)
{
    end();
    show_errors();
}

/* A packet of these bytes, which moves whole; where it waits it is given up soon. */
static void put(unsigned char ep, const char *digits)
{
    unsigned char data[64] = { 0 };
    int moved = 0, length = (int)read_digits(digits, data), result = libusb_bulk_transfer(handle, ep, data, length, &moved, SHORT);
    if (result || moved != length)
        answer("write", result);
}

static void ask_to(const char *setup, const char *digits)
{
    unsigned char bytes_of[8] = { 0 }, data[64] = { 0 };
    read_digits(setup, bytes_of);
    int length = (int)read_digits(digits, data);
    int result = libusb_control_transfer(handle, bytes_of[0], bytes_of[1], (uint16_t)(bytes_of[2] | bytes_of[3] << 8),
                                         (uint16_t)(bytes_of[4] | bytes_of[5] << 8), data, (uint16_t)length, 1000);
    if (result != length)
        answer("request", result);
}

static void alike(void)
{
    begin_judged("all as expected: nothing is told", "script 0 02 a:0102 s a:030405* a a: a:A0b1\n");
    put(0x02, "0102");
    put(0x02, "03");
    answer("clear", libusb_clear_halt(handle, 0x02));
    put(0x02, "030405");
    put(0x02, "99");
    put(0x02, "");
    put(0x02, "a0b1");
    took(0x02);
    end_judged();
}

static void one_differs(const char *name, const char *expected, const char *written)
{
    char more[200];
    snprintf(more, sizeof more, "script 0 02 a %s\n", expected);
    begin_judged(name, more);
    put(0x02, "ff");
    put(0x02, written);
    took(0x02);
    end_judged();
}

static void differences(void)
{
    one_differs("the first byte differs", "a:01020304", "ff020304");
    one_differs("a byte amid differs", "a:01020304", "0102ff04");
    one_differs("the last byte differs", "a:01020304", "010203ff");
    one_differs("a shorter packet", "a:01020304", "0102");
    one_differs("a longer packet", "a:0102", "01020304");
    one_differs("a prefix, and more behind it", "a:0102*", "010203");
    one_differs("a prefix, and no more", "a:0102*", "0102");
    one_differs("a prefix that differs", "a:0102*", "01ff03");
    one_differs("shorter than a prefix", "a:0102*", "01");
    one_differs("an empty packet where bytes are expected", "a:01", "");
    one_differs("bytes where an empty packet is expected", "a:", "01");
}

/* Packets of 64 bytes: of both 16 bytes are shown on each side of the one that differs. */
static void cut(void)
{
    static const char digits[] = "000102030405060708090a0b0c0d0e0f101112131415161718191a1b1c1d1e1f202122232425262728292a2b2c2d2e2f30";
    char text[600];
    snprintf(text, sizeof text,
             "device 0 0902200001010080320904000002ff0000000705810240000007050202400000\nids 0 04a9 31c0\nscript 0 02 a:%s\n", digits);
    hear_errors();
    begin_text("long packets are cut around the byte", text);
    handle = open_standard(context);
    unsigned char data[49];
    int moved = 0;
    for (int i = 0; i < 49; i++)
        data[i] = (unsigned char)i;
    data[24] ^= 1;
    answer("claim", libusb_claim_interface(handle, 0));
    answer("write", libusb_bulk_transfer(handle, 0x02, data, 49, &moved, 1000));
    end_judged();
}

static void several(void)
{
    begin_judged("the first of three is told at length", "script 0 02 a:01 a:02 a:03 a:04\n");
    put(0x02, "01");
    put(0x02, "12");
    put(0x02, "13");
    put(0x02, "14");
    end_judged();
    begin_judged("a transfer of three packets, of which the second differs",
                 "script 0 02 a:0000000000000000 a:1111111111111111 a:2222\n");
    put(0x02, "000000000000000011111111111111f12222");
    end_judged();
}

static void lost_and_doubled(void)
{
    begin_judged("a lost write", "script 0 02 a:01 a:02 a:03\n");
    put(0x02, "01");
    put(0x02, "03");
    end_judged();
    begin_judged("nothing is written", "script 0 02 a a:01 s a:02*\n");
    end_judged();
    begin_judged("a doubled write", "script 0 02 a:01 a:02\n");
    put(0x02, "01");
    put(0x02, "02");
    put(0x02, "02");
    put(0x02, "03");
    end_judged();
}

static void doubled_behind_another(void)
{
    begin_judged("a doubled write behind another difference", "script 0 02 a:01 a:02\n");
    put(0x02, "01");
    put(0x02, "01");
    put(0x02, "02");
    end_judged();
}

/* A number behind an answer says how often it is given, and so how often its bytes are expected. */
static void repeated(void)
{
    begin_judged("answers that repeat are expected as often", "script 0 02 a:01*3 a:02* ..\n");
    put(0x02, "01");
    put(0x02, "01");
    put(0x02, "01");
    put(0x02, "0203");
    put(0x02, "ff");
    took(0x02);
    end_judged();
    begin_judged("the third of three differs", "script 0 02 a:01*3 a:02\n");
    put(0x02, "01");
    put(0x02, "01");
    put(0x02, "02");
    put(0x02, "02");
    took(0x02);
    end_judged();
    begin_judged("requests that repeat, and the last answer stays", "control 0 40 01 0000 0000 a:aa*2 a:bb ..\n");
    ask_to("4001000000000000", "aa");
    ask_to("4001000000000000", "aa");
    ask_to("4001000000000000", "bb");
    ask_to("4001000000000000", "bb");
    end_judged();
    begin_judged("one of the requests that repeat differs", "control 0 40 01 0000 0000 a:aa*2 a:bb\n");
    ask_to("4001000000000000", "aa");
    ask_to("4001000000000000", "bb");
    ask_to("4001000000000000", "bb");
    end_judged();
}

static void requests(void)
{
    static const char more[] = "control 0 40 01 0000 0000 a:aabb a a:\ncontrol 0 40 01 * 0000 a:cc*\ncontrol 0 c0 * * * d:01\n";
    begin_judged("requests as expected", more);
    ask_to("4001000000000000", "aabb");
    ask_to("4001000000000000", "1234");
    ask_to("4001000000000000", "");
    ask_to("4001000000000000", "");
    ask_to("4001020000000000", "ccdd");
    ask_to("c002000000000000", "00");
    end_judged();
    begin_judged("the data of a request differ, and one never came", more);
    ask_to("4001000000000000", "aabc");
    ask_to("4001020000000000", "ccdd");
    ask_to("4001020000000000", "dd");
    end_judged();
}

static void two_endpoints(void)
{
    hear_errors();
    begin_text("two endpoints, each by itself",
               "device 0 0902200001010080320904000002ff0000000705010208000007050202080000\nids 0 04a9 31c0\n"
               "script 0 01 a:01 a:02\nscript 0 02 a:11 a:12\n");
    handle = open_standard(context);
    answer("claim", libusb_claim_interface(handle, 0));
    put(0x02, "11");
    put(0x01, "01");
    put(0x01, "02");
    put(0x02, "13");
    end_judged();
}

static void anew(void)
{
    begin_judged("a claim begins the script anew", "anew 0\nscript 0 02 a:01 a:02\n");
    put(0x02, "01");
    libusb_release_interface(handle, 0);
    answer("claim", libusb_claim_interface(handle, 0));
    put(0x02, "01");
    put(0x02, "02");
    libusb_release_interface(handle, 0);
    answer("claim", libusb_claim_interface(handle, 0));
    end_judged();
    begin_judged("a reset begins the script anew", "script 0 02 a:01 a:02\n");
    put(0x02, "01");
    put(0x02, "02");
    answer("reset", libusb_reset_device(handle));
    put(0x02, "02");
    end_judged();
    begin_judged("a claim goes on with the script", "script 0 02 a:01 a:02\n");
    put(0x02, "01");
    libusb_release_interface(handle, 0);
    answer("claim", libusb_claim_interface(handle, 0));
    put(0x02, "01");
    end_judged();
}

/* A device that leaves took what came before; one that is hidden to the end could be written nothing. */
static void absent(void)
{
    begin_judged("pulled out before all was written", "script 0 02 a:01 a:02\n");
    put(0x02, "00");
    answer("pull", tirnouch_pull(0));
    put(0x02, "02");
    end_judged();
    begin_judged("hidden to the end",
                 "device 1 0902190001010080320904000001ff00000007050202080000\nhidden 1\nscript 1 02 a:01\n");
    end_judged();
}

static int taken_behind;

static int take(void *user, uint8_t ep, uint8_t *data, int length)
{
    (void)user;
    (void)ep;
    (void)data;
    taken_behind++;
    return length;
}

static int answer_control(void *user, const uint8_t setup[8], uint8_t *data, int length)
{
    (void)user;
    (void)data;
    return setup[1] == 1 ? length : TIRNOUCH_AS_TEXT;
}

/* Of a device that computes its answers the scripted part is judged, from the beginning or where it begins to compute amid a run. */
static void computed(void)
{
    static const char more[] = "script 0 02 a:01 a:02\n";
    taken_behind = 0;
    tirnouch_on_packet(0, 0x02, take, NULL);
    begin_judged("a function behind the script", more);
    put(0x02, "01");
    put(0x02, "03");
    put(0x02, "99");
    number("taken behind it", taken_behind);
    tirnouch_pull(0);
    answer("show", tirnouch_show(0));
    libusb_close(handle);
    handle = open_standard(context);
    answer("claim", libusb_claim_interface(handle, 0));
    put(0x02, "01");
    put(0x02, "02");
    put(0x02, "99");
    number("taken behind it", taken_behind);
    end_judged();
    tirnouch_on_packet(0, 0x02, NULL, NULL);
    begin_judged("a function that comes amid the script", more);
    put(0x02, "01");
    answer("function", tirnouch_on_packet(0, 0x02, take, NULL));
    put(0x02, "12");
    put(0x02, "99");
    number("taken behind it", taken_behind);
    end_judged();
    tirnouch_on_packet(0, 0x02, NULL, NULL);
    tirnouch_on_control(0, answer_control, NULL);
    begin_judged("a function answers requests in place of the text", "control 0 40 01 * * a:01\ncontrol 0 40 02 * * a:02\n");
    ask_to("4001000000000000", "99");
    ask_to("4002000000000000", "02");
    end_judged();
    tirnouch_on_control(0, NULL, NULL);
}

/* A child of fork has the devices, too: what it writes is judged, and it isn't told what it doesn't write. */
static void children(void)
{
    int status = 0;
    begin_judged("a child of fork", "script 0 02 a:01 a:02\n");
    pid_t child = fork();
    if (child == 0) {
        put(0x02, "ff");
        libusb_close(handle);
        libusb_exit(context);
        _exit(0);
    }
    waitpid(child, &status, 0);
    put(0x02, "01");
    put(0x02, "02");
    end_judged();
}

int main(void)
{
    alike();
    differences();
    cut();
    several();
    lost_and_doubled();
    doubled_behind_another();
    requests();
    repeated();
    two_endpoints();
    anew();
    absent();
    computed();
    children();
    return 0;
}

/* Devices that are programs (`program` in a text): some that are well, and those that end, are slow, or answer what means nothing. What a
 * program does wrong costs its own device alone, and never hangs the driver. The expected lines are written from docs/DEVICES.md. */
#include "scene.h"

#include <stdio.h>
#include <stdlib.h>
#include <string.h>
#include <sys/wait.h>

#define ECHO "program 0 sh programs/echo.sh\n"

static void patience(const char *seconds)
{
    setenv("TIRNOUCH_PATIENCE", seconds, 1);
}

static void read_once(void)
{
    unsigned char data[8] = { 0 };
    int moved = 0, result = libusb_bulk_transfer(handle, 0x81, data, 8, &moved, 0);
    answer("read", result);
    if (!result)
        bytes("  of", data, moved);
}

static void write_once(const char *text)
{
    int moved = 0, result = libusb_bulk_transfer(handle, 0x02, (unsigned char *)text, (int)strlen(text), &moved, 0);
    answer("write", result);
    number("  moved", moved);
}

static void request(uint8_t which)
{
    unsigned char data[65] = { 0 };
    int result = libusb_control_transfer(handle, 0xc0, which, 0, 0, data, 64, 2000);
    if (which == 2 && result >= 0)
        printf("  it was told: %s\n", (char *)data);
    else
        answer("request", result);
    if (which == 1)
        bytes("  of", data, result < 0 ? 0 : result);
}

static void no_child_is_left(void)
{
    say(waitpid(-1, NULL, WNOHANG) < 0 ? "no child is left" : "a child is left");
}

static void echo(void)
{
    patience("20");
    begin_text("a device in shell", ECHO);
    handle = open_standard(context);
    answer("claim", libusb_claim_interface(handle, 0));
    write_once("tenletters");
    read_once();
    read_once();
    request(1);
    struct libusb_transfer *waiting = submit(1, 0x81, 8);
    work();
    say(calls ? "called" : "not called");
    write_once("x");
    wait_for(1);
    discard(waiting);
    answer("reset", libusb_reset_device(handle));
    answer("release", libusb_release_interface(handle, 0));
    request(2);
    answer("stall of the rest", libusb_control_transfer(handle, 0xc0, 9, 0, 0, NULL, 0, 1000));
    end();
    no_child_is_left();
}

/* The device of docs/DEVICES.md. */
static void counter(void)
{
    begin_text("the counter of c/example", "program 0 sh ../../example/devices/counter.sh\n");
    handle = libusb_open_device_with_vid_pid(context, 0x1209, 0x000a);
    answer("claim", libusb_claim_interface(handle, 0));
    for (int i = 0; i < 3; i++)
        write_once("");
    read_once();
    request(1);
    read_once();
    end();
    no_child_is_left();
}

/* `later` in virtual time; then it says that it is gone, and is plugged in again: the same program goes on. */
static void leaves(void)
{
    virtual_time(1);
    begin_text("a device in shell that leaves", ECHO);
    handle = open_standard(context);
    unsigned char data[8];
    answer("request that is later than its time", libusb_control_transfer(handle, 0xc0, 4, 0, 0, data, 8, 200));
    answer("claim", libusb_claim_interface(handle, 0));
    request(3);
    request(1);
    answer("show", tirnouch_show(0));
    request(1);
    libusb_close(handle);
    handle = open_standard(context);
    request(2);
    end();
    no_child_is_left();
    virtual_time(0);
}

static void begin_hostile(const char *wrong, const char *seconds)
{
    char text[1024];
    snprintf(text, sizeof text, "%sprogram 0 sh programs/hostile.sh \"%s\"\n", STANDARD, wrong);
    patience(seconds);
    hear_errors();
    begin_text(wrong, text);
    handle = open_standard(context);
    libusb_claim_interface(handle, 0);
}

/* Three reads, of which the second meets what is wrong. */
static void hostile(const char *wrong, const char *seconds)
{
    begin_hostile(wrong, seconds);
    for (int i = 0; i < 3; i++)
        read_once();
    end();
    show_errors();
    no_child_is_left();
}

/* A text that isn't taken, since its program is none. */
static void refuse(const char *what, const char *text)
{
    libusb_context *own = NULL;
    hear_errors();
    if (tirnouch_plug(text, strlen(text)))
        exit(1);
    puts(what);
    answer("init", libusb_init(&own));
    show_errors();
    no_child_is_left();
    if (own)
        libusb_exit(own);
}

static void refuse_hostile(const char *wrong)
{
    char text[1024];
    snprintf(text, sizeof text, "program 0 sh programs/hostile.sh \"%s\"\n", wrong);
    refuse(wrong, text);
}

static void beginnings(void)
{
    patience("20");
    refuse_hostile("ends at once");
    refuse_hostile("another's line");
    refuse_hostile("starts another");
    refuse_hostile("bad line");
    refuse("no such program", "program 0 ./there_is_no_such_program\n");
    refuse("a bad line of the text", "# the first line\nprogram 0 sh programs/echo.sh\nids 0 1209 02\n");
    patience("0.3");
    refuse_hostile("never ok");
    refuse_hostile("never at an end");
}

/* A command is one of the shell: a list, an assignment in front, a word of the shell's own. */
static void commands(void)
{
    static const char *const all[] = { "cd programs && sh echo.sh", "A=1 sh programs/echo.sh", "true; exec sh programs/echo.sh" };
    patience("20");
    for (int i = 0; i < 3; i++) {
        char text[200];
        snprintf(text, sizeof text, "program 0 %s\n", all[i]);
        begin_text(all[i], text);
        handle = open_standard(context);
        write_once("four");
        read_once();
        end();
        no_child_is_left();
    }
}

static void variables(void)
{
    setenv("TIRNOUCH_PROGRAMS", "no", 1);
    refuse("programs that are forbidden", "# one\n" ECHO);
    setenv("TIRNOUCH_PROGRAMS", "perhaps", 1);
    refuse("a word that is neither yes nor no", ECHO);
    unsetenv("TIRNOUCH_PROGRAMS");
    patience("soon");
    refuse("a patience that is no number", ECHO);
    patience("0");
    refuse("no patience at all", ECHO);
}

/* What isn't there any more can't be plugged in again. The other device goes on. */
static void one_of_two(void)
{
    unsigned char data[8];
    int moved;
    char text[1024];
    snprintf(text, sizeof text, "%sprogram 0 sh programs/hostile.sh ends\n%s", STANDARD,
             "device 1 0902190001010080320904000001ff00000007058102080000\nids 1 1209 0041\nscript 1 81 d:01 d:02\n");
    patience("20");
    hear_errors();
    begin_text("one of two devices ends", text);
    handle = open_standard(context);
    libusb_device_handle *other = libusb_open_device_with_vid_pid(context, 0x1209, 0x41);
    read_once();
    answer("other read", libusb_bulk_transfer(other, 0x81, data, 8, &moved, 1000));
    read_once();
    answer("show", tirnouch_show(0));
    answer("other read", libusb_bulk_transfer(other, 0x81, data, 8, &moved, 1000));
    libusb_close(other);
    end();
    show_errors();
    no_child_is_left();
}

int main(void)
{
    echo();
    counter();
    leaves();
    hostile("nonsense", "20");
    hostile("digits of another case", "20");
    hostile("too much", "20");
    hostile("a zero", "20");
    hostile("half a line", "2");
    hostile("long line", "20");
    hostile("silent", "2");
    hostile("ends amid", "20");
    hostile("ends", "20");
    hostile("forks", "2");
    hostile("unasked", "20");
    hostile("flood", "20");
    beginnings();
    commands();
    variables();
    one_of_two();
    return 0;
}

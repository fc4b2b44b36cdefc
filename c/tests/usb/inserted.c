/* Texts of devices with the bytes of files. The files are written here, into a folder of their own. The expected lines come from
 * docs/DEVICES.md, "Bytes of a file", and from the bytes that are written. */
#include "scene.h"

#include <stdio.h>
#include <stdlib.h>
#include <unistd.h>

#define SHORT 100
/* One byte more than the files of a text may have. */
#define TOO_LONG 33554433

static char folder[] = "/tmp/tirnouch_inserted_XXXXXX";
static const char *const files[] = { "counted", "few", "none", "descriptors", "device", "large", "devices.txt" };

/* Vendor 04a9, product 31c0, release 1.02 (USB 2.0, 9.6.1). */
static const char device[] = "1201000200000040a904c031020100000001";

static void write_file(const char *name, const void *data, size_t length)
{
    FILE *file = fopen(name, "wb");
    if (!file || fwrite(data, 1, length, file) != length || fclose(file))
        exit(1);
}

/* 20 bytes that count from 0, four, and none; descriptors as Linux has them; and a file that is too long. */
static void write_files(void)
{
    unsigned char data[256];
    for (int i = 0; i < 20; i++)
        data[i] = (unsigned char)i;
    write_file("counted", data, 20);
    write_file("few", "\x0a\x0b\x0c\x0d", 4);
    write_file("none", "", 0);
    size_t length = read_digits(device, data);
    write_file("device", data, length);
    write_file("descriptors", data, length + read_digits(STANDARD_CONFIG, data + length));
    write_file("large", "", 0);
    if (truncate("large", TOO_LONG))
        exit(1);
}

static void get(void)
{
    unsigned char data[8];
    int moved = 0;
    answer("read", libusb_bulk_transfer(handle, 0x81, data, sizeof data, &moved, SHORT));
    bytes("data", data, moved);
}

static void put(const char *digits)
{
    unsigned char data[8];
    int moved = 0;
    answer("write", libusb_bulk_transfer(handle, 0x02, data, (int)read_digits(digits, data), &moved, SHORT));
}

static void answers(void)
{
    begin("answers of eight bytes each, the last with what remains", "script 0 81 d:@counted/8 s\n");
    for (int i = 0; i < 4; i++)
        get();
    end();
    begin("one answer, and files without bytes", "script 0 81 d:@few d:@none/8 d:@none d:2a\n");
    for (int i = 0; i < 4; i++)
        get();
    end();
}

static void requests(void)
{
    unsigned char data[64];
    begin("the answer to a request", "control 0 c0 01 0000 0000 d:@counted\n");
    int length = libusb_control_transfer(handle, 0xc0, 1, 0, 0, data, sizeof data, SHORT);
    answer("request", length);
    bytes("data", data, length < 0 ? 0 : length);
    end();
}

static void expected(void)
{
    hear_errors();
    begin("packets that are expected", "script 0 02 a:@counted/8 a:@few\n");
    put("0001020304050607");
    put("08090a0b0c0d0e0f");
    put("10111213");
    put("0a0bff0d");
    end();
    show_errors();
}

static void descriptors(void)
{
    struct libusb_device_descriptor it;
    begin_text("a device of its descriptors", "device 0 @descriptors\ndescriptor 0 @device\nscript 0 81 d:@few\n");
    handle = open_standard(context);
    answer("claim", libusb_claim_interface(handle, 0));
    answer("descriptor", libusb_get_device_descriptor(libusb_get_device(handle), &it));
    number("release", it.bcdDevice);
    get();
    end();
}

/* Beside the text's own file, wherever the program runs. */
static void beside_the_text(void)
{
    static const char text[] = STANDARD "script 0 81 d:@few\n";
    char name[100];
    write_file("devices.txt", text, sizeof text - 1);
    snprintf(name, sizeof name, "%s/devices.txt", folder);
    setenv("TIRNOUCH_DEVICES", name, 1);
    if (chdir("/"))
        exit(1);
    puts("beside the text's file");
    answer("init", libusb_init(&context));
    handle = open_standard(context);
    answer("claim", libusb_claim_interface(handle, 0));
    get();
    end();
    unsetenv("TIRNOUCH_DEVICES");
    if (chdir(folder))
        exit(1);
}

static void refuse(const char *what, const char *more)
{
    char text[400];
    snprintf(text, sizeof text, "%s%s", STANDARD, more);
    refuse_text(what, text);
}

static void faults(void)
{
    refuse("a file that isn't there", "# here\nscript 0 81 n d:@nowhere/8\n");
    refuse("one that is too long", "script 0 81 d:@few\ncontrol 0 c0 01 0000 0000 d:@large\n");
    refuse("a number that is no size: the slash is the name's", "script 0 81 d:@few/2049\n");
    refuse("no name", "script 0 81 d:@\n");
    refuse("the direction of a request that writes", "control 0 40 01 0000 0000 a:@counted d:@few\n");
    refuse("a word of another line", "string 0 1 d:@nowhere\n");
}

static void remove_files(void)
{
    for (size_t i = 0; i < sizeof files / sizeof files[0]; i++)
        unlink(files[i]);
    if (chdir("/") || rmdir(folder))
        exit(1);
}

int main(void)
{
    unsetenv("TIRNOUCH_DEVICES");
    if (!mkdtemp(folder) || chdir(folder))
        exit(1);
    write_files();
    beside_the_text();
    answers();
    requests();
    expected();
    descriptors();
    faults();
    remove_files();
    return 0;
}

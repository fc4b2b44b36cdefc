/* A trace in memory is that of the file, byte by byte: amid the bus, behind its end, with a device that has a core of its own, and
 * without a file. The expected lines are written from tirnouch.h and docs/C.md. */
#include "scene.h"

#include <stddef.h>
#include <stdio.h>
#include <stdlib.h>
#include <string.h>
#include <unistd.h>

static char folder[] = "/tmp/kept-XXXXXX";

static int begin_so(const char *devices, const char *trace, int keeps)
{
    struct tirnouch_options options = { .size = sizeof options, .devices = devices, .devices_length = strlen(devices), .trace = trace,
                                        .is_virtual = 1, .keeps_trace = keeps };
    return tirnouch_begin(&options);
}

static char *memory(void)
{
    size_t length = tirnouch_trace(NULL, 0);
    char *text = malloc(length + 1);
    if (!text || tirnouch_trace(text, length + 1) != length || strlen(text) != length)
        exit(1);
    return text;
}

/* A file's bytes behind those that are in the text. */
static void add_file(char **text, const char *name)
{
    size_t length = strlen(*text), count;
    char piece[4096];
    FILE *file = fopen(name, "r");
    if (!file)
        exit(1);
    while ((count = fread(piece, 1, sizeof piece, file))) {
        *text = realloc(*text, length + count + 1);
        memcpy(*text + length, piece, count);
        length += count;
        (*text)[length] = 0;
    }
    fclose(file);
}

static void add(char **text, const char *line)
{
    *text = realloc(*text, strlen(*text) + strlen(line) + 1);
    strcat(*text, line);
}

static void name_file(char name[100], const char *ending)
{
    snprintf(name, 100, "%s/trace%s", folder, ending);
}

/* What the files are together, each but the first behind its line. */
static char *files(const char *const endings[], int count)
{
    char name[100], *text = calloc(1, 1);
    for (int i = 0; i < count; i++) {
        name_file(name, endings[i]);
        if (*endings[i]) {
            add(&text, "# file ");
            add(&text, endings[i]);
            add(&text, "\n");
        }
        add_file(&text, name);
    }
    return text;
}

static void compare(const char *when, const char *const endings[], int count)
{
    char *kept = memory(), *written = files(endings, count);
    printf("  %s: %s, %s\n", when, strlen(kept) > 100 ? "a trace" : "hardly a trace",
           strcmp(kept, written) ? "another than in the files" : "that of the files");
    free(kept);
    free(written);
}

static void has(const char *line)
{
    char *kept = memory();
    printf("  %s: %s\n", line, strstr(kept, line) ? "it is there" : "it isn't there");
    free(kept);
}

static void move_some(void)
{
    unsigned char data[8] = { 1, 2, 3 };
    int moved;
    answer("init", libusb_init(&context));
    handle = open_standard(context);
    answer("claim", libusb_claim_interface(handle, 0));
    answer("write", libusb_bulk_transfer(handle, 0x02, data, 3, &moved, 0));
    answer("read", libusb_bulk_transfer(handle, 0x81, data, 8, &moved, 0));
    answer("request", libusb_control_transfer(handle, 0xc0, 1, 0, 0, data, 2, 0));
}

#define DEVICES STANDARD "script 0 02 a\nscript 0 81 d:0102\ncontrol 0 c0 01 * * d:0304\n"

static void beside_the_file(void)
{
    static const char *const all[] = { "" };
    char name[100];
    name_file(name, "");
    puts("beside the file");
    calls = 0;
    answer("begin", begin_so(DEVICES, name, 1));
    move_some();
    compare("amid the bus", all, 1);
    struct libusb_transfer *flying = submit(1, 0x81, 8);
    answer("end", tirnouch_end());
    compare("behind its end", all, 1);
    has("submit 0 02 bulk x:010203");
    has("# request 0 c0 01 0000 0000 2 COMPLETED 2 0304");
    has("ep 81 NO_DEVICE 0");
    wait_for(1);
    discard(flying);
    end();
    compare("behind libusb_exit", all, 1);
}

static int answer_packet(void *user, uint8_t ep, uint8_t *data, int length)
{
    (void)user, (void)ep, (void)length;
    data[0] = 5;
    return 1;
}

static void with_own_cores(void)
{
    static const char *const all[] = { "", ".d0", ".d0.2" };
    char name[100];
    name_file(name, "");
    puts("with a device that computes, and is plugged in anew");
    tirnouch_on_packet(0, 0x81, answer_packet, NULL);
    answer("begin", begin_so(DEVICES, name, 1));
    move_some();
    libusb_close(handle);
    answer("replug", tirnouch_replug(0));
    handle = open_standard(context);
    answer("claim", libusb_claim_interface(handle, 0));
    compare("amid the bus", all, 3);
    answer("end", tirnouch_end());
    compare("behind its end", all, 3);
    tirnouch_on_packet(0, 0x81, NULL, NULL);
    end();
}

static void until_the_next(void)
{
    char some[8], *before, *after;
    puts("without a file, until the next bus begins");
    answer("begin", begin_so(DEVICES, NULL, 1));
    move_some();
    answer("end", tirnouch_end());
    end();
    has("submit 0 02 bulk x:010203");
    number("the same length with less room", tirnouch_trace(some, sizeof some) == tirnouch_trace(NULL, 0));
    printf("  \"%s\"\n", some);
    before = memory();
    answer("begin of a bad text", begin_so("huh 0\n", NULL, 1));
    after = memory();
    say(strcmp(before, after) ? "another trace" : "the trace is as it was");
    answer("begin without", begin_so(DEVICES, NULL, 0));
    number("bytes", (long long)tirnouch_trace(NULL, 0));
    answer("end", tirnouch_end());
    free(before);
    free(after);
}

/* The device descriptor is written from USB 2.0, 9.6.1: class 02 01 00, vendor 04a9, product 31c0, release 0100, and the second string. */
#define DESCRIPTOR "1201000202010040a904c031000100020001"
#define WRITTEN 70
#define MOVED 3

static int take_some(void *user, const uint8_t setup[8], uint8_t *data, int length)
{
    (void)user, (void)data, (void)length;
    return setup[1] == 3 ? MOVED : TIRNOUCH_AS_TEXT;
}

/* A request of more bytes than a line of a screen has. */
static void write_request(uint8_t request)
{
    unsigned char data[WRITTEN];
    char line[300] = "";
    for (int i = 0; i < WRITTEN; i++)
        data[i] = (unsigned char)(i + request);
    int r = libusb_control_transfer(handle, 0x40, request, 1, 2, data, WRITTEN, 0);
    answer("request", r);
    int length = snprintf(line, sizeof line, "# request 0 40 %02x 0001 0002 %d COMPLETED %d ", request, WRITTEN, r);
    for (int i = 0; i < WRITTEN; i++)
        length += snprintf(line + length, sizeof line - (size_t)length, "%02x", data[i]);
    has(line);
}

static void who_it_is(void)
{
    puts("what it says of its devices, and all bytes of a request");
    tirnouch_on_control(0, take_some, NULL);
    answer("begin", begin_so(DEVICES "class 0 02 01 00\nstring 0 2 A meter\nspeed 0 full\ndriver 0 1\nlasts 0\n"
                             "control 0 40 * * * a\n", NULL, 1));
    move_some();
    write_request(2);
    write_request(3);
    has("\ndevice 0 " STANDARD_CONFIG "\n# descriptor 0 " DESCRIPTOR "\n");
    has("\n# string 0 2 A meter\n# speed 0 full\n# driver 0 1\n# lasts 0\n");
    end();
    answer("end", tirnouch_end());
    tirnouch_on_control(0, NULL, NULL);
}

/* The memory of these options ends where they ended before. */
static void options_of_before(void)
{
    size_t size = offsetof(struct tirnouch_options, keeps_trace);
    struct tirnouch_options now = { .size = size, .devices = DEVICES, .devices_length = strlen(DEVICES), .is_virtual = 1 };
    void *before = malloc(size);
    puts("the options of a program that was compiled before");
    memcpy(before, &now, size);
    answer("begin", tirnouch_begin(before));
    move_some();
    end();
    answer("end", tirnouch_end());
    number("bytes", (long long)tirnouch_trace(NULL, 0));
    free(before);
}

int main(void)
{
    static const char *const all[] = { "", ".d0", ".d0.2" };
    setvbuf(stdout, NULL, _IOLBF, 0);
    if (!mkdtemp(folder))
        return 1;
    beside_the_file();
    with_own_cores();
    until_the_next();
    who_it_is();
    options_of_before();
    for (int i = 0; i < 3; i++) {
        char name[100];
        name_file(name, all[i]);
        remove(name);
    }
    rmdir(folder);
    return 0;
}

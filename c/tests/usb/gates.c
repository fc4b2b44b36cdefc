/* Answers that wait for packets or answers elsewhere, for transfers that ended, or for requests: thousands of them take no more each than
 * one (the text's `after`). */
#include "scene.h"

#include <stdio.h>
#include <stdlib.h>
#include <string.h>
#include <time.h>

#define FEW 2000
#define MANY 8000

static char *text_of(int count)
{
    size_t room = sizeof STANDARD + 64 + (size_t)count * 48, length = 0;
    char *text = malloc(room);
    if (!text)
        exit(1);
    length += (size_t)snprintf(text, room, "%sscript 0 02", STANDARD);
    for (int i = 0; i < count; i++)
        length += (size_t)snprintf(text + length, room - length, " a");
    length += (size_t)snprintf(text + length, room - length, "\nscript 0 81");
    for (int i = 0; i < count; i++)
        length += (size_t)snprintf(text + length, room - length, " d:%02x", i % 251);
    for (int i = count; i > 0; i--)
        length += (size_t)snprintf(text + length, room - length, "\nafter 0 81 %d 02 %d", i - 1, i);
    snprintf(text + length, room - length, "\n");
    return text;
}

static long long processor_time(void)
{
    struct timespec used;
    clock_gettime(CLOCK_PROCESS_CPUTIME_ID, &used);
    return used.tv_sec * 1000000000LL + used.tv_nsec;
}

/* Nanoseconds of an exchange, a write and the read that waits for it. */
static long long exchange(int count)
{
    char *text = text_of(count);
    unsigned char data[8] = { 0 };
    int moved, wrong = 0;
    begin_text("exchanges", text);
    handle = open_standard(context);
    libusb_claim_interface(handle, 0);
    long long from = processor_time();
    for (int i = 0; i < count; i++) {
        wrong += libusb_bulk_transfer(handle, 0x02, data, 1, &moved, 0) != 0;
        wrong += libusb_bulk_transfer(handle, 0x81, data, 8, &moved, 0) != 0 || moved != 1 || data[0] != i % 251;
    }
    long long each = (processor_time() - from) / count;
    number("wrong", wrong);
    end();
    free(text);
    return each;
}

/* One that comes too early waits. */
static void too_early(void)
{
    struct libusb_transfer *read, *write;
    begin("read before it is written", "script 0 02 a a\nscript 0 81 d:01 d:02\nafter 0 81 1 02 2\nafter 0 81 0 02 1\n");
    read = submit(0, 0x81, 8);
    work();
    say(calls ? "early" : "it waits");
    write = submit(1, 0x02, 1);
    work();
    discard(read);
    discard(write);
    end();
}

/* An endpoint's own: its second answer waits until one of its reads was withdrawn before it had one, and its third until two were. */
static void behind_those_that_ended(void)
{
    struct libusb_transfer *reads[4];
    begin("answers behind reads that ended without one", "script 0 81 d:01 d:02 d:03\nafter 0 81 1 81 1\nafter 0 81 2 81 2\n");
    reads[0] = submit(0, 0x81, 8);
    reads[1] = submit(1, 0x81, 8);
    reads[2] = submit(2, 0x81, 8);
    work();
    say(calls == 1 ? "the second waits" : "not one answer");
    answer("cancel the second", libusb_cancel_transfer(reads[1]));
    work();
    reads[3] = submit_with(3, 0x81, 8, 0, 20);
    wait_for(4);
    for (int i = 0; i < 4; i++)
        discard(reads[i]);
    reads[0] = submit(4, 0x81, 8);
    work();
    discard(reads[0]);
    end();
}

/* A read that got its answer isn't one without, whether it is cancelled then or not. */
static void those_that_got_one_do_not_count(void)
{
    struct libusb_transfer *read;
    begin("a read that got an answer", "script 0 81 d:0102030405060708 d:02 d:03\nafter 0 81 2 81 1\n");
    read = submit(0, 0x81, 16);
    work();
    discard(read);
    read = submit(1, 0x81, 8);
    work();
    say(calls == 1 ? "the third answer waits" : "it didn't wait");
    libusb_cancel_transfer(read);
    work();
    discard(read);
    end();
}

/* Answers that wait for those of another endpoint for IN, wherever a read was submitted first. */
static void behind_answers_elsewhere(void)
{
    struct libusb_transfer *reads[4];
    begin("answers behind those of another endpoint",
          "script 0 83 d:01 d:02\nscript 0 81 d:0a d:0b\nafter 0 81 0 83 1\nafter 0 81 1 83 2\n");
    reads[0] = submit(0, 0x81, 8);
    reads[1] = submit(1, 0x81, 8);
    work();
    say(calls ? "one is early" : "they wait");
    reads[2] = submit(2, 0x83, 8);
    work();
    say(calls == 2 ? "the second waits" : "not two answers");
    reads[3] = submit(3, 0x83, 8);
    work();
    for (int i = 0; i < 4; i++)
        discard(reads[i]);
    end();
}

/* A read there that ended without an answer doesn't count. */
static void those_without_one_do_not_count(void)
{
    struct libusb_transfer *reads[3], *write;
    begin("a read elsewhere without an answer",
          "script 0 02 a\nscript 0 83 d:01\nscript 0 81 d:0a\nafter 0 83 0 02 1\nafter 0 81 0 83 1\n");
    reads[0] = submit(0, 0x81, 8);
    reads[1] = submit(1, 0x83, 8);
    answer("cancel", libusb_cancel_transfer(reads[1]));
    work();
    write = submit(2, 0x02, 1);
    work();
    say(calls == 2 ? "it waits" : "it didn't wait");
    reads[2] = submit(3, 0x83, 8);
    work();
    for (int i = 0; i < 3; i++)
        discard(reads[i]);
    discard(write);
    end();
}

/* A request to the device, whose answer is that of the text; a read that waited for it may have its own within the call. */
static void request(uint8_t type, uint8_t number, uint16_t value, uint16_t index)
{
    unsigned char data[4];
    int length = type & LIBUSB_ENDPOINT_IN ? 4 : 0;
    printf("  request %02x %02x %04x %04x\n", type, number, value, index);
    int r = libusb_control_transfer(handle, type, number, value, index, data, (uint16_t)length, 100);
    if (r != length)
        printf("  its answer: %d\n", r);
}

/* Answers that wait for requests: those with other fields don't count. */
static void behind_requests(void)
{
    struct libusb_transfer *reads[3];
    begin("answers behind requests",
          "control 0 40 * * * a\ncontrol 0 c0 * * * d:01020304\nscript 0 81 d:01 d:02 d:03\n"
          "after 0 81 0 40 01 0007 0002 1\nafter 0 81 1 40 01 0007 0002 2\nafter 0 81 2 c0 * * 0005 2\n");
    for (int i = 0; i < 3; i++)
        reads[i] = submit(i, 0x81, 8);
    request(0x40, 1, 7, 3);
    request(0x40, 1, 8, 2);
    request(0x40, 2, 7, 2);
    request(0xc0, 1, 7, 2);
    work();
    say(calls ? "one is early" : "they wait");
    request(0x40, 1, 7, 2);
    work();
    say(calls == 1 ? "the second waits" : "not one answer");
    request(0x40, 1, 7, 2);
    request(0xc0, 9, 1, 5);
    work();
    say(calls == 2 ? "the third waits" : "not two answers");
    request(0xc0, 8, 2, 5);
    work();
    for (int i = 0; i < 3; i++)
        discard(reads[i]);
    end();
}

/* A halted endpoint stalls each read, whatever its next answer waits for, until the halt is cleared; also one that is in flight then. */
static void behind_a_stall(void)
{
    struct libusb_transfer *reads[3];
    begin("an answer behind a stall", "script 0 02 a\nscript 0 81 s d:01\nafter 0 81 1 02 1\n");
    for (int i = 0; i < 3; i++) {
        reads[i] = submit(i, 0x81, 8);
        if (i)
            work();
    }
    say(calls == 3 ? "all of them stalled" : "one waits");
    answer("clear", libusb_clear_halt(handle, 0x81));
    for (int i = 0; i < 3; i++)
        discard(reads[i]);
    reads[0] = submit(3, 0x81, 8);
    work();
    say(calls == 3 ? "the next one waits" : "it is early");
    reads[1] = submit(4, 0x02, 1);
    work();
    discard(reads[0]);
    discard(reads[1]);
    end();
}

static void many_and_few(void)
{
    long long few = exchange(FEW), many = exchange(MANY);
    say(many < 3 * few + 10000 ? "as quick with many as with few" : "slower with many");
}

int main(void)
{
    too_early();
    behind_those_that_ended();
    those_that_got_one_do_not_count();
    behind_answers_elsewhere();
    those_without_one_do_not_count();
    behind_requests();
    behind_a_stall();
    many_and_few();
    return 0;
}

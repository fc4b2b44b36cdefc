/* Many transfers at one endpoint, and long ones: their order, where the bytes go, and what ends one that only waits. */
#include "scene.h"

#include <stdio.h>
#include <stdlib.h>
#include <string.h>

#define COUNT 40
#define LONG 600000
#define PACKET 512

/* A device with packets of 512 bytes: bulk IN 81 and bulk OUT 02. */
static const char wide[] = "device 0 090220000101008032" "0904000002ff000000" "07058102000200" "07050202000200\nids 0 04a9 31c0\n";

static struct libusb_transfer *transfers[COUNT];
static int order[COUNT], order_count, ended[7];

static void collect(struct libusb_transfer *transfer)
{
    int id = (int)(intptr_t)transfer->user_data;
    calls++;
    ended[transfer->status]++;
    if (transfer->status == LIBUSB_TRANSFER_COMPLETED)
        order[order_count++] = id;
}

static void submit_all(int count)
{
    order_count = 0;
    memset(ended, 0, sizeof ended);
    for (int i = 0; i < count; i++) {
        transfers[i] = make(i, 0x81, 8);
        transfers[i]->callback = collect;
        send_off(transfers[i]);
    }
}

static void discard_all(int count)
{
    for (int i = 0; i < count; i++)
        discard(transfers[i]);
}

static void show_order(void)
{
    printf("  completed:");
    for (int i = 0; i < order_count; i++)
        printf(" %d", order[i]);
    printf("\n  first bytes:");
    for (int i = 0; i < order_count; i++)
        printf(" %02x", transfers[order[i]]->buffer[0]);
    printf("\n");
    number("cancelled", ended[LIBUSB_TRANSFER_CANCELLED]);
    number("timed out", ended[LIBUSB_TRANSFER_TIMED_OUT]);
}

static void forty(const char *name, int cancelled)
{
    char script[sizeof "script 0 81" + COUNT * 6] = "script 0 81";
    size_t length = strlen(script);
    for (int i = 0; i < COUNT; i++)
        length += (size_t)sprintf(script + length, " d:%02x", (unsigned)i);
    strcpy(script + length, "\n");
    begin(name, script);
    submit_all(COUNT);
    if (cancelled >= 0)
        answer("cancel", libusb_cancel_transfer(transfers[cancelled]));
    work();
    show_order();
    discard_all(COUNT);
    end();
}

/* A device whose endpoint 81 gives so many packets of 512 bytes, 0 to 250 over and over, and a last one of so many bytes. */
static void begin_wide(const char *name, size_t packets, size_t rest, const char *more)
{
    size_t total = packets * PACKET + rest, room = sizeof wide + 2 * total + 3 * (packets + 1) + strlen(more) + 64, length;
    char *text = malloc(room);
    if (!text)
        exit(1);
    length = (size_t)snprintf(text, room, "%sscript 0 81", wide);
    for (size_t i = 0; i < total; i++) {
        if (i % PACKET == 0)
            length += (size_t)snprintf(text + length, room - length, " d:");
        length += (size_t)snprintf(text + length, room - length, "%02x", (unsigned)(i % 251));
    }
    snprintf(text + length, room - length, "%s", more);
    begin_text(name, text);
    free(text);
    handle = open_standard(context);
    answer("claim", libusb_claim_interface(handle, 0));
}

static void compare(const struct libusb_transfer *transfer)
{
    for (int i = 0; i < transfer->actual_length; i++)
        if (transfer->buffer[i] != i % 251) {
            number("another byte at", i);
            return;
        }
    say("the bytes are the device's");
}

static void long_read(const char *name, size_t packets, size_t rest, const char *more, int length)
{
    struct libusb_transfer *transfer, *behind;
    begin_wide(name, packets, rest, more);
    transfer = submit(0, 0x81, length);
    behind = submit(1, 0x81, 8);
    work();
    compare(transfer);
    libusb_cancel_transfer(transfer);
    work();
    libusb_cancel_transfer(behind);
    work();
    compare(transfer);
    discard(transfer);
    discard(behind);
    end();
}

static void long_endings(void)
{
    struct libusb_transfer *some[3];
    begin_wide("a read of 600,000 that is short where that isn't ok", 585, 480, "\n");
    some[0] = submit_with(0, 0x81, LONG, LIBUSB_TRANSFER_SHORT_NOT_OK, 0);
    work();
    compare(some[0]);
    discard(some[0]);
    end();

    virtual_time(1);
    begin_wide("a read of 600,000 that times out in the midst", 600, 0, "\n");
    some[0] = submit_with(0, 0x81, LONG, 0, 3000);
    wait_for(1);
    compare(some[0]);
    discard(some[0]);
    end();
    virtual_time(0);

    begin_wide("a read of 600,000 that is cancelled while it waits", 2, 0, "\n");
    some[0] = submit(0, 0x81, 3 * PACKET);
    some[1] = submit(1, 0x81, LONG);
    some[2] = submit(2, 0x81, LONG);
    work();
    answer("cancel", libusb_cancel_transfer(some[1]));
    work();
    answer("cancel", libusb_cancel_transfer(some[0]));
    work();
    answer("cancel", libusb_cancel_transfer(some[2]));
    work();
    for (int i = 0; i < 3; i++)
        discard(some[i]);
    end();
}

/* The bytes of several reads are those of the device, one behind the other. */
static void reads(const char *name, const int *lengths, int count)
{
    struct libusb_transfer *some[6];
    size_t total = 0;
    begin_wide(name, 3000, 0, "\n");
    for (int i = 0; i < count; i++)
        some[i] = submit(i, 0x81, lengths[i]);
    work();
    for (int i = 0; i < count; i++) {
        size_t wrong = 0;
        for (int j = 0; j < lengths[i]; j++)
            wrong += some[i]->buffer[j] != (total + (size_t)j) % 251;
        total += (size_t)lengths[i];
        number("other bytes", (long long)wrong);
        discard(some[i]);
    }
    end();
}

static void several_reads(void)
{
    static const int mixed[] = { PACKET, 300032, 2 * PACKET, 262144, 262656, PACKET };
    static const int rows[] = { 65536, 65536, 8 * PACKET, 65536, PACKET, 65536 };
    reads("long ones between short ones", mixed, 6);
    reads("some of 65,536 in packets of 512", rows, 6);
}

static void count_taken(void)
{
    unsigned char packet[PACKET];
    long long total = 0, count = 0;
    int length, last = 0, is_whole = 1;
    for (; (length = tirnouch_took(0, 0x02, (size_t)count, packet, sizeof packet)) >= 0; count++) {
        for (int i = 0; i < length && total + i < LONG; i++)
            is_whole &= packet[i] == (total + i) % 256;
        total += length;
        last = length;
    }
    number("packets", count);
    number("bytes", total);
    number("in the last", last);
    say(is_whole ? "the bytes are the program's" : "other bytes");
}

static void long_write(const char *name, int acks, int length, int flags, int has_another)
{
    struct libusb_transfer *transfer, *behind = NULL;
    char *more = malloc((size_t)acks * 2 + 64);
    if (!more)
        exit(1);
    size_t at = (size_t)sprintf(more, "\nscript 0 02");
    for (int i = 0; i < acks; i++)
        at += (size_t)sprintf(more + at, " a");
    strcpy(more + at, "\n");
    begin_wide(name, 1, 0, more);
    free(more);
    transfer = submit_with(0, 0x02, length, flags, 0);
    if (has_another)
        behind = submit(1, 0x02, 2);
    work();
    count_taken();
    discard(transfer);
    if (behind)
        discard(behind);
    end();
}

static void zero_packets(void)
{
    struct libusb_transfer *some[4];
    begin("packets of no bytes", "script 0 02 a a a a a a a a\n");
    some[0] = submit(0, 0x02, 16);
    some[1] = submit_with(1, 0x02, 16, LIBUSB_TRANSFER_ADD_ZERO_PACKET, 0);
    some[2] = submit_with(2, 0x02, 9, LIBUSB_TRANSFER_ADD_ZERO_PACKET, 0);
    some[3] = submit(3, 0x02, 0);
    work();
    took(0x02);
    for (int i = 0; i < 4; i++)
        discard(some[i]);
    end();
}

static void waiting_ones(void)
{
    virtual_time(1);
    begin("the last of twenty times out", "");
    submit_all(19);
    transfers[19] = submit_with(19, 0x81, 8, 0, 4000);
    wait_for(1);
    number("calls", calls);
    for (int i = 0; i < 19; i++)
        libusb_cancel_transfer(transfers[i]);
    wait_for(20);
    show_order();
    discard_all(20);
    end();

    begin("timeouts by their moments", "");
    transfers[0] = submit_with(0, 0x81, 8, 0, 3000);
    transfers[1] = submit_with(1, 0x81, 8, 0, 1000);
    transfers[2] = submit_with(2, 0x83, 8, 0, 2000);
    wait_for(3);
    discard_all(3);
    end();
    virtual_time(0);

    begin("twenty end by a release", "");
    submit_all(20);
    answer("release", libusb_release_interface(handle, 0));
    work();
    show_order();
    discard_all(20);
    end();
}

static void two_endpoints(void)
{
    begin("in order at each endpoint", "script 0 83 d:0a n d:0b\nscript 0 02 a a\n");
    transfers[0] = submit(0, 0x83, 8);
    transfers[1] = submit(1, 0x81, 8);
    transfers[2] = submit(2, 0x83, 8);
    work();
    answer("cancel", libusb_cancel_transfer(transfers[1]));
    work();
    discard_all(3);
    end();
}

/* Answers of 8 bytes: those of one count from 0 on, of the next from 1 on; and so on. */
static size_t count_up(char *script, unsigned ep, unsigned first)
{
    size_t length = (size_t)sprintf(script, "script 0 %02x", ep);
    for (unsigned i = 0; i < COUNT; i++) {
        length += (size_t)sprintf(script + length, " d:");
        for (unsigned j = 0; j < 8; j++)
            length += (size_t)sprintf(script + length, "%02x", first + i + j);
    }
    return length + (size_t)sprintf(script + length, "\n");
}

/* Of those at an endpoint, which are every second from this one on, each that wasn't cancelled has the next answer. */
static void check_line(const char *name, int from, int first)
{
    int completed = 0, wrong = 0, last = -1, behind = 0;
    for (int i = from; i < COUNT; i += 2) {
        if (transfers[i]->status != LIBUSB_TRANSFER_COMPLETED)
            continue;
        for (int j = 0; j < 8; j++)
            wrong += transfers[i]->buffer[j] != first + completed + j;
        completed++;
    }
    for (int i = 0; i < order_count; i++) {
        if (order[i] % 2 != from)
            continue;
        behind += order[i] < last;
        last = order[i];
    }
    number(name, completed);
    number("other bytes", wrong);
    number("out of order", behind);
}

/* Every fifth is cancelled: some are in the core, the last ones still wait; with them it is the same. */
static void two_lines(void)
{
    static char script[2 * (sizeof "script 0 81" + COUNT * 20)];
    count_up(script + count_up(script, 0x81, 0), 0x83, 100);
    begin("twenty at each of two endpoints, and every fifth is cancelled", script);
    order_count = 0;
    memset(ended, 0, sizeof ended);
    for (int i = 0; i < COUNT; i++) {
        transfers[i] = make(i, i % 2 ? 0x83 : 0x81, 8);
        transfers[i]->callback = collect;
        send_off(transfers[i]);
    }
    for (int i = 3; i < COUNT; i += 5)
        answer("cancel", libusb_cancel_transfer(transfers[i]));
    work();
    check_line("completed at 81", 0, 0);
    check_line("completed at 83", 1, 100);
    number("cancelled", ended[LIBUSB_TRANSFER_CANCELLED]);
    number("calls", calls);
    discard_all(COUNT);
    end();
}

int main(void)
{
    forty("forty at once", -1);
    forty("forty, and the sixth is cancelled", 5);
    forty("forty, and the thirtieth is cancelled", 29);
    two_endpoints();
    two_lines();
    zero_packets();
    waiting_ones();
    long_read("a read of 600,000", 1171, 448, " d:aabb\n", LONG);
    long_read("a read of 524,288", 1024, 0, " d:aabb\n", 524288);
    long_read("a read of 600,000 that is short", 585, 480, " d:aabb\n", LONG);
    long_read("a read of 600,000 that stalls", 586, 0, " s\n", LONG);
    long_read("a read of 600,000 that is cancelled in the midst", 586, 0, "\n", LONG);
    long_endings();
    several_reads();
    long_read("a read of 65,536", 128, 0, " d:aabb\n", 65536);
    long_read("a read of 65,536 that is short", 100, 200, " d:aabb\n", 65536);
    long_write("a write of 65,536", 129, 65536, 0, 1);
    long_write("a write of 600,000", 1173, LONG, 0, 1);
    long_write("a write of 524,288 and a packet of no bytes", 1025, 524288, LIBUSB_TRANSFER_ADD_ZERO_PACKET, 0);
    long_write("a write of 524,288", 1025, 524288, 0, 0);
    return 0;
}

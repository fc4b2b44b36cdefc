/* A device whose answers are fed: which packet is next, and what it is answered. */
#include "core.h"

/* A device with a bulk endpoint for IN, 81, and one for OUT, 02, in packets of 8 bytes, which has no answers yet. */
static const char living[] =
    "device 0 0902200001010080320904000002ff0000000705810208000007050202080000\n";

/* The packet that is next, and its bytes, with room for so many. */
static void offer(uint8_t ep, size_t room)
{
    uint8_t data[16];
    memset(data, 0xee, sizeof data);
    tell_offer("offer", tirnouch_offer(&slot, 0, ep, data, room, &last.offer));
    if (ep == 0x02)
        show_bytes(data, 12);
}

static int32_t feed(uint8_t ep, uint8_t kind, const char *packet)
{
    return tirnouch_feed(&slot, 0, ep, kind, (const uint8_t *)packet, strlen(packet));
}

static void feed_in_vain(void)
{
    static const uint8_t many[2049];
    say("feed taken at 81", feed(0x81, 1, ""));
    say("feed a packet at 02", feed(0x02, 0, "ab"));
    say("feed kind 5", feed(0x81, 5, ""));
    say("feed endpoint 83", feed(0x83, 2, ""));
    say("feed device 1", tirnouch_feed(&slot, 1, 0x81, 2, many, 0));
    say("feed device 4", tirnouch_feed(&slot, 4, 0x81, 2, many, 0));
    say("feed 2049 bytes", tirnouch_feed(&slot, 0, 0x81, 0, many, sizeof many));
    tell_offer("offer of device 4", tirnouch_offer(&slot, 4, 0x81, (uint8_t[]){ 0 }, 1, &last.offer));
}

/* A read of two packets, each fed when it is next; the device isn't asked where it has an answer. */
static void feed_a_read(void)
{
    uint8_t data[10];
    offer(0x81, 0);
    tell_reply("read of 10", read_at(0x81, 10, 7));
    offer(0x81, 0);
    feed_in_vain();
    offer(0x81, 0);
    say("feed 8 bytes", feed(0x81, 0, "abcdefgh"));
    offer(0x81, 0);
    tell_reply("serve", tirnouch_serve(&slot, 0, 0x81, 1, &last.reply));
    offer(0x81, 0);
    say("feed 2 bytes", feed(0x81, 0, "ij"));
    tell_result("turn", turn(0, 0x81));
    bytes("fetch", tirnouch_fetch(&slot, data, sizeof data), data, 10);
    offer(0x81, 0);
}

static void feed_a_write(void)
{
    uint8_t data[8];
    tell_reply("write of 11", tirnouch_submit(&slot, 1, 0x02, 2, 0, 0, 0, (const uint8_t *)"ABCDEFGHIJK", 11, 8, &last.reply));
    offer(0x02, 16);
    offer(0x02, 3);
    say("feed taken", feed(0x02, 1, ""));
    tell_reply("serve", tirnouch_serve(&slot, 0, 0x02, 1, &last.reply));
    offer(0x02, 16);
    say("feed not ready", feed(0x02, 2, ""));
    say("feed taken", feed(0x02, 1, ""));
    tell_result("turn", turn(0, 0x02));
    bytes("taken 0", tirnouch_taken(&slot, 0, 0x02, 0, data, sizeof data), data, 8);
    bytes("taken 1", tirnouch_taken(&slot, 0, 0x02, 1, data, sizeof data), data, 3);
}

/* While the device is halted it isn't asked, and what it was fed waits; once it is gone it isn't asked any more. */
static void feed_a_stall(void)
{
    tell_reply("read of 8", read_at(0x81, 8, 9));
    say("feed a stall", feed(0x81, 3, ""));
    tell_result("turn", turn(0, 0x81));
    tell_reply("read of 8", read_at(0x81, 8, 10));
    offer(0x81, 0);
    say("feed a broken transaction", feed(0x81, 4, ""));
    tell_result("turn", turn(0, 0x81));
    tell_reply("clear halt 81", call(TIRNOUCH_CLEAR_HALT, 1, 0x81, 0));
    tell_reply("read of 8", read_at(0x81, 8, 11));
    tell_result("turn", turn(0, 0x81));
    tell_reply("read of 8", read_at(0x81, 8, 12));
    offer(0x81, 0);
    tell_reply("unplug 0", call(TIRNOUCH_UNPLUG, 0, 0, 0));
    offer(0x81, 0);
    say("feed 1 byte", feed(0x81, 0, "z"));
}

void feeding(void)
{
    say("create", create(living));
    offer(0x81, 0);
    tell_reply("open 1 0", call(TIRNOUCH_OPEN, 1, 0, 0));
    tell_reply("claim 1 0", call(TIRNOUCH_CLAIM, 1, 0, 0));
    feed_a_read();
    feed_a_write();
    feed_a_stall();
    say("destroy", tirnouch_destroy(&slot));
    say("feed an empty slot", feed(0x81, 2, ""));
    offer(0x81, 0);
}

/* Transfers with the bytes that they move: a read, a write, a cancel, and a result in one call. */
#include "core.h"

static void a_read(void)
{
    uint8_t data[8];
    tell_reply("read of 8", read_at(0x81, 8, 4711));
    tell_view("look at 81", tirnouch_look(&slot, 0, 0x81, &last.view));
    tell_view("look at 02", tirnouch_look(&slot, 0, 0x02, &last.view));
    tell_reply("serve", tirnouch_serve(&slot, 0, 0x81, 10, &last.reply));
    tell_next("pending", tirnouch_pending(&slot, 255, 0, &last.next));
    tell_view("look at 81", tirnouch_look(&slot, 0, 0x81, &last.view));
    tell_view("look at device 4", tirnouch_look(&slot, 4, 0x81, &last.view));
    tell_progress("settle", tirnouch_settle(&slot, 0, 100, &last.progress));
    tell_result("take", take());
    bytes("fetch", tirnouch_fetch(&slot, data, sizeof data), data, 5);
    say("fetch again", tirnouch_fetch(&slot, data, sizeof data));
    say("take again", take());
}

static void a_write(void)
{
    uint8_t data[2];
    int32_t answer = tirnouch_submit(&slot, 1, 0x02, 2, 0, 0, 0, (const uint8_t *)"abc", 3, 5, &last.reply);
    tell_reply("write of abc", answer);
    tell_progress("settle with packets", tirnouch_settle(&slot, 1, 100, &last.progress));
    tell_result("take", take());
    bytes("taken 0", tirnouch_taken(&slot, 0, 0x02, 0, data, sizeof data), data, 2);
    say("taken 1", tirnouch_taken(&slot, 0, 0x02, 1, data, sizeof data));
}

static void a_cancel(void)
{
    tell_reply("read of 1", read_at(0x81, 1, 1));
    tell_reply("cancel 1 2", call(TIRNOUCH_CANCEL, 1, 0, 2));
    tell_progress("settle one", tirnouch_settle(&slot, 0, 1, &last.progress));
    tell_progress("settle", tirnouch_settle(&slot, 0, 100, &last.progress));
    tell_result("take", take());
}

static void turns(void)
{
    uint8_t data[4] = { 0 };
    tell_reply("read of 4", read_at(0x81, 4, 9));
    tell_result("turn", turn(0, 0x81));
    bytes("fetch", tirnouch_fetch(&slot, data, sizeof data), data, 1);
    tell_reply("write of ab", tirnouch_submit(&slot, 1, 0x02, 2, 0, 0, 0, (const uint8_t *)"ab", 2, 6, &last.reply));
    tell_result("turn of it", turn(0, 0x02));
    say("fetch", tirnouch_fetch(&slot, data, sizeof data));
    tell_result("turn of nothing", turn(0, 0x02));
    say("turn of device 4", turn(4, 0x81));
}

void transfers(void)
{
    a_read();
    a_write();
    a_cancel();
    turns();
}

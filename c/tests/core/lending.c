/* Reads straight into memory that is lent. */
#include "core.h"

/* A device with a bulk endpoint for IN, 81, in packets of 8 bytes. */
static const char meter[] =
    "device 0 0902190001010080320904000001ff00000007058102080000\n"
    "script 0 81 d:0102030405060708 d:1112 d:2122232425262728 d:3132333435363738 n d:41\n";

/* A read straight into this memory. */
static int32_t lend(uint8_t ep, uint8_t kind, struct tirnouch_memory *memory, uint64_t payload)
{
    return tirnouch_submit_in(&slot, 1, ep, kind, 0, 0, memory, payload, &last.reply);
}

static void lend_in_vain(void)
{
    uint8_t data[8];
    struct tirnouch_memory memory = filled_with_ee(data, sizeof data);
    say("lend for kind 9", lend(0x81, 9, &memory, 20));
    show("its memory", &memory, data);
    show_bytes(data, sizeof data);
    tell_reply("lend for endpoint 82", lend(0x82, 2, &memory, 20));
    show("its memory", &memory, data);
    show_bytes(data, sizeof data);
    say("lend for OUT", lend(0x02, 2, &memory, 20));
    show("its memory", &memory, data);
    show_bytes(data, sizeof data);
}

/* While it is lent it is looked at here, which a program may not do. */
static void lend_one(void)
{
    uint8_t data[12];
    struct tirnouch_memory memory = filled_with_ee(data, sizeof data), back = no_memory();
    memory.len = 8;
    tell_reply("lend 8", lend(0x81, 2, &memory, 20));
    printf("its len: %zu\n", memory.len);
    tell_reply("serve", tirnouch_serve(&slot, 0, 0x81, 1, &last.reply));
    show_bytes(data, sizeof data);
    say("settle", tirnouch_settle(&slot, 0, 100, &last.progress));
    tell_result("take", tirnouch_take(&slot, &back, &last.result));
    show("back", &back, data);
    say("fetch", tirnouch_fetch(&slot, data, sizeof data));
    show_bytes(data, sizeof data);
}

static void take_back(const uint8_t *place, size_t len)
{
    struct tirnouch_memory back = no_memory();
    tell_result("take", tirnouch_take(&slot, &back, &last.result));
    show("back", &back, place);
    show_bytes(place, len);
}

/* The first packet is short, and so the second one is the other's. */
static void lend_two(void)
{
    uint8_t data[8], more[8];
    struct tirnouch_memory first = filled_with_ee(data, sizeof data), second = filled_with_ee(more, sizeof more);
    tell_reply("lend 8", lend(0x81, 2, &first, 21));
    tell_reply("lend 8 more", lend(0x81, 2, &second, 22));
    tell_reply("serve", tirnouch_serve(&slot, 0, 0x81, 1, &last.reply));
    tell_reply("serve", tirnouch_serve(&slot, 0, 0x81, 1, &last.reply));
    say("settle", tirnouch_settle(&slot, 0, 100, &last.progress));
    take_back(data, sizeof data);
    take_back(more, sizeof more);
    say("take again", take());
}

static void lend_and_cancel(void)
{
    uint8_t data[20];
    struct tirnouch_memory memory = filled_with_ee(data, sizeof data);
    tell_reply("lend 20", lend(0x81, 2, &memory, 23));
    tell_reply("serve", tirnouch_serve(&slot, 0, 0x81, 1, &last.reply));
    tell_reply("cancel 1 3", call(TIRNOUCH_CANCEL, 1, 0, 3));
    say("settle", tirnouch_settle(&slot, 0, 100, &last.progress));
    take_back(data, sizeof data);
}

static void lend_in_turn(void)
{
    uint8_t data[4];
    struct tirnouch_memory memory = filled_with_ee(data, sizeof data), back = no_memory();
    tell_reply("lend 4", lend(0x81, 2, &memory, 24));
    tell_result("turn", tirnouch_turn(&slot, 0, 0x81, 10, 100, &back, &last.result));
    show("back", &back, data);
    show_bytes(data, sizeof data);
}

/* An endpoint takes 16 transfers. The 17th is refused, and its memory is C's, as it was. */
static void lend_too_many(void)
{
    static uint8_t data[17][8];
    for (size_t i = 0; i < 16; i++) {
        struct tirnouch_memory memory = filled_with_ee(data[i], sizeof data[i]);
        if (lend(0x81, 2, &memory, 25 + i))
            printf("lend %zu of 16 is refused\n", i + 1);
    }
    struct tirnouch_memory memory = filled_with_ee(data[16], sizeof data[16]);
    tell_reply("lend a 17th", lend(0x81, 2, &memory, 41));
    show("its memory", &memory, data[16]);
    show_bytes(data[16], sizeof data[16]);
}

/* What is lent as the session ends is C's, and isn't freed. */
void lending(void)
{
    uint8_t data[8];
    say("create", create(meter));
    tell_reply("open 1 0", call(TIRNOUCH_OPEN, 1, 0, 0));
    tell_reply("claim 1 0", call(TIRNOUCH_CLAIM, 1, 0, 0));
    lend_in_vain();
    lend_one();
    lend_two();
    lend_and_cancel();
    lend_in_turn();
    lend_too_many();
    say("destroy", tirnouch_destroy(&slot));
    say("lend to an empty slot", lend(0x81, 2, &(struct tirnouch_memory){ .at = data, .len = sizeof data }, 42));
}

/* A session from its text to its end: the desk, which transfers.c and requests.c use. */
#include "core.h"

/* A line that speaks of a device before the device's own. */
static const char bad[] =
    "# nothing\n"
    "ids 0 1209 0002\n";

/* A device with a bulk endpoint for IN, 81, and one for OUT, 02. */
static const char desk[] =
    "device 0 0902200001010080320904000002ff0000000705810240000007050202400000\n"
    "script 0 81 d:68656c6c6f n d:21 s\n"
    "script 0 02 a a\n"
    "ids 0 1209 0002 0150\n"
    "string 0 1 Tirnouch\n"
    "string 0 2 Desk device\n"
    "control 0 c0 01 * 0000 d:01 d:0203\n"
    "control 0 40 02 0005 0000 a s\n"
    "after 0 81 2 02 1\n"
    "after 0 81 3 c0 01 * 0a0b 7\n"
    "speed 0 full\n"
    "driver 0 0\n";

static void slots(void)
{
    say("destroy an empty slot", tirnouch_destroy(&slot));
    say("call an empty slot", call(TIRNOUCH_OPEN, 1, 0, 0));
    say("create of a bad line", create(bad));
    printf("its line: %" PRIu64 "\n", last.complaint.line);
    say("create", create(desk));
    say("create again", create(desk));
}

static void calls(void)
{
    tell_reply("open 1 0", call(TIRNOUCH_OPEN, 1, 0, 0));
    tell_reply("open 64 0", call(TIRNOUCH_OPEN, 64, 0, 0));
    tell_reply("open 2 3", call(TIRNOUCH_OPEN, 2, 3, 0));
    tell_reply("claim 1 0", call(TIRNOUCH_CLAIM, 1, 0, 0));
    tell_reply("claim 2 0", call(TIRNOUCH_CLAIM, 2, 0, 0));
    tell_reply("cancel 1 7", call(TIRNOUCH_CANCEL, 1, 0, 7));
    tell_reply("verb 9", call(9, 1, 0, 0));
}

void begin_desk(void)
{
    slots();
    calls();
}

void end_desk(void)
{
    tell_reply("unplug 0", call(TIRNOUCH_UNPLUG, 0, 0, 0));
    say("destroy", tirnouch_destroy(&slot));
}

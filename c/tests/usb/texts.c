/* Texts of devices that aren't taken: libusb_init says on standard error which line, which word of it, and what is wanted there. The expected
 * sentences are those of docs/DEVICES.md's form of each line. */
#include "scene.h"

#include <stdio.h>
#include <string.h>

/* Bulk IN 81 and bulk OUT 02 of 64 bytes. */
#define DEVICE_LINE "device 0 0902200001010080320904000002ff0000000705810240000007050202400000"
#define DEVICE DEVICE_LINE "\n"

/* What a text is refused with; nothing where it is taken. */
static const char *error_of(const char *text, size_t length)
{
    static char error[2][1100];
    static int turn;
    char *it = error[turn = !turn];
    libusb_context *own = NULL;
    *it = 0;
    tirnouch_plug(text, length);
    if (!libusb_init(&own))
        libusb_exit(own);
    else
        tirnouch_error(it, sizeof error[0]);
    return it;
}

/* Whether the last line has an end or not, the same is said of it. */
static void refuse(const char *what, const char *text)
{
    refuse_text(what, text);
    const char *ended = error_of(text, strlen(text)), *unended = error_of(text, strlen(text) - 1);
    if (strcmp(ended, unended))
        printf("  without the last line's end: %s", *unended ? unended : "nothing\n");
}

static void words(void)
{
    refuse("digits with 0x", DEVICE "ids 0 1209 0x0002\n");
    refuse("two digits where there are four", DEVICE "ids 0 1209 02\n");
    refuse("odd digits", DEVICE "script 0 81 d:010\n");
    refuse("taken at an IN endpoint", DEVICE "script 0 81 d:01 a\n");
    refuse("a speed that isn't", DEVICE "speed 0 super\n");
    refuse("too few words", DEVICE "leaves 0 81\n");
    refuse("a line of a scenario", DEVICE "open 1 0\n");
    refuse("answers that a scenario feeds", DEVICE "script 0 81 n\nfeed 0 81 n\n");
}

static void spaces(void)
{
    refuse("two spaces", DEVICE "ids 0 1209  0002\n");
    refuse("a tab", DEVICE "ids 0 1209\t0002\n");
    refuse("lines of another system", DEVICE "ids 0 1209 0002\r\n");
}

static void places(void)
{
    refuse("a device that isn't there", DEVICE "ids 1 1209 0002\n");
    refuse("an endpoint that isn't there", DEVICE "script 0 83 n\n");
    refuse("a second script", DEVICE "script 0 81 n\nscript 0 81 n\n");
    refuse("answers behind a script's end", DEVICE "script 0 81 n\nafter 0 81 1 02 1\n");
    refuse("answers that wait for an endpoint that isn't there", DEVICE "script 0 81 n\nafter 0 81 0 83 1\n");
    refuse("a device that lasts for something", DEVICE "lasts 0 1\n");
    refuse("a departure behind a script's end", DEVICE "script 0 81 n\nleaves 0 81 2\n");
    refuse("a driver of no interface", DEVICE "driver 0 1\n");
    refuse("said twice", DEVICE "ids 0 1209 0002\n# again\nids 0 1209 0003\n");
    refuse("packets too long for a speed",
                "device 0 0902200001010080320904000002ff0000000705810200020007050202000200\nspeed 0 full\n");
}

/* Lines that start programs, or have a device come back as another: nothing is started where one isn't taken. */
static void own_lines(void)
{
    refuse("a program without a command", "program 0\n");
    refuse("a program without words", "program 0 \n");
    refuse("a program of a device that can't be", "program 16 true\n");
    refuse("a program that isn't next", "program 1 true\n");
    refuse("two programs", "program 0 true\nprogram 0 false\n");
    refuse("a program's line of another system", "program 0 true\r\n");
    refuse("lines before their program's", "ids 0 1209 0001\nprogram 0 true\n");
    refuse("comes back, and not as what", DEVICE "comes back 0\n");
    refuse("comes forth", DEVICE "comes forth 0 as 1\n");
    refuse("comes back as itself", DEVICE "comes back 0 as 0\n");
    refuse("comes back as a device that isn't there", DEVICE "comes back 0 as 1\n");
    refuse("comes back before it is there", "comes back 0 as 1\n" DEVICE);
    refuse("comes back twice", DEVICE "comes back 0 as 1\ncomes back 0 as 2\n");
}

/* What stands behind `a:`; all else of such a line is judged before. */
static void expected(void)
{
    refuse("an expected packet of odd digits", DEVICE "script 0 02 n a:0 a\n");
    refuse("an expected packet of no digits", DEVICE "script 0 02 a:01 a:0x02\n");
    refuse("a star amid digits", DEVICE "script 0 02 a:01*02\n");
    refuse("an expected packet over the endpoint's size", "device 0 0902200001010080320904000002ff0000000705810208000007050202080000\n"
           "script 0 02 a:000102030405060708\n");
    refuse("an expected packet at an IN endpoint", DEVICE "script 0 81 a:01\n");
    refuse("expected data of a request that reads", DEVICE "control 0 c0 01 0000 0000 a:01\n");
    refuse("expected data of odd digits", DEVICE "control 0 40 01 * 0000 a a:012\n");
    refuse("an expected packet at an endpoint that isn't there", DEVICE "script 0 03 a:01\n");
    refuse("a line of another system behind an expected packet", DEVICE "script 0 02 a:01\r\n");
    refuse("a word that begins otherwise", DEVICE "script 0 02 ab:01\n");
    refuse("what a program expects", "program 0 sh -c 'read x; echo " DEVICE_LINE "; echo script 0 02 a:01 a:1; echo ok'\n");
    refuse("what a text expects at a device that is a program",
           "program 0 sh -c 'read x; echo " DEVICE_LINE "; echo ok'\n# its packets\nscript 0 02 a:2\n");
}

static void taken(void)
{
    refuse("a packet over the endpoint's size, which is babble",
           DEVICE "speed 0 full\nscript 0 81 d:" "00112233445566778899aabbccddeeff"
           "00112233445566778899aabbccddeeff00112233445566778899aabbccddeeff00112233445566778899aabbccddeeff00\n");
}

int main(void)
{
    words();
    spaces();
    places();
    own_lines();
    expected();
    taken();
    return 0;
}

/* What is said of a text that isn't one. */
#include "core.h"

/* Two endpoints, 81 for IN and 02 for OUT, of interface 0. */
#define DEVICE "device 0 0902200001010080320904000002ff0000000705810240000007050202400000\n"

/* What is said of the first bad line of a text. */
static void complain(const char *text)
{
    uint8_t sentence[200];
    int32_t length = tirnouch_complain((const uint8_t *)text, strlen(text), sentence, sizeof sentence, &last.complaint);
    if (length > 0)
        printf("line %" PRIu64 ", %s %" PRIu32 ": %.*s\n", last.complaint.line, last.complaint.has_word ? "word" : "whole", last.complaint.word,
               (int)length, sentence);
    else
        say("complain", length);
}

void complaints(void)
{
    uint8_t sentence[] = "........";
    complain(DEVICE);
    complain(DEVICE "ids 0 1209\n");
    complain(DEVICE "ids 0 1209 0x0002\n");
    complain(DEVICE "# ids\nids 0 1209  0002\n");
    complain("device 0 0902\r\n");
    complain("device 0 0902\n");
    complain("device 1 0902200001010080320904000002ff0000000705810240000007050202400000\n");
    complain("ids 0 1209 0002\n");
    complain(DEVICE "script 0 83 n\n");
    complain(DEVICE "script 0 02 d:00\n");
    complain(DEVICE "control 0 40 01 * 0000\n");
    complain(DEVICE "after 0 81 1 02 1\nscript 0 81 n\n");
    complain(DEVICE "after 0 81 0 40 01 0001 1\nscript 0 81 n\n");
    complain(DEVICE "after 0 81 0 40 01 1 * 1\nscript 0 81 n\n");
    complain(DEVICE "after 0 81 1 40 01 * * 1\nscript 0 81 n\n");
    complain(DEVICE "speed 0 full\nspeed 0 full\n");
    complain(DEVICE "driver 0 1\n");
    say("complain with little room", tirnouch_complain((const uint8_t *)"open 1 0\n", 9, sentence, 6, &last.complaint));
    printf("its sentence: %s\n", (const char *)sentence);
    say("create of a line that means nothing", create(DEVICE "driver 0 1\n"));
    printf("its line: %" PRIu64 "\n", last.complaint.line);
}

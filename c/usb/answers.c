/* What a program is asked of its device, and answers, a line each:
 *
 *     hello D            lines of the device, and then: ok
 *     out EP HEX         a packet was sent: a | n | s | b | later MS | gone
 *     in EP ROOM         a packet is read:  d:HEX | n | s | b | later MS | gone
 *     control SETUP HEX  a request, with what it writes: d:HEX | a | n | s | b | t (as the text has it) | later MS | gone
 *     claimed I, released I, reset, cleared EP, plugged, pulled: told, and not answered */
#include "bus.h"

#include <stdio.h>
#include <stdlib.h>
#include <string.h>

/* The longest question, and how much of it is shown. */
#define MOST_QUESTION (2 * MOST_REQUEST + 64)
#define MOST_SHOWN 40
/* How much a program may say of its device. */
#define MOST_TEXT (64u << 20)
#define MOST_LATER 1000000000u

static int digit(char c)
{
    if (c >= '0' && c <= '9')
        return c - '0';
    return c >= 'a' && c <= 'f' ? c - 'a' + 10 : -1;
}

/* How many bytes these digits are; -1 where they are none, or too many. */
static int read_hex(const char *digits, uint8_t *data, int most)
{
    int count = 0;
    for (; *digits; digits += 2) {
        int high = digit(digits[0]), low = high < 0 ? -1 : digit(digits[1]);
        if (low < 0 || count == most)
            return -1;
        data[count++] = (uint8_t)(high << 4 | low);
    }
    return count;
}

static size_t write_hex(char *at, const uint8_t *bytes, int count)
{
    static const char digits[] = "0123456789abcdef";
    for (int i = 0; i < count; i++) {
        at[2 * i] = digits[bytes[i] >> 4];
        at[2 * i + 1] = digits[bytes[i] & 15];
    }
    return (size_t)count * 2;
}

/* What was asked, and what of that an answer may have. */
struct asked {
    const char *question;
    bool reads, is_request;
    uint8_t *data;
    int room, length;                 /* room: for the bytes that are read; length: of those that were written */
};

/* `later MS` in tirnouch.h's number; 0 where it isn't that. */
static int read_later(const char *line)
{
    uint64_t number = 0;
    if (strncmp(line, "later ", 6) || !line[6])
        return 0;
    for (const char *at = line + 6; *at; at++) {
        if (*at < '0' || *at > '9' || number > MOST_LATER)
            return 0;
        number = number * 10 + (uint64_t)(*at - '0');
    }
    return number > MOST_LATER ? 0 : TIRNOUCH_LATER(number);
}

/* In tirnouch.h's numbers; false where it means nothing. */
static bool read_answer(const struct asked *asked, const char *line, int *answer)
{
    static const struct {
        const char *word;
        int answer;
    } words[] = { { "n", TIRNOUCH_NOT_READY }, { "s", TIRNOUCH_STALL }, { "b", TIRNOUCH_BROKEN }, { "gone", TIRNOUCH_GONE } };
    for (size_t i = 0; i < sizeof words / sizeof *words; i++) {
        if (strcmp(line, words[i].word))
            continue;
        *answer = words[i].answer;
        return true;
    }
    if (asked->is_request && !strcmp(line, "t")) {
        *answer = TIRNOUCH_AS_TEXT;
        return true;
    }
    if (!strcmp(line, "a")) {
        *answer = asked->length;
        return !asked->reads;
    }
    *answer = strncmp(line, "d:", 2) || !asked->reads ? read_later(line) : read_hex(line + 2, asked->data, asked->room);
    return *answer >= 0 ? !strncmp(line, "d:", 2) && asked->reads : *answer <= TIRNOUCH_LATER(0);
}

/* One that means nothing is told, and is a broken transaction. */
static int understand(const struct device *device, const struct asked *asked, const char *line, size_t length)
{
    int answer;
    if (!memchr(line, 0, length) && read_answer(asked, line, &answer))
        return answer;
    struct sentence shown = { 0 };
    append_quoted(&shown, line, (int)length);
    tell_failure("device %d: its program answered %s to \"%.*s\": a broken transaction", device->number, shown.text, MOST_SHOWN, asked->question);
    return TIRNOUCH_BROKEN;
}

static int ask(struct device *device, char *question, size_t count, struct asked *asked)
{
    size_t length;
    char *line = ask_line(device, question, count, &length);
    asked->question = question;
    return line ? understand(device, asked, line, length) : TIRNOUCH_GONE;
}

/* A packet's answer in tirnouch.h's numbers. */
int ask_program(struct device *device, uint8_t ep, uint8_t *data, int length)
{
    char question[MOST_QUESTION];
    struct asked asked = { .reads = is_in(ep), .data = data, .room = MOST_PACKET, .length = length };
    size_t count = (size_t)snprintf(question, sizeof question, is_in(ep) ? "in %02x %d" : "out %02x ", ep, length);
    if (!is_in(ep))
        count += write_hex(question + count, data, length);
    return ask(device, question, count, &asked);
}

/* A request's. */
int ask_program_for_request(struct device *device, const uint8_t *setup, uint8_t *data, int length)
{
    char question[MOST_QUESTION];
    struct asked asked = { .reads = is_in(setup[0]), .is_request = true, .data = data, .room = length, .length = length };
    size_t count = (size_t)snprintf(question, sizeof question, "control ");
    count += write_hex(question + count, setup, 8);
    question[count++] = ' ';
    if (!asked.reads)
        count += write_hex(question + count, data, length);
    return ask(device, question, count, &asked);
}

void tell_program(struct device *device, enum tirnouch_event event, int number)
{
    static const char *const forms[] = {
        [TIRNOUCH_EVENT_CLAIMED] = "claimed %d\n", [TIRNOUCH_EVENT_RELEASED] = "released %d\n", [TIRNOUCH_EVENT_RESET] = "reset\n",
        [TIRNOUCH_EVENT_CLEARED] = "cleared %02x\n", [TIRNOUCH_EVENT_PLUGGED] = "plugged\n", [TIRNOUCH_EVENT_PULLED] = "pulled\n",
    };
    char line[32];
    int length = snprintf(line, sizeof line, forms[event], number);
    tell_line(device, line, (size_t)length);
}

/* A line that it says of itself: one of its own device, and none that starts another program. */
static bool is_own_line(const struct device *device, const struct line *line)
{
    bool says_nothing = !line->length || *line->at == '#';
    if (says_nothing || (device_of_line(line) == device->number && !begins(line, "program ") && !begins(line, "comes ")))
        return true;
    struct sentence shown = { 0 };
    append_quoted(&shown, line->at, (int)line->length);
    tell_failure("device %d: its program said %s before it said ok: lines of device %d stand here, as \"device %d ..\"", device->number, shown.text,
                 device->number, device->number);
    return false;
}

/* It says its own lines of the device, where it has some, and then that it is ready. */
bool greet(struct device *device, struct growing *text)
{
    char question[32];
    size_t length, count = (size_t)snprintf(question, sizeof question, "hello %d", device->number);
    char *at = ask_line(device, question, count, &length);
    while (at && (length != 2 || memcmp(at, "ok", 2))) {
        struct line line = { .at = at, .length = length };
        if (!is_own_line(device, &line))
            return false;
        grow(text, at, length);
        grow(text, "\n", 1);
        if (text->failed || text->length > MOST_TEXT) {
            tell_failure("device %d: its program said too much before it said ok", device->number);
            return false;
        }
        at = hear_line(device, &length);
    }
    return at;
}

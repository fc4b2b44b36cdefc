/* What went wrong with the bus: on standard error, since there may be no context yet, and kept for tirnouch_error. Which line of a text of
 * devices isn't taken, which word of it, and why. */
#include "bus.h"

#include <stdarg.h>
#include <stdio.h>
#include <string.h>

/* How much of a word or a line is shown. */
#define MOST_SHOWN 60

/* In quotes, as far as it is shown; what isn't a character of ASCII by its number. */
void append_quoted(struct sentence *it, const char *text, int length)
{
    append(it, "\"");
    for (int i = 0; i < length && i < MOST_SHOWN; i++)
        append(it, text[i] >= ' ' && text[i] <= '~' ? "%c" : "\\x%02x", (unsigned char)text[i]);
    append(it, length > MOST_SHOWN ? "..\"" : "\"");
}

void tell_failure(const char *format, ...)
{
    va_list rest;
    va_start(rest, format);
    vsnprintf(process.failure, sizeof process.failure, format, rest);
    va_end(rest);
    fprintf(stderr, "libusb: error %s\n", process.failure);
}

/* Of this word of the line, from 0 on; of the whole line where that is -1. */
void complain_of(const char *name, const struct line *line, int word, const char *why)
{
    int length = (int)line->length;
    const char *shown = word < 0 ? line->at : word_of(line->at, length, (uint32_t)word, &length);
    struct sentence it = { 0 };
    if (word >= 0)
        append(&it, "word %d, ", word + 1);
    append_quoted(&it, shown, length);
    tell_failure("%s, line %lu, %s: %s", name, (unsigned long)line->number, it.text, why);
}

/* The core's own words of the first line of a text that it doesn't take, as it stands in the text that is `shown`, line by line. Of those the
 * first `before` stand elsewhere, which has another name. */
void complain(struct text text, struct text shown, const char *before_name, const char *name, size_t before)
{
    char why[256] = "";
    struct tirnouch_complaint complaint = { 0 };
    int count = tirnouch_complain((const uint8_t *)text.at, length_of(text), (uint8_t *)why, sizeof why - 1, &complaint);
    struct line line = { .number = 0 };
    if (count <= 0) {
        tell_failure("%s: a line isn't one of devices (docs/DEVICES.md), and there is no memory to say which", name);
        return;
    }
    while (next_line(&shown, &line) && line.number < complaint.line) {
    }
    bool is_before = line.number <= before;
    line.number -= is_before ? 0 : before;
    complain_of(is_before ? before_name : name, &line, complaint.has_word ? (int)complaint.word : -1, why);
}

/* What a text of devices expects of a driver: `a:HEX` in a line `script` or `control` in the place of `a`. The core has no word of that: it
 * reads `a`. So it judges the lines first, and here only what stands behind `a:`. */
#include "bus.h"

#include <stdio.h>
#include <stdlib.h>
#include <string.h>

/* The word of its first answer, from 0 on. */
#define SCRIPT 3
#define CONTROL 6
/* How many answers there is room for at first, and how many a line has at most. */
#define FIRST 8
#define MOST_ANSWERS 65536

/* Whether a text may have such a word. */
bool has_expected(struct text text)
{
    return length_of(text) && memmem(text.at, length_of(text), " a:", 3);
}

static bool is_judged(const struct line *line)
{
    return (begins(line, "script ") || begins(line, "control ")) && has_expected((struct text){ line->at, line->at + line->length });
}

/* How often a word stands, as `a:55*3`: the number behind its first star, 1 to 65,536 without leading zeros; 1 where it is none. */
static uint32_t times_of(const char *word, int length)
{
    uint32_t times = 0;
    const char *star = memchr(word, '*', (size_t)length), *end = word + length;
    if (!star || star + 1 == end || star[1] == '0')
        return 1;
    for (const char *at = star + 1; at < end; at++) {
        if (*at < '0' || *at > '9' || (times = 10 * times + (uint32_t)(*at - '0')) > MOST_ANSWERS)
            return 1;
    }
    return times;
}

/* The length of a word without how often it stands. */
static int length_of_one(const char *word, int length)
{
    const char *star = memchr(word, '*', (size_t)length);
    bool repeats = star && star + 1 < word + length && (times_of(word, length) > 1 || !memcmp(star, "*1", 2));
    return repeats ? (int)(star - word) : length;
}

/* Copies a line to where it is to stand, each word `a:..` as `a` with how often it stands; how long it is then. */
static size_t shorten(char *to, const struct line *line)
{
    size_t length = 0;
    const char *at = line->at, *end = at + line->length;
    while (at < end) {
        bool is_word = end - at > 2 && !memcmp(at, " a:", 3);
        size_t taken = is_word ? 2 : 1;
        memmove(to + length, at, taken);
        length += taken;
        const char *word = at + 1;
        at += taken;
        while (is_word && at < end && *at != ' ' && *at != '\r')
            at++;
        const char *times = is_word ? word + length_of_one(word, (int)(at - word)) : at;
        memmove(to + length, times, (size_t)(at - times));
        length += (size_t)(at - times);
    }
    return length;
}

/* Leaves out of a text what the core doesn't read; words and lines keep their places. */
void leave_out_expected(struct growing *text)
{
    struct line line = { .number = 0 };
    struct text left = text_of(text);
    size_t kept = 0;
    if (!has_expected(left))
        return;
    while (next_line(&left, &line)) {
        bool is_ended = line.at + line.length < left.at;
        size_t count = line.length;
        if (is_judged(&line))
            count = shorten(text->at + kept, &line);
        else
            memmove(text->at + kept, line.at, count);
        kept += count;
        if (is_ended)
            text->at[kept++] = '\n';
    }
    text->length = kept;
}

static int digit(char c)
{
    if (c >= '0' && c <= '9')
        return c - '0';
    c |= 0x20;
    return c >= 'a' && c <= 'f' ? c - 'a' + 10 : -1;
}

/* The bytes of `a:HEX` or `a:HEX*`; false where it is none. */
static bool read_bytes(struct judged *judged, struct expected *it, const char *word, int length)
{
    it->goes_on = word[length - 1] == '*';
    it->at = judged->bytes.length;
    it->length = 0;
    length -= it->goes_on;
    for (int i = 2; i < length; i += 2) {
        int high = digit(word[i]), low = i + 1 < length ? digit(word[i + 1]) : -1;
        char byte = (char)(high << 4 | low);
        if (high < 0 || low < 0)
            return false;
        grow(&judged->bytes, &byte, 1);
        it->length++;
    }
    return true;
}

static struct expected *add(struct judged *judged)
{
    size_t count = judged->count;
    bool is_full = count == 0 || (count >= FIRST && !(count & (count - 1)));
    if (is_full) {
        struct expected *all = realloc(judged->all, (count ? 2 * count : FIRST) * sizeof *all);
        if (!all)
            return NULL;
        judged->all = all;
    }
    judged->all[judged->count++] = (struct expected){ .length = -1 };
    return &judged->all[count];
}

/* Where a line stands: in which file, or what its device's program said. */
struct place {
    const struct device *device;
    const char *name;
};

static int refuse(const struct place *place, const struct line *line, uint32_t word, const char *why)
{
    char own[64];
    struct line shown = *line;
    bool is_own = line->number <= place->device->program_lines;
    snprintf(own, sizeof own, "the program of device %d", place->device->number);
    shown.number -= is_own ? 0 : place->device->program_lines;
    complain_of(is_own ? own : place->name, &shown, (int)word, why);
    return LIBUSB_ERROR_OTHER;
}

static int refuse_length(const struct place *place, const struct line *line, uint32_t word, int most)
{
    char why[160];
    if (most == MOST_REQUEST)
        snprintf(why, sizeof why, "the data of a request have at most %d bytes", most);
    else
        snprintf(why, sizeof why, "a packet has at most %d bytes here: a longer transfer comes as several packets, each a word of its own",
                 most);
    return refuse(place, line, word, why);
}

/* An answer, which the core has taken, but for what stands behind `a:`. At an endpoint those that take no packet aren't kept. */
static int read_answer(struct judged *judged, const struct place *place, const struct line *line, uint32_t index, const char *word,
                       int length)
{
    if (judged->most != MOST_REQUEST && *word != 'a')
        return 0;
    struct expected *it = add(judged);
    if (!it)
        return LIBUSB_ERROR_NO_MEM;
    if (length < 2 || memcmp(word, "a:", 2))
        return 0;
    if (!read_bytes(judged, it, word, length))
        return refuse(place, line, index,
                      "what is expected stands behind `a:`: an even number of hexadecimal digits, and `*` where more may follow");
    if (judged->bytes.failed)
        return LIBUSB_ERROR_NO_MEM;
    return it->length > judged->most ? refuse_length(place, line, index, judged->most) : 0;
}

/* An answer as often as it stands: the bytes of all are those of the first. */
static int read_copies(struct judged *judged, const struct place *place, const struct line *line, uint32_t index, const char *word,
                       int length)
{
    uint32_t times = times_of(word, length);
    size_t count = judged->count;
    int r = read_answer(judged, place, line, index, word, length_of_one(word, length));
    while (!r && judged->count > count && --times) {
        struct expected *it = add(judged);
        if (!it)
            return LIBUSB_ERROR_NO_MEM;
        *it = judged->all[count];
    }
    return r;
}

/* Whether a word says that the answer before it stays: nothing more is expected. */
static bool stays(const char *word, int length)
{
    return length == 2 && !memcmp(word, "..", 2);
}

static int read_answers(struct judged *judged, const struct place *place, const struct line *line, uint32_t index)
{
    int length, r = 0;
    const char *word = word_of(line->at, (int)line->length, index, &length), *end = line->at + line->length;
    while (word < end && !r) {
        const char *space = memchr(word, ' ', (size_t)(end - word));
        int size = (int)((space ? space : end) - word);
        if (!stays(word, size))
            r = read_copies(judged, place, line, index, word, size);
        index++;
        word = space ? space + 1 : end;
    }
    return r;
}

/* A word of hexadecimal digits; -1 for `*`. */
static int field_of(const struct line *line, uint32_t index)
{
    int length;
    const char *word = word_of(line->at, (int)line->length, index, &length);
    return *word == '*' ? -1 : (int)strtoul(word, NULL, 16);
}

static struct judged *new_judged(int most)
{
    struct judged *it = calloc(1, sizeof *it);
    if (it)
        it->most = most;
    return it;
}

static int learn_script(struct device *device, const struct place *place, const struct line *line)
{
    unsigned at = place_of((uint8_t)field_of(line, 2));
    if (!is_judged(line))
        return 0;
    device->packets[at] = new_judged(device->pipes[at].packet);
    if (!device->packets[at])
        return LIBUSB_ERROR_NO_MEM;
    device->pipes[at].is_judged = process.bus.is_judged = true;
    return read_answers(device->packets[at], place, line, SCRIPT);
}

/* All of a device's are kept, since the first one that a request fits answers it. */
static int learn_requests(struct device *device, const struct place *place, const struct line *line)
{
    struct judged *it = new_judged(MOST_REQUEST), **at = &device->judged;
    if (!it)
        return LIBUSB_ERROR_NO_MEM;
    while (*at)
        at = &(*at)->next;
    *at = it;
    for (uint32_t i = 0; i < 4; i++)
        it->fields[i] = field_of(line, 2 + i);
    return read_answers(it, place, line, CONTROL);
}

static void free_judged(struct judged *judged)
{
    if (judged) {
        free(judged->all);
        free(judged->bytes.at);
    }
    free(judged);
}

static void forget_requests(struct device *device)
{
    while (device->judged) {
        struct judged *it = device->judged;
        device->judged = it->next;
        free_judged(it);
    }
}

void forget_expected(struct device *device)
{
    for (int i = 0; i < ENDPOINTS; i++) {
        free_judged(device->packets[i]);
        device->packets[i] = NULL;
        device->pipes[i].is_judged = false;
    }
    forget_requests(device);
}

/* A device's lines of a text, which the core has taken; LIBUSB_ERROR_OTHER where one isn't taken here, which is told. */
int learn_expected(struct device *device, struct text text, const char *name)
{
    const struct place place = { .device = device, .name = name };
    struct line line = { .number = 0 };
    bool expects_requests = false;
    int r = 0;
    if (!has_expected(text))
        return 0;
    while (!r && next_line(&text, &line)) {
        if (device_of_line(&line) != device->number)
            continue;
        if (begins(&line, "script "))
            r = learn_script(device, &place, &line);
        else if (begins(&line, "control "))
            r = learn_requests(device, &place, &line);
        expects_requests |= begins(&line, "control ") && is_judged(&line);
    }
    process.bus.is_judged |= expects_requests;
    if (!expects_requests)
        forget_requests(device);
    watch(device);
    return r;
}

/* Texts of devices: whose line is whose. The devices that compute their answers have a core of their own, in which each has the number 0;
 * the others share one, in which they are numbered from 0 on. The core has no word of `program` and `comes back`: those are read here. */
#include "bus.h"

#include <stdio.h>
#include <stdlib.h>
#include <string.h>

/* The words of a line where its answers begin, from 0 on. */
#define SCRIPT_ANSWERS 3
#define CONTROL_ANSWERS 6

static const char numbers[] = "a device's number stands here, 0 to 15";

/* The first line of what is left of a text, of which the rest is left then; false where nothing is. The last line may have no end. */
bool next_line(struct text *left, struct line *line)
{
    if (!length_of(*left))
        return false;
    const char *end = memchr(left->at, '\n', length_of(*left));
    line->at = left->at;
    line->length = (size_t)((end ? end : left->end) - left->at);
    line->number++;
    left->at = end ? end + 1 : left->end;
    return true;
}

/* The word of this index of a line, from 0 on; words stand between single spaces. */
const char *word_of(const char *line, int length, uint32_t index, int *word_length)
{
    const char *end = line + length, *word = line;
    for (; index && word < end; index--) {
        const char *next = memchr(word, ' ', (size_t)(end - word));
        word = next ? next + 1 : end;
    }
    const char *next = memchr(word, ' ', (size_t)(end - word));
    *word_length = (int)((next ? next : end) - word);
    return word;
}

bool begins(const struct line *line, const char *word)
{
    size_t count = strlen(word);
    return line->length > count && !memcmp(line->at, word, count);
}

/* A device's number that a word says, in digits; -1 where it says none. */
static int number_in(const struct line *line, uint32_t index)
{
    int length, number = 0;
    const char *word = word_of(line->at, (int)line->length, index, &length);
    if (length < 1 || length > 2 || (length > 1 && *word == '0'))
        return -1;
    for (int i = 0; i < length; i++) {
        if (word[i] < '0' || word[i] > '9')
            return -1;
        number = number * 10 + word[i] - '0';
    }
    return number < DEVICES ? number : -1;
}

/* The device of which a line says something; -1 for none. */
int device_of_line(const struct line *line)
{
    if (!line->length || *line->at == '#')
        return -1;
    return number_in(line, begins(line, "comes back ") ? 2 : 1);
}

static bool has_first_word(const struct line *line, const char *word)
{
    size_t count = strlen(word);
    return line->length >= count && !memcmp(line->at, word, count) && (line->length == count || line->at[count] == ' ');
}

static bool is_for_here(const struct line *line)
{
    return has_first_word(line, "program") || has_first_word(line, "comes");
}

static bool refuse(const struct desk *desk, const struct line *line, int word, const char *why)
{
    complain_of(desk->name, line, word, why);
    return false;
}

/* What all lines of the core are, too. */
static bool is_even(const struct desk *desk, const struct line *line)
{
    if (line->at[line->length - 1] == '\r')
        return refuse(desk, line, -1, "the line ends in CR LF, and lines end in LF alone");
    if (line->at[line->length - 1] == ' ')
        return refuse(desk, line, -1, "single spaces stand between words, and none at the line's end");
    if (memchr(line->at, 0, line->length))
        return refuse(desk, line, -1, "a byte of the line is zero");
    return true;
}

/* `program D COMMAND`: the device is a program. It is started behind this, where all such lines are read. */
static bool read_program(struct desk *desk, const struct line *line)
{
    int device = number_in(line, 1), length;
    word_of(line->at, (int)line->length, 2, &length);
    if (!is_even(desk, line))
        return false;
    if (!length)
        return refuse(desk, line, -1, "the form is `program D COMMAND`");
    if (device < 0)
        return refuse(desk, line, 1, numbers);
    if (desk->is_own[device] && desk->commands[device].length)
        return refuse(desk, line, -1, "the device is a program already");
    desk->is_own[device] = true;
    desk->commands[device] = *line;
    return true;
}

static bool is_word(const struct line *line, uint32_t index, const char *word)
{
    int length;
    const char *at = word_of(line->at, (int)line->length, index, &length);
    return (size_t)length == strlen(word) && !memcmp(at, word, (size_t)length);
}

/* `comes back D as E`: where device D leaves, it is device E that comes back in its place. */
static bool read_return(struct desk *desk, const struct line *line)
{
    int device = number_in(line, 2), successor = number_in(line, 4), rest;
    word_of(line->at, (int)line->length, 5, &rest);
    if (!is_even(desk, line))
        return false;
    if (!is_word(line, 1, "back") || !is_word(line, 3, "as") || rest)
        return refuse(desk, line, -1, "the form is `comes back D as E`");
    if (device < 0 || successor < 0)
        return refuse(desk, line, device < 0 ? 2 : 4, numbers);
    if (device == successor)
        return refuse(desk, line, 4, "another device stands here: without this line it comes back as itself");
    if (desk->successors[device] >= 0)
        return refuse(desk, line, -1, "another line says that of the device already");
    desk->successors[device] = successor;
    desk->has_returns = true;
    return true;
}

/* Lines that are read here alone, and whether any device has its own core. */
static bool read_own_lines(struct desk *desk)
{
    struct line line = { .number = 0 };
    struct text left = desk->text;
    while (next_line(&left, &line)) {
        if (has_first_word(&line, "program") && !read_program(desk, &line))
            return false;
        if (has_first_word(&line, "comes") && !read_return(desk, &line))
            return false;
    }
    for (int i = 0; i < DEVICES; i++) {
        for (int k = 0; k < ENDPOINTS; k++)
            desk->is_own[i] |= process.packets[i][k].answer != NULL;
        desk->has_own |= desk->is_own[i];
    }
    return true;
}

static bool refuse_number(const struct desk *desk, const struct line *line)
{
    char why[64];
    snprintf(why, sizeof why, "the next device has the number %d", desk->count);
    return refuse(desk, line, 1, why);
}

/* A line of a device that is known by it first, or was. */
static void number_device(struct desk *desk, int device, int *shared)
{
    if (device < desk->count)
        return;
    desk->there[device] = desk->is_own[device] ? -1 : (*shared)++;
    desk->count++;
}

/* The devices in order. Lines of a device stand behind the one that has it; the core says so of those that it shares. */
static bool number_devices(struct desk *desk)
{
    struct line line = { .number = 0 };
    bool is_described[DEVICES] = { false };
    struct text left = desk->text;
    int shared = 0;
    while (next_line(&left, &line)) {
        int device = device_of_line(&line);
        bool describes = begins(&line, "device ");
        if (device < 0)
            continue;
        if (!describes && !has_first_word(&line, "program")) {
            if (device >= desk->count && (desk->is_own[device] || is_for_here(&line)))
                return refuse(desk, &line, -1, "no line before this one has the device");
            continue;
        }
        if (device > desk->count || (describes && is_described[device]))
            return refuse_number(desk, &line);
        is_described[device] |= describes;
        number_device(desk, device, &shared);
    }
    return true;
}

static bool are_successors_there(const struct desk *desk)
{
    struct line line = { .number = 0 };
    struct text left = desk->text;
    while (next_line(&left, &line))
        if (has_first_word(&line, "comes") && number_in(&line, 4) >= desk->count)
            return refuse(desk, &line, 4, "no line of the text has the device");
    return true;
}

/* Reads it as far as that is done here; LIBUSB_ERROR_OTHER where a line isn't taken, which is told. */
int read_desk(struct desk *desk)
{
    for (int i = 0; i < DEVICES; i++) {
        desk->there[i] = i;
        desk->successors[i] = -1;
    }
    if (!read_own_lines(desk))
        return LIBUSB_ERROR_OTHER;
    if (!desk->has_own && !desk->has_returns)
        return 0;
    return number_devices(desk) && are_successors_there(desk) ? 0 : LIBUSB_ERROR_OTHER;
}

void grow(struct growing *text, const char *bytes, size_t length)
{
    if (text->failed || !length)
        return;
    if (text->room - text->length < length) {
        size_t room = 2 * text->room + length;
        char *more = realloc(text->at, room);
        text->failed = !more;
        if (!more)
            return;
        text->at = more;
        text->room = room;
    }
    memcpy(text->at + text->length, bytes, length);
    text->length += length;
}

/* What has grown so far, which is its owner's still. */
struct text text_of(const struct growing *it)
{
    return it->at ? (struct text){ .at = it->at, .end = it->at + it->length } : (struct text){ .at = NULL };
}

/* One that is somebody's own; then there is none. */
void free_text(struct text *text)
{
    free((void *)(uintptr_t)text->at);
    *text = (struct text){ .at = NULL };
}

/* A line with another number of its device. */
static void write_line(struct growing *to, const struct line *line, int there)
{
    int length;
    char number[4];
    const char *word = word_of(line->at, (int)line->length, 1, &length), *behind = word + length;
    grow(to, line->at, (size_t)(word - line->at));
    grow(to, number, (size_t)snprintf(number, sizeof number, "%d", there));
    grow(to, behind, (size_t)(line->at + line->length - behind));
}

/* How many words a line has from this one on. */
static int words_from(const struct line *line, uint32_t index)
{
    int length, count = 1;
    const char *at = word_of(line->at, (int)line->length, index, &length), *end = line->at + line->length;
    if (at == end)
        return 0;
    for (; at < end; at++)
        count += *at == ' ';
    return count;
}

/* A line whose answers begin with this word: the last of them, so many, behind what the line says first; a comment where none is left. */
static void write_rest(struct growing *to, const struct line *line, int there, uint32_t first, int left)
{
    int length, count = words_from(line, first);
    if (!left) {
        grow(to, "#", 1);
        return;
    }
    const char *answers = word_of(line->at, (int)line->length, first, &length), *end = line->at + line->length;
    const char *rest = word_of(line->at, (int)line->length, first + (uint32_t)(left < count ? count - left : 0), &length);
    struct line head = { .at = line->at, .length = (size_t)(answers - line->at) };
    write_line(to, &head, there);
    grow(to, rest, (size_t)(end - rest));
}

/* A script's, as many as are left in the device's core; all before its interface was claimed. */
static void write_script(struct growing *to, const struct line *line, int there, const struct device *device)
{
    int length;
    const char *ep = word_of(line->at, (int)line->length, 2, &length);
    const struct pipe *pipe = &device->pipes[place_of((uint8_t)strtoul(ep, NULL, 16))];
    write_rest(to, line, there, SCRIPT_ANSWERS, pipe->name < 0 ? words_from(line, SCRIPT_ANSWERS) : (int)core_rest(pipe).answers);
}

/* Those of the device's requests of this index that are left in its core, where the last one stays. */
static void write_requests(struct growing *to, const struct line *line, int there, const struct device *device, size_t index)
{
    write_rest(to, line, there, CONTROL_ANSWERS, tirnouch_answers_left(&device->core->slot, device->number_there, index));
}

/* What is counted here, from the device's beginning on, over all its sessions. */
static bool is_learned_once(const struct line *line)
{
    return begins(line, "after ") || begins(line, "leaves ");
}

/* The lines of the devices that have a number `there`, with that, and those of no device; all others are comments, so that the lines keep
 * their places. With `rests` they are for a further session: its answers are what that device has left of them in its core. */
void write_lines(struct growing *to, struct text text, const int there[DEVICES], const struct device *rests)
{
    struct line line = { .number = 0 };
    size_t requests = 0;
    while (next_line(&text, &line)) {
        int device = device_of_line(&line);
        if (is_for_here(&line) || (device >= 0 && there[device] < 0) || (rests && is_learned_once(&line)))
            grow(to, "#", 1);
        else if (device < 0)
            grow(to, line.at, line.length);
        else if (rests && begins(&line, "script "))
            write_script(to, &line, there[device], rests);
        else if (rests && begins(&line, "control "))
            write_requests(to, &line, there[device], rests, requests++);
        else
            write_line(to, &line, there[device]);
        grow(to, "\n", 1);
    }
}

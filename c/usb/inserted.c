/* Bytes of files in a text of devices, in the place of words that name the files: `d:@NAME`, `d:@NAME/SIZE`, and with `a:` too, in lines
 * `script` and `control`; `@NAME` at the end of a line `device` or `descriptor`. Words are replaced within their line, so lines keep their
 * numbers. This is done before anything else reads the text. */
#include "bus.h"

#include <stdio.h>
#include <stdlib.h>
#include <string.h>

/* How many bytes of files a text may have in all, and how many an answer may have. */
#define MOST_OF_FILES 33554432u
#define LONGEST_ANSWER 2048u
/* The bytes of a device descriptor (USB 2.0, 9.6.1). */
#define DEVICE_SIZE 18u

/* The text that is being made, and what its files are looked for by. */
struct inserting {
    struct growing text;
    const char *name;                 /* of the text, in an error's sentence */
    const char *file;                 /* where it stands; "" for the current folder */
    size_t left;                      /* how many bytes of files may come yet */
};

/* Which words of a line may name a file. */
enum naming { NO_WORD, ANSWERS, CONFIGURATION, DESCRIPTOR };

/* A file that a word names. */
struct named {
    const char *front;                /* what stands before the bytes: "d:", "a:" or "" */
    const char *at;                   /* its name */
    size_t length;
    size_t size;                      /* of each answer; 0 for one with all bytes */
};

static enum naming naming_of(const struct line *line)
{
    if (!line->length || !memchr(line->at, '@', line->length) || line->at[line->length - 1] == '\r')
        return NO_WORD;
    if (begins(line, "script ") || begins(line, "control "))
        return ANSWERS;
    if (begins(line, "device "))
        return CONFIGURATION;
    return begins(line, "descriptor ") ? DESCRIPTOR : NO_WORD;
}

/* A number from 1 to 2048 without leading zeros; 0 for none. */
static size_t size_in(const char *digits, size_t length)
{
    size_t size = 0;
    if (!length || length > 4 || *digits == '0')
        return 0;
    for (size_t i = 0; i < length; i++) {
        if (digits[i] < '0' || digits[i] > '9')
            return 0;
        size = 10 * size + (size_t)(digits[i] - '0');
    }
    return size <= LONGEST_ANSWER ? size : 0;
}

/* Of answers a size may stand behind the name's last slash. */
static void cut_size(struct named *named)
{
    const char *slash = memrchr(named->at, '/', named->length);
    if (!slash || slash == named->at)
        return;
    named->size = size_in(slash + 1, (size_t)(named->at + named->length - slash - 1));
    if (named->size)
        named->length = (size_t)(slash - named->at);
}

/* Whether a word names a file. */
static bool read_named(enum naming naming, bool is_last, const char *word, size_t length, struct named *named)
{
    if (naming != ANSWERS) {
        *named = (struct named){ .front = "", .at = word + 1, .length = length - 1 };
        return is_last && length > 1 && *word == '@';
    }
    if (length < 4 || (memcmp(word, "d:@", 3) && memcmp(word, "a:@", 3)))
        return false;
    *named = (struct named){ .front = *word == 'd' ? "d:" : "a:", .at = word + 3, .length = length - 3 };
    cut_size(named);
    return true;
}

/* Where a file is: beside that of the text, unless its name is a whole path. NULL where memory is refused. */
static char *path_of(const struct inserting *it, const struct named *named)
{
    const char *slash = *named->at == '/' ? NULL : strrchr(it->file, '/');
    size_t folder = slash ? (size_t)(slash - it->file) + 1 : 0;
    char *path = malloc(folder + named->length + 1);
    if (!path)
        return NULL;
    memcpy(path, it->file, folder);
    memcpy(path + folder, named->at, named->length);
    path[folder + named->length] = 0;
    return path;
}

static int refuse(const struct inserting *it, const struct line *line, int word, const struct named *named, const char *why)
{
    struct sentence sentence = { 0 };
    append(&sentence, "%.*s %s", (int)(named->length < 120 ? named->length : 120), named->at, why);
    complain_of(it->name, line, word, sentence.text);
    return LIBUSB_ERROR_OTHER;
}

/* All bytes of an open file, unless they are more than may come. */
static int read_bytes(struct inserting *it, FILE *file, struct growing *bytes, const char **why)
{
    char chunk[4096];
    size_t count;
    while (!bytes->failed && (count = fread(chunk, 1, sizeof chunk, file)) > 0) {
        if (count > it->left) {
            *why = "is too long";
            return LIBUSB_ERROR_OTHER;
        }
        it->left -= count;
        grow(bytes, chunk, count);
    }
    *why = "can't be read";
    return bytes->failed ? LIBUSB_ERROR_NO_MEM : ferror(file) ? LIBUSB_ERROR_OTHER : 0;
}

static int read_file(struct inserting *it, const struct line *line, int word, const struct named *named, struct growing *bytes)
{
    const char *why = "can't be read";
    char *path = path_of(it, named);
    if (!path)
        return LIBUSB_ERROR_NO_MEM;
    FILE *file = memchr(named->at, 0, named->length) ? NULL : fopen(path, "rb");
    free(path);
    int r = file ? read_bytes(it, file, bytes, &why) : LIBUSB_ERROR_OTHER;
    if (file)
        fclose(file);
    return r == LIBUSB_ERROR_OTHER ? refuse(it, line, word, named, why) : r;
}

/* Bytes as digits, behind this. */
static void write_bytes(struct growing *to, const char *front, const char *bytes, size_t length)
{
    static const char digits[] = "0123456789abcdef";
    grow(to, front, strlen(front));
    for (size_t i = 0; i < length; i++) {
        const char two[2] = { digits[(unsigned char)bytes[i] >> 4], digits[bytes[i] & 15] };
        grow(to, two, 2);
    }
}

/* A word for each answer; one where there are no bytes. */
static void write_answers(struct growing *to, const struct named *named, const struct growing *bytes)
{
    size_t at = 0;
    do {
        size_t rest = bytes->length - at, size = named->size && named->size < rest ? named->size : rest;
        if (at)
            grow(to, " ", 1);
        write_bytes(to, named->front, bytes->at ? bytes->at + at : "", size);
        at += size;
    } while (at < bytes->length);
}

/* What stands behind a device descriptor, where one is in front. */
static void write_configuration(struct growing *to, const struct growing *bytes)
{
    bool has_device = bytes->length >= DEVICE_SIZE && bytes->at[0] == 18 && bytes->at[1] == 1;
    size_t at = has_device ? DEVICE_SIZE : 0;
    write_bytes(to, "", bytes->at ? bytes->at + at : "", bytes->length - at);
}

/* A word that names a file. */
static int insert_file(struct inserting *it, enum naming naming, const struct line *line, int word, const struct named *named)
{
    struct growing bytes = { 0 };
    int r = read_file(it, line, word, named, &bytes);
    if (!r && naming == CONFIGURATION)
        write_configuration(&it->text, &bytes);
    else if (!r)
        write_answers(&it->text, named, &bytes);
    free(bytes.at);
    return r;
}

static int insert_in_line(struct inserting *it, const struct line *line)
{
    enum naming naming = naming_of(line);
    const char *at = line->at, *end = line->at + line->length;
    for (int word = 0; naming != NO_WORD; word++) {
        struct named named;
        const char *space = memchr(at, ' ', (size_t)(end - at)), *behind = space ? space : end;
        int r = 0;
        if (read_named(naming, !space, at, (size_t)(behind - at), &named))
            r = insert_file(it, naming, line, word, &named);
        else
            grow(&it->text, at, (size_t)(behind - at));
        if (r || !space)
            return r;
        grow(&it->text, " ", 1);
        at = space + 1;
    }
    if (line->length)
        grow(&it->text, line->at, line->length);
    return 0;
}

static int insert_in_lines(struct inserting *it, struct text text)
{
    struct line line = { .number = 0 };
    while (next_line(&text, &line)) {
        int r = insert_in_line(it, &line);
        if (r)
            return r;
        if (line.at + line.length < text.at)
            grow(&it->text, "\n", 1);
    }
    return it->text.failed ? LIBUSB_ERROR_NO_MEM : 0;
}

/* In the text's place the same with the bytes of the files that it names, which is the bus's own; the text itself, where it names none. A file
 * that can't be read, or is too long, is told. */
int insert_files(struct text *text, const char *name, const char *file)
{
    struct inserting it = { .name = name, .file = file, .left = MOST_OF_FILES };
    if (!length_of(*text) || !memchr(text->at, '@', length_of(*text)))
        return 0;
    int r = insert_in_lines(&it, *text);
    if (r) {
        free(it.text.at);
        return r;
    }
    process.bus.whole_text = *text = text_of(&it.text);
    return 0;
}

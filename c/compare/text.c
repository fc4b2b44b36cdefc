/* Reads the devices' text (docs/DEVICES.md). It is taken to be right: what is wrong with one is tried with Tirnouch. */
#include "faked.h"

#include <stdlib.h>
#include <string.h>

struct device faked_devices[DEVICES];

/* Bytes of hexadecimal digits, in memory that is kept; with `room` for at least one. */
static uint8_t *read_hex(const char *digits, int *length)
{
    *length = (int)strlen(digits) / 2;
    uint8_t *bytes = calloc(1, (size_t)*length + 1);
    for (int i = 0; bytes && i < *length; i++) {
        char pair[3] = { digits[2 * i], digits[2 * i + 1], 0 };
        bytes[i] = (uint8_t)strtoul(pair, NULL, 16);
    }
    return bytes;
}

static char *next_word(char **rest)
{
    return strtok_r(NULL, " ", rest);
}

static unsigned long next_number(char **rest, int base)
{
    const char *word = next_word(rest);
    return word ? strtoul(word, NULL, base) : 0;
}

/* An answer so many times, as far as a line has room for it. */
static void add_answers(struct script *script, struct answer answer, size_t times)
{
    size_t room = MOST_ANSWERS - script->count, more = times < room ? times : room;
    script->answers = realloc(script->answers, (script->count + more + 1) * sizeof *script->answers);
    if (!script->answers)
        abort();
    while (more--)
        script->answers[script->count++] = answer;
}

/* How often an answer is given: N of `A*N`, which is cut off. The star of `a:HEX*` is its own. */
static size_t times_of(char *word)
{
    char *star = strchr(word, '*'), *end;
    if (!star || !star[1])
        return 1;
    size_t times = strtoul(star + 1, &end, 10);
    if (*end)
        return 1;
    *star = 0;
    return times;
}

/* What is expected of a packet isn't judged here. */
static void read_script(struct script *script, char **rest)
{
    for (char *word; (word = next_word(rest));) {
        if (!strcmp(word, "..") && script->count) {
            add_answers(script, script->answers[script->count - 1], MOST_ANSWERS);
            continue;
        }
        size_t times = times_of(word);
        struct answer answer = { .kind = word[0] };
        answer.bytes = read_hex(word[0] == 'd' ? word + 2 : "", &answer.length);
        add_answers(script, answer, times);
    }
}

static void read_endpoint(struct device *device, const uint8_t *at, int interface, int setting)
{
    if (device->endpoint_count == MOST_ENDPOINTS)
        return;
    device->endpoints[device->endpoint_count++] = (struct endpoint){
        .address = at[2], .kind = at[3] & 3, .interface = (uint8_t)interface, .setting = (uint8_t)setting,
        .packet = (int)(two_bytes(at + 4) & 0x7ff),
    };
}

static void read_config(struct device *device)
{
    int interface = -1, setting = 0;
    device->configuration = device->value = device->config[5];
    for (int at = device->config[0]; at + 2 <= device->config_length && device->config[at] >= 2; at += device->config[at]) {
        const uint8_t *it = device->config + at;
        if (it[1] == 4 && it[2] < INTERFACES) {
            interface = it[2];
            setting = it[3];
            device->interfaces[interface].is_there = true;
            device->interfaces[interface].settings |= 1u << (setting & 31);
        } else if (it[1] == 5 && interface >= 0) {
            read_endpoint(device, it, interface, setting);
        }
    }
}

static void begin_device(struct device *device, const char *digits)
{
    static const uint8_t usual[18] = { 18, 1, 0, 2, 0, 0, 0, 64, 0x09, 0x12, 1, 0, 0, 1, 0, 0, 0, 1 };
    device->is_there = true;
    device->becomes = device;
    device->speed = "480\n";
    device->leaves_ep = -1;
    memcpy(device->descriptor, usual, sizeof usual);
    device->config = read_hex(digits, &device->config_length);
    device->requests = calloc(MOST_REQUESTS, sizeof *device->requests);
    read_config(device);
}

static void read_ids(struct device *device, char **rest)
{
    for (int at = 8; at < 14; at += 2) {
        const char *word = next_word(rest);
        unsigned long id = word ? strtoul(word, NULL, 16) : 0x0100;
        device->descriptor[at] = (uint8_t)id;
        device->descriptor[at + 1] = (uint8_t)(id >> 8);
    }
}

/* A string descriptor, in UTF-16. */
static void read_string(struct device *device, char **rest)
{
    unsigned index = (unsigned)next_number(rest, 10) & 255u;
    const char *text = *rest ? *rest : "";
    int length = (int)strlen(text);
    uint8_t *bytes = calloc(1, 2 * (size_t)length + 4), *units = NULL;
    if (!strncmp(text, "u:", 2)) {
        units = read_hex(text + 2, &length);
        memcpy(bytes + 2, units, (size_t)length);
        free(units);
    } else {
        for (int i = 0; i < length; i++)
            bytes[2 + 2 * i] = (uint8_t)text[i];
        length *= 2;
    }
    bytes[0] = (uint8_t)(length + 2);
    bytes[1] = 3;
    device->strings[index] = bytes;
    if (index >= 1 && index <= 3)
        device->descriptor[13 + index] = (uint8_t)index;
    *rest = NULL;
}

/* A field of a request, -1 for any. */
static int field_of(const char *word)
{
    return !word || word[0] == '*' ? -1 : (int)strtoul(word, NULL, 16);
}

static void read_control(struct device *device, char **rest)
{
    struct control *it = &device->controls[device->control_count];
    device->control_count += device->control_count < MOST_LINES - 1;
    for (int i = 0; i < 4; i++)
        it->fields[i] = field_of(next_word(rest));
    read_script(&it->script, rest);
}

/* Behind the place stand an endpoint and a number, or the four fields of requests and a number. */
static void read_gate(struct device *device, char **rest)
{
    const char *words[5] = { NULL };
    int count = 0;
    struct gate *it = &device->gates[device->gate_count];
    device->gate_count += device->gate_count < MOST_LINES - 1;
    it->ep = (uint8_t)next_number(rest, 16);
    it->place = next_number(rest, 10);
    while (count < 5 && (words[count] = next_word(rest)))
        count++;
    it->is_of_requests = count == 5;
    for (int i = 0; i < 4; i++)
        it->fields[i] = field_of(words[i]);
    it->other = it->is_of_requests ? 0 : (uint8_t)it->fields[0];
    it->count = count > 1 ? strtoul(words[count - 1], NULL, 10) : 0;
}

/* comes back D as E: E isn't there at first. */
static void read_return(char **rest)
{
    next_word(rest);
    struct device *device = &faked_devices[next_number(rest, 10) % DEVICES];
    next_word(rest);
    device->becomes = &faked_devices[next_number(rest, 10) % DEVICES];
    device->becomes->is_hidden = true;
}

static void read_speed(struct device *device, char **rest)
{
    const char *word = next_word(rest);
    if (word)
        device->speed = !strcmp(word, "low") ? "1.5\n" : !strcmp(word, "full") ? "12\n" : "480\n";
}

/* The words of a line that has less than a function of its own. */
static void read_rest(struct device *device, const char *kind, char **rest)
{
    int length;
    if (!strcmp(kind, "script")) {
        unsigned place = place_of((unsigned)next_number(rest, 16));
        read_script(&device->pipes[place].script, rest);
    } else if (!strcmp(kind, "class")) {
        for (int i = 4; i < 7; i++)
            device->descriptor[i] = (uint8_t)next_number(rest, 16);
    } else if (!strcmp(kind, "descriptor")) {
        uint8_t *bytes = read_hex(next_word(rest), &length);
        memcpy(device->descriptor, bytes, length < 18 ? (size_t)length : 18);
        free(bytes);
    } else if (!strcmp(kind, "leaves")) {
        device->leaves_ep = (int)next_number(rest, 16);
        device->leaves_behind = next_number(rest, 10);
    } else if (!strcmp(kind, "driver")) {
        struct interface *it = &device->interfaces[next_number(rest, 10) % INTERFACES];
        it->has_driver = it->is_bound = true;
    } else if (!strcmp(kind, "hidden")) {
        device->is_hidden = true;
    } else if (!strcmp(kind, "anew")) {
        device->begins_anew = true;
    } else if (!strcmp(kind, "lasts")) {
        device->lasts = true;
    }
}

static void read_line(char *line)
{
    char *rest, *kind = strtok_r(line, " ", &rest);
    if (!kind || kind[0] == '#')
        return;
    if (!strcmp(kind, "comes")) {
        read_return(&rest);
        return;
    }
    struct device *device = &faked_devices[next_number(&rest, 10) % DEVICES];
    if (!strcmp(kind, "device"))
        begin_device(device, next_word(&rest));
    else if (!strcmp(kind, "ids"))
        read_ids(device, &rest);
    else if (!strcmp(kind, "string"))
        read_string(device, &rest);
    else if (!strcmp(kind, "control"))
        read_control(device, &rest);
    else if (!strcmp(kind, "after"))
        read_gate(device, &rest);
    else if (!strcmp(kind, "speed"))
        read_speed(device, &rest);
    else
        read_rest(device, kind, &rest);
}

/* What the devices before had is left to the process's end: a scene has a few of them. */
void read_devices(const char *text)
{
    char *copy = strdup(text), *rest;
    memset(faked_devices, 0, sizeof faked_devices);
    for (int i = 0; i < DEVICES; i++) {
        faked_devices[i].number = i;
        faked_devices[i].port = (unsigned)i + 1;
    }
    for (char *line = strtok_r(copy, "\n", &rest); line; line = strtok_r(NULL, "\n", &rest))
        read_line(line);
    free(copy);
    give_addresses();
}

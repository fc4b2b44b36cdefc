/* What a device answers on its default control endpoint: by the test's function, by its `control` lines, or by its descriptors. */
#include "faked.h"

#include <string.h>

static struct {
    tirnouch_control call;
    void *user;
} functions[DEVICES];

int tirnouch_on_control(int device, tirnouch_control answer, void *user)
{
    if (device < 0 || device >= DEVICES)
        return -5;
    pthread_mutex_lock(&faked_lock);
    functions[device].call = answer;
    functions[device].user = user;
    pthread_mutex_unlock(&faked_lock);
    return 0;
}

static int copy(uint8_t *data, int length, const uint8_t *bytes, int count)
{
    int moved = count < length ? count : length;
    memcpy(data, bytes, (size_t)moved);
    return moved;
}

/* DEVICE_REMOTE_WAKEUP, of the device itself. */
static bool is_feature_of_device(const uint8_t *setup)
{
    return two_bytes(setup + 2) == 1 && !two_bytes(setup + 4);
}

/* The languages of strings, which a device without strings doesn't have (USB 2.0, 9.6.7). */
static int languages(const struct device *device, uint8_t *data, int length)
{
    static const uint8_t english[] = { 4, 3, 9, 4 };
    for (int i = 1; i < 256; i++)
        if (device->strings[i])
            return copy(data, length, english, 4);
    return TIRNOUCH_STALL;
}

static int descriptor(const struct device *device, unsigned kind, unsigned index, uint8_t *data, int length)
{
    if (kind == 1 && !index)
        return copy(data, length, device->descriptor, 18);
    if (kind == 2 && !index)
        return copy(data, length, device->config, device->config_length);
    if (kind == 3 && !index)
        return languages(device, data, length);
    if (kind == 3 && index < 256 && device->strings[index])
        return copy(data, length, device->strings[index], device->strings[index][0]);
    return TIRNOUCH_STALL;
}

static int word(uint8_t *data, int length, unsigned value)
{
    const uint8_t bytes[2] = { (uint8_t)value, (uint8_t)(value >> 8) };
    return copy(data, length, bytes, 2);
}

/* Which bits of a configuration's bmAttributes say that a device has power of its own, and that it may wake its host (USB 2.0, 9.6.3). */
static bool has_power(const struct device *device) { return device->config[7] & 0x40; }
static bool may_wake(const struct device *device) { return device->config[7] & 0x20; }

/* Of an endpoint: whether it is halted, or the only feature that it has (USB 2.0, 9.4.5, 9.4.9). The default one is never halted. */
static int of_endpoint(const struct device *device, const uint8_t *setup, uint8_t *data, int length)
{
    unsigned ep = two_bytes(setup + 4);
    bool is_default = !(ep & 0x7fu), asks = setup[0] & 0x80;
    if (two_bytes(setup + 2) || ep & ~0x8fu || (!is_default && !find_endpoint(device, ep)))
        return TIRNOUCH_STALL;
    if (asks)
        return word(data, length, !is_default && device->pipes[place_of(ep)].is_halted);
    return is_default ? TIRNOUCH_STALL : 0;
}

/* The standard requests of a device, of an interface and of an endpoint (USB 2.0, 9.4). */
static int standard(const struct device *device, const uint8_t *setup, uint8_t *data, int length)
{
    uint8_t configuration = (uint8_t)device->configuration;
    switch (setup[0] << 8 | setup[1]) {
    case 0x8006: return descriptor(device, setup[3], setup[2], data, length);
    case 0x8008: return copy(data, length, &configuration, 1);
    case 0x8000: return word(data, length, (unsigned)has_power(device) | (unsigned)device->is_waking << 1);
    case 0x8100: return word(data, length, 0);
    case 0x810a: return setup[4] < INTERFACES ? copy(data, length, &device->interfaces[setup[4]].setting, 1) : TIRNOUCH_STALL;
    case 0x8200:
    case 0x0201:
    case 0x0203: return of_endpoint(device, setup, data, length);
    case 0x0001:
    case 0x0003: return is_feature_of_device(setup) && may_wake(device) ? 0 : TIRNOUCH_STALL;
    case 0x0009:
    case 0x010b: return 0;
    default: return TIRNOUCH_STALL;
    }
}

/* What a request changes that the device took, whoever answered it. This bus has no data toggles, so that CLEAR_FEATURE has none to
 * begin anew. */
static void carry_out(struct device *device, const uint8_t *setup)
{
    unsigned ep = two_bytes(setup + 4);
    bool is_set = setup[1] == 3;
    if (setup[1] != 1 && !is_set)
        return;
    if (setup[0] == 0 && is_feature_of_device(setup))
        device->is_waking = is_set;
    if (setup[0] == 2 && !two_bytes(setup + 2) && !(ep & ~0x8fu) && ep & 15u && find_endpoint(device, ep))
        device->pipes[place_of(ep)].is_halted = is_set;
}

/* Whether a request has the fields of a line, of which -1 fits any. */
bool has_fields(const uint8_t *setup, const int fields[4])
{
    const int its[4] = { setup[0], setup[1], (int)two_bytes(setup + 2), (int)two_bytes(setup + 4) };
    bool fits = true;
    for (int i = 0; i < 4; i++)
        fits &= fields[i] < 0 || fields[i] == its[i];
    return fits;
}

static struct control *find_line(struct device *device, const uint8_t *setup)
{
    for (int i = 0; i < device->control_count; i++)
        if (has_fields(setup, device->controls[i].fields))
            return &device->controls[i];
    return NULL;
}

/* Its answers in order, the last one again and again; those that say `not ready` are passed over, but for the last. */
static int by_line(struct control *line, uint8_t *data, int length)
{
    for (;;) {
        struct script *it = &line->script;
        const struct answer *answer = &it->answers[it->next];
        bool is_last = it->next + 1 == it->count;
        it->next += !is_last;
        switch (answer->kind) {
        case 'd': return copy(data, length, answer->bytes, answer->length);
        case 'a': return length;
        case 's': return TIRNOUCH_STALL;
        case 'b': return BROKEN;
        default: break;
        }
        if (is_last)
            return TIRNOUCH_NOT_READY;
    }
}

static int answer_of(struct device *device, const uint8_t *setup, uint8_t *data, int length)
{
    int answer = TIRNOUCH_AS_TEXT;
    if (functions[device->number].call)
        answer = functions[device->number].call(functions[device->number].user, setup, data, length);
    if (answer != TIRNOUCH_AS_TEXT)
        return answer < length ? answer : length;
    struct control *line = find_line(device, setup);
    return line && line->script.count ? by_line(line, data, length) : standard(device, setup, data, length);
}

int answer_request(struct device *device, const uint8_t *setup, uint8_t *data, int length)
{
    int answer = answer_of(device, setup, data, length);
    if (answer >= 0)
        carry_out(device, setup);
    return answer;
}

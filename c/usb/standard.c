/* Standard requests that tell and change what is kept here, where a device's text says nothing of them (USB 2.0, 9.4.1, 9.4.4, 9.4.5, 9.4.9):
 * the halt of an endpoint, the setting of an interface, and whether a device may wake its host. */
#include "bus.h"

#define ENDPOINT_HALT 0
#define DEVICE_REMOTE_WAKEUP 1
/* bmAttributes of a configuration, and the same bit of a device's status (USB 2.0, 9.6.3, 9.4.5). */
#define CAN_WAKE 0x20
#define IS_WAKING 2

static bool is_to(const uint8_t *setup, uint8_t recipient)
{
    return (setup[0] & ~LIBUSB_ENDPOINT_DIR_MASK) == recipient;
}

static bool is_feature(const uint8_t *setup, unsigned feature)
{
    bool changes = setup[1] == LIBUSB_REQUEST_SET_FEATURE || setup[1] == LIBUSB_REQUEST_CLEAR_FEATURE;
    return changes && !(setup[0] & LIBUSB_ENDPOINT_IN) && two_bytes(setup + 2) == feature;
}

static bool is_status(const uint8_t *setup)
{
    return setup[1] == LIBUSB_REQUEST_GET_STATUS && setup[0] & LIBUSB_ENDPOINT_IN && !two_bytes(setup + 2);
}

/* GET_INTERFACE of one that isn't in setting 0: of the others the core tells that. */
static bool is_of_setting(const struct device *device, const uint8_t *setup)
{
    unsigned interface = two_bytes(setup + 4);
    bool asks = setup[0] & LIBUSB_ENDPOINT_IN && setup[1] == LIBUSB_REQUEST_GET_INTERFACE && !two_bytes(setup + 2);
    return asks && interface < INTERFACES && device->interfaces[interface].setting;
}

/* Whether a request is one of these. */
bool is_standard(struct device *device, const uint8_t *setup)
{
    if (is_to(setup, LIBUSB_RECIPIENT_INTERFACE))
        return is_of_setting(device, setup);
    if (is_to(setup, LIBUSB_RECIPIENT_ENDPOINT))
        return is_status(setup) || is_feature(setup, ENDPOINT_HALT);
    if (!is_to(setup, LIBUSB_RECIPIENT_DEVICE) || two_bytes(setup + 4))
        return false;
    return is_feature(setup, DEVICE_REMOTE_WAKEUP) ? device->config[7] & CAN_WAKE : is_status(setup) && device->is_awaking;
}

static int answer_word(uint8_t *data, unsigned word, unsigned length)
{
    const uint8_t bytes[2] = { (uint8_t)word, 0 };
    for (unsigned i = 0; i < 2 && i < length; i++)
        data[i] = bytes[i];
    return length < 2 ? (int)length : 2;
}

static bool is_halted(const struct pipe *pipe)
{
    bool is_held = pipe->name >= 0;
    return pipe->is_stopped || (is_held && core_rest(pipe).is_halted);
}

/* What is in flight there stalls, as what comes behind it. */
static void halt(struct pipe *pipe)
{
    struct transfer *next;
    pipe->is_stopped = true;
    for (struct libusb_context *context = process.contexts; context; context = context->next) {
        for (struct transfer *it = context->flying.first; it; it = next) {
            next = it->next;
            if (it->pipe != pipe || it->stage != IN_CORE || it->ask)
                continue;
            it->is_stalled = true;
            cancel(it, ASKED_TO_CANCEL);
        }
        stir(context);
    }
}

/* The halt ends, at the device and in the core, where nothing is in flight. */
static void end_halt(struct pipe *pipe)
{
    int name = pipe->name;
    pipe->is_stopped = false;
    if (name >= 0 && !pipe->in_core && !core_call(pipe->core, TIRNOUCH_CLEAR_HALT, name, pipe->ep, 0))
        pipe->is_halted = false;
    tell_device(pipe->device, TIRNOUCH_EVENT_CLEARED, pipe->ep);
}

static int answer_of_endpoint(struct device *device, const uint8_t *setup, uint8_t *data)
{
    unsigned length = two_bytes(setup + 6), index = two_bytes(setup + 4);
    struct pipe *pipe = &device->pipes[place_of((uint8_t)index)];
    bool is_default = !(index & 0x7f);
    if (index & 0xff70 || (!is_default && (!pipe->kind || pipe->is_unset)))
        return TIRNOUCH_STALL;
    if (is_status(setup))
        return answer_word(data, !is_default && is_halted(pipe), length);
    return is_default ? TIRNOUCH_STALL : 0;
}

/* How many bytes moved, or that the request stalls. */
int answer_standard(struct device *device, const uint8_t *setup, uint8_t *data)
{
    bool is_powered = device->config[7] & 0x40;
    unsigned length = two_bytes(setup + 6);
    if (is_to(setup, LIBUSB_RECIPIENT_ENDPOINT))
        return answer_of_endpoint(device, setup, data);
    if (is_to(setup, LIBUSB_RECIPIENT_INTERFACE))
        return answer_word(data, device->interfaces[two_bytes(setup + 4)].setting, length < 1 ? length : 1);
    return is_status(setup) ? answer_word(data, (unsigned)is_powered | IS_WAKING, two_bytes(setup + 6)) : 0;
}

/* What an accepted request changes, whoever answered it: the device's text, the program's function, or what stands above. */
void carry_out_request(struct device *device, const uint8_t *setup)
{
    bool is_set = setup[1] == LIBUSB_REQUEST_SET_FEATURE;
    unsigned index = two_bytes(setup + 4);
    if (is_to(setup, LIBUSB_RECIPIENT_DEVICE) && is_feature(setup, DEVICE_REMOTE_WAKEUP))
        device->is_awaking = is_set;
    if (!is_to(setup, LIBUSB_RECIPIENT_ENDPOINT) || !is_feature(setup, ENDPOINT_HALT) || !(index & 15))
        return;
    struct pipe *pipe = &device->pipes[place_of((uint8_t)index)];
    if (pipe->kind && is_set)
        halt(pipe);
    else if (pipe->kind)
        end_halt(pipe);
}

/* What a device says of itself: its descriptors, what else its lines say, its interfaces and its endpoints. */
#include "core.h"

/* Two interfaces, 0 with a bulk endpoint for IN, 81, of 64 bytes, and 5 with an interrupt one, 83, of 8 bytes, which an alternate setting
 * has with 16; and lines of each kind. */
static const char other[] =
    "device 0 0902390002010080320904000001ff000000070581024000000904050001030000000705830308000a0904050101030000000705830310000a\n"
    "script 0 81 d:01\n"
    "hidden 0\n"
    "lasts 0\n"
    "leaves 0 81 1\n"
    "driver 0 5\n"
    "control 0 c0 01 0000 0000 d:01 d:02 d:03\n";

static void tell_device(const char *call, int32_t answer)
{
    const struct tirnouch_device *it = &last.device;
    printf("%s: %" PRId32 ", speed %u hidden %u anew %u lasts %u\n", call, answer, it->speed, it->is_hidden, it->begins_anew, it->lasts);
}

static void tell_gate(const char *call, int32_t answer)
{
    const struct tirnouch_gate *it = &last.gate;
    printf("%s: %" PRId32 ", endpoint %02x from %" PRIu32 " awaits %u other %02x any %u setup %02x %02x %04x %04x count %" PRIu32 "\n", call,
           answer, it->endpoint, it->place, it->awaited, it->other, it->any, it->request_type, it->request, it->value, it->index, it->count);
}

static void tell_departure(const char *call, int32_t answer)
{
    printf("%s: %" PRId32 ", endpoint %02x answers %" PRIu32 "\n", call, answer, last.departure.endpoint, last.departure.answers);
}

static void tell_endpoint(const char *call, int32_t answer)
{
    const struct tirnouch_endpoint *it = &last.endpoint;
    printf("%s: %" PRId32 ", address %02x interface %u type %u packet %u\n", call, answer, it->address, it->interface, it->transfer_type,
           it->packet_size);
}

void descriptions(void)
{
    uint8_t data[4];
    bytes("describe the configuration", tirnouch_describe(&slot, 0, 2, 0, data, sizeof data), data, 4);
    say("describe string 9", tirnouch_describe(&slot, 0, 3, 9, data, sizeof data));
    tell_device("device", tirnouch_device(&slot, 0, &last.device));
    tell_device("device 1", tirnouch_device(&slot, 1, &last.device));
    say("driver 0", tirnouch_driver(&slot, 0, 0));
    say("driver 1", tirnouch_driver(&slot, 0, 1));
    tell_gate("gate 0", tirnouch_gate(&slot, 0, 0, &last.gate));
    tell_gate("gate 1", tirnouch_gate(&slot, 0, 1, &last.gate));
    tell_gate("gate 2", tirnouch_gate(&slot, 0, 2, &last.gate));
    tell_departure("departure", tirnouch_departure(&slot, 0, 0, &last.departure));
    for (size_t i = 0; i < 3; i++)
        say("answers left", tirnouch_answers_left(&slot, 0, i));
    say("interface 0", tirnouch_interface(&slot, 0, 0));
    say("interface 1", tirnouch_interface(&slot, 0, 1));
    tell_endpoint("endpoint 0", tirnouch_endpoint(&slot, 0, 0, &last.endpoint));
    tell_endpoint("endpoint 1", tirnouch_endpoint(&slot, 0, 1, &last.endpoint));
    tell_endpoint("endpoint 2", tirnouch_endpoint(&slot, 0, 2, &last.endpoint));
    tell_endpoint("endpoint of device 1", tirnouch_endpoint(&slot, 1, 0, &last.endpoint));
    tell_endpoint("endpoint of device 4", tirnouch_endpoint(&slot, 4, 0, &last.endpoint));
}

/* Of three answers to a request one more is given each time, and the last one stays. */
static void answers(void)
{
    uint8_t data[1];
    for (int i = 0; i < 4; i++) {
        say("answers left", tirnouch_answers_left(&slot, 0, 0));
        tirnouch_request(&slot, 0, (const uint8_t *)"\xc0\x01\x00\x00\x00\x00\x01\x00", data, sizeof data, &last.response);
    }
    say("answers left of device 9", tirnouch_answers_left(&slot, 9, 0));
}

/* The endpoint of a second setting isn't there. */
void other_descriptions(void)
{
    say("create another device", create(other));
    tell_device("device", tirnouch_device(&slot, 0, &last.device));
    say("driver 0", tirnouch_driver(&slot, 0, 0));
    answers();
    tell_departure("departure 0", tirnouch_departure(&slot, 0, 0, &last.departure));
    tell_departure("departure 1", tirnouch_departure(&slot, 0, 1, &last.departure));
    say("interface 0", tirnouch_interface(&slot, 0, 0));
    say("interface 1", tirnouch_interface(&slot, 0, 1));
    say("interface 2", tirnouch_interface(&slot, 0, 2));
    say("interface of device 4", tirnouch_interface(&slot, 4, 0));
    tell_endpoint("endpoint 0", tirnouch_endpoint(&slot, 0, 0, &last.endpoint));
    tell_endpoint("endpoint 1", tirnouch_endpoint(&slot, 0, 1, &last.endpoint));
    tell_endpoint("endpoint 2", tirnouch_endpoint(&slot, 0, 2, &last.endpoint));
    say("destroy", tirnouch_destroy(&slot));
    say("endpoint of an empty slot", tirnouch_endpoint(&slot, 0, 0, &last.endpoint));
}

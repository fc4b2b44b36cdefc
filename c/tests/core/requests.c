/* Control requests, and what a device says of itself. */
#include "core.h"

/* A device without strings, whose class requests aren't ready. */
static const char plain[] =
    "device 0 0902190001010080320904000001ff00000007058102080000\n"
    "control 0 a1 01 * 0000 n\n";

static void request(const char *what, const char *setup)
{
    uint8_t data[18];
    int32_t answer = tirnouch_request(&slot, 0, (const uint8_t *)setup, data, sizeof data, &last.response);
    tell_response(what, answer);
    if (last.response.is_ready && last.response.actual_length && (setup[0] & 0x80))
        bytes("  data", answer, data, last.response.actual_length);
}

static void needs(const char *what, const char *setup)
{
    tell_needed(what, tirnouch_needs((const uint8_t *)setup, &last.needed));
}

void requests(void)
{
    needs("class request to interface 3", "\xa1\x01\x00\x00\x03\x00\x00\x00");
    needs("class request to endpoint 81", "\x22\x01\x00\x00\x81\x00\x00\x00");
    needs("class request to endpoint 80", "\x22\x01\x00\x00\x80\x00\x00\x00");
    needs("vendor request to interface 3", "\xc1\x01\x00\x00\x03\x00\x00\x00");
    request("vendor read", "\xc0\x01\x07\x00\x00\x00\x04\x00");
    request("vendor read", "\xc0\x01\x08\x00\x00\x00\x04\x00");
    request("vendor read, 1 byte", "\xc0\x01\x08\x00\x00\x00\x01\x00");
    request("vendor write", "\x40\x02\x05\x00\x00\x00\x03\x00");
    request("vendor write", "\x40\x02\x05\x00\x00\x00\x03\x00");
    request("device descriptor", "\x80\x06\x00\x01\x00\x00\x12\x00");
    request("string 1", "\x80\x06\x01\x03\x09\x04\xff\x00");
    request("string 3", "\x80\x06\x03\x03\x09\x04\xff\x00");
    request("set configuration 1", "\x00\x09\x01\x00\x00\x00\x00\x00");
    request("set configuration 2", "\x00\x09\x02\x00\x00\x00\x00\x00");
}

/* Of a device without strings; and which requests a line of the text answered. */
void plain_requests(void)
{
    uint8_t data[4];
    say("create a plain device", create(plain));
    request("string 0", "\x80\x06\x00\x03\x00\x00\xff\x00");
    say("describe string 0", tirnouch_describe(&slot, 0, 3, 0, data, sizeof data));
    request("class read", "\xa1\x01\x00\x01\x00\x00\x04\x00");
    request("status of endpoint 81", "\x82\x00\x00\x00\x81\x00\x02\x00");
    request("status of the device", "\x80\x00\x00\x00\x00\x00\x02\x00");
    say("destroy", tirnouch_destroy(&slot));
}

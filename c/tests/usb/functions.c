/* How long a device's functions count: the end of a bus of tirnouch_begin takes back what was set while it was there, and nothing else. The
 * expected lines are written from tirnouch.h. */
#include "scene.h"

#include <stdio.h>
#include <stdlib.h>
#include <string.h>

static int give(void *user, uint8_t ep, uint8_t *data, int length)
{
    (void)ep, (void)length;
    data[0] = *(unsigned char *)user;
    return 1;
}

static int give_to_request(void *user, const uint8_t setup[8], uint8_t *data, int length)
{
    (void)length;
    data[0] = *(unsigned char *)user;
    return setup[0] == 0xc0 ? 1 : TIRNOUCH_AS_TEXT;
}

static void hear(void *user, enum tirnouch_event event, int of)
{
    (void)of;
    printf("  %02x is told of event %d\n", *(unsigned char *)user, (int)event);
}

static void set_all(unsigned char *user)
{
    answer("set", tirnouch_on_packet(0, 0x81, user ? give : NULL, user));
    answer("set", tirnouch_on_control(0, user ? give_to_request : NULL, user));
    answer("set", tirnouch_on_event(0, user ? hear : NULL, user));
}

static void begin_bus(const char *name)
{
    static const char text[] = STANDARD "script 0 81 d:11\ncontrol 0 c0 01 * * d:12\n";
    struct tirnouch_options options = { .size = sizeof options, .devices = text, .devices_length = sizeof text - 1, .is_virtual = 1 };
    puts(name);
    answer("begin", tirnouch_begin(&options));
    answer("init", libusb_init(&context));
}

/* The text answers a read and any request; a function answers what comes behind the script, and requests in its place. */
static void use(libusb_context *of)
{
    unsigned char data[8] = { 0 };
    int moved = 0;
    handle = open_standard(of);
    answer("claim", libusb_claim_interface(handle, 0));
    for (int i = 0; i < 2; i++) {
        int result = libusb_bulk_transfer(handle, 0x81, data, 8, &moved, 50);
        answer("read", result);
        bytes("  of", data, moved);
    }
    answer("request", libusb_control_transfer(handle, 0xc0, 1, 0, 0, data, 1, 50));
    bytes("  of", data, 1);
    libusb_close(handle);
    handle = NULL;
}

static void finish(unsigned char *gone)
{
    libusb_exit(context);
    answer("end", tirnouch_end());
    free(gone);
}

static unsigned char *new_user(unsigned char number)
{
    unsigned char *user = malloc(1);
    if (!user)
        abort();
    *user = number;
    return user;
}

int main(void)
{
    unsigned char kept = 0x55, *own = new_user(0x42);
    setvbuf(stdout, NULL, _IOLBF, 0);
    begin_bus("set while the bus is there");
    set_all(own);
    use(context);
    finish(own);
    begin_bus("the next bus has none of them");
    use(context);
    finish(NULL);
    puts("set before a bus");
    set_all(&kept);
    begin_bus("they count for this one");
    use(context);
    finish(NULL);
    begin_bus("and for the next, where others take their place");
    own = new_user(0x43);
    set_all(own);
    use(context);
    finish(own);
    begin_bus("which are gone then, too");
    use(context);
    finish(NULL);
    set_all(&kept);
    begin_text("the environment's bus takes nothing back", STANDARD);
    set_all(&kept);
    use(context);
    libusb_exit(context);
    begin_text("so the next has them", STANDARD);
    use(context);
    libusb_exit(context);
    return 0;
}

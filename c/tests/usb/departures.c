/* A device leaves as it is asked for a request, while requests at others are in flight. The expected lines are written from tirnouch.h and
 * docs/DEVICES.md. */
#include "scene.h"

#include <stdio.h>

static int unready(void *user, uint8_t ep, uint8_t *data, int length)
{
    (void)user;
    (void)ep;
    (void)data;
    (void)length;
    return TIRNOUCH_NOT_READY;
}

/* How each request was called back: how often, and with which status. */
static struct {
    int count, status;
} ended[3];

static void LIBUSB_CALL count_end(struct libusb_transfer *transfer)
{
    long id = (long)(intptr_t)transfer->user_data;
    ended[id].count++;
    ended[id].status = (int)transfer->status;
}

static struct libusb_transfer *request_of(long id, libusb_device_handle *to, unsigned char setup_and_data[16])
{
    struct libusb_transfer *transfer = libusb_alloc_transfer(0);
    libusb_fill_control_setup(setup_and_data, 0xc0, 1, 0, 0, 8);
    libusb_fill_control_transfer(transfer, to, setup_and_data, count_end, (void *)(intptr_t)id, 0);
    answer("submit", libusb_submit_transfer(transfer));
    return transfer;
}

static int leaves_at_request(void *user, const uint8_t setup[8], uint8_t *data, int length)
{
    (void)user;
    (void)data;
    (void)length;
    return setup[0] == 0xc0 ? TIRNOUCH_GONE : TIRNOUCH_AS_TEXT;
}

/* A device leaves as it is asked, and comes back as one that was pulled out with a request in flight: that one ends too, amid the requests
 * of all devices. The last one is answered. */
static void takes_along(void)
{
    static const char text[] = "device 0 0902190001010080320904000001ff00000007058102080000\nids 0 1209 0060\n"
                               "device 1 0902190001010080320904000001ff00000007058102080000\nids 1 1209 0061\n"
                               "device 2 0902190001010080320904000001ff00000007058102080000\nids 2 1209 0062\ncontrol 2 c0 01 * * d:c2\n"
                               "comes back 0 as 1\n";
    unsigned char rooms[3][16];
    libusb_device_handle *of[3];
    struct libusb_transfer *requests[3];
    tirnouch_on_control(0, leaves_at_request, NULL);
    tirnouch_on_packet(0, 0x81, unready, NULL);
    tirnouch_on_packet(1, 0x81, unready, NULL);
    begin_text("a device leaves at a request, and the one that comes in its place has one in flight", text);
    answer("show", tirnouch_show(1));
    for (int i = 0; i < 3; i++) {
        of[i] = libusb_open_device_with_vid_pid(context, 0x1209, (uint16_t)(0x60 + i));
        requests[i] = request_of(i, of[i], rooms[i]);
    }
    answer("pull", tirnouch_pull(1));
    work();
    for (int i = 0; i < 3; i++)
        printf("  request at device %d: called back %d, %s\n", i, ended[i].count, status_name(ended[i].status));
    for (int i = 0; i < 3; i++) {
        libusb_close(of[i]);
        libusb_free_transfer(requests[i]);
    }
    end();
    tirnouch_on_control(0, NULL, NULL);
    tirnouch_on_packet(0, 0x81, NULL, NULL);
    tirnouch_on_packet(1, 0x81, NULL, NULL);
}

int main(void)
{
    takes_along();
    return 0;
}

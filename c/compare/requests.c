/* Requests to the kernel: they are submitted, discarded, reaped, and end with a status (proc_do_submiturb, proc_unlinkurb,
 * proc_reapurbnonblock). */
#include "faked.h"

#include <errno.h>
#include <stdlib.h>

static void append(struct request **list, struct request *request)
{
    while (*list)
        list = &(*list)->next;
    request->next = NULL;
    *list = request;
}

static void take_out(struct request **list, const struct request *request)
{
    while (*list && *list != request)
        list = &(*list)->next;
    if (*list)
        *list = request->next;
}

/* The interface to which a control request goes is needed too (check_ctrlrecip). */
static int check_recipient(struct file *file, const uint8_t *setup)
{
    unsigned index = setup[4];
    int interface;
    if ((setup[0] & 0x60) == 0x40)
        return 0;
    if ((setup[0] & 31) == 1)
        return need_interface(file, index);
    if ((setup[0] & 31) != 2 || !(index & 0x7f))
        return 0;
    interface = find_interface(file->device, index);
    if (interface < 0)
        interface = find_interface(file->device, index ^ 0x80);
    return interface < 0 ? interface : need_interface(file, (unsigned)interface);
}

static int check_control(struct file *file, const struct usbdevfs_urb *urb)
{
    const uint8_t *setup = urb->buffer;
    if (urb->buffer_length < SETUP || urb->buffer_length < SETUP + (int)two_bytes(setup + 6))
        return -EINVAL;
    return check_recipient(file, setup);
}

/* Bulk is taken at an interrupt endpoint, as one interrupt request; any other kind but the endpoint's own isn't. */
static int check_kind(const struct file *file, const struct usbdevfs_urb *urb)
{
    const struct endpoint *endpoint = find_endpoint(file->device, urb->endpoint);
    bool is_bulk = urb->type == USBDEVFS_URB_TYPE_BULK, is_interrupt = urb->type == USBDEVFS_URB_TYPE_INTERRUPT;
    if (!endpoint)
        return -ENOENT;
    if (endpoint->kind == 3)
        return is_bulk || is_interrupt ? 0 : -EINVAL;
    return endpoint->kind == 2 && is_bulk ? 0 : -EINVAL;
}

static int check(struct file *file, const struct usbdevfs_urb *urb)
{
    if (urb->buffer_length < 0)
        return -EINVAL;
    if (urb->type == USBDEVFS_URB_TYPE_CONTROL)
        return check_control(file, urb);
    int interface = find_interface(file->device, urb->endpoint);
    if (interface < 0)
        return interface;
    int answer = need_interface(file, (unsigned)interface);
    return answer ? answer : check_kind(file, urb);
}

int submit_request(struct file *file, struct usbdevfs_urb *urb)
{
    if (file->is_gone)
        return -ENODEV;
    int answer = check(file, urb);
    if (answer)
        return answer;
    struct request *request = calloc(1, sizeof *request);
    if (!request)
        return -ENOMEM;
    request->file = file;
    request->urb = urb;
    request->ep = urb->type == USBDEVFS_URB_TYPE_CONTROL ? 0 : urb->endpoint;
    request->length = request->ep ? urb->buffer_length : (int)two_bytes((const uint8_t *)urb->buffer + 6);
    append(&file->device->pending, request);
    if (is_polled())
        run_bus();
    return 0;
}

void end_request(struct request *request, int status)
{
    take_out(&request->file->device->pending, request);
    request->status = status;
    append(&request->file->done, request);
    show_ready(request->file);
}

int reap_request(struct file *file, struct usbdevfs_urb **urb)
{
    struct request *request = file->done;
    if (!request)
        return file->is_gone ? -ENODEV : -EAGAIN;
    file->done = request->next;
    request->urb->status = request->status;
    request->urb->actual_length = request->moved;
    *urb = request->urb;
    free(request);
    show_ready(file);
    return 0;
}

/* One that waits ends with ENOENT and what moved; one that ended isn't found. */
int discard_request(struct file *file, const struct usbdevfs_urb *urb)
{
    for (struct request *it = file->device->pending; it; it = it->next)
        if (it->file == file && it->urb == urb) {
            file->device->pipes[place_of(it->ep)].withdrawn += !it->moved;
            end_request(it, -ENOENT);
            return 0;
        }
    return -EINVAL;
}

/* Those of a file, or of all for NULL, at an endpoint: the last first (usb_hcd_flush_endpoint). */
static void end_at(struct device *device, const struct file *file, uint8_t ep, int status)
{
    for (;;) {
        struct request *last = NULL;
        for (struct request *it = device->pending; it; it = it->next)
            if (it->ep == ep && (!file || it->file == file))
                last = it;
        if (!last)
            return;
        end_request(last, status);
    }
}

/* Those at an interface, or at all for -1, one endpoint after the other (usb_disable_interface). */
void end_requests(struct device *device, const struct file *file, int interface, int status)
{
    for (int i = 0; i < device->endpoint_count; i++)
        if (interface < 0 || device->endpoints[i].interface == interface)
            end_at(device, file, device->endpoints[i].address, status);
    if (interface < 0)
        end_at(device, file, 0, status);
}

void forget_requests(struct file *file)
{
    end_requests(file->device, file, -1, -ENOENT);
    while (file->done) {
        struct request *request = file->done;
        file->done = request->next;
        free(request);
    }
}

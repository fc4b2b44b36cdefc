/* Changes one write of a program, as a bug of its own would: preloaded, it stands before libusb. TIRNOUCH_CHANGED says which and how:
 *
 *     flip N    a bit of the first byte of the N-th write is flipped
 *     lose N    the N-th write isn't made, and the program is told that it was
 *     double N  the N-th write is made twice
 *
 * Writes are the bulk and interrupt transfers that have bytes for the device, counted from 1 in the order of their calls; with `requests`
 * behind N, the requests that have some. Where TIRNOUCH_CHANGED_DONE names a file, it is made as the write is changed. */
#include <libusb.h>

#include <dlfcn.h>
#include <stdbool.h>
#include <stdio.h>
#include <stdlib.h>
#include <string.h>

enum change { NONE, FLIP, LOSE, DOUBLE };

static _Thread_local bool is_inside;

/* The function of this name that stands behind this library's. */
static void find(const char *name, void *function)
{
    void *found = dlsym(RTLD_NEXT, name);
    memcpy(function, &found, sizeof found);
}

static void note_done(void)
{
    const char *file = getenv("TIRNOUCH_CHANGED_DONE");
    FILE *made = file ? fopen(file, "w") : NULL;
    if (made)
        fclose(made);
}

/* What is to be done with the write that is asked for now. A call that libusb makes of another counts once. */
static enum change change_of(bool is_request, uint8_t ep, int length)
{
    static const char *const names[] = { "", "flip", "lose", "double" };
    static int count;
    const char *said = getenv("TIRNOUCH_CHANGED");
    char name[8], kind[16] = "";
    int number;
    if (is_inside || !said || ep & LIBUSB_ENDPOINT_IN || length <= 0 || sscanf(said, "%7s %d %15s", name, &number, kind) < 2)
        return NONE;
    if (is_request != !strcmp(kind, "requests") || __atomic_add_fetch(&count, 1, __ATOMIC_RELAXED) != number)
        return NONE;
    note_done();
    for (enum change it = FLIP; it <= DOUBLE; it++)
        if (!strcmp(name, names[it]))
            return it;
    return NONE;
}

static unsigned char *copy_of(const unsigned char *data, int length)
{
    unsigned char *copy = malloc((size_t)length);
    if (!copy)
        abort();
    return memcpy(copy, data, (size_t)length);
}

typedef int move_function(libusb_device_handle *handle, unsigned char ep, unsigned char *data, int length, int *moved,
                          unsigned int timeout);

static int move(const char *name, libusb_device_handle *handle, uint8_t ep, unsigned char *data, int length, int *moved, unsigned timeout)
{
    move_function *make = NULL;
    enum change change = change_of(false, ep, length);
    find(name, &make);
    if (change == LOSE) {
        if (moved)
            *moved = length;
        return 0;
    }
    unsigned char *other = change == FLIP ? copy_of(data, length) : NULL;
    if (other)
        other[0] ^= 1;
    is_inside = true;
    if (change == DOUBLE)
        make(handle, ep, data, length, moved, timeout);
    int r = make(handle, ep, other ? other : data, length, moved, timeout);
    is_inside = false;
    free(other);
    return r;
}

int libusb_bulk_transfer(libusb_device_handle *handle, unsigned char ep, unsigned char *data, int length, int *moved, unsigned int timeout)
{
    return move("libusb_bulk_transfer", handle, ep, data, length, moved, timeout);
}

int libusb_interrupt_transfer(libusb_device_handle *handle, unsigned char ep, unsigned char *data, int length, int *moved,
                              unsigned int timeout)
{
    return move("libusb_interrupt_transfer", handle, ep, data, length, moved, timeout);
}

/* The end of a question that was asked in the place of a write: the program is told that the write was made. */
static void on_lost(struct libusb_transfer *question)
{
    struct libusb_transfer *lost = question->user_data;
    lost->status = LIBUSB_TRANSFER_COMPLETED;
    lost->actual_length = lost->length - (lost->type == LIBUSB_TRANSFER_TYPE_CONTROL ? (int)LIBUSB_CONTROL_SETUP_SIZE : 0);
    free(question->buffer);
    libusb_free_transfer(question);
    lost->callback(lost);
}

static void on_doubled(struct libusb_transfer *copy)
{
    free(copy->buffer);
    libusb_free_transfer(copy);
}

static struct libusb_transfer *new_transfer(void)
{
    struct libusb_transfer *made = libusb_alloc_transfer(0);
    if (!made)
        abort();
    return made;
}

/* Which status the device has (USB 2.0, 9.4.5): a request that changes nothing, and has its end where events are handled. */
static struct libusb_transfer *question_for(struct libusb_transfer *lost)
{
    struct libusb_transfer *question = new_transfer();
    unsigned char *buffer = calloc(1, LIBUSB_CONTROL_SETUP_SIZE + 2);
    if (!buffer)
        abort();
    libusb_fill_control_setup(buffer, LIBUSB_ENDPOINT_IN, LIBUSB_REQUEST_GET_STATUS, 0, 0, 2);
    libusb_fill_control_transfer(question, lost->dev_handle, buffer, on_lost, lost, 0);
    return question;
}

static struct libusb_transfer *doubled(const struct libusb_transfer *transfer)
{
    struct libusb_transfer *copy = new_transfer();
    libusb_fill_bulk_transfer(copy, transfer->dev_handle, transfer->endpoint, copy_of(transfer->buffer, transfer->length),
                              transfer->length, on_doubled, NULL, transfer->timeout);
    copy->type = transfer->type;
    return copy;
}

/* What a transfer was before a flipped copy of its bytes took their place. */
struct original {
    unsigned char *buffer;
    libusb_transfer_cb_fn callback;
    void *user_data;
};

static void make_original(struct libusb_transfer *transfer)
{
    struct original *original = transfer->user_data;
    free(transfer->buffer);
    transfer->buffer = original->buffer;
    transfer->callback = original->callback;
    transfer->user_data = original->user_data;
    free(original);
}

static void on_flipped(struct libusb_transfer *transfer)
{
    make_original(transfer);
    if (transfer->callback)
        transfer->callback(transfer);
}

/* The program's own bytes stay as they are: they may stand where nobody may write, and may be sent once more. */
static int submit_flipped(int (*submit)(struct libusb_transfer *), struct libusb_transfer *transfer, int head)
{
    struct original *original = malloc(sizeof *original);
    if (!original)
        abort();
    *original = (struct original){ transfer->buffer, transfer->callback, transfer->user_data };
    transfer->buffer = copy_of(transfer->buffer, transfer->length);
    transfer->buffer[head] ^= 1;
    transfer->callback = on_flipped;
    transfer->user_data = original;
    int r = submit(transfer);
    if (r)
        make_original(transfer);
    return r;
}

int libusb_submit_transfer(struct libusb_transfer *transfer)
{
    int (*submit)(struct libusb_transfer *) = NULL;
    bool is_request = transfer->type == LIBUSB_TRANSFER_TYPE_CONTROL;
    int head = is_request ? (int)LIBUSB_CONTROL_SETUP_SIZE : 0;
    enum change change = change_of(is_request, is_request ? transfer->buffer[0] : transfer->endpoint, transfer->length - head);
    find("libusb_submit_transfer", &submit);
    if (change == LOSE)
        return submit(question_for(transfer));
    if (change == FLIP)
        return submit_flipped(submit, transfer, head);
    if (change == DOUBLE)
        submit(doubled(transfer));
    return submit(transfer);
}

int libusb_control_transfer(libusb_device_handle *handle, uint8_t type, uint8_t request, uint16_t value, uint16_t index,
                            unsigned char *data, uint16_t length, unsigned int timeout)
{
    int (*make)(libusb_device_handle *, uint8_t, uint8_t, uint16_t, uint16_t, unsigned char *, uint16_t, unsigned) = NULL;
    enum change change = change_of(true, type, length);
    find("libusb_control_transfer", &make);
    if (change == LOSE)
        return length;
    unsigned char *other = change == FLIP ? copy_of(data, length) : NULL;
    if (other)
        other[0] ^= 1;
    is_inside = true;
    if (change == DOUBLE)
        make(handle, type, request, value, index, data, length, timeout);
    int r = make(handle, type, request, value, index, other ? other : data, length, timeout);
    is_inside = false;
    free(other);
    return r;
}

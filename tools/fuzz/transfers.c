/* Transfers in flight, whose callbacks are counted. A transfer's word says where it is: idle, in flight at a handle, or called back; so a
 * second callback, or one behind the close of its handle, is found. */
#include "fuzz.h"

#include <stdio.h>
#include <stdlib.h>
#include <string.h>
#include <time.h>

#define TRANSFERS 40
#define PATIENCE 20
#define IDLE 0
#define FLYING(place) ((place) * 4 + 5)
#define CALLED(place) ((place) * 4 + 6)
#define PLACE(word) ((word) / 4 - 1)

/* Who has its lock may fill, submit, cancel or free it; its callback needs none. */
struct slot {
    pthread_mutex_t own;
    struct libusb_transfer *it;
    unsigned char buffer[LONG_BYTES];
    atomic_int word;
    int device;
    struct plugs plugs;
    uint32_t serial;
};

static struct slot slots[TRANSFERS];
static atomic_ulong accepted, called, dropped, refused, statuses[LIBUSB_TRANSFER_OVERFLOW + 1];

static void on_call(struct libusb_transfer *transfer);

void begin_transfers(void)
{
    for (int i = 0; i < TRANSFERS; i++)
        if (pthread_mutex_init(&slots[i].own, NULL))
            fail("no lock");
}

/* A slot that is idle, and stays so until it is let go; NULL for none. */
static struct slot *hold_idle(void)
{
    struct slot *slot = &slots[roll(TRANSFERS)];
    if (pthread_mutex_trylock(&slot->own))
        return NULL;
    if (atomic_load(&slot->word) == IDLE)
        return slot;
    pthread_mutex_unlock(&slot->own);
    return NULL;
}

static void fill_control(struct slot *slot, libusb_device_handle *handle, unsigned timeout)
{
    if (roll(2))
        libusb_fill_control_setup(slot->buffer, 0xc0, 1, 0, 0, 8);
    else
        libusb_fill_control_setup(slot->buffer, 0x40, 2, 0, 0, (uint16_t)roll(9));
    libusb_fill_control_transfer(slot->it, handle, slot->buffer, on_call, slot, timeout);
}

static void fill(struct slot *slot, int place)
{
    libusb_device_handle *handle = handle_at(place);
    unsigned timeout = roll(3) ? 0 : 1 + roll(20);
    int packets = (int)roll(MOST_BYTES / PACKET), tail = roll(6) ? 0 : PACKET / 2, length;
    slot->device = device_at(place);
    slot->plugs = *plugs_at(place);
    slot->it->flags = 0;
    switch (roll(4)) {
    case 0:
        fill_control(slot, handle, timeout);
        break;
    case 1:
        length = has_long_writes(slot->device) && !roll(24) ? LONG_BYTES : packets * PACKET + tail;
        libusb_fill_bulk_transfer(slot->it, handle, 0x02, slot->buffer, length, on_call, slot, timeout);
        slot->serial = fill_write(slot->device, slot->buffer, length);
        slot->it->flags = roll(4) ? 0 : LIBUSB_TRANSFER_ADD_ZERO_PACKET;
        break;
    case 2:
        length = has_long && !roll(16) ? LONG_BYTES : packets * PACKET + tail;
        libusb_fill_bulk_transfer(slot->it, handle, 0x81, slot->buffer, length, on_call, slot, timeout);
        slot->it->flags = roll(4) ? 0 : LIBUSB_TRANSFER_SHORT_NOT_OK;
        break;
    default:
        libusb_fill_interrupt_transfer(slot->it, handle, 0x83, slot->buffer, packets * PACKET, on_call, slot, timeout);
        break;
    }
}

/* With the slot and the handle held. Refused, it must not have been called back. */
static void submit(struct slot *slot, int place)
{
    atomic_store(&slot->word, FLYING(place));
    bool is_sure = has_left(plugs_at(place));
    int r = libusb_submit_transfer(slot->it), word = FLYING(place);
    if ((is_sure && r != LIBUSB_ERROR_NO_DEVICE) || (r == LIBUSB_ERROR_NO_DEVICE && !may_have_left(plugs_at(place))))
        fail("a submission to device %d, which has%s left: %s", device_at(place), is_sure ? "" : " not", libusb_error_name(r));
    if (!r)
        atomic_fetch_add(&accepted, 1);
    else if (!atomic_compare_exchange_strong(&slot->word, &word, IDLE))
        fail("a submission that was refused (%s) is called back", libusb_error_name(r));
    else
        atomic_fetch_add(&refused, 1);
}

void submit_one(void)
{
    struct slot *slot = hold_idle();
    if (!slot)
        return;
    int place = hold_handle();
    if (place >= 0) {
        if (!slot->it && !(slot->it = libusb_alloc_transfer(0)))
            fail("no memory");
        fill(slot, place);
        submit(slot, place);
        let_go(place);
    }
    pthread_mutex_unlock(&slot->own);
}

/* A transfer that may be in flight; its handle stays open meanwhile. */
static void cancel(struct slot *slot)
{
    if (pthread_mutex_trylock(&slot->own))
        return;
    int word = atomic_load(&slot->word);
    if (word != IDLE && hold_this(PLACE(word))) {
        int r = libusb_cancel_transfer(slot->it);
        if (r && r != LIBUSB_ERROR_NOT_FOUND && r != LIBUSB_ERROR_NO_DEVICE)
            fail("cancel: %s", libusb_error_name(r));
        let_go(PLACE(word));
    }
    pthread_mutex_unlock(&slot->own);
}

void cancel_one(void)
{
    cancel(&slots[roll(TRANSFERS)]);
}

void free_one(void)
{
    struct slot *slot = hold_idle();
    if (!slot)
        return;
    libusb_free_transfer(slot->it);
    slot->it = NULL;
    pthread_mutex_unlock(&slot->own);
}

/* What a transfer says of itself. */
static void check_status(const struct libusb_transfer *transfer, const struct slot *slot)
{
    int status = (int)transfer->status;
    if (status < 0 || status > LIBUSB_TRANSFER_OVERFLOW)
        fail("status %d", status);
    atomic_fetch_add(&statuses[status], 1);
    if (transfer->actual_length < 0 || transfer->actual_length > transfer->length)
        fail("%d bytes of %d moved", transfer->actual_length, transfer->length);
    if (status == LIBUSB_TRANSFER_TIMED_OUT && !transfer->timeout)
        fail("timed out without a timeout");
    if (status == LIBUSB_TRANSFER_NO_DEVICE && !may_have_left(&slot->plugs))
        fail("device %d is said to be gone", slot->device);
    if (status == LIBUSB_TRANSFER_OVERFLOW && transfer->length && transfer->length % PACKET == 0)
        fail("overflow of %d bytes", transfer->length);
    if (status == LIBUSB_TRANSFER_OVERFLOW)
        lose_packets(slot->device, transfer->endpoint, 1);
}

/* Of an overflow only the packets before it are known. */
static int whole_part(int length, enum libusb_transfer_status status)
{
    return status == LIBUSB_TRANSFER_OVERFLOW ? length - length % PACKET : length;
}

static void check(const struct slot *slot)
{
    const struct libusb_transfer *transfer = slot->it;
    int length = transfer->actual_length;
    check_status(transfer, slot);
    if (transfer->type == LIBUSB_TRANSFER_TYPE_CONTROL)
        return;
    if (transfer->endpoint & LIBUSB_ENDPOINT_IN)
        check_read(slot->device, transfer->endpoint, transfer->buffer, whole_part(length, transfer->status));
    else
        wrote(slot->serial, length);
}

/* In its own callback a transfer may be submitted again; whether it was. */
static bool submit_again(struct slot *slot, int place)
{
    bool is_held = false;
    if (pthread_mutex_trylock(&slot->own))
        return false;
    if (hold_this(place)) {
        is_held = true;
        fill(slot, place);
        submit(slot, place);
        let_go(place);
    }
    pthread_mutex_unlock(&slot->own);
    return is_held;
}

/* Calls that a callback may make, beside those of its own transfer. */
static void call_within(int place)
{
    switch (roll(12)) {
    case 0: submit_one(); break;
    case 1: cancel_one(); break;
    case 2: free_one(); break;
    case 3: send_one(); break;
    case 4: close_of_context(place % CONTEXTS); break;
    case 5: look_at_devices(); break;
    case 6: watch_no_more(); break;
    case 7: say_ready(); break;
    default: break;
    }
}

static void on_call(struct libusb_transfer *transfer)
{
    struct slot *slot = transfer->user_data;
    int word = atomic_load(&slot->word), place = PLACE(word);
    if (word == IDLE || word == CALLED(place) || !atomic_compare_exchange_strong(&slot->word, &word, CALLED(place)))
        fail("a callback of a transfer that isn't in flight (word %d)", word);
    atomic_fetch_add(&called, 1);
    check(slot);
    me->called = slot;
    dawdle();
    call_within(place);
    me->called = NULL;
    if (!roll(3) && submit_again(slot, place))
        return;
    atomic_store(&slot->word, IDLE);
}

/* Behind a close: those in flight come no more, and no callback runs any more but the one that closed it. */
void drop_those_of(int place)
{
    for (int i = 0; i < TRANSFERS; i++) {
        int word = FLYING(place);
        if (atomic_load(&slots[i].word) == word)
            lose_packets(slots[i].device, slots[i].it->endpoint, (unsigned)slots[i].it->length / PACKET + 1);
        if (atomic_compare_exchange_strong(&slots[i].word, &word, IDLE))
            atomic_fetch_add(&dropped, 1);
        else if (word == CALLED(place) && me->called != &slots[i])
            fail("a callback runs behind the close of its handle");
    }
}

/* Sent transfers, of which nobody keeps anything: the library frees transfer and buffer. */
static void on_sent(struct libusb_transfer *transfer)
{
    if (transfer->status == LIBUSB_TRANSFER_COMPLETED && transfer->endpoint == 0x02 && transfer->actual_length != transfer->length)
        fail("%d bytes of %d were sent", transfer->actual_length, transfer->length);
    atomic_fetch_add(&called, 1);
    dawdle();
    sent_by((int)(intptr_t)transfer->user_data, -1);
}

void send_one(void)
{
    int place = hold_handle(), length = (int)roll(4) * PACKET;
    if (place < 0)
        return;
    struct libusb_transfer *transfer = libusb_alloc_transfer(0);
    unsigned char *buffer = calloc(1, (size_t)length + 1);
    if (!transfer || !buffer)
        fail("no memory");
    fill_write(device_at(place), buffer, length);
    libusb_fill_bulk_transfer(transfer, handle_at(place), 0x02, buffer, length, on_sent, (void *)(intptr_t)place, 1 + roll(30));
    transfer->flags = LIBUSB_TRANSFER_FREE_BUFFER | LIBUSB_TRANSFER_FREE_TRANSFER;
    sent_by(place, 1);
    if (libusb_submit_transfer(transfer)) {
        libusb_free_transfer(transfer);
        sent_by(place, -1);
    } else {
        atomic_fetch_add(&accepted, 1);
    }
    let_go(place);
}

/* At the end, by one thread: all that is in flight is cancelled, and must come. */
void drain_transfers(void)
{
    time_t until = time(NULL) + PATIENCE;
    while (atomic_load(&called) + atomic_load(&dropped) != atomic_load(&accepted) && time(NULL) < until) {
        for (int i = 0; i < TRANSFERS; i++)
            cancel(&slots[i]);
        for (int i = 0; i < CONTEXTS; i++)
            libusb_handle_events_timeout(contexts[i], &(struct timeval){ 0, 1000 });
    }
}

void count_transfers(void)
{
    if (atomic_load(&called) + atomic_load(&dropped) != atomic_load(&accepted))
        fail("%lu transfers were accepted, %lu called back and %lu dropped", atomic_load(&accepted), atomic_load(&called),
             atomic_load(&dropped));
}

void tell_transfers(void)
{
    printf("%lu transfers and %lu dropped; statuses", atomic_load(&called), atomic_load(&dropped));
    for (int i = 0; i <= LIBUSB_TRANSFER_OVERFLOW; i++)
        printf(" %lu", atomic_load(&statuses[i]));
    printf("; %lu submissions were refused\n", atomic_load(&refused));
}

void free_all(void)
{
    for (int i = 0; i < TRANSFERS; i++)
        libusb_free_transfer(slots[i].it);
}

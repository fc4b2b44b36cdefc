/* Transfers in flight, by their address: what stands in the capture of them, and whose callback is the program's. A program reads its own
 * transfers while they fly, so that nothing but the callback is changed in them. */
#include "record.h"

#include <stdlib.h>

enum { ROWS = 256 };

struct node {
    struct flying flying;
    struct node *next;
};

static struct node *rows[ROWS];

static struct node **place_of(const struct libusb_transfer *transfer)
{
    struct node **at = &rows[(uintptr_t)transfer / sizeof(struct libusb_transfer) % ROWS];
    while (*at && (*at)->flying.transfer != transfer)
        at = &(*at)->next;
    return at;
}

/* Puts in what is known now of a transfer, and gives what was before: without a transfer where that is nothing. One that is submitted again
 * before it ended, or after it was dropped, has on_end for its callback, and keeps the program's own. False where there is no memory. */
bool put_flying(struct flying *now, struct flying *before)
{
    struct node *made = calloc(1, sizeof *made);
    lock();
    struct node **at = place_of(now->transfer);
    *before = *at ? (*at)->flying : (struct flying){ .transfer = NULL };
    if (*at && now->callback == on_end)
        now->callback = before->callback;
    struct node *unused = *at ? made : NULL;
    if (!*at)
        *at = made;
    if (*at)
        (*at)->flying = *now;
    bool is_kept = *at != NULL;
    unlock();
    free(unused);
    return is_kept;
}

/* What was before a submission that libusb refused; nothing where the transfer ended meanwhile. */
void take_back_flying(const struct libusb_transfer *transfer, const struct flying *before)
{
    struct flying last;
    if (!before->transfer) {
        take_flying(transfer, &last);
        return;
    }
    lock();
    struct node *node = *place_of(transfer);
    if (node)
        node->flying = *before;
    unlock();
}

bool take_flying(const struct libusb_transfer *transfer, struct flying *found)
{
    lock();
    struct node **at = place_of(transfer), *node = *at;
    if (node) {
        *found = node->flying;
        *at = node->next;
    }
    unlock();
    free(node);
    return node != NULL;
}

/* What a test asks of a run amid it: what isn't finished and why, what differs from what is expected, what went wrong, the trace, and the
 * clock. */
#include "bus.h"

#include <stdio.h>
#include <string.h>

/* Lines that go into memory of the program's, as far as there is room; all of them are counted. */
struct page {
    char *text;
    size_t room, length;
};

static void put_line(struct page *page, const char *line)
{
    size_t room = page->length < page->room ? page->room - page->length : 0;
    page->length += (size_t)snprintf(room ? page->text + page->length : NULL, room, "%s\n", line);
}

static void put_left(void *to, struct transfer *transfer, const struct sentence *left)
{
    (void)transfer;
    put_line(to, left->text);
}

static void put_difference(void *to, const struct device *device, const struct sentence *it, uint64_t count)
{
    (void)device, (void)count;
    put_line(to, it->text);
}

static void put_text(void *to, const char *text, size_t length)
{
    struct page *page = to;
    size_t room = page->length < page->room ? page->room - page->length : 0;
    if (room) {
        size_t count = length < room ? length : room - 1;
        memcpy(page->text + page->length, text, count);
        page->text[page->length + count] = 0;
    }
    page->length += length;
}

static struct page begin_page(char *text, size_t room)
{
    if (room)
        *text = 0;
    return (struct page){ .text = text, .room = room };
}

size_t tirnouch_left(char *text, size_t room)
{
    struct page page = begin_page(text, room);
    bool is_locked = lock_to_read();
    each_left_of_all(put_left, &page);
    unlock_read(is_locked);
    return page.length;
}

size_t tirnouch_report(char *text, size_t room)
{
    struct page page = begin_page(text, room);
    bool is_locked = lock_to_read();
    if (process.bus.is_judged)
        each_difference(put_difference, &page);
    unlock_read(is_locked);
    return page.length;
}

size_t tirnouch_error(char *text, size_t room)
{
    struct page page = begin_page(text, room);
    bool is_locked = lock_to_read();
    if (*process.failure)
        put_line(&page, process.failure);
    unlock_read(is_locked);
    return page.length;
}

size_t tirnouch_trace(char *text, size_t room)
{
    struct page page = begin_page(text, room);
    bool is_locked = lock_to_read();
    each_kept(put_text, &page);
    unlock_read(is_locked);
    return page.length;
}

uint64_t tirnouch_now(void)
{
    bool is_locked = lock_to_read();
    uint64_t passed = process.bus.is_there ? now() - process.bus.begun : 0;
    unlock_read(is_locked);
    return passed / MILLISECOND;
}

/* Whoever sleeps looks again: something may be due. */
int tirnouch_advance(unsigned milliseconds)
{
    if (!lock_unless_asked())
        return LIBUSB_ERROR_BUSY;
    bool passes = process.bus.is_there && process.bus.is_virtual;
    if (passes) {
        process.bus.moment += (uint64_t)milliseconds * MILLISECOND;
        process.bus.stirs++;
        for (struct libusb_context *it = process.contexts; it; it = it->next)
            wake(it);
    }
    unlock();
    return passes ? 0 : LIBUSB_ERROR_NOT_SUPPORTED;
}

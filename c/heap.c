/* The memory of the static library: three functions that it calls, over those of the C library. A block of no bytes is asked for as
 * one of its alignment, so that each has an address of its own; where there is no memory the address is that of a byte that nobody
 * reads. malloc aligns a block to each power of two up to 16 that divides its size, which is all that the library asks for. */
#include <stdlib.h>

/* What is given: whether there is a block, and where. */
struct block {
    size_t there;
    void *at;
};

static unsigned char nowhere;

static struct block block_at(void *at)
{
    return (struct block){ .there = at != NULL, .at = at ? at : &nowhere };
}

struct block rattle_alloc(size_t size, size_t alignment)
{
    return block_at(malloc(size ? size : alignment));
}

struct block rattle_realloc(void *at, size_t size_before, size_t size, size_t alignment)
{
    (void)size_before;
    return block_at(realloc(at, size ? size : alignment));
}

void rattle_dealloc(void *at)
{
    free(at);
}

/* The memory of libhn_router_c.a and of libhn_lab_c.a: three functions over one allocator, here malloc. They are all that a
 * library asks of a program but memcpy, memmove and memset. Link this file with the library, or one of your own in its place.
 *
 * A block is aligned to each power of two up to 16 that divides its size. A block of no bytes is one, too. */
#include <stdbool.h>
#include <stddef.h>
#include <stdlib.h>

/* Whether there is a block, and where. A place is never null, so without a block it is that of some byte. */
struct hn_block {
    bool ok;
    void *at;
};

static char no_block[16];

static struct hn_block block_at(void *at)
{
    return (struct hn_block){at != NULL, at != NULL ? at : no_block};
}

struct hn_block rattle_alloc(size_t size, size_t alignment)
{
    return block_at(malloc(size != 0 ? size : alignment));
}

/* The first `kept` bytes stay. Without a new block the old one is as it was. */
struct hn_block rattle_realloc(void *at, size_t kept, size_t size, size_t alignment)
{
    (void)kept;
    return block_at(realloc(at, size != 0 ? size : alignment));
}

void rattle_dealloc(void *at)
{
    free(at);
}

/* A heap that knows how many bytes of it are held. */
#define rattle_alloc plain_alloc
#define rattle_realloc plain_realloc
#define rattle_dealloc plain_dealloc
#include "../../include/hn_heap.c"
#undef rattle_alloc
#undef rattle_realloc
#undef rattle_dealloc

#include <string.h>

/* Before each block stands its size, in as many bytes as keep it aligned. */
enum { BEFORE = 16 };

size_t held_bytes;

static struct hn_block counted(struct hn_block whole, size_t size)
{
    if (!whole.ok)
        return whole;
    memcpy(whole.at, &size, sizeof size);
    held_bytes += size;
    return block_at((char *)whole.at + BEFORE);
}

static void *uncounted(void *at)
{
    size_t size;
    char *whole = (char *)at - BEFORE;
    memcpy(&size, whole, sizeof size);
    held_bytes -= size;
    return whole;
}

struct hn_block rattle_alloc(size_t size, size_t alignment)
{
    return counted(plain_alloc(BEFORE + size, alignment), size);
}

struct hn_block rattle_realloc(void *at, size_t kept, size_t size, size_t alignment)
{
    char *whole = (char *)at - BEFORE;
    size_t before;
    memcpy(&before, whole, sizeof before);
    struct hn_block moved = plain_realloc(whole, BEFORE + kept, BEFORE + size, alignment);
    if (!moved.ok)
        return moved;
    held_bytes -= before;
    return counted(moved, size);
}

void rattle_dealloc(void *at)
{
    plain_dealloc(uncounted(at));
}

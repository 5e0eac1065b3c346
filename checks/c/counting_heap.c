/* A heap that counts what is asked of it, and refuses one of these. */
#define rattle_alloc plain_alloc
#define rattle_realloc plain_realloc
#include "../../include/hn_heap.c"
#undef rattle_alloc
#undef rattle_realloc

/* The how manyth from now on is refused; 0 refuses none. */
long refuse_at;
long asked;

static bool is_refused(void)
{
    asked++;
    return refuse_at != 0 && --refuse_at == 0;
}

struct hn_block rattle_alloc(size_t size, size_t alignment)
{
    return is_refused() ? block_at(NULL) : plain_alloc(size, alignment);
}

struct hn_block rattle_realloc(void *at, size_t kept, size_t size, size_t alignment)
{
    return is_refused() ? block_at(NULL) : plain_realloc(at, kept, size, alignment);
}

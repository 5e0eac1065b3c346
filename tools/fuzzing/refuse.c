/* Memory that is refused: loaded before a program's C library, it refuses one call for memory, or all from one on.
 *
 *     cc -shared -fPIC -O1 -o refuse.so tools/fuzzing/refuse.c
 *     REFUSED=7 LD_PRELOAD=./refuse.so hncp lab        the seventh is refused; REFUSED=-7: all from the seventh on
 *     COUNTED=file LD_PRELOAD=./refuse.so hncp lab     how many there were is written to the file at the end */
#include <stdlib.h>
#include <stdio.h>

extern void *__libc_malloc(size_t size);
extern void *__libc_realloc(void *at, size_t size);

static long asked, refused;
static const char *counted;

__attribute__((constructor)) static void begin(void)
{
    const char *word = getenv("REFUSED");
    refused = word ? atol(word) : 0;
    counted = getenv("COUNTED");
    asked = 0;
}

__attribute__((destructor)) static void end(void)
{
    FILE *file = counted ? fopen(counted, "w") : NULL;
    if (file) {
        fprintf(file, "%ld\n", asked);
        fclose(file);
    }
}

static int is_refused(void)
{
    asked++;
    return asked == refused || (refused < 0 && asked >= -refused);
}

void *malloc(size_t size)
{
    return is_refused() ? NULL : __libc_malloc(size);
}

void *realloc(void *at, size_t size)
{
    return is_refused() ? NULL : __libc_realloc(at, size);
}

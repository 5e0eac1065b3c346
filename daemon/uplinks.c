/* Prefixes that are delegated to this router, by options or commands. */
#include "hnd.h"

#include <string.h>

/* One of them, and the moments at which it is no longer preferred and valid, in milliseconds; NEVER for none. */
static struct {
    struct prefix prefix;
    uint64_t valid, preferred;
} uplinks[MOST_PREFIXES];
static size_t count;

/* The place of a prefix; one past the last one where there is none. */
static size_t place_of(const struct prefix *prefix)
{
    size_t place = 0;
    while (place < count && memcmp(&uplinks[place].prefix, prefix, sizeof *prefix) != 0)
        place++;
    return place;
}

/* Forgets one. */
static void forget(size_t place)
{
    count--;
    memmove(&uplinks[place], &uplinks[place + 1], (count - place) * sizeof uplinks[0]);
}

/* Forgets those whose lifetime has ended; the router has, too. */
static void forget_ended(void)
{
    for (size_t place = count; place-- > 0;) {
        if (uplinks[place].valid <= now())
            forget(place);
    }
}

/* Whether a prefix is delegated here. */
bool has_uplink(const struct prefix *prefix)
{
    forget_ended();
    return place_of(prefix) < count;
}

/* The moment at which a lifetime in seconds ends. */
static uint64_t end_of(uint32_t lifetime)
{
    return lifetime == UINT32_MAX ? NEVER : now() + (uint64_t)lifetime * 1000;
}

/* A prefix is delegated, or again. */
const char *add_uplink(const struct delegation *it)
{
    bool is_refused;
    if (delegate(it, &is_refused) != 0)
        return "out of memory";
    if (is_refused)
        return "eight prefixes are delegated already";
    forget_ended();
    size_t place = place_of(&it->prefix);
    if (place == MOST_PREFIXES)
        return "eight prefixes are delegated already";
    uplinks[place].prefix = it->prefix;
    uplinks[place].valid = end_of(it->valid);
    uplinks[place].preferred = end_of(it->preferred);
    count += place == count;
    return NULL;
}

/* A prefix is delegated no longer. */
const char *remove_uplink(const struct prefix *prefix)
{
    forget_ended();
    size_t place = place_of(prefix);
    if (withdraw(prefix) != 0)
        return "out of memory";
    if (place == count)
        return "this prefix was not delegated here";
    forget(place);
    return NULL;
}

/* All are withdrawn. Whether there were some. */
bool remove_uplinks(void)
{
    forget_ended();
    bool are_some = count > 0;
    for (size_t place = count; place-- > 0;)
        withdraw(&uplinks[place].prefix);
    count = 0;
    return are_some;
}

/* Seconds until a moment, and 2^32 - 1 where it never comes. */
static uint64_t seconds_until(uint64_t end)
{
    return end == NEVER ? UINT32_MAX : end <= now() ? 0 : (end - now()) / 1000;
}

/* Hands each of them to a writer, with what is left of its lifetimes in seconds. */
void write_uplinks(void (*write)(FILE *, const struct prefix *, uint64_t, uint64_t), FILE *to)
{
    forget_ended();
    for (size_t place = 0; place < count; place++)
        write(to, &uplinks[place].prefix, seconds_until(uplinks[place].valid), seconds_until(uplinks[place].preferred));
}

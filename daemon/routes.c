/* Addresses and on-link routes of the prefixes that are applied (RFC 7788, section 6.3.3). */
#include "hnd.h"

#include <errno.h>
#include <fcntl.h>
#include <stdlib.h>
#include <string.h>
#include <unistd.h>

/* In milliseconds: so long what an earlier daemon left on a link stays, unless it is used again. By then the router knows what
 * its links have. */
enum { LEFT = 15000 };

/* A prefix that the system has a route for, on a link, with an address of the router in it where it has 64 bits. */
struct set {
    struct link *link;
    struct prefix prefix;
    uint8_t address[16];
    bool has_address, is_deprecated, has_failed, is_wanted;
    uint64_t left_until; /* where an earlier daemon set it, and this one has not; else 0 */
};

static struct set sets[MOST_ASSIGNED];
static size_t set_count;
static uint64_t again = NEVER; /* when that which failed is tried once more */

/* Tells whether packets are forwarded, and has them forwarded where an option says so. */
void begin_routes(void)
{
    static const char path[] = "/proc/sys/net/ipv6/conf/all/forwarding";
    char value = '0';
    int file = open(path, (settings.forwards ? O_RDWR : O_RDONLY) | O_CLOEXEC);
    if (file < 0 || read(file, &value, 1) != 1)
        say(OF_ROUTE, "unknown forwarding why=\"%s\"", strerror(errno));
    else if (value == '0' && settings.forwards && pwrite(file, "1", 1, 0) != 1)
        fail(FAILED, path, strerror(errno));
    else if (value == '0' && !settings.forwards)
        say(OF_ROUTE, "forwarding off: no packet crosses this router; -f turns it on");
    if (file >= 0)
        close(file);
}

/* Tells that a call of the system failed. */
static bool is_set(int status, const char *what, const struct set *it)
{
    if (status == 0)
        return true;
    say(OF_ROUTE, "unset %s %s %s why=\"%s\"", what, it->link->name, text_of(it->prefix.bits, it->prefix.length), strerror(status));
    return false;
}

/* The address of the router in a prefix. It has the interface identifier of the link-local one, which no other node of the
 * link has. */
static void make_address(struct set *it)
{
    memcpy(it->address, it->prefix.bits, 8);
    memcpy(it->address + 8, it->link->address + 8, 8);
    it->has_address = it->prefix.length == 64;
}

/* The place of a set with the same link, prefix and, unless it was left, address; one past the last one where there is
 * none. */
static struct set *find_set(const struct set *wanted)
{
    struct set *it = sets;
    while (it < sets + set_count && (it->link != wanted->link || memcmp(&it->prefix, &wanted->prefix, sizeof it->prefix) != 0
                                     || (it->left_until == 0 && memcmp(it->address, wanted->address, 16) != 0)))
        it++;
    return it;
}

/* Takes over what an earlier daemon left on a link. Its route tells where its address is. */
void take_over(struct link *link)
{
    struct prefix left[MOST_USED];
    size_t count = settings.routes ? find_routes(link, left, MOST_USED) : 0;
    for (const struct prefix *it = left; it < left + count && set_count < MOST_ASSIGNED; it++) {
        struct set made = {.link = link, .prefix = *it, .left_until = now() + LEFT};
        make_address(&made);
        if (find_set(&made) == sets + set_count)
            sets[set_count++] = made;
        again = earlier(again, made.left_until);
    }
}

/* Whether an assignment is wanted in the system, and as what. */
static bool make_set(const hn_assigned *it, const hn_used *used, size_t used_count, struct set *made)
{
    struct link *link = link_of_endpoint(it->endpoint);
    if (!it->applied || !link->is_attached || !link->is_fit)
        return false;
    *made = (struct set){.link = link, .prefix.length = it->length, .is_wanted = true};
    memcpy(made->prefix.bits, it->prefix, 16);
    make_address(made);
    for (const hn_used *of = used; of < used + used_count; of++) {
        if (of->length == it->delegated_length && memcmp(of->prefix, it->delegated, 16) == 0)
            made->is_deprecated = of->preferred == 0;
    }
    return true;
}

/* Sets route and address. */
static void put(struct set *it)
{
    bool was_failed = it->has_failed;
    it->has_failed = !is_set(put_route(it->link, &it->prefix), "route", it);
    if (!it->has_failed && it->has_address)
        it->has_failed = !is_set(put_address(it->link, it->address, it->prefix.length, it->is_deprecated), "address", it);
    if (it->has_failed)
        again = earlier(again, now() + ROUTE_RETRY);
    else if (it->has_address)
        say(OF_ROUTE, "%s %s %s%s", was_failed ? "set-now" : "set", it->link->name, text_of(it->address, it->prefix.length),
            it->is_deprecated ? " deprecated" : "");
    else
        say(OF_ROUTE, "set %s %s route alone: an address takes a prefix of 64 bits", it->link->name,
            text_of(it->prefix.bits, it->prefix.length));
}

/* Takes address and route away. They may be gone with the link. What an earlier daemon left may have another address, and
 * hosts are told that its prefix is not preferred any more. */
static void drop(const struct set *it)
{
    if (it->left_until != 0) {
        drop_addresses_in(it->link, &it->prefix);
        tell_departed(it->link, &it->prefix, MOST_VALID);
    } else if (it->has_address)
        drop_address(it->link, it->address, it->prefix.length);
    drop_route(it->link, &it->prefix);
    say(OF_ROUTE, "unset %s %s", it->link->name, text_of(it->prefix.bits, it->prefix.length));
}

/* The system has dropped what was set on a link. */
void forget_routes(const struct link *link)
{
    size_t kept = 0;
    for (const struct set *it = sets; it < sets + set_count; it++) {
        if (it->link != link)
            sets[kept++] = *it;
    }
    if (kept != set_count)
        again = now();
    set_count = kept;
}

/* Drops each set that is not wanted any more. Whether one was. */
static bool drop_unwanted(void)
{
    size_t kept = 0, count = set_count;
    for (const struct set *it = sets; it < sets + count; it++) {
        bool is_left = it->left_until > now();
        if (is_left)
            again = earlier(again, it->left_until);
        if (it->is_wanted || is_left)
            sets[kept++] = *it;
        else
            drop(it);
    }
    set_count = kept;
    return kept != count;
}

/* The order of endpoint and address, in which the library takes them. */
static int compare(const void *one, const void *other)
{
    const hn_address *first = one, *second = other;
    if (first->endpoint != second->endpoint)
        return first->endpoint < second->endpoint ? -1 : 1;
    return memcmp(first->address, second->address, 16);
}

/* Has the router publish the addresses that are set (RFC 7788, section 6.4), at most as many as it takes. */
static void publish(void)
{
    hn_address list[MOST_ADDRESSES];
    size_t count = 0;
    for (const struct set *it = sets; it < sets + set_count && count < MOST_ADDRESSES; it++) {
        if (it->has_failed || !it->has_address || it->left_until != 0 || !it->link->is_attached)
            continue;
        list[count].endpoint = it->link->endpoint;
        memcpy(list[count++].address, it->address, 16);
    }
    qsort(list, count, sizeof list[0], compare);
    if (!set_addresses(list, count))
        again = earlier(again, now() + ROUTE_RETRY);
}

/* Has the system follow what is assigned. Addresses and routes that go do so before others come. */
void follow_routes(const hn_assigned *list, size_t count)
{
    hn_used used[MOST_USED];
    struct set wanted, *place;
    size_t used_count;
    bool is_changed = again <= now();
    if (!settings.routes)
        return;
    again = NEVER;
    used_count = read_used(used);
    for (struct set *it = sets; it < sets + set_count; it++)
        it->is_wanted = false;
    for (const hn_assigned *it = list; it < list + count; it++) {
        if (make_set(it, used, used_count, &wanted) && (place = find_set(&wanted)) < sets + set_count)
            place->is_wanted = true;
    }
    is_changed |= drop_unwanted();
    for (const hn_assigned *it = list; it < list + count; it++) {
        if (!make_set(it, used, used_count, &wanted))
            continue;
        place = find_set(&wanted);
        if (place < sets + set_count && !place->has_failed && place->left_until == 0 && place->is_deprecated == wanted.is_deprecated)
            continue;
        if (place == sets + MOST_ASSIGNED)
            break;
        if (place == sets + set_count)
            set_count++;
        else
            wanted.has_failed = place->has_failed;
        *place = wanted;
        put(place);
        is_changed = true;
    }
    if (is_changed)
        publish();
}

/* When that which failed is to be tried again. */
uint64_t routes_due(void)
{
    return settings.routes ? again : NEVER;
}

/* It is the end: what an earlier daemon left will not be used again. */
void end_left(void)
{
    for (struct set *it = sets; it < sets + set_count; it++) {
        if (it->left_until != 0)
            it->left_until = again = 1;
    }
}

/* Takes all of it away. */
void end_routes(void)
{
    for (const struct set *it = sets; it < sets + set_count; it++)
        drop(it);
    set_count = 0;
}

/* Hands each address that is set to a writer. */
void write_addresses(void (*write)(FILE *, const struct link *, const uint8_t *, const struct prefix *), FILE *to)
{
    for (const struct set *it = sets; it < sets + set_count; it++) {
        if (it->has_address && !it->has_failed && it->left_until == 0)
            write(to, it->link, it->address, &it->prefix);
    }
}

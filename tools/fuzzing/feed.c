/* Datagrams for a router of the C library: each line of standard input is one, in hexadecimal digits, `-` for no bytes, as a
 * capture of `hncp watch` has it. At the top of the repository, where the library is built (docs/EMBED.md):
 *
 *     cc -O1 -g -std=c11 -Wall -Wextra -fsanitize=address,undefined -fno-sanitize-recover=all -I include -o feed \
 *         tools/fuzzing/feed.c include/hn_heap.c crates/hn_router_c/out/libhn_router_c.a
 *     tools/fuzz --seed 1 --datagrams 1000000 | ./feed
 *
 * Each arrives at one of two endpoints, or at one that is not attached, by unicast or multicast, from a link-local source or
 * from afar; then the clock goes on, and the router ticks. Now and then other events happen, some of them out of range. The
 * router is node 00000001, and a quarter of the datagrams are of three nodes that name it as their peer. Where others claimed
 * its identifier until it took a new one, it is soon made anew. After each event all reports are taken, and held to the header:
 * statuses, and how many there are.
 *
 * At the end it writes a line of counts, with the greatest resident size after 10,000 datagrams and at the end. Without
 * sanitizers these two are near each other: a table of 256 nodes is full by then. Status 1: something does not hold. */
#define _POSIX_C_SOURCE 200809L
#include "hn_router.h"

#include <stdio.h>
#include <stdlib.h>
#include <string.h>
#include <sys/resource.h>

enum { MOST_BYTES = 65507, MOST_NODES = 257, MOST_USED = 32, MOST_DELEGATED = 8, EARLY = 10000 };

static const uint64_t last_moment = UINT64_C(1) << 48, never = UINT64_C(1) << 49;
static uint8_t room[MOST_BYTES], sent_last[MOST_BYTES];
static size_t sent_count;
static uint64_t state = 88172645463325252u, now;
static unsigned long datagrams, events, refused, sends, notes, most_nodes;

#define CHECK(holds)                                                                                      \
    do {                                                                                                  \
        if (!(holds)) {                                                                                   \
            printf("%s:%d: after datagram %lu this does not hold: %s\n", __FILE__, __LINE__, datagrams, #holds); \
            exit(1);                                                                                      \
        }                                                                                                 \
    } while (0)

/* The next number below a limit, by xorshift. */
static uint64_t below(uint64_t limit)
{
    state ^= state << 13;
    state ^= state >> 7;
    state ^= state << 17;
    return state % limit;
}

static void some_address(uint8_t address[16], bool far)
{
    memset(address, 0, 16);
    address[0] = far ? 0x20 : 0xfe;
    address[1] = far ? 0x01 : 0x80;
    address[15] = (uint8_t)below(6);
}

static void take_sends(hn_router *router)
{
    hn_sent sent;
    size_t count = 0, all = hn_router_sends(router);
    for (size_t place = 0; place < all; place++) {
        CHECK(hn_router_send(router, place, &sent, &count, room, sizeof room) == 0);
        CHECK(count > 0 && count <= MOST_BYTES && sent.unicast <= 1);
        CHECK(hn_router_send(router, place, &sent, &count, room, count - 1) == 2);
        memcpy(sent_last, room, count);
        sent_count = count;
    }
    CHECK(hn_router_send(router, all, &sent, &count, room, sizeof room) == 2);
    sends += all;
}

static void take_lists(hn_router *router)
{
    hn_note note;
    hn_assigned assigned;
    hn_used used;
    uint32_t id, before = 0;
    size_t all = hn_router_notes(router), nodes = hn_router_nodes(router), place;
    for (place = 0; place < all; place++)
        CHECK(hn_router_note(router, place, &note) == 0 && note.kind >= 1 && note.kind <= 7);
    CHECK(hn_router_note(router, all, &note) == 2);
    notes += all;
    CHECK(nodes >= 1 && nodes <= MOST_NODES);
    for (place = 0; place < nodes; place++) {
        CHECK(hn_router_node(router, place, &id) == 0 && (place == 0 || id > before));
        before = id;
    }
    CHECK(hn_router_node(router, nodes, &id) == 2);
    most_nodes = nodes > most_nodes ? nodes : most_nodes;
    for (place = 0; place < hn_router_assignments(router); place++)
        CHECK(hn_router_assigned(router, place, &assigned) == 0 && assigned.length <= 128 && assigned.applied <= 1);
    CHECK(hn_router_assigned(router, place, &assigned) == 2);
    for (place = 0; hn_router_used(router, place, &used) == 0; place++)
        CHECK(place < MOST_USED && used.length <= 64);
}

static void take_adverts(hn_router *router)
{
    hn_elected elected;
    size_t count = 0;
    for (uint32_t endpoint = 1; endpoint <= 3; endpoint++) {
        uint8_t status = hn_router_advert(router, endpoint, &count, room, sizeof room);
        CHECK(status == 0 || status == 2);
        CHECK(hn_router_advertise(router, endpoint, &count, room, sizeof room) == status);
        for (uint8_t service = 0; service < 5; service++)
            CHECK(hn_router_elected(router, endpoint, service, &elected) == (service < 4 ? 0 : 2));
    }
}

/* What is the same after each event. `status` is that of the event. */
static void look(hn_router *router, uint8_t status)
{
    uint8_t hash[8];
    CHECK(status == 0 || status == 2);
    events++;
    refused += status == 2;
    CHECK(hn_router_moment(router) <= now && hn_router_due(router) <= never);
    hn_router_network_hash(router, hash);
    take_sends(router);
    take_lists(router);
    if (below(64) == 0)
        take_adverts(router);
}

static void arrive(hn_router *router, const uint8_t *bytes, size_t count)
{
    uint8_t source[16];
    some_address(source, below(16) == 0);
    bool multicast = below(2) == 0;
    uint32_t endpoint = (uint32_t)(1 + below(8) / 3);
    uint16_t port = (uint16_t)(below(4) == 0 ? below(65536) : 8231);
    uint8_t status = hn_router_arrive(router, now, endpoint, multicast, source, port, bytes, count);
    CHECK(status == 0);
    look(router, status);
}

static void some_addresses(hn_router *router)
{
    static hn_address list[70];
    size_t count = below(70);
    for (size_t place = 0; place < count; place++) {
        list[place].endpoint = (uint32_t)(1 + below(2) * (place > 30));
        some_address(list[place].address, true);
        list[place].address[14] = (uint8_t)place;
    }
    look(router, hn_router_addresses(router, now, list, count));
}

/* An event that is no arrival and no tick, now and then out of range. */
static void other_event(hn_router *router)
{
    uint8_t prefix[16] = {0x20, 0x01, 0x0d, 0xb8, 0, (uint8_t)below(12)};
    uint8_t length = (uint8_t)(below(16) == 0 ? below(256) : 48 + below(17));
    uint32_t endpoint = (uint32_t)below(20), valid = (uint32_t)below(UINT64_C(1) << below(33));
    switch (below(10)) {
    case 0: look(router, hn_router_attach(router, now, endpoint)); break;
    case 1: look(router, hn_router_detach(router, now, endpoint)); break;
    case 2: case 3: look(router, hn_router_external(router, now, prefix, length, valid, valid / 2)); break;
    case 4: look(router, hn_router_withdraw(router, now, prefix, length)); break;
    case 5: look(router, hn_router_caps(router, now, (uint8_t)below(17), 8, 4, 0)); break;
    case 6: look(router, hn_router_private(router, now, (uint8_t)below(66))); break;
    case 7: some_addresses(router); break;
    case 8: if (below(50) == 0) look(router, hn_router_restart(router, now)); break;
    default:
        look(router, hn_router_tick(router, last_moment + 1));
        if (hn_router_moment(router) > 0)
            look(router, hn_router_tick(router, hn_router_moment(router) - 1));
    }
}

/* Ticks, a few times where something is due still. */
static void settle(hn_router *router)
{
    for (int tick = 0; tick < 4 && hn_router_due(router) <= now; tick++) {
        uint8_t status = hn_router_tick(router, now);
        CHECK(status == 0);
        look(router, status);
    }
}

static int digit(char c)
{
    const char *digits = "0123456789abcdef", *found = c ? strchr(digits, c | ('A' <= c && c <= 'F' ? 32 : 0)) : NULL;
    return found ? (int)(found - digits) : -1;
}

/* The bytes of a line, up to the first that is no digit. */
static size_t bytes_of(const char *line, uint8_t *bytes)
{
    size_t count = 0;
    while (count < MOST_BYTES && digit(line[2 * count]) >= 0 && digit(line[2 * count + 1]) >= 0) {
        bytes[count] = (uint8_t)(digit(line[2 * count]) * 16 + digit(line[2 * count + 1]));
        count++;
    }
    return count;
}

static long resident(void)
{
    struct rusage usage;
    getrusage(RUSAGE_SELF, &usage);
    return usage.ru_maxrss;
}

static void begin(hn_router *router)
{
    uint8_t seed[32] = {1, 2, 3};
    now = 1000;
    CHECK(hn_router_new(router, 1, now, seed) == 0);
    CHECK(hn_router_attach(router, now, 1) == 0 && hn_router_attach(router, now, 2) == 0);
}

int main(void)
{
    static uint8_t bytes[MOST_BYTES], own[MOST_BYTES];
    char *line = NULL;
    size_t size = 0;
    long early = 0;
    hn_router router = {0};
    begin(&router);
    while (getline(&line, &size, stdin) > 0) {
        datagrams++;
        now += below(below(32) == 0 ? 60000 : 50);
        arrive(&router, bytes, bytes_of(line, bytes));
        if (sent_count > 0 && below(16) == 0) {
            size_t count = sent_count;
            memcpy(own, sent_last, count);
            own[below(count)] ^= (uint8_t)(1 << below(8));
            arrive(&router, own, count);
        }
        if (below(20) == 0)
            other_event(&router);
        if (hn_router_identifier(&router) != 1 && below(100) == 0) {
            hn_router_free(&router);
            begin(&router);
        }
        settle(&router);
        if (datagrams == EARLY)
            early = resident();
    }
    hn_router_free(&router);
    CHECK(router.at == NULL);
    free(line);
    printf("%lu datagrams, %lu events, %lu out of range, %lu sent, %lu notes, %lu nodes at most, %ld kB after %d, %ld kB at the end\n",
           datagrams, events, refused, sends, notes, most_nodes, early, EARLY, resident());
    return 0;
}

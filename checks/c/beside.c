/* Advertisements with options of the caller's: they stand behind those of the library, and departed prefixes make room. */
#include "advert.h"

enum { MTU = 5, DNS = 25, MOST_BESIDE = 192, EARLIER = 64, SECOND = 1000 };

/* A Recursive DNS Server option (RFC 8106, section 5.1), and an MTU option (RFC 4861, section 4.6.4). */
static const uint8_t options[32] = {DNS, 3, 0, 0, 0, 0, 14, 16, 0xfe, 0x80, [23] = 1, [24] = MTU, 1, 0, 0, 0, 0, 5, 0xdc};

static uint8_t plain[MOST_ADVERT], room[2 * MOST_ADVERT];

/* A router that holds a prefix, and was told of so many that an earlier life advertised. */
static void make(hn_router *router, int earlier)
{
    uint8_t seed[32], prefix[16] = {0x20, 0x01, 0x0d, 0xb9};
    seed_of(seed, 5);
    CHECK(hn_router_new(router, 7, 0, seed) == 0 && hn_router_attach(router, 0, LINK) == 0);
    CHECK(hn_router_external(router, 0, some_prefix, 48, 36000, 18000) == 0);
    for (uint64_t now = 0; now < 60 * SECOND;) {
        uint64_t due = hn_router_due(router);
        now = due > now ? due : now + 1;
        CHECK(hn_router_tick(router, now) == 0);
    }
    for (int count = 0; count < earlier; count++) {
        prefix[7] = (uint8_t)count;
        CHECK(hn_router_depart(router, LINK, prefix, 64, 7200) == 0);
    }
}

/* The options stand behind what is advertised without them. */
static void options_come_last(void)
{
    hn_router router = {0};
    size_t without = 0, count = 0;
    make(&router, 0);
    CHECK(hn_router_advertise(&router, LINK, &without, plain, sizeof plain) == 0 && without == HEADER + OPTION);
    CHECK(hn_router_advertise_with(&router, LINK, options, sizeof options, &count, room, sizeof room) == 0);
    CHECK(count == without + sizeof options);
    CHECK(memcmp(room, plain, without) == 0 && memcmp(room + without, options, sizeof options) == 0);
    CHECK(hn_router_advertise_with(&router, LINK, options, 0, &count, room, sizeof room) == 0 && count == without);
    CHECK(memcmp(room, plain, without) == 0);
    hn_router_free(&router);
}

/* Bytes that are no whole options are refused, and nothing is counted, written or kept. */
static void others_are_refused(void)
{
    static const uint8_t no_length[8] = {DNS, 0}, one_prefix[8] = {3, 1};
    hn_router router = {0};
    size_t count = 77;
    make(&router, 0);
    room[0] = 77;
    CHECK(hn_router_advertise_with(&router, LINK, options, 1, &count, room, sizeof room) == 2);
    CHECK(hn_router_advertise_with(&router, LINK, options, 23, &count, room, sizeof room) == 2);
    CHECK(hn_router_advertise_with(&router, LINK, options, 25, &count, room, sizeof room) == 2);
    CHECK(hn_router_advertise_with(&router, LINK, options, 31, &count, room, sizeof room) == 2);
    CHECK(hn_router_advertise_with(&router, LINK, no_length, 8, &count, room, sizeof room) == 2);
    CHECK(hn_router_advertise_with(&router, LINK, one_prefix, 8, &count, room, sizeof room) == 2);
    CHECK(count == 77 && room[0] == 77 && hn_router_departures(&router) == 0);
    CHECK(hn_router_advertise_with(&router, LINK, options, 24, &count, room, 71) == 2 && count == 72);
    CHECK(room[0] == 77 && hn_router_departures(&router) == 0);
    CHECK(hn_router_advertise_with(&router, LINK, options, 24, &count, room, 72) == 0 && count == 72);
    CHECK(hn_router_departures(&router) == 1);
    hn_router_free(&router);
}

/* Options of so many bytes, each of 8. */
static size_t many(uint8_t *bytes, size_t count)
{
    memset(bytes, 0, count);
    for (size_t at = 0; at < count; at += 8) {
        bytes[at] = MTU;
        bytes[at + 1] = 1;
    }
    return count;
}

/* Where many prefixes have departed, fewer of them are told beside options, and the whole has never more than 1,232 bytes. */
static void departed_make_room(void)
{
    static uint8_t bytes[MOST_ADVERT];
    hn_router router = {0};
    size_t count = 0;
    make(&router, EARLIER);
    CHECK(hn_router_advertise(&router, LINK, &count, room, MOST_ADVERT) == 0 && count == MOST_ADVERT);
    for (size_t options = 0; options <= MOST_BESIDE; options += 8) {
        many(bytes, options);
        CHECK(hn_router_advertise_with(&router, LINK, bytes, options, &count, room, MOST_ADVERT) == 0);
        CHECK(count <= MOST_ADVERT && count + OPTION > MOST_ADVERT);
        CHECK((count - options - HEADER) % OPTION == 0 && memcmp(room + count - options, bytes, options) == 0);
    }
    size_t most = MOST_ADVERT - HEADER - OPTION;
    CHECK(hn_router_advertise_with(&router, LINK, bytes, many(bytes, most), &count, room, MOST_ADVERT) == 0 && count == MOST_ADVERT);
    CHECK(hn_router_advertise_with(&router, LINK, bytes, many(bytes, most + 8), &count, room, sizeof room) == 2);
    CHECK(count == MOST_ADVERT + 8);
    hn_router_free(&router);
}

int main(void)
{
    options_come_last();
    others_are_refused();
    departed_make_room();
    printf("beside: options of %d bytes have room, however many prefixes have departed\n", MOST_BESIDE);
    return 0;
}

/* What is kept over a restart of the program: a link has its prefix again where that is free, whatever the random words are,
 * and hosts are told of prefixes that an earlier life advertised. */
#include "advert.h"

enum { OTHER_LINK = 2, LIVES = 20, LATE_LIVES = 256, PLACES = 16, MOST_PAIRS = 512, MOST_EARLIER = 64, SECOND = 1000 };

static const uint8_t wanted[16] = {0x20, 0x01, 0x0d, 0xb8, 0, 0, 0xab, 0xcd};
static const uint8_t elsewhere[16] = {0x20, 0x01, 0x0d, 0xb9, 0, 0, 0xab, 0xcd};

/* A router with a delegated prefix and two links. */
static void make_in(hn_router *router, uint8_t life, uint8_t length)
{
    uint8_t seed[32];
    seed_of(seed, life);
    CHECK(hn_router_new(router, 7, 0, seed) == 0);
    CHECK(hn_router_attach(router, 0, LINK) == 0 && hn_router_attach(router, 0, OTHER_LINK) == 0);
    CHECK(hn_router_external(router, 0, some_prefix, length, 36000, 18000) == 0);
}

static void make(hn_router *router, uint8_t life)
{
    make_in(router, life, 48);
}

static void run_for(hn_router *router, uint64_t seconds)
{
    uint64_t until = hn_router_moment(router) + seconds * SECOND;
    while (hn_router_moment(router) < until) {
        uint64_t due = hn_router_due(router), next = hn_router_moment(router) + 1;
        CHECK(hn_router_tick(router, due > next ? (due < until ? due : until) : next) == 0);
    }
}

/* The prefix of a link. */
static hn_assigned assigned_to(hn_router *router, uint32_t endpoint)
{
    hn_assigned it = {0};
    for (size_t place = 0; hn_router_assigned(router, place, &it) == 0; place++) {
        if (it.endpoint == endpoint)
            return it;
    }
    CHECK(!"the link has a prefix");
    return it;
}

static bool has(hn_router *router, uint32_t endpoint, const uint8_t prefix[16])
{
    hn_assigned it = assigned_to(router, endpoint);
    return it.length == 64 && memcmp(it.prefix, prefix, 16) == 0;
}

/* The links have their prefixes again in each life, also where both want the same: then one has it, and the other one another. */
static void prefixes_are_kept(void)
{
    for (uint8_t life = 0; life < LIVES; life++) {
        hn_router router = {0};
        uint8_t second[16];
        memcpy(second, wanted, 16);
        second[7] = (uint8_t)(second[7] + (life % 2));
        make(&router, life);
        CHECK(hn_router_prefer(&router, LINK, some_prefix, 48, wanted, 64) == 0);
        CHECK(hn_router_prefer(&router, OTHER_LINK, some_prefix, 48, second, 64) == 0);
        run_for(&router, 20);
        bool first = has(&router, LINK, wanted), other = has(&router, OTHER_LINK, second);
        CHECK(life % 2 != 0 ? first && other : first != other);
        CHECK(hn_router_assignments(&router) == 2);
        hn_router_free(&router);
    }
}

/* A router whose delegated prefix has 16 prefixes for links. Both links wait for theirs, and get them in one tick. */
static void make_late(hn_router *router, uint8_t life, const uint8_t first[16], const uint8_t second[16])
{
    make_in(router, life, 60);
    if (first != NULL)
        CHECK(hn_router_prefer(router, LINK, some_prefix, 60, first, 64) == 0);
    if (second != NULL)
        CHECK(hn_router_prefer(router, OTHER_LINK, some_prefix, 60, second, 64) == 0);
    CHECK(hn_router_tick(router, 1) == 0 && hn_router_assignments(router) == 0);
    CHECK(hn_router_tick(router, 20 * SECOND) == 0 && hn_router_assignments(router) == 2);
}

static uint8_t place_of(hn_router *router, uint32_t endpoint)
{
    return assigned_to(router, endpoint).prefix[7];
}

/* The random words give the second link its prefix, and the first one another. With that of the first link the words would give
 * the second one another, where both name one place: it got the next one. Both links have theirs all the same. */
static void one_costs_no_other(void)
{
    int tried = 0;
    for (int life = 0; life < LATE_LIVES; life++) {
        hn_router router = {0};
        uint8_t first[16], second[16];
        make_late(&router, (uint8_t)life, NULL, NULL);
        uint8_t place = place_of(&router, LINK), next = place_of(&router, OTHER_LINK);
        hn_router_free(&router);
        if (next != (place + 1) % PLACES)
            continue;
        memcpy(first, some_prefix, 16);
        memcpy(second, some_prefix, 16);
        first[7] = (uint8_t)((next + 1) % PLACES);
        second[7] = next;
        make_late(&router, (uint8_t)life, first, second);
        CHECK(has(&router, LINK, first) && has(&router, OTHER_LINK, second));
        hn_router_free(&router);
        tried++;
    }
    CHECK(tried >= LATE_LIVES / PLACES);
}

/* Where both links want one prefix in one tick, the first one has it, since its turn comes first. */
static void first_one_has_it(void)
{
    for (uint8_t life = 0; life < LIVES; life++) {
        hn_router router = {0};
        uint8_t one[16];
        memcpy(one, some_prefix, 16);
        one[7] = life % PLACES;
        make_late(&router, life, one, one);
        CHECK(has(&router, LINK, one) && !has(&router, OTHER_LINK, one));
        hn_router_free(&router);
    }
}

/* Without it the links have other prefixes; what is preferred elsewhere serves nothing, and what is assigned stays. */
static void nothing_else_changes(void)
{
    hn_router plain = {0}, router = {0};
    make(&plain, 1);
    make(&router, 1);
    CHECK(hn_router_prefer(&router, LINK, elsewhere, 32, elsewhere, 64) == 2);
    CHECK(hn_router_prefer(&router, LINK, some_prefix, 48, wanted, 63) == 2);
    CHECK(hn_router_prefer(&router, 3, some_prefix, 48, wanted, 64) == 0);
    run_for(&plain, 20);
    run_for(&router, 20);
    hn_assigned before = assigned_to(&plain, LINK), after = assigned_to(&router, LINK);
    CHECK(memcmp(before.prefix, after.prefix, 16) == 0 && memcmp(before.prefix, wanted, 16) != 0);
    CHECK(hn_router_prefer(&router, LINK, some_prefix, 48, wanted, 64) == 0);
    run_for(&router, 60);
    after = assigned_to(&router, LINK);
    CHECK(memcmp(before.prefix, after.prefix, 16) == 0);
    hn_router_free(&plain);
    hn_router_free(&router);
}

/* Another router has the prefix already: it keeps it, and this one gets another one. */
static void others_keep_theirs(void)
{
    struct home home;
    begin(&home, 2);
    CHECK(hn_router_attach(&home.routers[1], home.now, OTHER_LINK) == 0);
    live(&home, 30 * SECOND);
    hn_assigned shared = assigned_to(&home.routers[1], LINK);
    CHECK(hn_router_detach(&home.routers[1], home.now, OTHER_LINK) == 0);
    CHECK(hn_router_prefer(&home.routers[1], OTHER_LINK, some_prefix, 48, shared.prefix, 64) == 0);
    CHECK(hn_router_attach(&home.routers[1], home.now, OTHER_LINK) == 0);
    live(&home, 60 * SECOND);
    CHECK(has(&home.routers[1], LINK, shared.prefix) && !has(&home.routers[1], OTHER_LINK, shared.prefix));
    end(&home);
}

/* A delegated prefix of 32 bits has a place for each word. One of fewer bits is refused, as is a prefix of more than 64. */
static void ranges(void)
{
    static const uint8_t last[16] = {0x20, 0x01, 0x0d, 0xb8, 0xff, 0xff, 0xff, 0xff};
    static const uint8_t short_one[16] = {0x20};
    hn_router router = {0};
    uint8_t seed[32], long_one[16], delegated[16];
    seed_of(seed, 3);
    CHECK(hn_router_new(&router, 7, 0, seed) == 0 && hn_router_attach(&router, 0, LINK) == 0);
    CHECK(hn_router_external(&router, 0, some_prefix, 32, 36000, 18000) == 0);
    CHECK(hn_router_prefer(&router, LINK, some_prefix, 32, last, 64) == 0);
    run_for(&router, 20);
    CHECK(has(&router, LINK, last));
    CHECK(hn_router_prefer(&router, LINK, short_one, 8, last, 64) == 2);
    memcpy(long_one, last, 16);
    long_one[8] = 0x80;
    CHECK(hn_router_prefer(&router, LINK, some_prefix, 32, long_one, 65) == 2);
    CHECK(hn_router_prefer(&router, LINK, last, 64, some_prefix, 32) == 2);
    CHECK(hn_router_prefer(&router, LINK, some_prefix, 129, last, 64) == 2);
    memcpy(delegated, some_prefix, 16);
    for (int pair = 1; pair < MOST_PAIRS; pair++) {
        delegated[4] = (uint8_t)(pair >> 8);
        delegated[5] = (uint8_t)pair;
        CHECK(hn_router_prefer(&router, LINK, delegated, 48, delegated, 64) == 0);
    }
    CHECK(hn_router_prefer(&router, OTHER_LINK, some_prefix, 48, wanted, 64) == 2);
    CHECK(hn_router_prefer(&router, LINK, delegated, 48, delegated, 60) == 0);
    hn_router_free(&router);
}

/* What was advertised is told to the next life, and by that to hosts, until it ends. */
static void hosts_are_told(void)
{
    hn_router router = {0}, next = {0};
    hn_departed told = {0};
    struct advert it;
    make(&router, 1);
    CHECK(hn_router_departures(&router) == 0 && hn_router_departed(&router, 0, &told) == 2);
    run_for(&router, 20);
    advertise(&router, LINK, &it);
    CHECK(hn_router_departures(&router) == 1 && hn_router_departed(&router, 1, &told) == 2);
    CHECK(hn_router_departed(&router, 0, &told) == 0 && told.endpoint == LINK && told.length == 64 && told.departed == 0);
    CHECK(told.valid == it.told[0].valid && has(&router, LINK, told.prefix));

    make(&next, 2);
    CHECK(hn_router_depart(&next, LINK, told.prefix, told.length, told.valid) == 0);
    CHECK(hn_router_depart(&next, LINK, told.prefix, told.length, told.valid) == 0 && hn_router_departures(&next) == 1);
    run_for(&next, 20);
    advertise(&next, LINK, &it);
    CHECK(it.count == 2 && preferred_in(&it) == 1);
    CHECK(memcmp(it.told[1].prefix, told.prefix, 16) == 0 && it.told[1].valid == 7200 && it.told[1].preferred == 0);
    CHECK(hn_router_departed(&next, 1, &told) == 0 && told.departed == 1 && told.valid == 7200);
    advertise(&next, OTHER_LINK, &it);
    CHECK(it.count == 1);
    run_for(&next, 7200);
    advertise(&next, LINK, &it);
    CHECK(it.count == 1);
    hn_router_free(&router);
    hn_router_free(&next);
}

/* At most 64 of an earlier life are taken for an endpoint. */
static void few_are_taken(void)
{
    hn_router router = {0};
    uint8_t prefix[16];
    make(&router, 1);
    memcpy(prefix, wanted, 16);
    for (int count = 0; count < MOST_EARLIER; count++) {
        prefix[7] = (uint8_t)count;
        CHECK(hn_router_depart(&router, LINK, prefix, 64, 60) == 0);
    }
    CHECK(hn_router_depart(&router, LINK, prefix, 64, 90) == 0);
    CHECK(hn_router_depart(&router, LINK, wanted, 64, 90) == 2);
    CHECK(hn_router_depart(&router, OTHER_LINK, wanted, 64, 90) == 0);
    CHECK(hn_router_depart(&router, OTHER_LINK, wanted, 63, 90) == 2);
    CHECK(hn_router_departures(&router) == MOST_EARLIER + 1);
    hn_router_free(&router);
}

int main(void)
{
    prefixes_are_kept();
    one_costs_no_other();
    first_one_has_it();
    nothing_else_changes();
    others_keep_theirs();
    ranges();
    hosts_are_told();
    few_are_taken();
    printf("remembered: %d lives kept their prefixes, and hosts are told of those before\n", LIVES);
    return 0;
}

/* Prefixes come and go for hours: a router needs no more memory after 1,000 rounds than after 10, each advertisement has at
 * most 1,232 bytes, and restart and detach forget nothing that a host may still hold. */
#include "advert.h"

extern size_t held_bytes;

enum { ROUNDS = 1000, FIRST_ROUNDS = 10, EACH_ROUND = 8, KEPT = 64, SECOND = 1000 };

static uint64_t now;

static void prefix_of(uint8_t prefix[16], int round, int place)
{
    const uint32_t serial = (uint32_t)(round * EACH_ROUND + place);
    memset(prefix, 0, 16);
    prefix[0] = 0x20;
    prefix[1] = 0x01;
    prefix[3] = (uint8_t)(serial >> 8);
    prefix[4] = (uint8_t)serial;
}

static void pass(hn_router *router, int seconds)
{
    for (int second = 0; second < seconds; second++) {
        now += SECOND;
        CHECK(hn_router_tick(router, now) == 0);
    }
}

/* Eight prefixes are delegated, applied, advertised, and withdrawn again. */
static void one_round(hn_router *router, int round)
{
    struct advert it;
    uint8_t prefix[16];
    for (int place = 0; place < EACH_ROUND; place++) {
        prefix_of(prefix, round, place);
        CHECK(hn_router_external(router, now, prefix, 48, UINT32_MAX, UINT32_MAX) == 0);
    }
    pass(router, 20);
    advertise(router, LINK, &it);
    CHECK(preferred_in(&it) == EACH_ROUND);
    for (int place = 0; place < EACH_ROUND; place++) {
        prefix_of(prefix, round, place);
        CHECK(hn_router_withdraw(router, now, prefix, 48) == 0);
    }
    pass(router, 1);
    advertise(router, LINK, &it);
    CHECK(preferred_in(&it) == 0);
    for (int place = 0; place < EACH_ROUND; place++) {
        prefix_of(prefix, round, place);
        const struct told *told = told_inside(&it, prefix);
        CHECK(told != NULL && told->valid == 7200);
    }
}

/* How many bytes the router holds after an event that sends nothing. */
static size_t held_by(hn_router *router)
{
    do
        pass(router, 1);
    while (hn_router_sends(router) != 0 || hn_router_notes(router) != 0);
    return held_bytes;
}

/* How many prefixes two advertisements tell together: all that are kept, where nothing is held. */
static size_t told_by_two(hn_router *router)
{
    struct advert first, second;
    advertise(router, LINK, &first);
    advertise(router, LINK, &second);
    size_t count = first.count;
    for (size_t place = 0; place < second.count; place++)
        count += told_inside(&first, second.told[place].prefix) == NULL;
    return count;
}

int main(void)
{
    hn_router router = {0};
    uint8_t seed[32];
    size_t held_after_first = 0;
    seed_of(seed, 1);
    CHECK(hn_router_new(&router, 1, now, seed) == 0 && hn_router_attach(&router, now, LINK) == 0);
    for (int round = 0; round < ROUNDS; round++) {
        one_round(&router, round);
        if (round + 1 == FIRST_ROUNDS)
            held_after_first = held_by(&router);
    }
    CHECK(held_by(&router) <= held_after_first);
    CHECK(told_by_two(&router) == KEPT);
    CHECK(hn_router_restart(&router, now) == 0 && told_by_two(&router) == KEPT);
    CHECK(hn_router_detach(&router, now, LINK) == 0 && told_by_two(&router) == KEPT);
    hn_router_free(&router);
    CHECK(held_bytes == 0);
    printf("departed: %zu bytes are held after %d rounds, as after %d\n", held_after_first, ROUNDS, FIRST_ROUNDS);
    return 0;
}

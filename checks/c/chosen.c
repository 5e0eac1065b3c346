/* What routers choose for themselves: a ULA prefix where there is no other, and an address in each applied prefix. */
#include "advert.h"

enum { NODE_ADDRESS_TLV = 36, MOST_DATA = 60000, SECOND = 1000 };

#define NEVER_ENDS UINT64_MAX

static const uint8_t uplink[16] = {0x20, 0x01, 0x0d, 0xb8};

/* Routers on one link, of which nobody has a delegated prefix. */
static void begin_without_uplink(struct home *home, size_t count)
{
    begin(home, count);
    CHECK(hn_router_withdraw(&home->routers[0], home->now, some_prefix, 48) == 0);
    carry(home, 0);
    live(home, home->now + 60 * SECOND);
}

/* Each router of the home may decide, as of now. */
static void decide(struct home *home)
{
    for (size_t router = 0; router < home->count; router++) {
        CHECK(hn_router_choose_ula(&home->routers[router], home->now) == 0);
        carry(home, router);
    }
}

/* The one delegated prefix that a router uses is a /48 inside fd00::/8 that never ends (RFC 4193, section 3.1). */
static void uses_a_ula(hn_router *router, hn_used *used)
{
    CHECK(hn_router_used(router, 0, used) == 0 && hn_router_used(router, 1, &(hn_used){0}) == 2);
    CHECK(used->length == 48 && used->prefix[0] == 0xfd && used->valid == NEVER_ENDS && used->preferred == NEVER_ENDS);
}

/* Where nobody has a prefix, one of the routers announces one, and each link gets a part of it. It goes when another comes. */
static void a_ula_prefix(void)
{
    static struct home home;
    hn_used used, other;
    hn_assigned assigned;
    begin_without_uplink(&home, 3);
    CHECK(hn_router_used(&home.routers[0], 0, &used) == 2);
    decide(&home);
    live(&home, home.now + 60 * SECOND);
    uses_a_ula(&home.routers[0], &used);
    for (size_t router = 1; router < home.count; router++) {
        uses_a_ula(&home.routers[router], &other);
        CHECK(memcmp(used.prefix, other.prefix, 16) == 0);
    }
    CHECK(hn_router_assigned(&home.routers[1], 0, &assigned) == 0 && assigned.applied == 1);
    CHECK(memcmp(assigned.prefix, used.prefix, 6) == 0);
    decide(&home);
    live(&home, home.now + SECOND);
    uses_a_ula(&home.routers[0], &other);
    CHECK(memcmp(used.prefix, other.prefix, 16) == 0);

    CHECK(hn_router_external(&home.routers[0], home.now, uplink, 48, 7200, 3600) == 0);
    carry(&home, 0);
    live(&home, home.now + 10 * SECOND);
    decide(&home);
    live(&home, home.now + 10 * SECOND);
    CHECK(hn_router_used(&home.routers[2], 0, &used) == 0 && memcmp(used.prefix, uplink, 16) == 0);
    CHECK(hn_router_used(&home.routers[2], 1, &used) == 2);
    end(&home);
}

/* Two routers with other random words make other prefixes: the Global ID is random (RFC 4193, section 3.2). */
static void others_are_others(void)
{
    hn_used first, second;
    for (uint8_t life = 0; life < 2; life++) {
        hn_router router = {0};
        uint8_t seed[32];
        seed_of(seed, life);
        CHECK(hn_router_new(&router, 7, 0, seed) == 0 && hn_router_attach(&router, 0, LINK) == 0);
        CHECK(hn_router_choose_ula(&router, 1) == 0 && hn_router_moment(&router) == 1);
        uses_a_ula(&router, life == 0 ? &first : &second);
        hn_router_free(&router);
    }
    CHECK(memcmp(first.prefix, second.prefix, 16) != 0);
}

/* Whether the router publishes the address, as a Node-Address of the endpoint (RFC 7788, section 10.4). */
static bool publishes(hn_router *router, const hn_address *own)
{
    static uint8_t data[MOST_DATA];
    size_t count = 0;
    CHECK(hn_router_published(router, &count, data, sizeof data) == 0);
    for (size_t at = 0; at + 24 <= count; at += 4) {
        if (number_at(data + at) == (NODE_ADDRESS_TLV << 16 | 20) && number_at(data + at + 4) == own->endpoint
            && memcmp(data + at + 8, own->address, 16) == 0)
            return true;
    }
    return false;
}

/* A router has one address of its own, inside the prefix that is applied to the link. */
static void has_an_address(hn_router *router, hn_address *own)
{
    hn_assigned assigned;
    CHECK(hn_router_own_addresses(router) == 1 && hn_router_own_address(router, 0, own) == 0);
    CHECK(hn_router_own_address(router, 1, &(hn_address){0}) == 2);
    CHECK(hn_router_assigned(router, 0, &assigned) == 0 && assigned.applied == 1);
    CHECK(own->endpoint == LINK && memcmp(own->address, assigned.prefix, 8) == 0);
    CHECK(memcmp(own->address, assigned.prefix, 16) != 0 && publishes(router, own));
}

/* Each router takes an address in the applied prefix, which no other has, and keeps it until the prefix goes. */
static void addresses(void)
{
    static struct home home;
    hn_address own[3], again;
    begin(&home, 3);
    CHECK(hn_router_choose_addresses(&home.routers[0], home.now) == 0 && hn_router_own_addresses(&home.routers[0]) == 0);
    carry(&home, 0);
    live(&home, 60 * SECOND);
    for (size_t router = 0; router < home.count; router++) {
        CHECK(hn_router_own_addresses(&home.routers[router]) == 0);
        CHECK(hn_router_choose_addresses(&home.routers[router], home.now) == 0);
        carry(&home, router);
        live(&home, home.now + SECOND);
        has_an_address(&home.routers[router], &own[router]);
        for (size_t other = 0; other < router; other++)
            CHECK(memcmp(own[router].address, own[other].address, 16) != 0);
    }
    uint32_t number = hn_router_number(&home.routers[1]);
    CHECK(hn_router_choose_addresses(&home.routers[1], home.now) == 0 && hn_router_number(&home.routers[1]) == number);
    has_an_address(&home.routers[1], &again);
    CHECK(memcmp(&again.address, &own[1].address, 16) == 0);
    CHECK(hn_router_withdraw(&home.routers[0], home.now, some_prefix, 48) == 0);
    carry(&home, 0);
    live(&home, home.now + 60 * SECOND);
    CHECK(hn_router_choose_addresses(&home.routers[1], home.now) == 0 && hn_router_own_addresses(&home.routers[1]) == 0);
    end(&home);
}

static void out_of_range(void)
{
    hn_router router = {0};
    uint8_t seed[32];
    seed_of(seed, 3);
    CHECK(hn_router_new(&router, 7, 5, seed) == 0);
    CHECK(hn_router_choose_ula(&router, 4) == 2 && hn_router_choose_ula(&router, (UINT64_C(1) << 48) + 1) == 2);
    CHECK(hn_router_choose_addresses(&router, 4) == 2 && hn_router_choose_addresses(&router, (UINT64_C(1) << 48) + 1) == 2);
    CHECK(hn_router_moment(&router) == 5);
    hn_router_free(&router);
}

int main(void)
{
    a_ula_prefix();
    others_are_others();
    addresses();
    out_of_range();
    puts("chosen: a ULA prefix where there is no other, and an address in each applied prefix");
    return 0;
}

/* Each call with a handle that has no router: one that is zero, one of a router that was given up, and one of a router that
 * was not made. */
#include "home.h"

static uint8_t room[64];

static void no_event_happens(hn_router *router)
{
    static const hn_address own = {.endpoint = LINK, .address = {0x20}};
    uint8_t source[16];
    link_local(source, 7);
    CHECK(hn_router_tick(router, 5) == 2);
    CHECK(hn_router_attach(router, 5, LINK) == 2);
    CHECK(hn_router_detach(router, 5, LINK) == 2);
    CHECK(hn_router_arrive(router, 5, LINK, true, source, 8231, room, 0) == 2);
    CHECK(hn_router_external(router, 5, some_prefix, 48, 60, 30) == 2);
    CHECK(hn_router_withdraw(router, 5, some_prefix, 48) == 2);
    CHECK(hn_router_caps(router, 5, 1, 2, 3, 4) == 2);
    CHECK(hn_router_private(router, 5, 60) == 2);
    CHECK(hn_router_addresses(router, 5, &own, 1) == 2);
    CHECK(hn_router_restart(router, 5) == 2);
    CHECK(hn_router_choose_ula(router, 5) == 2);
    CHECK(hn_router_choose_addresses(router, 5) == 2);
}

static void nothing_is_counted(hn_router *router)
{
    uint8_t hash[8] = {1, 2, 3, 4, 5, 6, 7, 8};
    static const uint8_t as_before[8] = {1, 2, 3, 4, 5, 6, 7, 8};
    hn_router_network_hash(router, hash);
    CHECK(memcmp(hash, as_before, 8) == 0);
    CHECK(hn_router_due(router) == UINT64_C(1) << 49);
    CHECK(hn_router_moment(router) == 0 && hn_router_identifier(router) == 0 && hn_router_number(router) == 0);
    CHECK(hn_router_sends(router) == 0 && hn_router_notes(router) == 0);
    CHECK(hn_router_assignments(router) == 0 && hn_router_nodes(router) == 0);
    CHECK(hn_router_peers(router, LINK) == 0 && hn_router_known(router) == 0 && hn_router_own_addresses(router) == 0);
}

static void nothing_is_reported(hn_router *router)
{
    hn_sent sent = {.endpoint = 77};
    hn_note note = {.number = 77};
    hn_assigned assigned = {.endpoint = 77};
    hn_used used = {.valid = 77};
    hn_elected elected = {.id = 77};
    hn_address own = {.endpoint = 77};
    uint32_t id = 77;
    size_t count = 77;
    room[0] = 77;
    CHECK(hn_router_send(router, 0, &sent, &count, room, sizeof room) == 2 && sent.endpoint == 77);
    CHECK(hn_router_note(router, 0, &note) == 2 && note.number == 77);
    CHECK(hn_router_assigned(router, 0, &assigned) == 2 && assigned.endpoint == 77);
    CHECK(hn_router_node(router, 0, &id) == 2 && id == 77);
    CHECK(hn_router_own_address(router, 0, &own) == 2 && own.endpoint == 77);
    CHECK(hn_router_used(router, 0, &used) == 2 && used.valid == 77);
    CHECK(hn_router_elected(router, LINK, 0, &elected) == 2 && elected.id == 77);
    CHECK(hn_router_advert(router, LINK, &count, room, sizeof room) == 2);
    CHECK(hn_router_advertise(router, LINK, &count, room, sizeof room) == 2);
    CHECK(hn_router_advertise_with(router, LINK, room, 0, &count, room + 1, sizeof room - 1) == 2);
    CHECK(count == 77 && room[0] == 77 && room[1] == 0);
}

static void nobody_is_known(hn_router *router)
{
    hn_peer peer = {.id = 77};
    hn_known known = {.id = 77};
    size_t count = 77;
    room[0] = 77;
    CHECK(hn_router_peer(router, LINK, 0, &peer) == 2 && peer.id == 77);
    CHECK(hn_router_data(router, 0, &known, &count, room, sizeof room) == 2 && known.id == 77);
    CHECK(hn_router_published(router, &count, room, sizeof room) == 2);
    CHECK(count == 77 && room[0] == 77);
}

static void nothing_is_kept(hn_router *router)
{
    hn_departed departed = {.endpoint = 77};
    CHECK(hn_router_prefer(router, LINK, some_prefix, 48, some_prefix, 64) == 2);
    CHECK(hn_router_depart(router, LINK, some_prefix, 64, 60) == 2);
    CHECK(hn_router_departures(router) == 0);
    CHECK(hn_router_departed(router, 0, &departed) == 2 && departed.endpoint == 77);
}

static void has_no_router(hn_router *router)
{
    CHECK(router->at == NULL);
    no_event_happens(router);
    nothing_is_counted(router);
    nothing_is_reported(router);
    nobody_is_known(router);
    nothing_is_kept(router);
    hn_router_free(router);
    CHECK(router->at == NULL);
}

int main(void)
{
    static hn_router router, never_made;
    uint8_t seed[32];
    seed_of(seed, 4);
    has_no_router(&router);
    CHECK(hn_router_new(&never_made, 1, (UINT64_C(1) << 48) + 1, seed) == 2);
    has_no_router(&never_made);
    CHECK(hn_router_new(&router, 1, 3, seed) == 0);
    CHECK(hn_router_new(&router, 2, 3, seed) == 2 && hn_router_identifier(&router) == 1);
    hn_router_free(&router);
    hn_router_free(&router);
    has_no_router(&router);
    CHECK(hn_router_new(&router, 2, 3, seed) == 0 && hn_router_identifier(&router) == 2);
    hn_router_free(&router);
    puts("handles: each call with a handle that has no router answers so");
    return 0;
}

/* Each event and each report of the library, in a home of two routers. */
#include "advert.h"

static uint8_t room[MOST_BYTES];

/* Whether the last event was noted with such a kind, and no other. */
static bool noted(hn_router *router, uint8_t kind)
{
    hn_note note;
    return hn_router_notes(router) == 1 && hn_router_note(router, 0, &note) == 0 && note.kind == kind
        && hn_router_note(router, 1, &note) == 2;
}

static void values_out_of_range(hn_router *router, uint64_t now)
{
    static const uint8_t no_prefix[16] = {[15] = 1};
    hn_elected elected;
    hn_assigned assigned;
    hn_used used;
    hn_sent sent;
    uint32_t id;
    size_t count = 0;
    uint64_t due = hn_router_due(router);
    CHECK(hn_router_tick(router, now - 1) == 2);
    CHECK(hn_router_tick(router, (UINT64_C(1) << 48) + 1) == 2);
    CHECK(hn_router_external(router, now, no_prefix, 64, 1, 1) == 2);
    CHECK(hn_router_external(router, now, some_prefix, 129, 1, 1) == 2);
    CHECK(hn_router_external(router, now, some_prefix, 48, 1, 2) == 2);
    CHECK(hn_router_withdraw(router, now, no_prefix, 64) == 2);
    CHECK(hn_router_caps(router, now, 0, 16, 0, 0) == 2);
    CHECK(hn_router_private(router, now, 65) == 2);
    CHECK(hn_router_elected(router, LINK, 4, &elected) == 2);
    CHECK(hn_router_elected(router, LINK + 1, 0, &elected) == 2);
    CHECK(hn_router_assigned(router, hn_router_assignments(router), &assigned) == 2);
    CHECK(hn_router_used(router, 32, &used) == 2);
    CHECK(hn_router_node(router, hn_router_nodes(router), &id) == 2);
    CHECK(hn_router_send(router, hn_router_sends(router), &sent, &count, room, sizeof room) == 2);
    CHECK(hn_router_advert(router, LINK + 1, &count, room, sizeof room) == 2 && count == 0);
    CHECK(hn_router_advert(router, LINK, &count, room, 15) == 2 && count >= 16);
    CHECK(hn_router_moment(router) == now && hn_router_due(router) == due);
}

static void refused_events(hn_router *router, uint64_t now)
{
    uint8_t source[16];
    const hn_address far_away[1] = {{.endpoint = 9, .address = {0x20}}};
    link_local(source, 7);
    CHECK(hn_router_attach(router, now, 0) == 0 && noted(router, 7));
    CHECK(hn_router_attach(router, now, LINK) == 0 && noted(router, 7));
    CHECK(hn_router_detach(router, now, 5) == 0 && noted(router, 7));
    CHECK(hn_router_arrive(router, now, 5, true, source, 8231, room, 0) == 0 && noted(router, 7));
    CHECK(hn_router_addresses(router, now, far_away, 1) == 0 && noted(router, 7));
    source[0] = 0x20;
    CHECK(hn_router_arrive(router, now, LINK, true, source, 8231, room, 0) == 0 && noted(router, 1));
    link_local(source, 7);
    CHECK(hn_router_arrive(router, now, LINK, true, source, 8231, (const uint8_t *)"abc", 3) == 0 && noted(router, 2));
}

static bool agree(struct home *home)
{
    uint8_t one[8], two[8];
    hn_router_network_hash(&home->routers[0], one);
    hn_router_network_hash(&home->routers[1], two);
    return memcmp(one, two, 8) == 0;
}

static void prefixes_of(hn_router *router)
{
    hn_used used;
    hn_assigned assigned;
    CHECK(hn_router_used(router, 0, &used) == 0);
    CHECK(used.length == 48 && memcmp(used.prefix, some_prefix, 16) == 0);
    CHECK(used.preferred <= used.valid && used.valid <= 3600 * 1000);
    CHECK(hn_router_assignments(router) == 1);
    CHECK(hn_router_assigned(router, 0, &assigned) == 0);
    CHECK(assigned.endpoint == LINK && assigned.length == 64 && assigned.applied == 1);
    CHECK(memcmp(assigned.prefix, some_prefix, 6) == 0);
    CHECK(assigned.delegated_length == 48 && memcmp(assigned.delegated, some_prefix, 16) == 0);
}

static void advertisement_of(hn_router *router)
{
    hn_assigned assigned;
    size_t count = 0;
    CHECK(hn_router_assigned(router, 0, &assigned) == 0);
    CHECK(hn_router_advert(router, LINK, &count, room, sizeof room) == 0);
    CHECK(count == 48 && room[0] == 134 && room[1] == 0);
    CHECK(room[16] == 3 && room[17] == 4 && room[18] == 64 && memcmp(room + 32, assigned.prefix, 16) == 0);
}

/* Whether the next advertisement on an endpoint has a prefix, and its lifetimes. */
static bool is_told(hn_router *router, uint32_t endpoint, const uint8_t prefix[16], uint32_t *valid, uint32_t *preferred)
{
    static struct advert it;
    advertise(router, endpoint, &it);
    const struct told *told = told_inside(&it, prefix);
    if (told == NULL)
        return false;
    *valid = told->valid;
    *preferred = told->preferred;
    return true;
}

/* A prefix that was advertised and is no longer is told without preference until its valid lifetime has ended. */
static void departed_prefix(struct home *home)
{
    hn_router *router = &home->routers[0];
    hn_assigned assigned;
    uint32_t valid = 0, preferred = 0;
    size_t count = 0, wanted = 0;
    CHECK(hn_router_assigned(router, 0, &assigned) == 0);
    CHECK(is_told(router, LINK, assigned.prefix, &valid, &preferred) && 0 < preferred && preferred <= valid);
    CHECK(hn_router_advert(router, LINK, &wanted, room, sizeof room) == 0 && wanted == 48);

    CHECK(hn_router_withdraw(router, home->now, some_prefix, 48) == 0);
    hn_used used;
    CHECK(hn_router_used(router, 0, &used) == 2 && hn_router_due(router) <= home->now);
    live(home, home->now + 10 * 1000);
    CHECK(hn_router_assignments(router) == 0);
    CHECK(hn_router_advert(router, LINK, &wanted, room, sizeof room) == 0 && wanted == 16);
    CHECK(hn_router_advertise(router, LINK, &count, room, 47) == 2 && count == 48);
    CHECK(!is_told(router, LINK + 1, assigned.prefix, &valid, &preferred));
    CHECK(is_told(router, LINK, assigned.prefix, &valid, &preferred) && preferred == 0 && 0 < valid && valid < 3600);
    uint32_t left = valid;
    live(home, home->now + 60 * 1000);
    CHECK(is_told(router, LINK, assigned.prefix, &valid, &preferred) && preferred == 0 && valid == left - 60);
    CHECK(hn_router_restart(router, home->now) == 0);
    CHECK(is_told(router, LINK, assigned.prefix, &valid, &preferred) && preferred == 0);
    live(home, home->now + (valid + 1) * UINT64_C(1000));
    CHECK(!is_told(router, LINK, assigned.prefix, &valid, &preferred));
}

int main(void)
{
    struct home home;
    uint8_t seed[32];
    hn_router late = {0};
    seed_of(seed, 9);
    CHECK(hn_router_new(&late, 1, (UINT64_C(1) << 48) + 1, seed) == 2 && late.at == NULL);

    begin(&home, 2);
    live(&home, 60 * 1000);
    CHECK(agree(&home));
    for (size_t router = 0; router < 2; router++) {
        hn_router *it = &home.routers[router];
        uint32_t first = 0, second = 0;
        CHECK(hn_router_identifier(it) == 100 + router && hn_router_number(it) > 1);
        CHECK(hn_router_nodes(it) == 2 && hn_router_node(it, 0, &first) == 0 && hn_router_node(it, 1, &second) == 0);
        CHECK(first == 100 && second == 101);
        prefixes_of(it);
        advertisement_of(it);
        values_out_of_range(it, home.now);
        refused_events(it, home.now);
    }

    hn_elected elected = {9, 9};
    CHECK(hn_router_elected(&home.routers[0], LINK, 2, &elected) == 0 && elected.some == 0 && elected.id == 0);
    CHECK(hn_router_caps(&home.routers[1], home.now, 0, 0, 7, 0) == 0);
    hn_address own = {.endpoint = LINK, .address = {0x20, 0x01, 0x0d, 0xb8, [15] = 5}};
    CHECK(hn_router_addresses(&home.routers[1], home.now, &own, 1) == 0 && hn_router_notes(&home.routers[1]) == 0);
    CHECK(hn_router_private(&home.routers[1], home.now, 63) == 0);
    live(&home, 90 * 1000);
    CHECK(agree(&home));
    CHECK(hn_router_elected(&home.routers[0], LINK, 2, &elected) == 0 && elected.some == 1 && elected.id == 101);
    CHECK(hn_router_assignments(&home.routers[1]) == 2);
    CHECK(hn_router_private(&home.routers[1], home.now, 0) == 0);
    CHECK(hn_router_assignments(&home.routers[1]) == 1);

    CHECK(hn_router_restart(&home.routers[1], home.now) == 0);
    CHECK(hn_router_nodes(&home.routers[1]) == 1);
    live(&home, 150 * 1000);
    CHECK(agree(&home) && hn_router_nodes(&home.routers[1]) == 2);

    departed_prefix(&home);
    CHECK(hn_router_detach(&home.routers[0], home.now, LINK) == 0);
    CHECK(hn_router_nodes(&home.routers[0]) == 1);
    end(&home);
    puts("events: each event and each report is as it should be");
    return 0;
}

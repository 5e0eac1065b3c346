/* What a router knows of others: its peers, and the data of each node, with the hash that these have. */
#include "advert.h"
#include "md5.h"

enum { ROUTERS = 3, PEER_TLV = 8, MOST_DATA = 60000, MOST_SILENT = 42, SECOND = 1000 };

static uint8_t room[MOST_DATA], own[MOST_DATA];

static bool is_peer_of(const hn_peer *peer, size_t router, uint64_t now)
{
    uint8_t address[16];
    link_local(address, router);
    return peer->id == 100 + router && peer->endpoint == LINK && peer->port == 8231
        && memcmp(peer->address, address, 16) == 0 && peer->contact <= now;
}

/* Each of the other routers on the link is a peer, once. */
static void peers_of(struct home *home, size_t which)
{
    hn_router *router = &home->routers[which];
    hn_peer peer;
    bool seen[ROUTERS] = {false};
    CHECK(hn_router_peers(router, LINK) == ROUTERS - 1);
    for (size_t place = 0; place < ROUTERS - 1; place++) {
        CHECK(hn_router_peer(router, LINK, place, &peer) == 0 && peer.id >= 100 && peer.id < 100 + ROUTERS);
        size_t other = peer.id - 100;
        CHECK(other != which && !seen[other] && is_peer_of(&peer, other, home->now));
        seen[other] = true;
    }
    peer.id = 77;
    CHECK(hn_router_peer(router, LINK, ROUTERS - 1, &peer) == 2 && peer.id == 77);
    CHECK(hn_router_peers(router, LINK + 1) == 0);
    CHECK(hn_router_peer(router, LINK + 1, 0, &peer) == 2 && peer.id == 77);
}

/* Whether the data have a Peer TLV (RFC 7787, section 7.3.1) of a node, its endpoint and the own one. Data are TLVs: a type and a
 * length of two bytes each, the value, and zeros up to a multiple of four. */
static bool name_peer(const uint8_t *data, size_t count, uint32_t id)
{
    bool named = false;
    size_t at = 0;
    while (at < count) {
        CHECK(at + 4 <= count);
        size_t kind = (size_t)data[at] << 8 | data[at + 1], length = (size_t)data[at + 2] << 8 | data[at + 3];
        CHECK(at + 4 + length <= count);
        if (kind == PEER_TLV && length == 12 && number_at(data + at + 4) == id)
            named |= number_at(data + at + 8) == LINK && number_at(data + at + 12) == LINK;
        at += 4 + (length + 3) / 4 * 4;
    }
    CHECK(at == count);
    return named;
}

/* What a router knows of another is what that published. */
static void data_are_those_of(struct home *home, size_t which, size_t place, size_t other)
{
    hn_router *router = &home->routers[which];
    hn_known known;
    size_t count = 0, own_count = 0;
    uint8_t hash[8];
    CHECK(hn_router_data(router, place, &known, &count, room, sizeof room) == 0);
    CHECK(hn_router_published(&home->routers[other], &own_count, own, sizeof own) == 0);
    CHECK(known.id == 100 + other && known.number == hn_router_number(&home->routers[other]));
    CHECK(known.reachable == 1 && known.came <= home->now && known.age <= home->now);
    CHECK(count == own_count && memcmp(room, own, count) == 0);
    md5_front(own, own_count, hash);
    CHECK(memcmp(known.hash, hash, 8) == 0);
    CHECK(name_peer(room, count, 100 + (uint32_t)which));
}

static void nodes_of(struct home *home, size_t which)
{
    hn_router *router = &home->routers[which];
    hn_known known = {.id = 77};
    size_t count = 77, place = 0;
    CHECK(hn_router_known(router) == ROUTERS - 1);
    for (size_t other = 0; other < ROUTERS; other++) {
        if (other != which)
            data_are_those_of(home, which, place++, other);
    }
    room[0] = 77;
    CHECK(hn_router_data(router, ROUTERS - 1, &known, &count, room, sizeof room) == 2);
    CHECK(known.id == 77 && count == 77 && room[0] == 77);
}

/* Where there is no room, it is told how much is wanted, and nothing is written. */
static void room_is_told(hn_router *router)
{
    hn_known known = {.id = 77};
    size_t wanted = 0, count = 0;
    CHECK(hn_router_data(router, 0, &known, &wanted, room, sizeof room) == 0 && wanted > 0);
    known.id = 77;
    room[0] = 77;
    CHECK(hn_router_data(router, 0, &known, &count, room, wanted - 1) == 2);
    CHECK(count == wanted && known.id != 77 && room[0] == 77);
    CHECK(hn_router_data(router, 0, &known, &count, room, wanted) == 0 && count == wanted);
    CHECK(hn_router_published(router, &wanted, own, sizeof own) == 0 && wanted > 0);
    own[0] = 77;
    CHECK(hn_router_published(router, &count, own, wanted - 1) == 2 && count == wanted && own[0] == 77);
    CHECK(hn_router_published(router, &count, own, wanted) == 0 && count == wanted && own[0] != 77);
}

/* A router that is cut off has no peers, and its others are known and out of reach. */
static void others_are_lost(struct home *home)
{
    hn_router *router = &home->routers[0];
    hn_known known;
    hn_peer peer;
    size_t count = 0;
    uint64_t until = home->now + MOST_SILENT * SECOND + 1;
    while (hn_router_moment(router) < until) {
        uint64_t due = hn_router_due(router), last = hn_router_moment(router);
        CHECK(hn_router_tick(router, due > last && due < until ? due : last + 1) == 0);
    }
    CHECK(hn_router_peers(router, LINK) == 0 && hn_router_peer(router, LINK, 0, &peer) == 2);
    CHECK(hn_router_nodes(router) == 1 && hn_router_known(router) == ROUTERS - 1);
    for (size_t place = 0; place < ROUTERS - 1; place++) {
        CHECK(hn_router_data(router, place, &known, &count, room, sizeof room) == 0);
        CHECK(known.reachable == 0 && known.id == 101 + place);
    }
}

int main(void)
{
    static struct home home;
    begin(&home, ROUTERS);
    CHECK(hn_router_peers(&home.routers[0], LINK) == 0 && hn_router_known(&home.routers[0]) == 0);
    live(&home, 60 * SECOND);
    for (size_t router = 0; router < ROUTERS; router++) {
        peers_of(&home, router);
        nodes_of(&home, router);
        room_is_told(&home.routers[router]);
    }
    others_are_lost(&home);
    end(&home);
    puts("known: peers and the data of each node are told as they were heard");
    return 0;
}

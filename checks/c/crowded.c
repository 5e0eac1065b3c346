/* A crowd of forged nodes with large data. A router takes them all. Where they claim each place of its delegated prefix it gives
 * up its own prefix, and has it again once they are gone; and without a delegated prefix it keeps no index of theirs. */
#include "advert.h"
#include "tlv.h"

extern size_t held_bytes;

enum { NODES = 64, PEERS = 3500, PREFIXES = 2000, PLACES = 65536, SECOND = 1000 };

static const uint32_t own_node = 1, first_node = 0x100, absent = 0x10000;
static const uint8_t delegated[16] = {0x20, 0x01, 0x0d, 0xb8};

static uint64_t now;
static uint32_t number;

/* An Assigned-Prefix TLV with priority 2: the prefix of 64 bits at a place of 2001:db8::/32. */
static void put_assigned(struct bytes *to, uint32_t place)
{
    const uint8_t fields[2] = {2, 64};
    struct bytes assigned;
    assigned.count = 0;
    put_number(&assigned, 9);
    put(&assigned, fields, 2);
    put(&assigned, delegated, 4);
    put_number(&assigned, place);
    put_tlv(to, ASSIGNED, &assigned);
}

/* The Peers by which the nodes stand in a row, from the router on: in ascending order of the TLVs (RFC 7787, section 7.2.3). */
static void put_row(struct bytes *to, uint32_t place)
{
    if (place == 0)
        put_peer(to, own_node, LINK, LINK);
    if (place > 0)
        put_peer(to, first_node + place - 1, 2, 3);
    if (place + 1 < NODES)
        put_peer(to, first_node + place + 1, 3, 2);
}

/* A node's data: with Peers that are nowhere, with assigned prefixes, or with neither. */
static void node_data(struct bytes *to, uint32_t place, int peers, int prefixes)
{
    put_row(to, place);
    for (int peer = 0; peer < peers; peer++)
        put_peer(to, absent, (uint32_t)peer + 1, 9);
    put_version(to);
    for (int prefix = 0; prefix < prefixes; prefix++)
        put_assigned(to, place * PREFIXES + (uint32_t)prefix);
}

/* The states of all nodes arrive, each in a datagram of the first. */
static void arrive(hn_router *router, int peers, int prefixes)
{
    static struct bytes data, sent;
    uint8_t source[16];
    link_local(source, 8);
    number++;
    for (uint32_t place = 0; place < NODES; place++) {
        data.count = sent.count = 0;
        node_data(&data, place, peers, prefixes);
        put_state(&sent, first_node, first_node + place, number, &data);
        CHECK(hn_router_arrive(router, now, LINK, false, source, 8231, sent.at, sent.count) == 0);
        now += 1;
    }
}

/* So many seconds pass, in which the first node says that it is there. */
static void pass(hn_router *router, int seconds)
{
    static struct bytes sent, sender;
    uint8_t source[16];
    link_local(source, 8);
    sent.count = sender.count = 0;
    put_number(&sender, first_node);
    put_number(&sender, LINK);
    put_tlv(&sent, NODE_ENDPOINT, &sender);
    for (int second = 0; second < seconds; second++) {
        CHECK(hn_router_arrive(router, now, LINK, false, source, 8231, sent.at, sent.count) == 0);
        now += SECOND;
        CHECK(hn_router_tick(router, now) == 0);
    }
}

int main(void)
{
    hn_router router = {0};
    uint8_t seed[32];
    seed_of(seed, 5);
    CHECK(hn_router_new(&router, own_node, now, seed) == 0 && hn_router_attach(&router, now, LINK) == 0);
    CHECK(hn_router_external(&router, now, delegated, 48, UINT32_MAX, UINT32_MAX) == 0);
    arrive(&router, PEERS, 0);
    pass(&router, 20);
    CHECK(hn_router_nodes(&router) == NODES + 1 && hn_router_assignments(&router) == 1);
    arrive(&router, 0, PREFIXES);
    pass(&router, 20);
    CHECK(hn_router_nodes(&router) == NODES + 1 && hn_router_assignments(&router) == 0);
    const size_t with_index = held_bytes;
    CHECK(hn_router_withdraw(&router, now, delegated, 48) == 0);
    pass(&router, 20);
    /* Of each prefix an index has at least its address. */
    CHECK(held_bytes + (size_t)16 * NODES * PREFIXES < with_index);
    CHECK(hn_router_external(&router, now, delegated, 48, UINT32_MAX, UINT32_MAX) == 0);
    arrive(&router, 0, 0);
    pass(&router, 20);
    CHECK(hn_router_assignments(&router) == 1);
    hn_router_free(&router);
    CHECK(held_bytes == 0);
    printf("crowded: %d nodes with %d Peers or assigned prefixes each are taken, and no index stays without a delegated prefix\n", NODES, PEERS);
    return 0;
}

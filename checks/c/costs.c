/* What one call costs in a home of many nodes. The home is forged: its nodes stand in a row behind the first one, or around it, or
 * all on the link of the router. Callgrind counts the instructions of one call, with those of the memory that it takes:
 *
 *   cc -std=c11 -O2 -I include -o costs checks/c/costs.c include/hn_heap.c crates/hn_router_c/out/libhn_router_c.a
 *   valgrind --tool=callgrind --callgrind-out-file=/dev/null --toggle-collect=one_call ./costs state row 256
 *
 * The words are a call, a shape and how many nodes there are. The calls are `state`, the arrival of a Node State with new data and
 * the same Peers; `peers`, of one with a Peer more, which is nowhere; `advert`; and `advertise`. The shapes are `row`, `around` and
 * `link`, which has 64 nodes at most. After them `give` lets each node offer addresses by DHCPv6. With no words each call is made
 * once in each home. */
#include "tlv.h"

enum { MOST_NODES = 256, MOST_ON_LINK = 64, MOST_ADVERT = 1232, SECOND = 1000, SECONDS = 30, OFFERED = 0x40 };

static const uint32_t own_node = 1, first_node = 0x100, absent = 0x10000;

static const char *const calls[] = {"state", "peers", "advert", "advertise"};
static const char *const shapes[] = {"row", "around", "link"};

enum call { STATE, PEERS, ADVERT, ADVERTISE, CALLS };
enum shape { ROW, AROUND, ON_LINK, SHAPES };

static enum shape shape;
static uint32_t nodes;
static bool give;
static uint64_t now;

static bool stands_on_link(uint32_t place)
{
    return place == 0 || shape == ON_LINK;
}

/* The Peers of a node, in ascending order of their TLVs (RFC 7787, section 7.2.3). */
static void put_peers(struct bytes *to, uint32_t place)
{
    if (stands_on_link(place))
        put_peer(to, own_node, LINK, LINK);
    if (shape == ROW && place > 0)
        put_peer(to, first_node + place - 1, 2, 3);
    if (shape == ROW && place + 1 < nodes)
        put_peer(to, first_node + place + 1, 3, 2);
    if (shape == AROUND && place > 0)
        put_peer(to, first_node, 2, 2);
    for (uint32_t other = 1; shape == AROUND && place == 0 && other < nodes; other++)
        put_peer(to, first_node + other, 2, 2);
}

/* An HNCP-Version TLV (RFC 7788, section 10.1) of this agent. */
static void put_version_of(struct bytes *to, const char *agent)
{
    struct bytes version = {.count = 0};
    put_number(&version, give ? OFFERED : 0);
    put(&version, agent, 4);
    put_tlv(to, VERSION, &version);
}

/* A datagram with the state of a node, from itself if it is on the link, and else from the first node. */
static void put_state_of(struct bytes *to, uint32_t place, uint32_t number, const char *agent, bool one_more)
{
    static struct bytes data;
    data.count = to->count = 0;
    put_peers(&data, place);
    if (one_more)
        put_peer(&data, absent, 4, 4);
    put_version_of(&data, agent);
    put_state(to, first_node + (stands_on_link(place) ? place : 0), first_node + place, number, &data);
}

/* The call that is counted. */
__attribute__((noinline)) uint8_t one_call(hn_router *router, enum call call, const uint8_t source[16], const struct bytes *sent)
{
    static uint8_t room[MOST_ADVERT];
    size_t count;
    if (call == ADVERT)
        return hn_router_advert(router, LINK, &count, room, sizeof room);
    if (call == ADVERTISE)
        return hn_router_advertise(router, LINK, &count, room, sizeof room);
    return hn_router_arrive(router, now, LINK, false, source, 8231, sent->at, sent->count);
}

static void source_of(uint8_t source[16], uint32_t place)
{
    link_local(source, stands_on_link(place) ? place + 1 : 1);
}

/* Each node that the router hears says its state, and time passes. */
static void pass(hn_router *router, uint32_t heard, uint32_t after)
{
    static struct bytes sent;
    uint8_t source[16];
    for (uint32_t place = 0; place < heard; place++) {
        put_state_of(&sent, place, 1, "evil", false);
        source_of(source, place);
        CHECK(hn_router_arrive(router, now, LINK, false, source, 8231, sent.at, sent.count) == 0);
    }
    now += after;
    CHECK(hn_router_tick(router, now) == 0);
}

/* All nodes come, and the router has had time to apply a prefix. */
static void make_home(hn_router *router)
{
    uint8_t seed[32];
    seed_of(seed, 5);
    CHECK(hn_router_new(router, own_node, now, seed) == 0 && hn_router_attach(router, now, LINK) == 0);
    CHECK(hn_router_external(router, now, some_prefix, 48, UINT32_MAX, UINT32_MAX) == 0);
    pass(router, nodes, 1);
    for (int second = 0; second < SECONDS; second++)
        pass(router, shape == ON_LINK ? nodes : 1, SECOND);
    CHECK(hn_router_nodes(router) == nodes + 1 && hn_router_assignments(router) == 1);
}

/* A home, and the call in it. What arrives is new data of a node in the middle, which is taken. */
static void call_in_home(enum call call)
{
    static struct bytes sent;
    hn_router router = {0};
    hn_note note = {.kind = 0};
    uint8_t source[16];
    make_home(&router);
    put_state_of(&sent, nodes / 2, 2, "good", call == PEERS);
    source_of(source, nodes / 2);
    CHECK(one_call(&router, call, source, &sent) == 0);
    if (call == STATE || call == PEERS)
        CHECK(hn_router_note(&router, 0, &note) == 0 && note.kind == HN_NOTE_TOOK && note.why == HN_TOOK_KEPT);
    CHECK(hn_router_nodes(&router) == nodes + 1);
    hn_router_free(&router);
}

/* The place of a word among words, or past them. */
static int place_of(const char *word, const char *const *words, int count)
{
    int place = 0;
    while (place < count && strcmp(word, words[place]) != 0)
        place++;
    return place;
}

static void each_call(void)
{
    for (int call = 0; call < CALLS; call++) {
        for (shape = ROW; shape < SHAPES; shape++) {
            nodes = shape == ON_LINK ? MOST_ON_LINK : MOST_NODES;
            call_in_home((enum call)call);
        }
    }
    printf("costs: new data are taken in homes of %d nodes, and advertisements are told\n", MOST_NODES);
}

int main(int count, char **words)
{
    if (count == 1) {
        each_call();
        return 0;
    }
    int call = count < 4 ? CALLS : place_of(words[1], calls, CALLS), given = count < 4 ? SHAPES : place_of(words[2], shapes, SHAPES);
    int many = count < 4 ? 0 : atoi(words[3]);
    if (call == CALLS || given == SHAPES || many < 2 || many > (given == ON_LINK ? MOST_ON_LINK : MOST_NODES)) {
        fputs("usage: costs [state|peers|advert|advertise row|around|link NODES [give]]\n", stderr);
        return 1;
    }
    shape = (enum shape)given;
    nodes = (uint32_t)many;
    give = count > 4;
    call_in_home((enum call)call);
    return 0;
}

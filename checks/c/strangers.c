/* What a stranger's datagrams do to advertisements. It delegates 32 prefixes that never end, then 32 others, and 32 others
 * again. No advertisement is longer for that than 1,232 bytes; the default route is renewed by each; each prefix that departs is
 * told within 11 of them, and for two hours at most; and a prefix of the router's own uplink reaches the host. */
#include "advert.h"
#include "tlv.h"

enum { SETS = 3, PREFIXES = 32, KEPT = 64, TURNS = 11, SECOND = 1000 };

static const uint32_t own_node = 1, stranger = 9;

/* The six bytes that the prefixes of a set begin with. */
static void front_of(uint8_t front[6], int set, int place)
{
    const uint8_t bytes[6] = {0x20, 0x01, 0x0d, 0xb8, (uint8_t)set, (uint8_t)place};
    memcpy(front, bytes, 6);
}

/* An External-Connection TLV with one Delegated-Prefix TLV of 48 bits that never ends. */
static void put_external(struct bytes *to, int set, int place)
{
    struct bytes prefix = {.count = 0}, external = {.count = 0};
    uint8_t length = 48, front[6];
    front_of(front, set, place);
    put_number(&prefix, UINT32_MAX);
    put_number(&prefix, UINT32_MAX);
    put(&prefix, &length, 1);
    put(&prefix, front, 6);
    put_tlv(&external, DELEGATED, &prefix);
    put_tlv(to, EXTERNAL, &external);
}

/* The stranger's node data: its peer is the router, and it delegates a set of prefixes. */
static void node_data(struct bytes *to, int set)
{
    put_peer(to, own_node, LINK, LINK);
    put_version(to);
    for (int place = 0; place < PREFIXES; place++)
        put_external(to, set, place);
}

/* Its datagram. */
static void datagram(struct bytes *to, int set)
{
    static struct bytes data;
    data.count = 0;
    node_data(&data, set);
    put_state(to, stranger, stranger, (uint32_t)set + 1, &data);
}

static uint64_t now;

/* So many seconds pass. The stranger sends its datagram every five of them, if there is one. */
static void pass(hn_router *router, const struct bytes *sent, int seconds)
{
    uint8_t source[16];
    link_local(source, 8);
    for (int second = 0; second < seconds; second++) {
        if (sent != NULL && second % 5 == 0)
            CHECK(hn_router_arrive(router, now, LINK, false, source, 8231, sent->at, sent->count) == 0);
        now += SECOND;
        CHECK(hn_router_tick(router, now) == 0);
    }
}

/* Each prefix of a set is told by one of the next advertisements: without preference, and for two hours at most. */
static void all_are_told(const struct advert adverts[TURNS], int set)
{
    for (int place = 0; place < PREFIXES; place++) {
        const struct told *told = NULL;
        uint8_t front[6];
        front_of(front, set, place);
        for (int turn = 0; turn < TURNS && told == NULL; turn++)
            told = told_inside(&adverts[turn], front);
        CHECK(told != NULL && told->preferred == 0 && told->valid <= 7200);
    }
}

/* The prefixes that are held are in an advertisement, and those of other sets have departed. */
static void one_set_is_held(const struct advert *it, int set)
{
    CHECK(preferred_in(it) == PREFIXES && it->lifetime == 1800);
    for (int place = 0; place < PREFIXES; place++) {
        uint8_t front[6];
        front_of(front, set, place);
        const struct told *told = told_inside(it, front);
        CHECK(told != NULL && told->preferred == UINT32_MAX && told->valid == UINT32_MAX);
    }
}

static void each_set_departs(hn_router *router)
{
    static struct advert adverts[TURNS];
    for (int set = 0; set < SETS; set++) {
        struct bytes sent = {.count = 0};
        datagram(&sent, set);
        pass(router, &sent, 20);
        for (int turn = 0; turn < TURNS; turn++) {
            advertise(router, LINK, &adverts[turn]);
            one_set_is_held(&adverts[turn], set);
            pass(router, &sent, 5);
        }
        for (int gone = set > 2 ? set - 2 : 0; gone < set; gone++)
            all_are_told(adverts, gone);
    }
}

/* The stranger falls silent. The last set departs, with its 32 prefixes 64 are kept, and after two hours none is told. */
static void nothing_stays(hn_router *router)
{
    static struct advert adverts[TURNS];
    pass(router, NULL, 60);
    for (int turn = 0; turn < TURNS; turn++) {
        advertise(router, LINK, &adverts[turn]);
        CHECK(preferred_in(&adverts[turn]) == 0 && adverts[turn].count == MOST_TOLD);
    }
    all_are_told(adverts, SETS - 1);
    pass(router, NULL, 7200);
    advertise(router, LINK, &adverts[0]);
    CHECK(adverts[0].count == 0);
}

/* A new prefix of the router's own uplink, which comes before the stranger's in their order, is told at once when it is applied. */
static void own_prefix_comes(hn_router *router)
{
    static const uint8_t own[16] = {0x20, 0x01, 0x0d, 0xb7};
    struct bytes sent = {.count = 0};
    struct advert it;
    datagram(&sent, SETS);
    pass(router, &sent, 20);
    CHECK(hn_router_external(router, now, own, 48, 3600, 1800) == 0);
    pass(router, &sent, 20);
    advertise(router, LINK, &it);
    const struct told *told = told_inside(&it, own);
    CHECK(preferred_in(&it) == PREFIXES && told != NULL && 0 < told->preferred && told->preferred <= 1800);
}

int main(void)
{
    hn_router router = {0};
    uint8_t seed[32];
    seed_of(seed, 3);
    CHECK(hn_router_new(&router, own_node, now, seed) == 0);
    CHECK(hn_router_attach(&router, now, LINK) == 0);
    each_set_departs(&router);
    nothing_stays(&router);
    own_prefix_comes(&router);
    hn_router_free(&router);
    puts("strangers: no advertisement has more than 1,232 bytes, and each departed prefix is told in its turn");
    return 0;
}

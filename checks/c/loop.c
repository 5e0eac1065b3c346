/* The loop of a daemon, on a link that is never silent: a datagram waits each time that the loop looks. The router lives all
 * the same, and what an event sends is sent once, also where the next call is refused. */
#include "home.h"

/* How long the link is looked at, and how long a datagram takes, in milliseconds. */
enum { LONG = 60000, EACH = 1, FLOOD = 3 };

struct arrival {
    uint32_t endpoint;
    bool multicast;
    uint8_t source[16];
    uint16_t port;
    uint8_t bytes[FLOOD];
    size_t count;
};

static uint64_t clock_now, back_at;
static size_t sent_out;
static uint8_t room[MOST_BYTES];

/* The clock. It goes back once, which a clock may not: the call is refused then. */
static uint64_t now(void)
{
    return clock_now == back_at ? 0 : clock_now;
}

/* A datagram waits already, whenever that is: three bytes that are no TLVs, of a neighbour. */
static bool receive(uint64_t until, struct arrival *from)
{
    (void)until;
    clock_now += EACH;
    *from = (struct arrival){.endpoint = LINK, .multicast = true, .port = 8231, .bytes = "abc", .count = FLOOD};
    link_local(from->source, 7);
    return true;
}

static void send_out(const hn_sent *sent, const uint8_t *bytes, size_t count)
{
    CHECK(sent->endpoint == LINK && bytes == room && count != 0);
    sent_out++;
}

/* ---- as docs/EMBED.md has it */

/* What an event sends is sent before the next event; a call that is not done sends nothing. */
static void after(hn_router *router, uint8_t status)
{
    hn_sent sent;
    size_t sends = status == 0 ? hn_router_sends(router) : 0, count;
    for (size_t place = 0; place < sends; place++) {
        if (hn_router_send(router, place, &sent, &count, room, sizeof room) == 0)
            send_out(&sent, room, count);
    }
}

/* A datagram, if one came before something is due; and then what is due, also where datagrams never end. */
static void turn(hn_router *router)
{
    struct arrival from;
    if (receive(hn_router_due(router), &from))
        after(router, hn_router_arrive(router, now(), from.endpoint, from.multicast, from.source, from.port, from.bytes, from.count));
    if (hn_router_due(router) <= now())
        after(router, hn_router_tick(router, now()));
}

/* ---- */

static void begin_router(hn_router *router)
{
    uint8_t seed[32];
    seed_of(seed, 6);
    back_at = UINT64_MAX;
    CHECK(hn_router_new(router, 1, now(), seed) == 0);
    after(router, hn_router_attach(router, now(), LINK));
    after(router, hn_router_external(router, now(), some_prefix, 48, 3600, 1800));
}

/* Trickle and keep-alives go on, and the prefix is applied (RFC 7788, section 6.3.3). */
static void router_lives(hn_router *router)
{
    hn_assigned assigned;
    begin_router(router);
    while (clock_now < LONG)
        turn(router);
    CHECK(hn_router_assigned(router, 0, &assigned) == 0 && assigned.applied == 1);
    CHECK(LONG / 25000 <= sent_out && hn_router_due(router) > now());
}

/* A call that is refused sends nothing again. */
static void nothing_is_sent_twice(hn_router *router)
{
    while (hn_router_sends(router) == 0)
        turn(router);
    CHECK(hn_router_moment(router) == clock_now);
    size_t before = sent_out;
    back_at = clock_now + EACH;
    turn(router);
    CHECK(hn_router_moment(router) < clock_now && hn_router_sends(router) != 0 && sent_out == before);
}

int main(void)
{
    static hn_router router;
    router_lives(&router);
    nothing_is_sent_twice(&router);
    hn_router_free(&router);
    printf("loop: %zu datagrams were sent on a link that is never silent, each once\n", sent_out);
    return 0;
}

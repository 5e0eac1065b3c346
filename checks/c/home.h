/* Routers on one link, and what the tests of the library share. */
#ifndef HOME_H
#define HOME_H

#include "check.h"
#include "hn_router.h"

#include <string.h>

enum { LINK = 1, MOST_ROUTERS = 4, MOST_WAITING = 256, MOST_BYTES = 65507 };

/* Routers whose endpoint 1 is on one link; router i has the address fe80::i+1. */
struct home {
    hn_router routers[MOST_ROUTERS];
    size_t count;
    uint64_t now;
    /* What is told of each datagram that is sent, if anything is. */
    void (*seen)(const uint8_t *bytes, size_t count);
};

struct waiting {
    size_t from;
    hn_sent sent;
    size_t count;
    uint8_t *bytes;
};

static const uint8_t some_prefix[16] = {0x20, 0x01, 0x0d, 0xb8};

static inline void link_local(uint8_t address[16], size_t router)
{
    memset(address, 0, 16);
    address[0] = 0xfe;
    address[1] = 0x80;
    address[15] = (uint8_t)(router + 1);
}

static inline void seed_of(uint8_t seed[32], uint8_t number)
{
    for (size_t i = 0; i < 32; i++)
        seed[i] = (uint8_t)(number * 37 + i);
}

/* The datagrams of a router's last event are put into the line. */
static inline size_t gather(struct home *home, size_t router, struct waiting *line, size_t waiting)
{
    static uint8_t room[MOST_BYTES];
    size_t sends = hn_router_sends(&home->routers[router]);
    for (size_t place = 0; place < sends && waiting < MOST_WAITING; place++) {
        struct waiting *next = &line[waiting++];
        CHECK(hn_router_send(&home->routers[router], place, &next->sent, &next->count, room, sizeof room) == 0);
        next->from = router;
        next->bytes = malloc(next->count + 1);
        CHECK(next->bytes != NULL);
        memcpy(next->bytes, room, next->count);
        if (home->seen != NULL)
            home->seen(room, next->count);
    }
    return waiting;
}

/* All that the routers have to say is carried over the link, and what they answer. */
static inline void carry(struct home *home, size_t first)
{
    static struct waiting line[MOST_WAITING];
    size_t waiting = gather(home, first, line, 0);
    for (size_t at = 0; at < waiting; at++) {
        struct waiting *it = &line[at];
        uint8_t source[16], own[16];
        link_local(source, it->from);
        for (size_t router = 0; router < home->count; router++) {
            link_local(own, router);
            if (router == it->from || (it->sent.unicast && memcmp(it->sent.to, own, 16) != 0))
                continue;
            CHECK(hn_router_arrive(&home->routers[router], home->now, LINK, !it->sent.unicast, source, 8231, it->bytes, it->count) == 0);
            waiting = gather(home, router, line, waiting);
        }
        free(it->bytes);
    }
}

/* The routers live until a moment. */
static inline void live(struct home *home, uint64_t until)
{
    while (home->now < until) {
        uint64_t next = until;
        for (size_t router = 0; router < home->count; router++) {
            uint64_t due = hn_router_due(&home->routers[router]);
            if (due < next)
                next = due;
        }
        home->now = next > home->now ? next : home->now + 1;
        for (size_t router = 0; router < home->count; router++) {
            CHECK(hn_router_tick(&home->routers[router], home->now) == 0);
            carry(home, router);
        }
    }
}

/* A home of so many routers, attached to the link; the first has a delegated prefix. */
static inline void begin(struct home *home, size_t count)
{
    memset(home, 0, sizeof *home);
    home->count = count;
    home->now = 1000;
    for (size_t router = 0; router < count; router++) {
        uint8_t seed[32];
        seed_of(seed, (uint8_t)router);
        CHECK(hn_router_new(&home->routers[router], (uint32_t)(100 + router), home->now, seed) == 0);
        CHECK(hn_router_attach(&home->routers[router], home->now, LINK) == 0);
    }
    CHECK(hn_router_external(&home->routers[0], home->now, some_prefix, 48, 3600, 1800) == 0);
}

static inline void end(struct home *home)
{
    for (size_t router = 0; router < home->count; router++) {
        hn_router_free(&home->routers[router]);
        CHECK(home->routers[router].at == NULL);
    }
}

#endif

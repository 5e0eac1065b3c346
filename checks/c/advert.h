/* What a host reads in an advertisement (RFC 4861, sections 4.2 and 4.6.2). */
#ifndef ADVERT_H
#define ADVERT_H

#include "home.h"

enum { MOST_ADVERT = 1232, HEADER = 16, OPTION = 32, MOST_TOLD = (MOST_ADVERT - HEADER) / OPTION };

struct told {
    uint8_t prefix[16];
    uint32_t valid, preferred;
};

struct advert {
    uint32_t lifetime;
    size_t count;
    struct told told[MOST_TOLD];
};

static inline uint32_t number_at(const uint8_t *bytes)
{
    return (uint32_t)bytes[0] << 24 | (uint32_t)bytes[1] << 16 | (uint32_t)bytes[2] << 8 | bytes[3];
}

/* Sends the next advertisement on an endpoint, which is never too long. */
static inline void advertise(hn_router *router, uint32_t endpoint, struct advert *it)
{
    uint8_t room[MOST_ADVERT];
    size_t bytes = 0;
    CHECK(hn_router_advertise(router, endpoint, &bytes, room, sizeof room) == 0);
    CHECK(bytes >= HEADER && bytes <= MOST_ADVERT && (bytes - HEADER) % OPTION == 0 && room[0] == 134);
    it->lifetime = (uint32_t)room[6] << 8 | room[7];
    it->count = (bytes - HEADER) / OPTION;
    for (size_t place = 0; place < it->count; place++) {
        const uint8_t *option = room + HEADER + place * OPTION;
        CHECK(option[0] == 3 && option[1] == 4);
        it->told[place].valid = number_at(option + 4);
        it->told[place].preferred = number_at(option + 8);
        memcpy(it->told[place].prefix, option + 16, 16);
    }
}

/* How many prefixes it has that are preferred. */
static inline size_t preferred_in(const struct advert *it)
{
    size_t count = 0;
    for (size_t place = 0; place < it->count; place++)
        count += it->told[place].preferred != 0;
    return count;
}

/* A prefix of an advertisement, inside of those of 48 bits that begin so; or null. */
static inline const struct told *told_inside(const struct advert *it, const uint8_t front[6])
{
    for (size_t place = 0; place < it->count; place++) {
        if (memcmp(it->told[place].prefix, front, 6) == 0)
            return &it->told[place];
    }
    return NULL;
}

#endif

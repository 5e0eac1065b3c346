/* Mutated datagrams: `mutated N` hands N of them to a router, and writes a sum of all that comes out. */
#include "home.h"

enum { MOST_SAMPLES = 256, MOST_SAMPLE = 4096 };

static uint8_t samples[MOST_SAMPLES][MOST_SAMPLE];
static size_t lengths[MOST_SAMPLES], sample_count;
static uint64_t sum = 14695981039346656037u, state = 88172645463325252u;

static void collect(const uint8_t *bytes, size_t count)
{
    if (sample_count == MOST_SAMPLES || count > MOST_SAMPLE)
        return;
    memcpy(samples[sample_count], bytes, count);
    lengths[sample_count++] = count;
}

/* FNV-1a. */
static void add(const void *from, size_t count)
{
    const uint8_t *bytes = from;
    for (size_t i = 0; i < count; i++)
        sum = (sum ^ bytes[i]) * 1099511628211u;
}

/* The next number below a limit, by xorshift. */
static size_t below(size_t limit)
{
    state ^= state << 13;
    state ^= state >> 7;
    state ^= state << 17;
    return (size_t)(state % limit);
}

/* A sample with some bytes changed, and sometimes cut. */
static size_t mutate(uint8_t *bytes)
{
    size_t sample = below(sample_count), count = lengths[sample];
    memcpy(bytes, samples[sample], count);
    for (size_t changes = below(4); changes > 0 && count > 0; changes--) {
        size_t at = below(count);
        bytes[at] = (uint8_t)below(256);
    }
    return below(8) == 0 && count > 0 ? below(count) : count;
}

static void add_report(hn_router *router)
{
    static uint8_t room[MOST_BYTES];
    size_t count = 0;
    hn_sent sent;
    hn_note note;
    uint64_t due = hn_router_due(router);
    uint8_t hash[8];
    add(&due, 8);
    for (size_t place = 0; place < hn_router_sends(router); place++) {
        CHECK(hn_router_send(router, place, &sent, &count, room, sizeof room) == 0);
        add(&sent.endpoint, 4);
        add(sent.to, 16);
        add(room, count);
    }
    for (size_t place = 0; hn_router_note(router, place, &note) == 0; place++) {
        add(&note.number, 8);
        add(&note.kind, 1);
        add(&note.why, 1);
    }
    hn_router_network_hash(router, hash);
    add(hash, 8);
}

int main(int count, char **words)
{
    static uint8_t bytes[MOST_SAMPLE], advert[MOST_BYTES];
    long wanted = count > 1 ? atol(words[1]) : 100000, taken = 0;
    struct home home;
    uint8_t seed[32], source[16];
    begin(&home, 2);
    home.seen = collect;
    live(&home, 120 * 1000);
    end(&home);
    CHECK(sample_count > 8);

    hn_router router = {0};
    uint64_t now = 0;
    seed_of(seed, 3);
    CHECK(hn_router_new(&router, 99, now, seed) == 0);
    CHECK(hn_router_attach(&router, now, 1) == 0 && hn_router_attach(&router, now, 2) == 0);
    CHECK(hn_router_external(&router, now, some_prefix, 48, 4000000, 3000000) == 0);
    for (long i = 0; i < wanted; i++) {
        size_t length = mutate(bytes);
        now += below(50);
        link_local(source, below(5));
        uint32_t endpoint = (uint32_t)(1 + below(3));
        bool multicast = below(2) == 0;
        uint8_t status = hn_router_arrive(&router, now, endpoint, multicast, source, 8231, bytes, length);
        CHECK(status == 0);
        taken += hn_router_notes(&router) == 0;
        add_report(&router);
        if (i % 4 == 0) {
            CHECK(hn_router_tick(&router, now) == 0);
            add_report(&router);
        }
        if (i % 1000 == 0) {
            CHECK(hn_router_advert(&router, 1, &length, advert, sizeof advert) == 0);
            add(advert, length);
        }
    }
    hn_router_free(&router);
    printf("%ld datagrams, %ld without a note, sum %016llx\n", wanted, taken, (unsigned long long)sum);
    return 0;
}

/* A harness for fuzzers: bytes are read as a sequence of calls on two routers of one link, and after each call all that both
 * report is held to what the header says.
 *
 *     clang -std=c11 -g -O1 -fsanitize=fuzzer,address,undefined -I include -o fuzz \
 *         checks/c/fuzz_router.c include/hn_heap.c crates/hn_router_c/out/libhn_router_c.a
 *     ./fuzz -max_len=4096 found checks/c/corpus        # what is new goes into the folder `found`
 *
 * With -DREPLAY it is a program that plays each file that it is given. The library has no counters of its own for a fuzzer, so
 * that what the routers come to counts (`extra`). Datagrams reach the other router as they were sent, cut, or with a bit
 * changed; so both sides of HNCP run, and what a fuzzer changes in the input changes which calls come. */
#include "home.h"

enum { ROUTERS = 2, LINKS = 3, CALLS = 96, WAITING = 32, COUNTERS = 4096, MOST_ADDRESSES = 70, MOST_USED = 32 };
enum { MOST_ADVERT = 1232, HEADER = 16, OPTION = 32, MOST_TOLD_ANEW = 32, MOST_NODES = 257, MOST_LEFT = 7200 };

#define LAST_MOMENT (UINT64_C(1) << 48)

#ifndef REPLAY
__attribute__((section("__libfuzzer_extra_counters")))
#endif
static uint8_t extra[COUNTERS];

/* The input, from where it is read on. */
struct input {
    const uint8_t *at, *end;
};

/* A datagram that is on its way, from a router. */
struct flying {
    size_t from, count;
    bool multicast;
    uint8_t *bytes;
};

static hn_router routers[ROUTERS];
static struct flying flying[WAITING];
static size_t waiting;
static uint64_t now;
static uint8_t room[MOST_BYTES];

static uint8_t next(struct input *input)
{
    return input->at < input->end ? *input->at++ : 0;
}

/* Something came up, of a kind and a number. */
static void count(uint32_t kind, uint64_t number)
{
    uint64_t place = (kind * UINT64_C(0x100000001b3)) ^ (number * UINT64_C(0x9e3779b97f4a7c15));
    extra[(place >> 32) % COUNTERS]++;
}

/* The greatest number that is no greater, of those that are told apart. */
static uint64_t at_most(uint64_t number, uint64_t most)
{
    return number < most ? number : most;
}

/* ---- what the header says of each report */

static void hold_sends(hn_router *router, size_t from, bool is_new)
{
    size_t sends = hn_router_sends(router), length = 0;
    hn_sent sent;
    count(1, at_most(sends, 15));
    for (size_t place = 0; place < sends; place++) {
        CHECK(hn_router_send(router, place, &sent, &length, room, sizeof room) == 0);
        CHECK(length > 0 && length <= MOST_BYTES && sent.unicast <= 1 && sent.endpoint > 0);
        CHECK(sent.unicast || (sent.port == 8231 && sent.to[0] == 0xff && sent.to[15] == 0x11));
        count(2, length > 3 ? room[1] + 256u * sent.unicast : 0);
        if (is_new && waiting < WAITING) {
            struct flying *it = &flying[waiting++];
            *it = (struct flying){from, length, !sent.unicast, malloc(length)};
            CHECK(it->bytes != NULL);
            memcpy(it->bytes, room, length);
        }
        CHECK(hn_router_send(router, place, &sent, &length, room, length - 1) == 2);
    }
    CHECK(hn_router_send(router, sends, &sent, &length, room, sizeof room) == 2);
}

static void hold_notes(hn_router *router)
{
    size_t notes = hn_router_notes(router);
    hn_note note;
    for (size_t place = 0; place < notes; place++) {
        CHECK(hn_router_note(router, place, &note) == 0 && note.kind >= HN_NOTE_FAR && note.kind <= HN_NOTE_REFUSED);
        CHECK(note.kind != HN_NOTE_REFUSED || notes == 1);
        CHECK(note.kind != HN_NOTE_TOOK || note.why <= HN_TOOK_OWN);
        count(3, note.kind * 256u + note.why);
    }
    CHECK(hn_router_note(router, notes, &note) == 2);
}

static void hold_nodes(hn_router *router)
{
    size_t nodes = hn_router_nodes(router);
    uint32_t id = 0, last = 0, own = hn_router_identifier(router);
    bool has_own = false;
    CHECK(nodes >= 1 && nodes <= MOST_NODES);
    count(4, at_most(nodes, 7));
    for (size_t place = 0; place < nodes; place++) {
        CHECK(hn_router_node(router, place, &id) == 0 && (place == 0 || id > last));
        has_own = has_own || id == own;
        last = id;
    }
    CHECK(has_own && hn_router_node(router, nodes, &id) == 2);
}

/* A prefix has no bit set past its length. */
static bool is_prefix(const uint8_t prefix[16], uint8_t length)
{
    if (length > 128)
        return false;
    for (size_t bit = length; bit < 128; bit++) {
        if (prefix[bit / 8] & (0x80 >> bit % 8))
            return false;
    }
    return true;
}

static bool is_inside(const uint8_t prefix[16], uint8_t length, const uint8_t outer[16], uint8_t outer_length)
{
    for (size_t bit = 0; bit < outer_length; bit++) {
        if ((prefix[bit / 8] ^ outer[bit / 8]) & (0x80 >> bit % 8))
            return false;
    }
    return outer_length <= length;
}

static void hold_assignments(hn_router *router)
{
    size_t assignments = hn_router_assignments(router);
    hn_assigned it;
    count(5, at_most(assignments, 31));
    for (size_t place = 0; place < assignments; place++) {
        CHECK(hn_router_assigned(router, place, &it) == 0 && it.applied <= 1);
        CHECK(is_prefix(it.prefix, it.length) && is_prefix(it.delegated, it.delegated_length));
        CHECK(is_inside(it.prefix, it.length, it.delegated, it.delegated_length));
        count(6, it.length * 2u + it.applied);
    }
    CHECK(hn_router_assigned(router, assignments, &it) == 2);
}

static void hold_used(hn_router *router)
{
    hn_used it;
    size_t place = 0;
    for (; hn_router_used(router, place, &it) == 0; place++)
        CHECK(is_prefix(it.prefix, it.length) && it.preferred <= it.valid);
    CHECK(place <= MOST_USED);
    count(7, place);
}

static void hold_departed(hn_router *router)
{
    size_t departures = hn_router_departures(router);
    hn_departed it;
    for (size_t place = 0; place < departures; place++) {
        CHECK(hn_router_departed(router, place, &it) == 0 && it.departed <= 1 && is_prefix(it.prefix, it.length));
        CHECK(!it.departed || it.valid <= MOST_LEFT);
    }
    CHECK(hn_router_departed(router, departures, &it) == 2);
    count(8, at_most(departures, 100));
}

static void hold_advert(hn_router *router, uint32_t endpoint)
{
    size_t length = 0, wanted = 0;
    uint8_t status = hn_router_advert(router, endpoint, &length, room, sizeof room);
    CHECK(status == 0 || status == 2);
    if (status != 0)
        return;
    CHECK(length >= HEADER && (length - HEADER) % OPTION == 0 && (length - HEADER) / OPTION <= MOST_TOLD_ANEW && room[0] == 134);
    CHECK(hn_router_advert(router, endpoint, &wanted, room, length - 1) == 2 && wanted == length);
    count(9, length);
}

static void hold_elected(hn_router *router, uint32_t endpoint)
{
    hn_elected it;
    for (uint8_t service = 0; service <= HN_SERVICE_DHCPV4 + 1; service++) {
        uint8_t status = hn_router_elected(router, endpoint, service, &it);
        CHECK(status == 0 || status == 2);
        CHECK(service <= HN_SERVICE_DHCPV4 || status == 2);
        CHECK(status == 2 || it.some == 1 || it.id == 0);
    }
}

/* What a call answered, and all that its router reports. */
static void hold(size_t which, uint8_t status, uint32_t call, bool is_event)
{
    hn_router *router = &routers[which];
    CHECK(status == HN_DONE || status == HN_OUT_OF_RANGE);
    count(10, call * 2 + (status != 0));
    CHECK(hn_router_moment(router) <= now && hn_router_due(router) <= UINT64_C(1) << 49);
    CHECK(!is_event || status != 0 || hn_router_moment(router) == now);
    hold_sends(router, which, is_event && status == 0);
    hold_notes(router);
    hold_nodes(router);
    hold_assignments(router);
    hold_used(router);
    hold_departed(router);
    for (uint32_t endpoint = 0; endpoint <= LINKS; endpoint++) {
        hold_advert(router, endpoint);
        hold_elected(router, endpoint);
    }
}

/* ---- calls */

/* A prefix of some that often meet, or of the input. */
static uint8_t some_of(struct input *input, uint8_t prefix[16])
{
    uint8_t how = next(input);
    memset(prefix, 0, 16);
    memcpy(prefix, some_prefix, 4);
    prefix[5] = how & 3;
    if (how & 64)
        prefix[7] = next(input);
    if (how & 128)
        prefix[0] = next(input);
    return how & 4 ? 48 : how & 8 ? 56 : how & 16 ? 64 : how & 32 ? 32 : next(input);
}

/* The oldest datagram arrives at the other router: as it was sent, cut, or with a bit changed. */
static void deliver(struct input *input)
{
    uint8_t how = next(input), source[16];
    struct flying it = flying[0];
    if (waiting == 0)
        return;
    memmove(flying, flying + 1, --waiting * sizeof flying[0]);
    if (how & 1)
        it.bytes[(next(input) + 256u * next(input)) % it.count] ^= (uint8_t)(1 << (how >> 5));
    if (how & 2)
        it.count -= next(input) % (it.count + 1);
    link_local(source, it.from);
    size_t to = 1 - it.from;
    uint8_t status = hn_router_arrive(&routers[to], now, how & 4 ? LINKS : LINK, it.multicast != (how & 8), source, 8231, it.bytes, it.count);
    free(it.bytes);
    hold(to, status, 0, true);
}

/* Bytes of the input arrive. */
static uint8_t arrive_raw(struct input *input, hn_router *router)
{
    uint8_t how = next(input), source[16];
    size_t left = (size_t)(input->end - input->at), length = how & 7 ? left / (how & 7) : left;
    link_local(source, 2 + (how >> 6));
    if ((how & 56) == 56)
        source[0] = 0x20;
    uint8_t status = hn_router_arrive(router, now, LINK, how & 8, source, how & 16 ? 8231 : how, input->at, length);
    input->at += length;
    return status;
}

static uint8_t set_addresses(struct input *input, hn_router *router)
{
    static hn_address list[MOST_ADDRESSES];
    uint8_t how = next(input);
    size_t length = how % MOST_ADDRESSES;
    for (size_t place = 0; place < length; place++) {
        list[place] = (hn_address){LINK + (place > 40), {0x20, [15] = (uint8_t)place}};
        if (how & 128)
            list[place].address[15] ^= 1;
    }
    return hn_router_addresses(router, now, list, length);
}

static uint8_t advertise(struct input *input, hn_router *router)
{
    uint8_t how = next(input);
    size_t length = 0, wanted = how & 8 ? MOST_ADVERT : how;
    uint8_t status = hn_router_advertise(router, how & 3, &length, room, wanted);
    CHECK(status == 0 || wanted < MOST_ADVERT);
    CHECK(status != 0 || (length <= wanted && length >= HEADER && (length - HEADER) % OPTION == 0));
    return status;
}

static uint8_t prefer(struct input *input, hn_router *router)
{
    uint8_t delegated[16], prefix[16], delegated_length = some_of(input, delegated), length = some_of(input, prefix);
    uint8_t status = hn_router_prefer(router, LINK + (next(input) & 1), delegated, delegated_length, prefix, length);
    CHECK(status == 2 || (is_prefix(prefix, length) && is_inside(prefix, length, delegated, delegated_length)));
    CHECK(status == 2 || (delegated_length >= 32 && length <= 64));
    return status;
}

static uint8_t depart(struct input *input, hn_router *router)
{
    uint8_t prefix[16], length = some_of(input, prefix);
    uint8_t status = hn_router_depart(router, LINK + (next(input) & 1), prefix, length, next(input) * 100u);
    CHECK(status == 2 || is_prefix(prefix, length));
    return status;
}

static uint8_t delegate(struct input *input, hn_router *router)
{
    uint8_t prefix[16], length = some_of(input, prefix), valid = next(input), preferred = next(input);
    return hn_router_external(router, now, prefix, length, valid == 255 ? UINT32_MAX : valid * 100u, preferred * 100u);
}

static uint8_t withdraw(struct input *input, hn_router *router)
{
    uint8_t prefix[16], length = some_of(input, prefix);
    return hn_router_withdraw(router, now, prefix, length);
}

/* An event or a call of a router. */
static void call(struct input *input, uint8_t word)
{
    size_t which = word >> 7;
    hn_router *router = &routers[which];
    uint8_t kind = word & 15, status;
    bool is_event = true;
    switch (kind) {
    case 0: deliver(input); return;
    case 1: status = hn_router_tick(router, now); break;
    case 2: status = arrive_raw(input, router); break;
    case 3: status = hn_router_attach(router, now, next(input) % (LINKS + 1)); break;
    case 4: status = hn_router_detach(router, now, next(input) % (LINKS + 1)); break;
    case 5: status = delegate(input, router); break;
    case 6: status = withdraw(input, router); break;
    case 7: status = hn_router_caps(router, now, next(input) & 31, next(input) & 15, 0, 1); break;
    case 8: status = hn_router_private(router, now, next(input) & 127); break;
    case 9: status = set_addresses(input, router); break;
    case 10: status = hn_router_restart(router, now); break;
    case 11: status = hn_router_tick(router, now == 0 ? LAST_MOMENT + 1 : now - 1); is_event = false; break;
    case 12: status = advertise(input, router); is_event = false; break;
    case 13: status = prefer(input, router); is_event = false; break;
    case 14: status = depart(input, router); is_event = false; break;
    default: status = hn_router_tick(router, now = at_most(hn_router_due(router), LAST_MOMENT) > now ? at_most(hn_router_due(router), LAST_MOMENT) : now); break;
    }
    hold(which, status, kind, is_event);
}

int LLVMFuzzerTestOneInput(const uint8_t *bytes, size_t length)
{
    static const uint32_t steps[8] = {0, 1, 200, 1000, 5000, 25000, 600000, UINT32_MAX};
    struct input input = {bytes, bytes + length};
    uint8_t seed[32];
    now = 0;
    waiting = 0;
    for (size_t which = 0; which < ROUTERS; which++) {
        seed_of(seed, next(&input));
        CHECK(hn_router_new(&routers[which], (uint32_t)(10 + which), now, seed) == 0);
        hold(which, hn_router_attach(&routers[which], now, LINK), 3, true);
    }
    for (int calls = 0; calls < CALLS && input.at < input.end; calls++) {
        uint8_t word = next(&input);
        now = at_most(now + steps[word >> 4 & 7], LAST_MOMENT);
        call(&input, word);
    }
    while (waiting > 0)
        free(flying[--waiting].bytes);
    for (size_t which = 0; which < ROUTERS; which++)
        hn_router_free(&routers[which]);
    return 0;
}

#ifdef REPLAY
int main(int words, char **names)
{
    static uint8_t bytes[1 << 16];
    for (int place = 1; place < words; place++) {
        FILE *file = fopen(names[place], "rb");
        CHECK(file != NULL);
        LLVMFuzzerTestOneInput(bytes, fread(bytes, 1, sizeof bytes, file));
        fclose(file);
    }
    size_t met = 0;
    for (size_t place = 0; place < COUNTERS; place++)
        met += extra[place] != 0;
    printf("fuzz_router: %d inputs were played, which %zu of %d counters met\n", words - 1, met, COUNTERS);
    return 0;
}
#endif

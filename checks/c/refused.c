/* Each allocation of each event is refused in turn: the router is as before, and the event then happens. */
#include "home.h"

extern long refuse_at, asked;

enum { MOST_STATE = 400000, REPORTS = 6 };

static uint8_t before[MOST_STATE], after[MOST_STATE];
static long events, refusals;

/* All that a router reports. */
static size_t state_of(hn_router *router, uint8_t *out)
{
    size_t length = 0, count = 0;
    uint64_t due = hn_router_due(router), moment = hn_router_moment(router);
    uint32_t id = hn_router_identifier(router), number = hn_router_number(router);
    memcpy(out, &due, 8);
    memcpy(out + 8, &moment, 8);
    memcpy(out + 16, &id, 4);
    memcpy(out + 20, &number, 4);
    hn_router_network_hash(router, out + 24);
    length = 32;
    hn_assigned assigned;
    for (size_t place = 0; hn_router_assigned(router, place, &assigned) == 0; place++) {
        out[length++] = assigned.applied;
        memcpy(out + length, assigned.prefix, 16);
        length += 16;
    }
    for (size_t place = 0; hn_router_node(router, place, &id) == 0; place++) {
        memcpy(out + length, &id, 4);
        length += 4;
    }
    hn_sent sent;
    for (size_t place = 0; place < hn_router_sends(router); place++) {
        CHECK(hn_router_send(router, place, &sent, &count, out + length, MOST_STATE - length) == 0);
        length += count;
    }
    CHECK(hn_router_advert(router, LINK, &count, out + length, MOST_STATE - length) == 0);
    return length + count;
}

/* An event, by its number. */
static uint8_t happen(hn_router *router, uint64_t now, int event)
{
    static const hn_address own[2] = {{LINK, {0x20, [15] = 1}}, {LINK, {0x20, [15] = 2}}};
    static const uint8_t other_prefix[16] = {0xfd, 1, 2, 3};
    switch (event) {
    case 0: return hn_router_tick(router, now);
    case 1: return hn_router_attach(router, now, 2);
    case 2: return hn_router_caps(router, now, 1, 2, 3, 4);
    case 3: return hn_router_private(router, now, 60);
    case 4: return hn_router_addresses(router, now, own, 2);
    case 5: return hn_router_external(router, now, other_prefix, 48, 600, 300);
    case 6: return hn_router_withdraw(router, now, other_prefix, 48);
    case 7: return hn_router_detach(router, now, 2);
    default: return hn_router_restart(router, now);
    }
}

/* Whether a call that was refused memory at one place left the router as it was. */
static bool stayed(hn_router *router, uint8_t status, size_t length)
{
    refuse_at = 0;
    refusals++;
    return status == 1 && state_of(router, after) == length && memcmp(before, after, length) == 0;
}

static void each_refusal_of_an_event(hn_router *router, uint64_t now, int event)
{
    size_t length = state_of(router, before);
    for (long at = 1;; at++) {
        refuse_at = at;
        uint8_t status = happen(router, now, event);
        if (status == 0)
            break;
        CHECK(stayed(router, status, length));
    }
    refuse_at = 0;
    events++;
}

/* A report or a call that is no event, by its number. */
static uint8_t report_of(hn_router *router, int report)
{
    static uint8_t room[MOST_BYTES];
    static const uint8_t other_prefix[16] = {0xfd, 1, 2, 3};
    hn_used used;
    hn_elected elected;
    size_t count;
    switch (report) {
    case 0: return hn_router_used(router, 0, &used);
    case 1: return hn_router_elected(router, LINK, 2, &elected);
    case 2: return hn_router_advert(router, LINK, &count, room, sizeof room);
    case 3: return hn_router_advertise(router, LINK, &count, room, sizeof room);
    case 4: return hn_router_prefer(router, LINK, other_prefix, 48, other_prefix, 64);
    default: return hn_router_depart(router, LINK, other_prefix, 64, 60);
    }
}

static void each_refusal_of_a_report(hn_router *router)
{
    size_t length = state_of(router, before);
    for (int report = 0; report < REPORTS; report++) {
        for (long at = 1;; at++) {
            refuse_at = at;
            uint8_t status = report_of(router, report);
            if (status == 0)
                break;
            CHECK(stayed(router, status, length));
        }
        refuse_at = 0;
    }
}

/* Each datagram that the other routers send is refused memory, in turn, at a third. */
static hn_router listener;
static uint64_t listener_now;

static void overheard(const uint8_t *bytes, size_t count)
{
    uint8_t source[16];
    link_local(source, 9);
    listener_now += 20;
    size_t length = state_of(&listener, before);
    for (long at = 1;; at++) {
        refuse_at = at;
        uint8_t status = hn_router_arrive(&listener, listener_now, LINK, events % 2 == 0, source, 8231, bytes, count);
        if (status == 0)
            break;
        CHECK(stayed(&listener, status, length));
    }
    refuse_at = 0;
    events++;
    each_refusal_of_an_event(&listener, listener_now, 0);
}

int main(void)
{
    static const uint8_t preferred[16] = {0x20, 0x01, 0x0d, 0xb8, 0, 0, 0, 9};
    struct home home;
    uint8_t seed[32];
    seed_of(seed, 5);
    for (long at = 1;; at++) {
        refuse_at = at;
        uint8_t status = hn_router_new(&listener, 7, 1000, seed);
        if (status == 0)
            break;
        CHECK(status == 1 && listener.at == NULL);
        refusals++;
    }
    refuse_at = 0;
    listener_now = 1000;
    CHECK(hn_router_attach(&listener, listener_now, LINK) == 0);
    CHECK(hn_router_prefer(&listener, LINK, some_prefix, 48, preferred, 64) == 0);

    begin(&home, 2);
    home.seen = overheard;
    live(&home, 30 * 1000);
    CHECK(hn_router_nodes(&listener) >= 1);
    for (int event = 1; event < 9; event++) {
        each_refusal_of_an_event(&home.routers[0], home.now, event);
        each_refusal_of_an_event(&home.routers[0], home.now + 1, 0);
        home.now++;
        each_refusal_of_a_report(&home.routers[0]);
    }
    end(&home);
    hn_router_free(&listener);
    printf("refused: %ld refusals of %ld events left the router as it was\n", refusals, events);
    return 0;
}

/* The router of the library: its events, what they send, and what is told of it. */
#include "hnd.h"

#include <arpa/inet.h>
#include <endian.h>
#include <inttypes.h>
#include <string.h>

/* In milliseconds: a reply to a multicast, and a keep-alive, is delayed by at most so much, which is Imin / 2 (RFC 7787,
 * sections 4.4 and 6.1.2); a keep-alive comes so long after what was sent to the group last (RFC 7788, section 3). */
enum { LONGEST_DELAY = 100, KEEP_ALIVE = 20000 };

/* Requests of the network state on a link stay so many milliseconds apart, as the router made them, though the first one
 * waited (RFC 7787, section 4.4); the kind of their TLV. */
enum { BETWEEN_REQUESTS = 200, REQUEST_NETWORK = 1 };

/* Kinds of notes that are more than told. */
enum { PEERS_FULL = 6, REFUSED = 7 };

hn_router router;
static bool is_changed = true;  /* an event came since the last report */
static bool is_refused;         /* the last event was */
static uint64_t retry;          /* no tick before, for want of memory */
static uint64_t untold = NEVER; /* when the state is told again, since there was no place for its lines */

/* What was told last. Before the first time no node is reachable, and later always one. */
static struct {
    uint32_t id;
    size_t nodes;
    uint64_t hash;
    hn_assigned assigned[MOST_ASSIGNED];
    size_t assigned_count;
} told;

/* Whether a call of the library is done. If not, a line says why. */
bool is_done(uint8_t status, const char *call)
{
    if (status != 0)
        say(OF_CALL, "undone %s why=%s", call, status == 1 ? "memory" : "range");
    return status == 0;
}

/* Whether the datagram in the room asks for the network state. */
static bool is_request(size_t count)
{
    const uint8_t *at = room;
    for (struct tlv it; next_tlv(&at, room + count, &it);) {
        if (it.kind == REQUEST_NETWORK)
            return true;
    }
    return false;
}

/* How far a request of the last event stays behind the one before, in milliseconds. */
static uint64_t gap_of_request(struct link *link)
{
    uint64_t made = hn_router_moment(&router), gap = earlier(made - link->asked, BETWEEN_REQUESTS);
    link->asked = made;
    return gap;
}

/* Sends a datagram of the last event, which is in the room, at a moment: what answers a multicast waits for a while. */
static void send_one(const hn_sent *sent, size_t count, uint64_t at)
{
    struct link *link = link_of_endpoint(sent->endpoint);
    uint64_t gap = sent->unicast && is_request(count) ? gap_of_request(link) : 0;
    if (gap > 0 && at < link->asked_at + gap)
        at = link->asked_at + gap;
    if (sent->unicast && sent->port != PORT && settings.answers_own_port)
        say(OF_SEND, "unsent %s bytes=%zu why=\"it is for port %u\"", link->name, count, sent->port);
    else if (sent->unicast && at > now())
        hold(sent, at, gap, room, count);
    else {
        send_out(udp, link, sent->to, sent->port, room, count);
        if (gap > 0)
            link->asked_at = now();
    }
    if (!sent->unicast)
        link->sent = hn_router_moment(&router);
}

/* Sends each datagram of the last event. */
static void send_all(bool is_answer)
{
    size_t sends = hn_router_sends(&router), count = 0;
    uint64_t at = is_answer && sends > 0 ? now() + draw_number(LONGEST_DELAY) : now();
    hn_sent sent;
    for (size_t place = 0; place < sends; place++) {
        if (is_done(hn_router_send(&router, place, &sent, &count, room, sizeof room), "send"))
            send_one(&sent, count, at);
    }
}

/* Tells a note. */
static void tell_note(const hn_note *note)
{
    static const char *const took[] = {"kept",    "renumbered", "ask",  "stale", "badhash",
                                       "badbody", "long",       "full", "own"};
    switch (note->kind) {
    case 1: say(OF_NOTE, "note far"); break;
    case 2: say(OF_NOTE, "note malformed place=%" PRIu64 " why=%u", note->number, note->why); break;
    case 3: say(OF_NOTE, "note ignored kind=%" PRIu64 " why=%u", note->number, note->why); break;
    case 4: say(OF_NOTE, "note took node=%08" PRIx64 " %s", note->number, took[note->why]); break;
    case 5: say(OF_NOTE, "note own number=%" PRIu64, note->number); break;
    case PEERS_FULL: say(OF_NOTE, "note peers-full"); break;
    default: say(OF_NOTE, "note refused"); break;
    }
}

/* Tells what the last event noted, which came on a link, or on none. */
static void take_notes(struct link *link)
{
    size_t notes = hn_router_notes(&router);
    hn_note note;
    is_refused = false;
    for (size_t place = 0; place < notes; place++) {
        if (!is_done(hn_router_note(&router, place, &note), "note"))
            continue;
        tell_note(&note);
        is_refused |= note.kind == REFUSED;
        if (note.kind == PEERS_FULL && link != NULL)
            link->is_full = true;
    }
}

/* Does what comes of an event at once, if it happened. A multicast that arrived has a link. */
static bool follow(uint8_t status, const char *call, struct link *link, bool is_multicast)
{
    if (!is_done(status, call))
        return false;
    send_all(is_multicast);
    take_notes(link);
    is_changed = true;
    return true;
}

/* Makes the router. It has no link yet. */
void begin_router(void)
{
    uint8_t seed[32];
    draw(seed, sizeof seed);
    if (!is_done(hn_router_new(&router, settings.id, now(), seed), "new"))
        fail(FAILED, "the router", "out of memory");
}

bool attach(struct link *link)
{
    link->sent = now();
    link->is_attached = follow(hn_router_attach(&router, now(), link->endpoint), "attach", NULL, false);
    return link->is_attached;
}

bool detach(struct link *link)
{
    link->is_attached = !follow(hn_router_detach(&router, now(), link->endpoint), "detach", NULL, false);
    return !link->is_attached;
}

/* Time has passed. Without memory a line says so, and it is tried again a little later. */
bool tick(void)
{
    bool done = follow(hn_router_tick(&router, now()), "tick", NULL, false);
    if (!done)
        retry = now() + RETRY;
    return done;
}

/* A prefix is delegated. Without memory it is not; it may be delegated again. Refused is a ninth. */
uint8_t delegate(const struct delegation *it, bool *refused)
{
    uint8_t status = hn_router_external(&router, now(), it->prefix.bits, it->prefix.length, it->valid, it->preferred);
    *refused = follow(status, "external", NULL, false) && is_refused;
    return status;
}

/* A prefix is delegated no longer. Without memory it still is; it may be withdrawn again. */
uint8_t withdraw(const struct prefix *prefix)
{
    uint8_t status = hn_router_withdraw(&router, now(), prefix->bits, prefix->length);
    follow(status, "withdraw", NULL, false);
    return status;
}

/* The router has these addresses, and no others. */
bool set_addresses(const hn_address *list, size_t count)
{
    return follow(hn_router_addresses(&router, now(), list, count), "addresses", NULL, false);
}

/* Whether source and destination are what they have to be: link-local, or the group (RFC 7788, section 3). */
static bool is_near(const struct arrival *it, bool *is_multicast)
{
    static const uint8_t group[16] = {0xff, 0x02, [15] = 0x11};
    *is_multicast = memcmp(it->to.s6_addr, group, sizeof group) == 0;
    if (IN6_IS_ADDR_LINKLOCAL(&it->from.sin6_addr) && (*is_multicast || IN6_IS_ADDR_LINKLOCAL(&it->to)))
        return true;
    say(OF_STRAY, "dropped %s from=%s to=%s why=far", it->link->name, address_text(it->from.sin6_addr.s6_addr),
        address_text(it->to.s6_addr));
    return false;
}

/* Takes a datagram. Without memory it is dropped, as it could be lost on the link. */
enum received take_datagram(void)
{
    struct arrival it;
    bool is_multicast;
    enum received received = receive(udp, &it);
    if (received != PACKET || !is_near(&it, &is_multicast))
        return received;
    uint8_t status = hn_router_arrive(&router, now(), it.link->endpoint, is_multicast, it.from.sin6_addr.s6_addr,
                                      ntohs(it.from.sin6_port), room, it.length);
    if (status == HN_DONE)
        hear_nodes(it.length);
    follow(status, "arrive", it.link, is_multicast);
    return received;
}

/* Whether what is due at a moment is a keep-alive: nothing was sent to the group of a link for so long. */
static bool is_keep_alive(uint64_t due)
{
    for (const struct link *link = links; link < links + link_count; link++) {
        if (link->is_attached && link->sent + KEEP_ALIVE == due)
            return true;
    }
    return false;
}

/* When the router is to tick. A keep-alive comes a little late, so that nodes do not fall in step. */
uint64_t router_due(void)
{
    static uint64_t late_for, delay;
    uint64_t due = hn_router_due(&router);
    if (is_keep_alive(due)) {
        if (late_for != due)
            delay = draw_number(LONGEST_DELAY);
        late_for = due;
        due += delay;
    }
    return due < retry ? retry : due;
}

/* Reads the delegated prefixes that are used in the home, and counts them. */
size_t read_used(hn_used list[MOST_USED])
{
    for (size_t count = 0; count < MOST_USED; count++) {
        uint8_t status = hn_router_used(&router, count, &list[count]);
        if (status == 2 || !is_done(status, "used"))
            return count;
    }
    return MOST_USED;
}

/* What is assigned, as of the last report. */
const hn_assigned *assignments(size_t *count)
{
    *count = told.assigned_count;
    return told.assigned;
}

/* Tells the identifier, how many nodes are reachable, and the network state hash, if they have changed. What has no place in
 * this second is told in the next one. */
static void tell_state(void)
{
    uint32_t id = hn_router_identifier(&router);
    size_t nodes = hn_router_nodes(&router);
    uint64_t hash;
    hn_router_network_hash(&router, (uint8_t *)&hash);
    hash = be64toh(hash);
    bool are_told = (told.nodes != 0 && id == told.id) || say(OF_STATE, "id=%08" PRIx32, id);
    are_told &= (told.nodes != 0 && hash == told.hash) || say(OF_STATE, "net=%016" PRIx64, hash);
    are_told &= nodes == told.nodes || say(OF_STATE, "reach %zu", nodes);
    untold = are_told ? NEVER : (now() / 1000 + 1) * 1000;
    if (!are_told)
        return;
    told.id = id;
    told.hash = hash;
    told.nodes = nodes;
}

/* Tells an assignment. */
static void tell_assigned(const char *word, const hn_assigned *it)
{
    say(OF_ASSIGNMENT, "%s %s %s in=%s applied=%s", word, link_of_endpoint(it->endpoint)->name, text_of(it->prefix, it->length),
        text_of(it->delegated, it->delegated_length), it->applied ? "yes" : "no");
}

/* The same assignment in a list, whether it is applied there or not. */
static const hn_assigned *find(const hn_assigned *list, size_t count, const hn_assigned *wanted)
{
    for (const hn_assigned *it = list; it < list + count; it++) {
        if (it->endpoint == wanted->endpoint && it->length == wanted->length
            && it->delegated_length == wanted->delegated_length && memcmp(it->prefix, wanted->prefix, 16) == 0)
            return it;
    }
    return NULL;
}

/* Whether a prefix is assigned to a link, applied or not, as of the last report. */
bool is_assigned(const struct link *link, const struct prefix *prefix)
{
    for (const hn_assigned *it = told.assigned; it < told.assigned + told.assigned_count; it++) {
        if (it->endpoint == link->endpoint && it->length == prefix->length && memcmp(it->prefix, prefix->bits, 16) == 0)
            return true;
    }
    return false;
}

/* Tells each assignment that went, that came, or that is applied now. There is no private link. */
static void tell_assignments(void)
{
    static hn_assigned list[MOST_ASSIGNED];
    size_t there = hn_router_assignments(&router), count = 0;
    for (size_t place = 0; place < there && count < MOST_ASSIGNED; place++)
        count += is_done(hn_router_assigned(&router, place, &list[count]), "assigned");
    for (const hn_assigned *it = told.assigned; it < told.assigned + told.assigned_count; it++) {
        if (find(list, count, it) == NULL)
            tell_assigned("gone", it);
    }
    for (const hn_assigned *it = list; it < list + count; it++) {
        const hn_assigned *before = find(told.assigned, told.assigned_count, it);
        if (before != NULL && before->applied == it->applied)
            continue;
        tell_assigned("assigned", it);
        if (it->applied)
            remember(it);
    }
    memcpy(told.assigned, list, count * sizeof list[0]);
    told.assigned_count = count;
}

/* What the system is to follow has changed without an event. */
void want_report(void)
{
    is_changed = true;
}

/* Whether something is to be told, or to be followed. */
static bool is_report_due(void)
{
    return is_changed || earlier(earlier(routes_due(), state_due()), earlier(ula_due(), untold)) <= now();
}

/* Tells what events have changed, and has the system follow: addresses, routes, advertisements. Addresses that are set
 * are an event of their own. */
void report(void)
{
    for (unsigned times = 0; times < 3 && is_report_due(); times++) {
        is_changed = false;
        follow_ula();
        tell_state();
        tell_assignments();
        follow_routes(told.assigned, told.assigned_count);
        watch_adverts();
        follow_state();
    }
}

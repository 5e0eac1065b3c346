/* A ULA prefix of this router's own making (RFC 7788, section 6.5; RFC 4193): with -U, or once `ula on` is told.
 *
 * It is made where no delegated prefix of the home is preferred any more, or yet. It is given up where one outside fd00::/8 is,
 * or where a node with a greater identifier gives such a prefix of its own: of several the one stays whose node has the
 * greatest. Either has to last for a while. The prefix is drawn once, and is the same each time. */
#include "hnd.h"

#include <string.h>

/* In milliseconds: so long a reason to make or to give up has to last. By then the router knows the home, and hosts have an
 * address in the prefix that comes instead. Where another router has a greater identifier, that one may make its own first. No
 * two looks are nearer than BETWEEN_LOOKS, whatever arrives. */
enum { PATIENCE = 15000, PATIENCE_FOR_OTHERS = 30000, MORE_PATIENCE = 2000, BETWEEN_LOOKS = 1000 };

/* How many nodes with a prefix of their own are remembered: as many as the router knows. */
enum { MOST_NODES = 256 };

/* Kinds of TLVs, and bytes of what stands before the data of a node, and before a delegated prefix. */
enum { NODE_STATE = 5, EXTERNAL = 33, DELEGATED = 34, STATE_HEAD = 20, DELEGATED_HEAD = 9 };

/* Bits of a prefix of one's own making, and the first byte of fd00::/8 (RFC 4193, section 3.1). */
enum { ULA_BITS = 48, LOCAL = 0xfd };

/* Another node that gives a prefix of its own making, and the moment up to which that is preferred, as it said last. */
static struct {
    uint32_t id;
    uint64_t until;
} nodes[MOST_NODES];
static size_t node_count;

static struct prefix own;         /* of no length before it is drawn */
static bool is_made, is_over;     /* the router gives it; the daemon ends */
static uint64_t looked;           /* when it was looked at last, */
static uint64_t due = NEVER;      /* and when that is to be done again */
static uint64_t until = NEVER;    /* when it is made or given up, unless the reason goes before */

/* What a node says. */

/* Up to which moment a prefix of a node's own making is preferred, by a list of TLVs of its data as of a moment. */
static uint64_t preferred_until(const uint8_t *at, const uint8_t *end, unsigned wanted, uint64_t begun)
{
    uint64_t latest = 0;
    for (struct tlv it; next_tlv(&at, end, &it);) {
        uint64_t found = 0;
        if (it.kind != wanted)
            continue;
        if (wanted == EXTERNAL)
            found = preferred_until(it.value, it.value + it.length, DELEGATED, begun);
        else if (it.length >= DELEGATED_HEAD + ULA_BITS / 8 && it.value[8] == ULA_BITS && it.value[DELEGATED_HEAD] == LOCAL) {
            uint32_t lifetime = number_at(it.value + 4);
            found = lifetime == UINT32_MAX ? NEVER : begun + (uint64_t)lifetime * 1000;
        }
        latest = found > latest ? found : latest;
    }
    return latest;
}

/* Whether a node is reachable. */
static bool is_reachable(uint32_t id)
{
    uint32_t found;
    size_t count = hn_router_nodes(&router);
    for (size_t place = 0; place < count && is_done(hn_router_node(&router, place, &found), "node"); place++) {
        if (found == id)
            return true;
    }
    return false;
}

/* The place for one more node: that of one that cannot be reached, if there is no other; one past the last one where each can
 * be. */
static size_t free_place(void)
{
    size_t place = 0;
    if (node_count < MOST_NODES)
        return node_count++;
    while (place < node_count && is_reachable(nodes[place].id))
        place++;
    return place;
}

/* A node says up to when a prefix of its own making is preferred. */
static void put_node(uint32_t id, uint64_t end)
{
    size_t place = 0;
    while (place < node_count && nodes[place].id != id)
        place++;
    if (place == node_count && end > now())
        place = free_place();
    if (place == node_count)
        return;
    nodes[place].id = id;
    nodes[place].until = end;
}

/* Hears what nodes say in the datagram in the room, as far as the router has kept it. Its notes are in the order of the
 * datagram. */
void hear_nodes(size_t length)
{
    const uint8_t *at = room;
    size_t notes = hn_router_notes(&router);
    hn_note note;
    for (size_t place = 0; place < notes; place++) {
        struct tlv it;
        bool is_found = false;
        if (!is_done(hn_router_note(&router, place, &note), "note") || note.kind != HN_NOTE_TOOK || note.why > HN_TOOK_RENUMBERED)
            continue;
        while (!is_found && next_tlv(&at, room + length, &it))
            is_found = it.kind == NODE_STATE && it.length > STATE_HEAD && number_at(it.value) == note.number;
        if (is_found) {
            uint64_t age = earlier(number_at(it.value + 8), now());
            put_node((uint32_t)note.number, preferred_until(it.value + STATE_HEAD, it.value + it.length, EXTERNAL, now() - age));
        }
    }
}

/* Whether it is made. */

/* Whether a reachable node with a greater identifier gives one. */
static bool is_outranked(void)
{
    for (size_t place = 0; place < node_count; place++) {
        if (nodes[place].id > hn_router_identifier(&router) && nodes[place].until > now() && is_reachable(nodes[place].id))
            return true;
    }
    return false;
}

/* Whether a delegated prefix of the home that is not the own one is preferred, and is outside fd00::/8 where that is asked. */
static bool is_another_preferred(bool is_outside)
{
    hn_used used[MOST_USED];
    size_t count = read_used(used);
    for (const hn_used *it = used; it < used + count; it++) {
        bool is_own = it->length == own.length && memcmp(it->prefix, own.bits, sizeof own.bits) == 0;
        if (it->preferred > 0 && !is_own && !(is_outside && it->prefix[0] == LOCAL))
            return true;
    }
    return false;
}

/* Why it is given up, or nothing. */
static const char *reason_to_go(void)
{
    return is_another_preferred(true) ? "delegated" : is_outranked() ? "outranked" : NULL;
}

/* How long a reason to make one has to last. All routers see it at once. */
static uint64_t patience(void)
{
    uint32_t greatest = hn_router_identifier(&router), id;
    size_t count = hn_router_nodes(&router);
    for (size_t place = 0; place < count && is_done(hn_router_node(&router, place, &id), "node"); place++)
        greatest = id > greatest ? id : greatest;
    return (greatest == hn_router_identifier(&router) ? PATIENCE : PATIENCE_FOR_OTHERS) + draw_number(MORE_PATIENCE);
}

/* The router gives it, from now on for ever. It is drawn where that was not done before: fd, and 40 random bits. Whether that is
 * done; if not, a line says why. */
static bool make(void)
{
    struct delegation given = {.valid = UINT32_MAX, .preferred = UINT32_MAX};
    const char *why;
    if (own.length == 0) {
        draw(own.bits, ULA_BITS / 8);
        own.bits[0] = LOCAL;
        own.length = ULA_BITS;
    }
    given.prefix = own;
    why = add_uplink(&given);
    if (why != NULL)
        say(OF_STATE, "unmade %s why=\"%s\"", text_of(own.bits, own.length), why);
    else
        say(OF_STATE, "made %s", text_of(own.bits, own.length));
    is_made = why == NULL;
    keep_state();
    return is_made;
}

/* The router gives it no longer. */
static bool give_up(const char *reason)
{
    const char *why = has_uplink(&own) ? remove_uplink(&own) : NULL;
    if (why != NULL)
        return false;
    say(OF_STATE, "given-up %s why=%s", text_of(own.bits, own.length), reason);
    is_made = false;
    keep_state();
    return true;
}

/* Looks whether it is to be made or given up, and does so where the reason has lasted. */
static void look(void)
{
    is_made = is_made && has_uplink(&own);
    const char *reason = is_made ? reason_to_go() : NULL;
    looked = now();
    if (is_made ? reason == NULL : is_another_preferred(false))
        until = NEVER;
    else if (until == NEVER)
        until = now() + (is_made ? PATIENCE : patience());
    else if (until <= now())
        until = (is_made ? give_up(reason) : make()) ? NEVER : now() + PATIENCE;
    due = until;
}

/* Follows what the home has now. */
void follow_ula(void)
{
    if (!settings.makes_ula || is_over)
        return;
    if (now() < looked + BETWEEN_LOOKS)
        due = earlier(due, looked + BETWEEN_LOOKS);
    else
        look();
}

/* When something is to be done here. */
uint64_t ula_due(void)
{
    return settings.makes_ula && !is_over ? due : NEVER;
}

/* Such prefixes are made from now on, or none is, and one that is made goes. Returns nothing, or why that is not done. */
const char *set_ula(bool is_wanted)
{
    if (!is_wanted && is_made && !give_up("off"))
        return "out of memory";
    settings.makes_ula = is_wanted;
    until = NEVER;
    due = 0;
    return NULL;
}

/* Over a restart. */

/* Takes what an earlier daemon kept: its prefix, and whether it was made. Whether it is such a prefix. */
bool take_ula(const struct prefix *it, bool was_made)
{
    if (it->length != ULA_BITS || it->bits[0] != LOCAL)
        return false;
    own = *it;
    is_made = was_made;
    return true;
}

/* What was taken does not count. */
void forget_ula(void)
{
    own = (struct prefix){.length = 0};
    is_made = false;
}

/* The prefix, and whether it is made. Nothing before it is drawn. */
const struct prefix *own_ula(bool *made)
{
    *made = is_made;
    return own.length == 0 ? NULL : &own;
}

/* A router that gave one before gives it at once, so that a restart takes it from no host. */
void begin_ula(void)
{
    is_made = is_made && settings.makes_ula && make();
}

/* It is the end: what is withdrawn now is given again after a restart. */
void end_ula(void)
{
    is_over = true;
}

/* A home router with HNCP (RFC 7787, RFC 7788) as a library: libhn_router_c.a, made by `rt lib` in crates/hn_router_c and
 * linked with include/hn_heap.c. `rt lib --cpu x86-64` makes it for any x86-64 processor; without that it asks for one of
 * x86-64-v2. `rt lib --target aarch64-unknown-linux-gnu` makes it for aarch64. Each writes over the same file: copy it first.
 * docs/EMBED.md shows its use.
 *
 * The library opens no socket, reads no clock and starts no thread. The caller tells it each event at its moment, sends the
 * datagrams that come of it, and calls again at the moment that hn_router_due says.
 *
 * A router is held by a struct hn_router, the handle. Set it to zero, and hand it to hn_router_new. A handle has no router
 * while it is zero, after hn_router_free, and after hn_router_new did not answer 0. Each call with such a handle that has a
 * status answers 2, each count and number is 0, hn_router_due is 2^49, and nothing is written; hn_router_free does nothing.
 *
 * What is the caller's: the handle holds zeros before the first call, and later what the last call left there. Never copy it:
 * a second copy does not see that the router was given up. Use it in one thread at a time. No pointer may be null, also where
 * a length is 0; pointers of one call may not overlap, unless both are only read. The library is proved, and this file is
 * not: checks/embed compares its names, their order and types with the source.
 *
 * A call that returns uint8_t returns
 *
 *     0   done
 *     1   out of memory: what was to happen did not, and the router is as it was
 *     2   a value is out of range, there is nothing at that place, or the handle has no router: the router is as it was
 *
 * A moment is in milliseconds, from 0 to 2^48, by a clock that never goes back: never before the moment of the router's last
 * event. Addresses and prefixes are 16 bytes in the order of the network; a prefix has no bit set past its length, which is
 * in bits, 0 to 128. An endpoint is a link of the router, under a number from 1 on that the caller chooses. */
#ifndef HN_ROUTER_H
#define HN_ROUTER_H

#include <stdbool.h>
#include <stddef.h>
#include <stdint.h>

#ifdef __cplusplus
extern "C" {
#endif

/* The version, as the programs name it, and as a number of two digits a part. */
#define HN_ROUTER_VERSION "1.0.0"
#define HN_ROUTER_VERSION_NUMBER 10000

/* What a call answers; what is noted (hn_note), and what becomes of the state of a node (`why` of HN_NOTE_TOOK); the services
 * that a node is elected for (hn_router_elected). */
enum hn_status { HN_DONE = 0, HN_NO_MEMORY = 1, HN_OUT_OF_RANGE = 2 };

enum hn_note_kind {
    HN_NOTE_FAR = 1,
    HN_NOTE_MALFORMED = 2,
    HN_NOTE_IGNORED = 3,
    HN_NOTE_TOOK = 4,
    HN_NOTE_OWN = 5,
    HN_NOTE_PEERS_FULL = 6,
    HN_NOTE_REFUSED = 7
};

enum hn_took {
    HN_TOOK_KEPT = 0,
    HN_TOOK_RENUMBERED = 1,
    HN_TOOK_ASK = 2,
    HN_TOOK_STALE = 3,
    HN_TOOK_BAD_HASH = 4,
    HN_TOOK_BAD_BODY = 5,
    HN_TOOK_TOO_LONG = 6,
    HN_TOOK_FULL = 7,
    HN_TOOK_OWN = 8
};

enum hn_service {
    HN_SERVICE_MDNS_PROXY = 0,
    HN_SERVICE_PREFIX_DELEGATION = 1,
    HN_SERVICE_DHCPV6 = 2,
    HN_SERVICE_DHCPV4 = 3
};

typedef struct {
    void *at;
} hn_router;

/* Where a datagram goes: out of the link of `endpoint`, from port 8231, to `port` of `to`. */
typedef struct {
    uint32_t endpoint;
    uint8_t unicast; /* 0: to the group ff02::11 and port 8231 */
    uint16_t port;
    uint8_t to[16];
} hn_sent;

/* A prefix that is assigned to the link of an endpoint. */
typedef struct {
    uint32_t endpoint; /* 0: of the private link */
    uint8_t length;
    uint8_t applied; /* 1: it was kept long enough to be used on the link, and 0 before */
    uint8_t prefix[16];
    uint8_t delegated[16]; /* the delegated prefix that it lies in */
    uint8_t delegated_length;
} hn_assigned;

/* A delegated prefix that is used, with what is left of its lifetimes in milliseconds; 2^64 - 1 never ends. */
typedef struct {
    uint64_t valid;
    uint64_t preferred;
    uint8_t length;
    uint8_t prefix[16];
} hn_used;

/* A prefix that was advertised on an endpoint, and that hosts may still hold. */
typedef struct {
    uint32_t endpoint;
    uint32_t valid; /* what is left of its valid lifetime in whole seconds: 0 it has ended, 2^32 - 1 it never ends */
    uint8_t departed; /* 1: an advertisement went without it, or told it as departed; 0: the last one there had it */
    uint8_t length;
    uint8_t prefix[16];
} hn_departed;

/* Who is elected for a service on a link. */
typedef struct {
    uint32_t id; /* 0 where nobody is */
    uint8_t some; /* 1 where a node is elected */
} hn_elected;

/* Something worth noting in a log. By `kind`: 1 a datagram came from an address that is not link-local; 2 a datagram is no
 * list of TLVs, from the byte `number` on, for the reason `why`; 3 a TLV of the kind `number` was not followed; 4 the state
 * of the node `number` came, and `why` says what became of it (0 kept, 1 renumbered, 2 to be asked for, 3 stale, 4 its hash
 * is wrong, 5 its data are no TLVs, 6 they are too long, 7 no room for one more node, 8 it claims the own identifier); 5
 * another node claims the own identifier, with the sequence number `number`; 6 no room for one more peer; 7 the event was
 * refused: see each call. */
typedef struct {
    uint64_t number;
    uint8_t kind;
    uint8_t why;
} hn_note;

/* An address of the router, on the link of an endpoint. */
typedef struct {
    uint32_t endpoint;
    uint8_t address[16];
} hn_address;

/* A peer on the link of an endpoint: an endpoint of another node there (RFC 7787, section 2). */
typedef struct {
    uint64_t contact; /* the moment at which it was last heard */
    uint32_t id; /* the identifier of the node */
    uint32_t endpoint; /* the node's own number of its endpoint */
    uint16_t port; /* the UDP port and the address that it sends from */
    uint8_t address[16];
} hn_peer;

/* What is known of another node, beside its data (RFC 7787, section 7.2.3). */
typedef struct {
    uint64_t came; /* the moment at which its sequence number came */
    uint32_t id;
    uint32_t number; /* its sequence number */
    uint32_t age; /* how old its data were then, in milliseconds */
    uint8_t reachable; /* 1: over peers that name each other; 0: it is kept for a while, and counts for nothing */
    uint8_t hash[8]; /* of its data: the first half of their MD5 */
} hn_known;

/* Makes a router, with a number of 32 bits under which others know it (one's own: draw it once and keep it) and 32 bytes
 * that nobody can guess, of which all its random choices are made. It has no endpoints, and may know 256 other nodes. Out of
 * range: `now` is after 2^48, or the handle has a router, which stays. */
uint8_t hn_router_new(hn_router *router, uint32_t id, uint64_t now, const uint8_t seed[32]);

/* Gives the router up, with its memory. The handle has none then. */
void hn_router_free(hn_router *router);

/* Events. Each may change all that is reported below. Out of range, here and in each of them: `now` is before the moment of
 * the last event, or after 2^48. After a call that is done send each datagram (hn_router_sends, hn_router_send) before the
 * next event. A refused event is done: only its moment counts, and the note 7 tells it. */

/* Time has passed. Does nothing before hn_router_due. */
uint8_t hn_router_tick(hn_router *router, uint64_t now);

/* An endpoint is attached to a link. Refused: endpoint 0, one that is attached, a seventeenth. */
uint8_t hn_router_attach(hn_router *router, uint64_t now, uint32_t endpoint);

/* An endpoint is detached, with its peers and addresses. Refused: one that is not attached. */
uint8_t hn_router_detach(hn_router *router, uint64_t now, uint32_t endpoint);

/* A datagram of HNCP arrived on an endpoint: whether it was sent to ff02::11, its source address and port, and its bytes.
 * Refused: at an endpoint that is not attached. One from an address that is not link-local is noted, and no more. */
uint8_t hn_router_arrive(hn_router *router, uint64_t now, uint32_t endpoint, bool multicast, const uint8_t source[16], uint16_t port, const uint8_t *bytes, size_t bytes_length);

/* A prefix is delegated to the router, or again, with its lifetimes in seconds from now on; 2^32 - 1 never ends. Out of
 * range: no prefix, or it would be preferred for longer than it is valid. Refused: a ninth. */
uint8_t hn_router_external(hn_router *router, uint64_t now, const uint8_t prefix[16], uint8_t length, uint32_t valid, uint32_t preferred);

/* A prefix is delegated no longer. What is assigned of it goes at the next tick, which is due. Out of range: no prefix. */
uint8_t hn_router_withdraw(hn_router *router, uint64_t now, const uint8_t prefix[16], uint8_t length);

/* How well the router does what a link elects one node for, 0 (not at all) to 15: mDNS proxy, prefix delegation by DHCPv6,
 * addresses by DHCPv6, addresses by DHCPv4. 8 to 15 are reserved (RFC 7788, section 10.1). Out of range: above 15. */
uint8_t hn_router_caps(hn_router *router, uint64_t now, uint8_t m, uint8_t p, uint8_t h, uint8_t l);

/* The router has a private link, of which the prefixes have this length, 1 to 64; or has none, with 0. Out of range: above
 * 64. */
uint8_t hn_router_private(hn_router *router, uint64_t now, uint8_t length);

/* The router has these addresses, and no others. Refused: where they do not strictly ascend by endpoint and then address, or
 * are more than 64, or one is of an endpoint that is not attached. */
uint8_t hn_router_addresses(hn_router *router, uint64_t now, const hn_address *list, size_t list_length);

/* The router begins anew, with its identifier, endpoints, delegated prefixes, capabilities and private link. Its addresses
 * go: give them again. What was advertised is not forgotten (hn_router_advertise). */
uint8_t hn_router_restart(hn_router *router, uint64_t now);

/* What the router chooses for itself. Both calls are events. What they choose is as of the moment of the last event: tick before.
 * Where there is nothing to do, time has passed, as by hn_router_tick. */

/* The router announces a ULA prefix of its own making, withdraws one, or keeps what there is (RFC 7788, section 6.5). Call it
 * after each tick for as long as the home is to have a ULA prefix where there is no other: of the reachable nodes the one with the
 * greatest identifier announces a /48 inside fd00::/8 with a random Global ID (RFC 4193), which never ends, as by
 * hn_router_external. It is withdrawn where a delegated prefix outside fd00::/8 is preferred, or a greater node has one too. Keep
 * the prefix over a restart of the program: delegate it again. Refused: a ninth delegated prefix. */
uint8_t hn_router_choose_ula(hn_router *router, uint64_t now);

/* The router chooses an address of its own in each applied prefix of an attached endpoint, and has these and no others, as by
 * hn_router_addresses (RFC 7788, section 6.4). One that it has stays, unless a greater node has it. A new one has a random number
 * of 1 to 65535 behind the bits of the prefix, which no other node has. Call it after each tick. Refused: more than 64. */
uint8_t hn_router_choose_addresses(hn_router *router, uint64_t now);

/* Over a restart of the program. None of these calls is an event: the moment stays, and nothing is to be sent. Tell them before
 * the endpoints are attached. */

/* A prefix is preferred for the link of an endpoint, inside a delegated prefix, in place of what was for this pair before. Where
 * a tick gives the pair a new prefix and publishes it, this is the one, on two conditions: it has the length that the link gets,
 * and it overlaps no prefix that is advertised when the turn of the pair comes. Pairs have their turns in the order of delegated
 * prefix and endpoint, so that a later pair can lose its prefix. What is assigned already does not change, and an event never
 * fails for it. A tick is planned once before it happens, and more often where pairs miss their prefixes: for each random word
 * that it takes mostly twice, and at most once for each such pair. Nothing forgets a preferred prefix: no detach, and no restart
 * of the router. Out of range: no prefix; the one is not inside the other; the delegated prefix has fewer than 32 bits, or the
 * other more than 64; a 513th pair. */
uint8_t hn_router_prefer(hn_router *router, uint32_t endpoint, const uint8_t delegated[16], uint8_t delegated_length, const uint8_t prefix[16], uint8_t length);

/* How many prefixes were advertised, on all endpoints (hn_router_advertise, hn_router_depart), that hosts may still hold; and the
 * one at a place from 0 on. Those of the last advertisements are among them. What is left is as of the moment of the last event:
 * keep with each prefix when that is over, by a clock that goes on while the program does not. Out of range: nothing at that
 * place. */
size_t hn_router_departures(hn_router *router);
uint8_t hn_router_departed(hn_router *router, size_t place, hn_departed *departed);

/* A prefix was advertised on an endpoint in an earlier life of the program, and is valid for so many seconds from the moment of
 * the last event on; 2^32 - 1 never ends. If the next advertisement there does not have it, it departs then. It replaces what was
 * told of this prefix there. Out of range: no prefix, or the endpoint has 64 others. */
uint8_t hn_router_depart(hn_router *router, uint32_t endpoint, const uint8_t prefix[16], uint8_t length, uint32_t valid);

/* Reports. The router stays as it is. What is written to stays as it is unless the call is done, but for `count`, and for
 * `sent` of hn_router_send and `known` of hn_router_data. */

/* The moment up to which each tick does nothing; it may be past. It is never above 2^49. */
uint64_t hn_router_due(hn_router *router);

/* The moment of the last event. */
uint64_t hn_router_moment(hn_router *router);

/* The identifier. It changes where another node has it: read it after each event, and keep it. */
uint32_t hn_router_identifier(hn_router *router);

/* The sequence number of what the router published last. */
uint32_t hn_router_number(hn_router *router);

/* A hash of what all reachable nodes publish: nodes that agree have the same. */
void hn_router_network_hash(hn_router *router, uint8_t hash[8]);

/* How many datagrams the last event sends, and the one at a place from 0 on: where it goes, how many bytes it has, and these.
 * A room of 65507 bytes is enough for each. Out of range: nothing at that place, or no room for it; `sent` and `count` tell
 * of it where there is no room. */
size_t hn_router_sends(hn_router *router);
uint8_t hn_router_send(hn_router *router, size_t place, hn_sent *sent, size_t *count, uint8_t *room, size_t room_length);

/* How much the last event noted, and the note at a place from 0 on. */
size_t hn_router_notes(hn_router *router);
uint8_t hn_router_note(hn_router *router, size_t place, hn_note *note);

/* How many assignments there are, and the one at a place from 0 on. */
size_t hn_router_assignments(hn_router *router);
uint8_t hn_router_assigned(hn_router *router, size_t place, hn_assigned *assigned);

/* How many addresses the router has (hn_router_addresses, hn_router_choose_addresses), and the one at a place, from 0 on in
 * ascending order of endpoint and address. */
size_t hn_router_own_addresses(hn_router *router);
uint8_t hn_router_own_address(hn_router *router, size_t place, hn_address *address);

/* How many nodes are reachable, the router itself among them, and the identifier of the one at a place, from 0 on in
 * ascending order. */
size_t hn_router_nodes(hn_router *router);
uint8_t hn_router_node(hn_router *router, size_t place, uint32_t *id);

/* How many peers there are on the link of an endpoint, 64 at most, and the one at a place, from 0 on in the order in which they
 * came. An endpoint that is not attached has none. */
size_t hn_router_peers(hn_router *router, uint32_t endpoint);
uint8_t hn_router_peer(hn_router *router, uint32_t endpoint, size_t place, hn_peer *peer);

/* How many other nodes are known, reachable or not, and what is known of the one at a place, from 0 on in ascending order of
 * identifiers: how many bytes its data have, and these, which are TLVs (RFC 7787, section 7; RFC 7788, section 10). A room of
 * 60000 bytes is enough for each. Out of range: nothing at that place, or no room for the data; `known` and `count` tell of the
 * node where there is no room. */
size_t hn_router_known(hn_router *router);
uint8_t hn_router_data(hn_router *router, size_t place, hn_known *known, size_t *count, uint8_t *room, size_t room_length);

/* How many bytes the data have that the router itself published last, under the number of hn_router_number, and these. Out of
 * range: no room for them (`count` tells how much is wanted then). */
uint8_t hn_router_published(hn_router *router, size_t *count, uint8_t *room, size_t room_length);

/* The delegated prefix at a place, from 0 on in ascending order, of those that are used in the home; at most 32. What is left
 * of its lifetimes is as of the moment of the last event. */
uint8_t hn_router_used(hn_router *router, size_t place, hn_used *used);

/* Who is elected on the link of an endpoint for a service: 0 mDNS proxy, 1 prefix delegation by DHCPv6, 2 addresses by
 * DHCPv6, 3 addresses by DHCPv4. Out of range: another service, or an endpoint that is not attached. Endpoint 0 is the private
 * link, if the router has one. */
uint8_t hn_router_elected(hn_router *router, uint32_t endpoint, uint8_t service, hn_elected *elected);

/* How many bytes the Router Advertisement on an endpoint has (RFC 4861, section 4.2, from its type on, with a checksum of 0,
 * which the system fills in), and these. What is left of lifetimes is as of the moment of the last event: tick before. Out of
 * range: no room for it (`count` tells how much is wanted then), or an endpoint that is not attached (`count` stays then).
 * Endpoint 0 is the private link, if the router has one. */
uint8_t hn_router_advert(hn_router *router, uint32_t endpoint, size_t *count, uint8_t *room, size_t room_length);

/* As hn_router_advert, for an advertisement that is to be sent now. It has at most 1,232 bytes, whatever happened, so it fits a
 * packet of 1,280 bytes. First stand the prefixes of hn_router_advert, all of them. After them stand prefixes that were
 * advertised so on this endpoint before, and are not among them: departed ones, as far as there is room. Each of these has a
 * preferred lifetime of 0 and what is left of its valid one (RFC 9096, section 3.5, has 0 for both).
 *
 * At most 64 departed prefixes are kept for an endpoint; with a 65th the one goes that departed first. Each is kept until its
 * valid lifetime ends, and for two hours at most: a host that hears of it keeps it for no longer (RFC 4862, section 5.5.3 e).
 * Those that depart now come first, and after them those that were not told for longest. If nothing departs meanwhile, each is
 * told within 11 advertisements.
 *
 * If the call is done, the router keeps what was told, over detach and restart too: send it, and give an endpoint number to
 * one link for good. An endpoint that is not attached is answered too, with what departed there. Out of range: no room for it
 * (`count` tells how much is wanted then). A room of 1,232 bytes is always enough. */
uint8_t hn_router_advertise(hn_router *router, uint32_t endpoint, size_t *count, uint8_t *room, size_t room_length);

/* As hn_router_advertise, with options of the caller's behind those of the library, such as RDNSS (RFC 8106) or MTU. The
 * prefixes of hn_router_advert stand first, then as many departed ones as have room beside the options, and then the options as
 * they are given. All of it has at most 1,232 bytes. Options of 192 bytes always have room, but departed ones may have none then,
 * and wait. Out of range: bytes that are no whole options (RFC 4861, section 4.6: the second byte of each is its length in units
 * of 8 bytes, and not 0) or have a Prefix Information option that is none (section 4.6.2); `count` stays then. Also out of range:
 * more than 1,232 bytes in all, or no room for it; `count` tells how much is wanted then. */
uint8_t hn_router_advertise_with(hn_router *router, uint32_t endpoint, const uint8_t *options, size_t options_length, size_t *count, uint8_t *room, size_t room_length);

#ifdef __cplusplus
}
#endif

#endif

/* Router Advertisements: when they are sent, what is put behind those of the library, and what solicits them. */
#include "hnd.h"

#include <arpa/inet.h>
#include <netinet/icmp6.h>
#include <string.h>

/* In milliseconds (RFC 4861, sections 6.2.1, 6.2.4 and 10). At the start, and after a change, FIRST_ADVERTS are each followed by
 * the next one after FIRST_INTERVAL, and up to FIRST_MORE more. Later ones come after LEAST_INTERVAL, and up to MORE_INTERVAL
 * more. There are never two within LEAST_BETWEEN. A solicitation is answered within LONGEST_DELAY, and so is a change told. A
 * link on which there is nothing to advertise is given QUIET before the first one: hosts that still have a route of an earlier
 * daemon keep it so long. */
enum { FIRST_ADVERTS = 3, FIRST_INTERVAL = 8000, FIRST_MORE = 8000, LEAST_INTERVAL = 198000, MORE_INTERVAL = 402000 };
enum { LEAST_BETWEEN = 3000, LONGEST_DELAY = 500, QUIET = 15000 };

/* Where an advertisement has no room for all departed prefixes, hosts hold those that are left out for preferred. So after a
 * change the next one comes after LEAST_BETWEEN, and up to TURN_MORE more, as often as it takes to tell each (hn_router.h). */
enum { TURNS = 11, TURN_MORE = 3000 };

/* Of departed prefixes hosts are told first. A Linux host (6.18) begins to look at its addresses while it still takes the prefixes
 * of the advertisement, and may then overlook an address for up to two minutes. So an advertisement with a departed prefix is
 * followed by a short one of one prefix, after LEAST_BETWEEN and up to TURN_MORE more: it has the host look once more. */

/* In seconds: how long a server of names counts, which is three times the longest interval (RFC 8106, section 5.1). */
enum { SERVER_LIFETIME = 1800 };

/* Bytes: of the head, of a Prefix Information, and of the most that one packet takes, as much as the library gives at most:
 * 1,280 less the header of IPv6 and one of 8 bytes. */
enum { HEAD = 16, INFO = 32, MOST_PACKET = 1232, MOST_OPTIONS = 16 + 16 * MOST_SERVERS };

/* Kinds of options; the flags of a prefix that is on the link, and of which hosts make addresses. */
enum { SOURCE = 1, PREFIX = 3, SERVERS = 25, MAKES_ADDRESSES = 0xc0 };

static bool is_ending;

/* Whether advertisements are sent on a link now. */
static bool is_advertising(const struct link *link)
{
    return icmp >= 0 && link->is_attached && link->is_fit;
}

/* A link begins to advertise, or again. Two advertisements stay apart, though. */
void begin_adverts(struct link *link)
{
    struct advertising *it = &link->adverts;
    *it = (struct advertising){.begun = now(), .earliest = it->earliest, .next = now() + QUIET, .has_sent = it->has_sent};
}

/* Finds a prefix that hosts of a link may hold, be it of an earlier daemon. Whether there is one. */
static bool find_held(const struct link *link, hn_departed *it)
{
    for (size_t place = 0; place < hn_router_departures(&router); place++) {
        if (is_done(hn_router_departed(&router, place, it), "departed") && it->endpoint == link->endpoint && it->valid > 0)
            return true;
    }
    return false;
}

/* Whether hosts are to be told anything: a prefix, or a default route. */
static bool has_news(const struct advertising *it)
{
    return it->length > HEAD || it->bytes[6] != 0 || it->bytes[7] != 0;
}

/* An advertisement is due on a link after so many milliseconds, or when one may be sent, unless it is due before. */
static void hasten(struct advertising *it, uint64_t delay)
{
    uint64_t at = now() + delay;
    if (!it->has_sent && !has_news(it) && at < it->begun + QUIET)
        return;
    it->next = earlier(it->next, at < it->earliest ? it->earliest : at);
    it->is_short = false;
}

/* What is to be advertised has changed: it is told as soon as may be, and then as often as at the start, since an
 * advertisement may be lost. */
static void begin_anew(struct advertising *it)
{
    it->count = it->turns = 0;
    hasten(it, draw_number(LONGEST_DELAY));
}

/* An earlier daemon had a prefix on a link, which is valid for so many seconds more: hosts are told that it is not preferred any
 * more, unless it is assigned to the link again. */
void tell_departed(struct link *link, const struct prefix *prefix, uint32_t valid)
{
    if (is_assigned(link, prefix))
        return;
    if (hn_router_depart(&router, link->endpoint, prefix->bits, prefix->length, valid) == 1)
        say(OF_CALL, "undone depart why=memory");
    begin_anew(&link->adverts);
}

/* Looks at what is to be advertised on a link now. Whether it has changed. Of its lifetimes only this counts: whether a
 * prefix is preferred. */
static bool look(struct link *link)
{
    static uint8_t now_there[MOST_ADVERT];
    struct advertising *it = &link->adverts;
    size_t length = 0;
    if (!is_done(hn_router_advert(&router, link->endpoint, &length, now_there, sizeof now_there), "advert"))
        return false;
    for (uint8_t *option = now_there + HEAD; option < now_there + length; option += INFO)
        memset(option + 4, memcmp(option + 8, "\0\0\0", 4) != 0, 8);
    if (length == it->length && memcmp(now_there, it->bytes, length) == 0)
        return false;
    memcpy(it->bytes, now_there, length);
    it->length = length;
    return true;
}

/* Looks whether what is to be advertised has changed. */
void watch_adverts(void)
{
    for (struct link *link = links; link < links + link_count; link++) {
        if (is_advertising(link) && look(link))
            begin_anew(&link->adverts);
    }
}

/* Writes a number of 32 bits in the order of the network. */
static void put(uint8_t *at, uint32_t number)
{
    number = htonl(number);
    memcpy(at, &number, sizeof number);
}

/* The Prefix Information of a prefix among options, or nothing. */
static const uint8_t *find_info(const uint8_t *bytes, size_t length, const struct prefix *prefix)
{
    for (const uint8_t *option = bytes; option < bytes + length; option += option[1] * 8) {
        if (option[0] == PREFIX && option[2] == prefix->length && memcmp(option + 16, prefix->bits, 16) == 0)
            return option;
    }
    return NULL;
}

/* Lowers the lifetimes of an advertisement in the room. The last one of all takes back the default route and what is
 * preferred. */
static void lower(size_t length)
{
    if (is_ending)
        memset(room + 6, 0, 2);
    for (uint8_t *option = room + HEAD; option < room + length; option += option[1] * 8) {
        if (option[0] != PREFIX)
            continue;
        if (!settings.keeps_lifetimes && number_at(option + 4) > MOST_VALID)
            put(option + 4, MOST_VALID);
        if (is_ending)
            put(option + 8, 0);
        else if (!settings.keeps_lifetimes && number_at(option + 8) > MOST_PREFERRED)
            put(option + 8, MOST_PREFERRED);
    }
}

/* Moves the prefixes that are not preferred, of an advertisement in the room, before the others. How many there are. */
static size_t order(size_t length)
{
    uint8_t others[MOST_ADVERT];
    size_t first = HEAD, rest = 0;
    for (size_t place = HEAD; place < length; place += INFO) {
        if (number_at(room + place + 8) == 0) {
            memmove(room + first, room + place, INFO);
            first += INFO;
        } else {
            memcpy(others + rest, room + place, INFO);
            rest += INFO;
        }
    }
    memcpy(room + first, others, rest);
    return (first - HEAD) / INFO;
}

/* Puts a short advertisement into the room: one prefix, a departed one where there is no other. Whether that is done. */
static bool make_short(const struct link *link, size_t *length)
{
    hn_departed gone;
    if (!is_done(hn_router_advert(&router, link->endpoint, length, room, sizeof room), "advert"))
        return false;
    if (*length == HEAD && find_held(link, &gone)) {
        const uint8_t head[] = {PREFIX, INFO / 8, gone.length, MAKES_ADDRESSES};
        memset(room + HEAD, 0, INFO);
        memcpy(room + HEAD, head, sizeof head);
        put(room + HEAD + 4, gone.valid);
        memcpy(room + HEAD + 16, gone.prefix, sizeof gone.prefix);
        *length += INFO;
    }
    *length = *length > HEAD + INFO ? HEAD + INFO : *length;
    return true;
}

/* Puts the hardware address of the link and the servers of names behind the options in the room. Returns the length. */
static size_t add_options(const struct link *link, size_t length)
{
    if (link->has_hardware) {
        room[length] = SOURCE;
        room[length + 1] = 1;
        memcpy(room + length + 2, link->hardware, 6);
        length += 8;
    }
    if (settings.server_count > 0) {
        memset(room + length, 0, 8);
        room[length] = SERVERS;
        room[length + 1] = (uint8_t)(1 + 2 * settings.server_count);
        put(room + length + 4, is_ending ? 0 : SERVER_LIFETIME);
        memcpy(room + length + 8, settings.servers, 16 * settings.server_count);
        length += 8 + 16 * settings.server_count;
    }
    return length;
}

/* Sends an advertisement in as many packets as it takes, each with the same head. Returns how many, and 0 where one fails:
 * hosts drop fragments (RFC 6980). */
static unsigned send_parts(const struct link *link, size_t length)
{
    static const uint8_t all_nodes[16] = {0xff, 0x02, [15] = 0x01};
    uint8_t part[MOST_PACKET];
    unsigned parts = 0;
    size_t place = HEAD;
    memcpy(part, room, HEAD);
    do {
        size_t count = HEAD;
        for (size_t size; place < length && count + (size = room[place + 1] * 8u) <= MOST_PACKET; place += size, count += size)
            memcpy(part + count, room + place, size);
        if (!send_out(icmp, link, all_nodes, 0, part, count))
            return 0;
        parts++;
    } while (place < length);
    return parts;
}

/* Milliseconds until the next advertisement, after one that may have had no room for all, and may have had departed prefixes.
 * They are random, since all routers of a link see a change at once: if two advertisements come together, a Linux host may
 * overlook an address, too. */
static uint64_t interval(struct advertising *it, bool is_full, bool has_departed)
{
    if (is_full && it->turns < TURNS) {
        it->turns++;
        return LEAST_BETWEEN + draw_number(TURN_MORE);
    }
    it->is_short = has_departed;
    if (has_departed)
        return LEAST_BETWEEN + draw_number(TURN_MORE);
    if (it->count < FIRST_ADVERTS) {
        it->count++;
        return FIRST_INTERVAL + draw_number(FIRST_MORE);
    }
    return LEAST_INTERVAL + draw_number(MORE_INTERVAL);
}

/* Puts the whole advertisement of a link into the room. Whether that is done. */
static bool make_whole(struct link *link, size_t *length)
{
    if (!is_done(hn_router_advertise(&router, link->endpoint, length, room, sizeof room - MOST_OPTIONS), "advertise"))
        return false;
    look(link);
    return true;
}

/* Sends an advertisement on a link, as of now. One that fails is told, and tried again later; but not the last one. */
static void advertise(struct link *link)
{
    struct advertising *it = &link->adverts;
    size_t length = 0;
    bool is_short = it->is_short && !is_ending;
    it->earliest = it->next = now() + LEAST_BETWEEN;
    it->is_over = is_ending;
    if (!tick() || !(is_short ? make_short(link, &length) : make_whole(link, &length)))
        return;
    bool is_full = !is_short && length + INFO > MOST_PACKET;
    bool has_departed = order(length) > 0 && !is_short;
    lower(length);
    length = is_short ? length : add_options(link, length);
    unsigned parts = send_parts(link, length);
    if (parts == 0)
        return;
    say(OF_ADVERT, "advertised %s bytes=%zu%s%s", link->name, length, parts > 1 ? " in parts" : is_short ? " short" : "",
        is_ending ? " last" : "");
    it->has_sent = true;
    look_at_state();
    it->earliest = now() + LEAST_BETWEEN;
    it->next = now() + interval(it, is_full, has_departed);
}

/* Whether options are well formed. One of the source's hardware address may be forbidden. */
static bool are_options(const uint8_t *bytes, size_t length, bool may_have_source)
{
    for (size_t place = 0; place < length; place += bytes[place + 1] * 8u) {
        if (length - place < 8 || bytes[place + 1] == 0 || bytes[place + 1] * 8u > length - place)
            return false;
        if (bytes[place] == SOURCE && !may_have_source)
            return false;
    }
    return true;
}

/* A solicitation is answered, if it is one by RFC 4861, section 6.1.1. */
static void take_solicitation(const struct arrival *it)
{
    bool is_unspecified = IN6_IS_ADDR_UNSPECIFIED(&it->from.sin6_addr);
    if (it->length < 8 || room[1] != 0 || !are_options(room + 8, it->length - 8, !is_unspecified)) {
        say(OF_STRAY, "dropped %s from=%s why=solicitation", it->link->name, address_text(it->from.sin6_addr.s6_addr));
        return;
    }
    say(OF_ADVERT, "solicited %s", it->link->name);
    hasten(&it->link->adverts, draw_number(LONGEST_DELAY));
}

/* Another router advertises. If it tells hosts that a prefix of this link is not preferred, such as when it ends, they are
 * told that it still is (RFC 4861, section 6.2.7). */
static void take_advert(const struct arrival *it)
{
    struct advertising *own = &it->link->adverts;
    if (it->length < HEAD || room[1] != 0 || !IN6_IS_ADDR_LINKLOCAL(&it->from.sin6_addr)
        || !are_options(room + HEAD, it->length - HEAD, true))
        return;
    for (const uint8_t *option = room + HEAD; option < room + it->length; option += option[1] * 8) {
        struct prefix prefix = {.length = option[2]};
        if (option[0] != PREFIX || option[1] != INFO / 8 || number_at(option + 8) != 0)
            continue;
        memcpy(prefix.bits, option + 16, 16);
        const uint8_t *held = own->length < HEAD ? NULL : find_info(own->bytes + HEAD, own->length - HEAD, &prefix);
        if (held != NULL && held[8] != 0)
            hasten(own, draw_number(LONGEST_DELAY));
    }
}

/* Takes a solicitation, or an advertisement of another router. Both come from this link, by their hop limit. */
enum received take_neighbor(void)
{
    struct arrival it;
    enum received received = receive(icmp, &it);
    if (received != PACKET || it.hops != 255 || it.length == 0 || !is_advertising(it.link) || is_ending)
        return received;
    if (room[0] == ND_ROUTER_SOLICIT)
        take_solicitation(&it);
    else
        take_advert(&it);
    return received;
}

/* When the next advertisement is due. */
uint64_t adverts_due(void)
{
    uint64_t due = NEVER;
    for (const struct link *link = links; link < links + link_count; link++) {
        if (is_advertising(link) && !link->adverts.is_over)
            due = earlier(due, link->adverts.next);
    }
    return due;
}

/* Sends those that are due. */
void send_adverts(void)
{
    for (struct link *link = links; link < links + link_count; link++) {
        if (is_advertising(link) && !link->adverts.is_over && link->adverts.next <= now())
            advertise(link);
    }
}

/* It is the end: each link on which this daemon or an earlier one advertised has a last advertisement, as soon as one may be
 * sent (RFC 4861, section 6.2.5). Whether all are sent. */
bool end_adverts(void)
{
    bool are_over = true;
    hn_departed held;
    is_ending = true;
    for (struct link *link = links; link < links + link_count; link++) {
        link->adverts.is_over |= !link->adverts.has_sent && !find_held(link, &held);
        if (!is_advertising(link) || link->adverts.is_over)
            continue;
        link->adverts.next = link->adverts.earliest;
        are_over = false;
    }
    return are_over;
}

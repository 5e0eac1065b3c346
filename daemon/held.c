/* What a multicast makes the router send by unicast waits for a random time, so that not all nodes of a link answer it at
 * once; and requests of the network state on a link stay apart (RFC 7787, section 4.4). */
#include "hnd.h"

#include <stdlib.h>
#include <string.h>

/* How many datagrams wait at most, and how many bytes they have. */
enum { MOST_HELD = 64, MOST_HELD_BYTES = 262144 };

struct held {
    struct held *next;
    hn_sent sent;
    uint64_t at, gap;
    size_t count;
    uint8_t bytes[];
};

static struct held *first;
static size_t held_count, held_bytes;

/* Puts a datagram behind those that go out before it, or at the same moment. */
static void insert(struct held *made)
{
    struct held **place = &first;
    while (*place != NULL && (*place)->at <= made->at)
        place = &(*place)->next;
    made->next = *place;
    *place = made;
}

/* Keeps a datagram until a moment. A request has a gap: so many milliseconds it stays behind the one before. Without place it is
 * dropped, as it could be lost on the link. */
void hold(const hn_sent *sent, uint64_t at, uint64_t gap, const uint8_t *bytes, size_t count)
{
    struct held *made = NULL;
    if (held_count < MOST_HELD && held_bytes + count <= MOST_HELD_BYTES)
        made = malloc(sizeof *made + count);
    if (made == NULL) {
        say(OF_SEND, "unsent %s bytes=%zu why=\"too many replies wait\"", link_of_endpoint(sent->endpoint)->name, count);
        return;
    }
    *made = (struct held){.sent = *sent, .at = at, .gap = gap, .count = count};
    memcpy(made->bytes, bytes, count);
    insert(made);
    held_count++;
    held_bytes += count;
}

/* When the next one is to be sent. */
uint64_t held_due(void)
{
    return first == NULL ? NEVER : first->at;
}

/* Takes a datagram off the list, and gives it up. */
static void remove_held(struct held **place)
{
    struct held *it = *place;
    *place = it->next;
    held_count--;
    held_bytes -= it->count;
    free(it);
}

/* Sends those whose moment has come. On a busy machine a request may have gone out late: then the next one waits for longer. */
void send_held(void)
{
    for (struct held *it; (it = first) != NULL && it->at <= now();) {
        struct link *link = link_of_endpoint(it->sent.endpoint);
        if (it->gap > 0 && now() < link->asked_at + it->gap) {
            first = it->next;
            it->at = link->asked_at + it->gap;
            insert(it);
            continue;
        }
        send_out(udp, link, it->sent.to, it->sent.port, it->bytes, it->count);
        if (it->gap > 0)
            link->asked_at = now();
        remove_held(&first);
    }
}

/* Drops those of a link, or all, where none is given. */
void drop_held(const struct link *link)
{
    for (struct held **place = &first; *place != NULL;) {
        if (link == NULL || (*place)->sent.endpoint == link->endpoint)
            remove_held(place);
        else
            place = &(*place)->next;
    }
}

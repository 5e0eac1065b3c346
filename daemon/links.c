/* The links: interfaces that come and go, each with the same endpoint number for good. */
#include "hnd.h"

#include <string.h>

/* In milliseconds: so long a link that is down, has no carrier or no link-local address stays attached; and the least time
 * between two moments at which all peers of a link are dropped, since it has no room for one more. */
enum { GRACE = 10000, LEAST_BETWEEN_DROPS = 600000 };

struct link links[MOST_LINKS];
size_t link_count;
static uint64_t again; /* when an endpoint for which there was no memory is tried again */
static uint64_t look;  /* when the links are looked at */

/* The links are those of the arguments. */
void begin_links(char **names, size_t count)
{
    if (count == 0 || count > MOST_LINKS)
        fail(BAD_ARGUMENTS, "interfaces", "from 1 to 16 have to be named");
    for (link_count = 0; link_count < count; link_count++) {
        struct link *link = &links[link_count];
        *link = (struct link){.name = names[link_count], .endpoint = (uint32_t)link_count + 1, .ends = NEVER};
        if (strlen(link->name) == 0 || strlen(link->name) >= IF_NAMESIZE)
            fail(BAD_ARGUMENTS, link->name, "this is no name of an interface");
        for (size_t place = 0; place < link_count; place++) {
            if (strcmp(links[place].name, link->name) == 0)
                fail(BAD_ARGUMENTS, link->name, "this interface is named twice");
        }
    }
}

/* The link with a number in the system, or nothing. */
struct link *link_of_index(unsigned index)
{
    for (struct link *link = links; link < links + link_count && index != 0; link++) {
        if (link->index == index)
            return link;
    }
    return NULL;
}

struct link *link_of_endpoint(uint32_t endpoint)
{
    return &links[endpoint - 1];
}

/* Why a link cannot be used, or nothing. */
static const char *unfit_because(const struct seen *seen)
{
    if (seen->index == 0)
        return "gone";
    if (!(seen->flags & IFF_UP))
        return "down";
    if (!(seen->flags & IFF_RUNNING))
        return "carrier";
    return seen->has_address ? NULL : "address";
}

/* Attaches the endpoint of a link that can be used. Without memory it is tried again later. */
static void begin_link(struct link *link)
{
    if (!attach(link)) {
        again = now() + RETRY;
        return;
    }
    begin_adverts(link);
    say(OF_LINK, "link %s attached endpoint=%u address=%s", link->name, link->endpoint, address_text(link->address));
    take_over(link);
}

/* Detaches the endpoint of a link. Without memory it is tried again later. */
static void end_link(struct link *link)
{
    if (!detach(link)) {
        link->ends = now() + RETRY;
        return;
    }
    drop_held(link);
    link->ends = NEVER;
    say(OF_LINK, "link %s detached endpoint=%u", link->name, link->endpoint);
}

/* Takes what was seen of a link. An interface that is another one now, or is gone, is detached at once. */
static void settle(struct link *link, const struct seen *seen)
{
    static const char *told[MOST_LINKS];
    const char *why = unfit_because(seen);
    bool was_fit = link->is_fit, is_other = seen->index != link->index;
    if (is_other || link->is_flushed)
        forget_routes(link);
    link->is_flushed = false;
    if (is_other && link->index != 0)
        leave_groups(link->index);
    link->index = seen->index;
    link->is_fit = why == NULL;
    link->has_hardware = seen->has_hardware;
    memcpy(link->hardware, seen->hardware, sizeof link->hardware);
    if (link->is_fit)
        memcpy(link->address, seen->address, sizeof link->address);
    if (is_other && link->is_attached)
        end_link(link);
    if (link->is_fit && (is_other || !was_fit))
        join_groups(link->index);
    if (why != told[link - links] && why != NULL)
        say(OF_LINK, "link %s unusable why=%s", link->name, why);
    if (why == NULL && !was_fit && link->is_attached) {
        say(OF_LINK, "link %s usable address=%s", link->name, address_text(link->address));
        begin_adverts(link);
        want_report();
    }
    told[link - links] = why;
    if (link->is_fit)
        link->ends = NEVER;
    else if (was_fit && link->is_attached)
        link->ends = now() + GRACE;
}

/* Drops all peers of a link that has no room for one more: some may be forged, and promise nothing, so that they would
 * stay for good. It costs what is assigned to the link, though that is preferred from then on. So it is done at most once in
 * ten minutes. */
static void drop_peers(struct link *link)
{
    link->is_full = false;
    if (now() < link->freed)
        return;
    link->freed = now() + LEAST_BETWEEN_DROPS;
    say(OF_LINK, "link %s peers-full: all its peers are dropped", link->name);
    end_link(link);
}

/* Looks at the links, where that is due, and attaches and detaches endpoints. */
void follow_links(void)
{
    struct seen seen[MOST_LINKS];
    if (netlink_heard())
        look = now();
    if (look <= now()) {
        bool are_seen = look_at_links(seen);
        for (size_t place = 0; place < link_count && are_seen; place++)
            settle(&links[place], &seen[place]);
        look = are_seen ? NEVER : now() + RETRY;
    }
    for (struct link *link = links; link < links + link_count; link++) {
        if (link->is_attached && link->is_full)
            drop_peers(link);
        if (link->is_attached && link->ends <= now())
            end_link(link);
        if (!link->is_attached && link->is_fit && again <= now())
            begin_link(link);
    }
}

/* When something is to be done with a link. */
uint64_t links_due(void)
{
    uint64_t due = look;
    for (const struct link *link = links; link < links + link_count; link++) {
        if (link->is_attached)
            due = earlier(due, link->ends);
        else if (link->is_fit)
            due = earlier(due, again);
    }
    return due;
}

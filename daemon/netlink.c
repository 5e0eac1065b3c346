/* What the daemon asks of the system by netlink: which interfaces there are, and addresses and routes. */
#include "hnd.h"

#include <errno.h>
#include <libmnl/libmnl.h>
#include <linux/if_addr.h>
#include <linux/if_link.h>
#include <linux/rtnetlink.h>
#include <string.h>
#include <sys/socket.h>
#include <sys/time.h>
#include <time.h>

/* Bytes of a message that is asked, and of those that come; the metric of routes, as of those that the system makes of
 * addresses; seconds until an answer that does not come is given up; how often a list is asked for that changes meanwhile,
 * which the system tells by EINTR. */
enum { MOST_ASKED = 256, MOST_ANSWERED = 32768, METRIC = 256, PATIENCE = 1, MOST_TIMES = 5 };

static struct mnl_socket *watching, *asking;
static uint32_t turn;
static char answered[MOST_ANSWERED] __attribute__((aligned(8)));

/* A message that is made. */
struct asked {
    char bytes[MOST_ASKED] __attribute__((aligned(8)));
    struct nlmsghdr *head;
};

/* Opens a socket for questions, and one that tells of changes. */
void open_netlink(void)
{
    struct timeval patience = {.tv_sec = PATIENCE};
    watching = mnl_socket_open2(NETLINK_ROUTE, SOCK_NONBLOCK | SOCK_CLOEXEC);
    asking = mnl_socket_open2(NETLINK_ROUTE, SOCK_CLOEXEC);
    if (watching == NULL || asking == NULL || mnl_socket_bind(watching, RTMGRP_LINK | RTMGRP_IPV6_IFADDR, MNL_SOCKET_AUTOPID) < 0
        || mnl_socket_bind(asking, 0, MNL_SOCKET_AUTOPID) < 0
        || setsockopt(mnl_socket_get_fd(asking), SOL_SOCKET, SO_RCVTIMEO, &patience, sizeof patience) != 0)
        fail(FAILED, "netlink", strerror(errno));
}

int netlink_descriptor(void)
{
    return mnl_socket_get_fd(watching);
}

/* Begins a message: its kind, its flags, and a head of so many bytes, which is given. */
static void *begin(struct asked *it, uint16_t kind, unsigned flags, size_t size)
{
    it->head = mnl_nlmsg_put_header(it->bytes);
    it->head->nlmsg_type = kind;
    it->head->nlmsg_flags = (uint16_t)(NLM_F_REQUEST | flags);
    return mnl_nlmsg_put_extra_header(it->head, size);
}

/* Asks, and hands each part of the answer on. Returns 0 or the number of an error. */
static int ask(struct asked *it, mnl_cb_t each, void *with)
{
    it->head->nlmsg_seq = ++turn;
    if (mnl_socket_sendto(asking, it->head, it->head->nlmsg_len) < 0)
        return errno;
    for (;;) {
        ssize_t count = mnl_socket_recvfrom(asking, answered, sizeof answered);
        if (count < 0)
            return errno;
        int status = mnl_cb_run(answered, (size_t)count, it->head->nlmsg_seq, mnl_socket_get_portid(asking), each, with);
        if (status == MNL_CB_ERROR && errno != EPROTO)
            return errno;
        if (status == MNL_CB_STOP)
            return 0;
    }
}

/* An attribute of a message after a head of so many bytes, or nothing. */
static const struct nlattr *find(const struct nlmsghdr *message, unsigned head, uint16_t kind, size_t size)
{
    const char *end = mnl_nlmsg_get_payload_tail(message);
    for (const struct nlattr *it = mnl_nlmsg_get_payload_offset(message, head); mnl_attr_ok(it, (int)(end - (const char *)it));
         it = mnl_attr_next(it)) {
        if (mnl_attr_get_type(it) == kind && mnl_attr_get_payload_len(it) >= size)
            return it;
    }
    return NULL;
}

/* Notes an interface in the list, where it was named at the start. */
static int note_link(const struct nlmsghdr *message, void *list)
{
    const struct ifinfomsg *it = mnl_nlmsg_get_payload(message);
    const struct nlattr *name = find(message, sizeof *it, IFLA_IFNAME, 1), *hardware = find(message, sizeof *it, IFLA_ADDRESS, 6);
    for (size_t place = 0; place < link_count && name != NULL; place++) {
        struct seen *seen = (struct seen *)list + place;
        if (strcmp(mnl_attr_get_str(name), links[place].name) != 0)
            continue;
        seen->index = (unsigned)it->ifi_index;
        seen->flags = it->ifi_flags;
        seen->has_hardware = hardware != NULL && mnl_attr_get_payload_len(hardware) == 6;
        if (seen->has_hardware)
            memcpy(seen->hardware, mnl_attr_get_payload(hardware), 6);
    }
    return MNL_CB_OK;
}

/* The flags of an address. */
static uint32_t flags_of(const struct nlmsghdr *message, const struct ifaddrmsg *it)
{
    const struct nlattr *flags = find(message, sizeof *it, IFA_FLAGS, 4);
    return flags == NULL ? it->ifa_flags : mnl_attr_get_u32(flags);
}

/* Notes a link-local address that may be used; that which was noted before stays, if it is still there. */
static int note_address(const struct nlmsghdr *message, void *list)
{
    const struct ifaddrmsg *it = mnl_nlmsg_get_payload(message);
    const struct nlattr *address = find(message, sizeof *it, IFA_ADDRESS, 16);
    if (it->ifa_family != AF_INET6 || it->ifa_scope != RT_SCOPE_LINK || address == NULL
        || flags_of(message, it) & (IFA_F_TENTATIVE | IFA_F_DADFAILED))
        return MNL_CB_OK;
    for (size_t place = 0; place < link_count; place++) {
        struct seen *seen = (struct seen *)list + place;
        bool is_held = memcmp(mnl_attr_get_payload(address), links[place].address, 16) == 0;
        if (seen->index != it->ifa_index || (seen->has_address && !is_held))
            continue;
        memcpy(seen->address, mnl_attr_get_payload(address), 16);
        seen->has_address = true;
    }
    return MNL_CB_OK;
}

/* Looks at each link: is it there, is it up, which link-local address has it. Whether all was seen. */
bool look_at_links(struct seen seen[MOST_LINKS])
{
    struct asked all;
    memset(seen, 0, MOST_LINKS * sizeof *seen);
    begin(&all, RTM_GETLINK, NLM_F_DUMP, sizeof(struct ifinfomsg));
    int status = ask(&all, note_link, seen);
    begin(&all, RTM_GETADDR, NLM_F_DUMP, sizeof(struct ifaddrmsg));
    ((struct ifaddrmsg *)mnl_nlmsg_get_payload(all.head))->ifa_family = AF_INET6;
    status = status != 0 ? status : ask(&all, note_address, seen);
    if (status != 0 && status != EINTR)
        say(OF_CALL, "unseen links why=\"%s\"", strerror(status));
    return status == 0;
}

/* Whether a change is one of a link of the daemon. A link that goes down loses its addresses and routes. A message on the
 * ports of a bridge is of no matter. */
static int note_change(const struct nlmsghdr *message, void *is_ours)
{
    bool *ours = is_ours;
    if (message->nlmsg_type == RTM_NEWADDR || message->nlmsg_type == RTM_DELADDR) {
        const struct ifaddrmsg *it = mnl_nlmsg_get_payload(message);
        *ours |= it->ifa_scope == RT_SCOPE_LINK && link_of_index(it->ifa_index) != NULL;
    } else if (message->nlmsg_type == RTM_NEWLINK || message->nlmsg_type == RTM_DELLINK) {
        const struct ifinfomsg *it = mnl_nlmsg_get_payload(message);
        const struct nlattr *name = find(message, sizeof *it, IFLA_IFNAME, 1);
        struct link *link = it->ifi_family == AF_UNSPEC ? link_of_index((unsigned)it->ifi_index) : NULL;
        if (link != NULL && (message->nlmsg_type == RTM_DELLINK || !(it->ifi_flags & IFF_UP)))
            link->is_flushed = true;
        *ours |= link != NULL;
        for (size_t place = 0; place < link_count && name != NULL; place++)
            *ours |= it->ifi_family == AF_UNSPEC && strcmp(mnl_attr_get_str(name), links[place].name) == 0;
    }
    return MNL_CB_OK;
}

/* Takes what the system tells. Whether the links are to be looked at. Where messages were lost, anything may be. */
bool netlink_heard(void)
{
    bool is_ours = false;
    for (;;) {
        ssize_t count = mnl_socket_recvfrom(watching, answered, sizeof answered);
        if (count > 0) {
            mnl_cb_run(answered, (size_t)count, 0, 0, note_change, &is_ours);
        } else if (count < 0 && errno == ENOBUFS) {
            for (size_t place = 0; place < link_count; place++)
                links[place].is_flushed = true;
            is_ours = true;
        } else {
            return is_ours;
        }
    }
}

/* Begins a message on an address. */
static void begin_address(struct asked *it, uint16_t kind, unsigned flags, unsigned index, const uint8_t address[16], uint8_t length)
{
    struct ifaddrmsg *head = begin(it, kind, NLM_F_ACK | flags, sizeof *head);
    head->ifa_family = AF_INET6;
    head->ifa_prefixlen = length;
    head->ifa_index = index;
    mnl_attr_put(it->head, IFA_LOCAL, 16, address);
    mnl_attr_put(it->head, IFA_ADDRESS, 16, address);
}

/* Sets an address, without a route of the system's. One that is deprecated serves no new connection. */
int put_address(const struct link *link, const uint8_t address[16], uint8_t length, bool is_deprecated)
{
    struct ifa_cacheinfo lifetimes = {.ifa_valid = UINT32_MAX, .ifa_prefered = is_deprecated ? 0 : UINT32_MAX};
    struct asked it;
    begin_address(&it, RTM_NEWADDR, NLM_F_CREATE | NLM_F_REPLACE, link->index, address, length);
    mnl_attr_put_u32(it.head, IFA_FLAGS, IFA_F_NOPREFIXROUTE);
    mnl_attr_put(it.head, IFA_CACHEINFO, sizeof lifetimes, &lifetimes);
    return ask(&it, NULL, NULL);
}

int drop_address(const struct link *link, const uint8_t address[16], uint8_t length)
{
    struct asked it;
    begin_address(&it, RTM_DELADDR, 0, link->index, address, length);
    return ask(&it, NULL, NULL);
}

/* Sets or removes the route to an on-link prefix. */
static int change_route(uint16_t kind, unsigned flags, const struct link *link, const struct prefix *to)
{
    struct asked it;
    struct rtmsg *head = begin(&it, kind, NLM_F_ACK | flags, sizeof *head);
    head->rtm_family = AF_INET6;
    head->rtm_dst_len = to->length;
    head->rtm_table = RT_TABLE_MAIN;
    head->rtm_protocol = ROUTE_PROTOCOL;
    head->rtm_scope = RT_SCOPE_UNIVERSE;
    head->rtm_type = RTN_UNICAST;
    mnl_attr_put(it.head, RTA_DST, 16, to->bits);
    mnl_attr_put_u32(it.head, RTA_OIF, link->index);
    mnl_attr_put_u32(it.head, RTA_PRIORITY, METRIC);
    return ask(&it, NULL, NULL);
}

/* Sets the route, beside others to the same prefix. It may be there already. */
int put_route(const struct link *link, const struct prefix *to)
{
    int status = change_route(RTM_NEWROUTE, NLM_F_CREATE | NLM_F_APPEND, link, to);
    return status == EEXIST ? 0 : status;
}

int drop_route(const struct link *link, const struct prefix *to)
{
    return change_route(RTM_DELROUTE, 0, link, to);
}

/* Routes of the daemon on a link that are found. */
struct found {
    const struct link *link;
    struct prefix *list;
    size_t count, most;
};

static int note_route(const struct nlmsghdr *message, void *with)
{
    struct found *found = with;
    const struct rtmsg *it = mnl_nlmsg_get_payload(message);
    const struct nlattr *to = find(message, sizeof *it, RTA_DST, 16), *out = find(message, sizeof *it, RTA_OIF, 4);
    if (it->rtm_family == AF_INET6 && it->rtm_protocol == ROUTE_PROTOCOL && it->rtm_type == RTN_UNICAST && to != NULL && out != NULL
        && mnl_attr_get_u32(out) == found->link->index && found->count < found->most) {
        struct prefix *prefix = &found->list[found->count++];
        memcpy(prefix->bits, mnl_attr_get_payload(to), 16);
        prefix->length = it->rtm_dst_len;
    }
    return MNL_CB_OK;
}

/* Finds the routes on a link that a daemon set, and counts them. */
size_t find_routes(const struct link *link, struct prefix *list, size_t most)
{
    struct found found = {.link = link, .list = list, .most = most};
    struct asked it;
    struct rtmsg *head = begin(&it, RTM_GETROUTE, NLM_F_DUMP, sizeof *head);
    int status = EINTR;
    head->rtm_family = AF_INET6;
    for (unsigned times = 0; times < MOST_TIMES && status == EINTR; times++) {
        found.count = 0;
        status = ask(&it, note_route, &found);
    }
    if (status != 0)
        say(OF_CALL, "unseen routes why=\"%s\"", strerror(status));
    return found.count;
}

/* Addresses of a prefix that are found on a link. */
struct held_in {
    const struct link *link;
    const struct prefix *prefix;
    uint8_t list[MOST_PREFIXES][16];
    size_t count;
};

static int note_inside(const struct nlmsghdr *message, void *with)
{
    struct held_in *found = with;
    const struct ifaddrmsg *it = mnl_nlmsg_get_payload(message);
    const struct nlattr *address = find(message, sizeof *it, IFA_ADDRESS, 16);
    if (it->ifa_family == AF_INET6 && it->ifa_index == found->link->index && it->ifa_prefixlen == found->prefix->length
        && address != NULL && flags_of(message, it) & IFA_F_NOPREFIXROUTE && found->count < MOST_PREFIXES
        && memcmp(mnl_attr_get_payload(address), found->prefix->bits, found->prefix->length / 8) == 0)
        memcpy(found->list[found->count++], mnl_attr_get_payload(address), 16);
    return MNL_CB_OK;
}

/* Drops the addresses of a prefix that a daemon set on a link. */
void drop_addresses_in(const struct link *link, const struct prefix *prefix)
{
    struct held_in found = {.link = link, .prefix = prefix};
    struct asked it;
    struct ifaddrmsg *head = begin(&it, RTM_GETADDR, NLM_F_DUMP, sizeof *head);
    int status = EINTR;
    head->ifa_family = AF_INET6;
    for (unsigned times = 0; times < MOST_TIMES && status == EINTR; times++) {
        found.count = 0;
        status = ask(&it, note_inside, &found);
    }
    for (size_t place = 0; place < found.count; place++)
        drop_address(link, found.list[place], prefix->length);
}

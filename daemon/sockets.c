/* The sockets of HNCP and of advertisements. */
#include "hnd.h"

#include <arpa/inet.h>
#include <errno.h>
#include <netinet/icmp6.h>
#include <string.h>
#include <sys/socket.h>

int udp = -1, icmp = -1;
uint8_t room[MOST_BYTES];

/* The group of each socket. Router Advertisements of others come to all nodes, a group that each host is in. */
static const struct in6_addr all_hncp = {.s6_addr = {0xff, 0x02, [15] = 0x11}};
static const struct in6_addr all_routers = {.s6_addr = {0xff, 0x02, [15] = 0x02}};

/* Sets an option of a socket. */
static void set(int of, int level, int option, int value, const char *name)
{
    if (setsockopt(of, level, option, &value, sizeof value) != 0)
        fail(FAILED, name, strerror(errno));
}

/* Opens a socket that tells address and interface of what arrives, and hears nothing of itself. */
static int open_socket(const char *name, int kind, int protocol)
{
    int made = socket(AF_INET6, kind | SOCK_CLOEXEC | SOCK_NONBLOCK, protocol);
    if (made < 0)
        fail(FAILED, name, strerror(errno));
    set(made, IPPROTO_IPV6, IPV6_RECVPKTINFO, 1, name);
    set(made, IPPROTO_IPV6, IPV6_MULTICAST_LOOP, 0, name);
    return made;
}

/* Opens the socket of HNCP. */
void open_udp(void)
{
    static const char name[] = "UDP port 8231";
    struct sockaddr_in6 any = {.sin6_family = AF_INET6, .sin6_port = htons(PORT)};
    udp = open_socket(name, SOCK_DGRAM, 0);
    set(udp, IPPROTO_IPV6, IPV6_V6ONLY, 1, name);
    if (bind(udp, (struct sockaddr *)&any, sizeof any) != 0)
        fail(FAILED, name, strerror(errno));
}

/* Opens the socket of advertisements. Solicitations and the advertisements of others come to it, and nothing else. */
void open_icmp(void)
{
    static const char name[] = "raw socket of ICMPv6";
    struct icmp6_filter wanted; /* a bit for each kind that does not pass */
    memset(&wanted, 0xff, sizeof wanted);
    wanted.icmp6_filt[ND_ROUTER_SOLICIT / 32] &= ~(1u << ND_ROUTER_SOLICIT % 32 | 1u << ND_ROUTER_ADVERT % 32);
    icmp = open_socket(name, SOCK_RAW, IPPROTO_ICMPV6);
    set(icmp, IPPROTO_IPV6, IPV6_RECVHOPLIMIT, 1, name);
    set(icmp, IPPROTO_IPV6, IPV6_MULTICAST_HOPS, 255, name);
    if (setsockopt(icmp, IPPROTO_ICMPV6, ICMP6_FILTER, &wanted, sizeof wanted) != 0)
        fail(FAILED, name, strerror(errno));
}

/* Goes into a group on an interface, or out of it. The interface may be gone, and the group be joined already. */
static void change_group(int of, int option, unsigned index, const struct in6_addr *group)
{
    struct ipv6_mreq change = {.ipv6mr_multiaddr = *group, .ipv6mr_interface = index};
    if (of >= 0 && setsockopt(of, IPPROTO_IPV6, option, &change, sizeof change) != 0 && option == IPV6_JOIN_GROUP
        && errno != EADDRINUSE)
        say(OF_CALL, "unjoined index=%u group=%s why=\"%s\"", index, address_text(group->s6_addr), strerror(errno));
}

void join_groups(unsigned index)
{
    change_group(udp, IPV6_JOIN_GROUP, index, &all_hncp);
    change_group(icmp, IPV6_JOIN_GROUP, index, &all_routers);
}

void leave_groups(unsigned index)
{
    change_group(udp, IPV6_LEAVE_GROUP, index, &all_hncp);
    change_group(icmp, IPV6_LEAVE_GROUP, index, &all_routers);
}

/* The part of a message's control data after one. */
static struct cmsghdr *after(const struct msghdr *message, struct cmsghdr *part)
{
    size_t length = (part->cmsg_len + sizeof(size_t) - 1) / sizeof(size_t) * sizeof(size_t);
    size_t place = (size_t)((char *)part - (char *)message->msg_control) + length;
    return place + sizeof *part > message->msg_controllen ? NULL : (struct cmsghdr *)(void *)((char *)part + length);
}

/* Reads where a packet went, on which interface, and its hop limit. */
static void read_control(struct msghdr *message, struct arrival *it)
{
    struct in6_pktinfo info = {.ipi6_ifindex = 0};
    it->hops = -1;
    for (struct cmsghdr *part = CMSG_FIRSTHDR(message); part != NULL; part = after(message, part)) {
        if (part->cmsg_level == IPPROTO_IPV6 && part->cmsg_type == IPV6_PKTINFO)
            memcpy(&info, CMSG_DATA(part), sizeof info);
        if (part->cmsg_level == IPPROTO_IPV6 && part->cmsg_type == IPV6_HOPLIMIT)
            memcpy(&it->hops, CMSG_DATA(part), sizeof it->hops);
    }
    it->to = info.ipi6_addr;
    it->link = link_of_index((unsigned)info.ipi6_ifindex);
}

/* Takes a packet from a socket into the room. It is useless where it was cut, or came on no link that is attached. */
enum received receive(int from, struct arrival *it)
{
    char control[CMSG_SPACE(sizeof(struct in6_pktinfo)) + CMSG_SPACE(sizeof(int))] __attribute__((aligned(8)));
    struct iovec whole = {room, sizeof room};
    struct msghdr message = {.msg_name = &it->from, .msg_namelen = sizeof it->from, .msg_iov = &whole,
                             .msg_iovlen = 1, .msg_control = control, .msg_controllen = sizeof control};
    ssize_t length = recvmsg(from, &message, 0);
    if (length < 0 && errno != EAGAIN && errno != EINTR)
        say(OF_CALL, "unreceived why=\"%s\"", strerror(errno));
    if (length < 0)
        return NOTHING;
    it->length = (size_t)length;
    read_control(&message, it);
    if (message.msg_flags & MSG_TRUNC)
        say(OF_STRAY, "dropped bytes=%zd why=truncated", length);
    return it->link == NULL || !it->link->is_attached || message.msg_flags & MSG_TRUNC ? USELESS : PACKET;
}

/* Sends bytes out of a link, from its link-local address. If that fails a line says so, and they are lost. Without such
 * an address nothing is sent. */
bool send_out(int by, const struct link *link, const uint8_t to[16], uint16_t port, const uint8_t *bytes, size_t count)
{
    char control[CMSG_SPACE(sizeof(struct in6_pktinfo))] __attribute__((aligned(8))) = {0};
    struct sockaddr_in6 there = {.sin6_family = AF_INET6, .sin6_port = htons(port), .sin6_scope_id = link->index};
    struct in6_pktinfo info = {.ipi6_ifindex = (__typeof__(info.ipi6_ifindex))link->index};
    struct iovec whole = {(void *)(uintptr_t)bytes, count};
    struct msghdr message = {.msg_name = &there, .msg_namelen = sizeof there, .msg_iov = &whole, .msg_iovlen = 1,
                             .msg_control = control, .msg_controllen = sizeof control};
    struct cmsghdr *part = CMSG_FIRSTHDR(&message);
    if (!link->is_fit)
        return false;
    memcpy(&there.sin6_addr, to, sizeof there.sin6_addr);
    memcpy(&info.ipi6_addr, link->address, sizeof info.ipi6_addr);
    part->cmsg_level = IPPROTO_IPV6;
    part->cmsg_type = IPV6_PKTINFO;
    part->cmsg_len = CMSG_LEN(sizeof info);
    memcpy(CMSG_DATA(part), &info, sizeof info);
    if (sendmsg(by, &message, 0) >= 0)
        return true;
    say(OF_SEND, "unsent %s bytes=%zu why=\"%s\"", link->name, count, strerror(errno));
    return false;
}

/* What the parts of the daemon share. main.c says what it does, hnd.8 how it is used. */
#ifndef HND_H
#define HND_H

#define _GNU_SOURCE
#include "hn_router.h"

#include <net/if.h>
#include <netinet/in.h>
#include <stdbool.h>
#include <stddef.h>
#include <stdint.h>
#include <stdio.h>

/* Statuses; the port of HNCP; limits of the library; rooms in bytes. */
enum { FAILED = 1, BAD_ARGUMENTS = 2, PORT = 8231 };
enum { MOST_LINKS = 16, MOST_PREFIXES = 8, MOST_USED = 32, MOST_ASSIGNED = 512, MOST_ADDRESSES = 64 };
enum { MOST_BYTES = 65535, MOST_ADVERT = 2048, MOST_LINE = 256, MOST_SERVERS = 3 };

/* The number under which the routes of the daemon stand in the system, as that of Babel is 42. */
enum { ROUTE_PROTOCOL = 44 };

/* In seconds: the most that hosts are told of a prefix (RFC 9096, section 3.4), unless an option says else. */
enum { MOST_PREFERRED = 2700, MOST_VALID = 5400 };

/* In milliseconds: so long it waits for memory, for another try of a route, and at most for anything. */
enum { RETRY = 100, ROUTE_RETRY = 5000, LONGEST_WAIT = 3600000 };

#define NEVER UINT64_MAX

/* A prefix. No bit is set past its length. */
struct prefix {
    uint8_t bits[16];
    uint8_t length;
};

/* A delegated prefix with its lifetimes in seconds, of which 2^32 - 1 never ends. */
struct delegation {
    struct prefix prefix;
    uint32_t valid, preferred;
};

/* When advertisements are sent on a link, and what is to be advertised now, without lifetimes. */
struct advertising {
    unsigned count, turns;   /* how many were sent since the last change, but for those that had no room for all; and these */
    uint64_t begun;          /* since when it advertises here */
    uint64_t earliest, next; /* when the next one may be sent, and when it is due, which is not before that */
    bool is_short;           /* the next one has one prefix alone */
    bool has_sent;           /* one was sent, be it long ago */
    bool is_over;            /* the last one of all was sent */
    uint8_t bytes[MOST_ADVERT];
    size_t length;
};

/* An interface that was named at the start. */
struct link {
    const char *name;
    uint32_t endpoint;    /* from 1 on, in the order of the arguments, for good */
    unsigned index;       /* its number in the system; 0: there is no such interface now */
    bool is_fit;          /* it is up, has a carrier and a link-local address */
    bool is_attached;     /* the router knows its endpoint */
    bool is_flushed;      /* it was down, so the system has dropped its addresses and routes */
    bool is_full;         /* it has no room for one more peer */
    uint64_t ends;        /* when it is detached, unless it is fit before */
    uint64_t freed;       /* when its peers may be dropped again */
    uint64_t sent;        /* when the router sent to the group last */
    uint64_t asked;       /* when it made the last request of the network state, */
    uint64_t asked_at;    /* and when one went out last */
    uint8_t address[16];  /* its link-local address, where it is fit */
    uint8_t hardware[6];
    bool has_hardware;
    struct advertising adverts;
};

/* A packet that arrived in the room: from where and to which address, on which link, its hop limit if it was told. */
struct arrival {
    struct sockaddr_in6 from;
    struct in6_addr to;
    struct link *link;
    int hops;
    size_t length;
};

/* What the options say. */
struct settings {
    uint32_t id;
    bool has_id, advertises, routes, forwards, answers_own_port, keeps_lifetimes, makes_ula, to_syslog;
    const char *control, *command, *user, *kept;
    uint64_t ends;
    struct delegation uplinks[MOST_PREFIXES];
    size_t uplink_count;
    struct in6_addr servers[MOST_SERVERS];
    size_t server_count;
};

extern struct settings settings;
extern hn_router router;
extern struct link links[MOST_LINKS];
extern size_t link_count;
extern uint8_t room[MOST_BYTES]; /* of a packet that arrived, or that is to be sent */
extern bool is_told_to_end;

/* options.c */
void read_options(int count, char **words);

/* system.c: the clock, random numbers, rights. */
void start_clock(void);
uint64_t now(void);
uint64_t earlier(uint64_t one, uint64_t other);
void draw(void *bytes, size_t count);
uint32_t draw_number(uint32_t most);
_Noreturn void fail(int status, const char *what, const char *why);
void drop_rights(void);

/* text.c */
const char *text_of(const uint8_t prefix[16], unsigned length);
const char *address_text(const uint8_t address[16]);
bool read_number(const char *text, uint32_t most, uint32_t *number);
bool read_prefix(const char *text, struct prefix *it);
bool read_delegation(const char *text, struct delegation *it);

/* tlv.c */
struct tlv {
    unsigned kind;
    const uint8_t *value;
    size_t length;
};
uint32_t number_at(const uint8_t *at);
bool next_tlv(const uint8_t **at, const uint8_t *end, struct tlv *it);

/* log.c: lines of one kind are limited to some in a second. */
enum kind { OF_COMMAND, OF_STATE, OF_ASSIGNMENT, OF_LINK, OF_ROUTE, OF_ADVERT, OF_NOTE, OF_STRAY, OF_SEND, OF_FILE, OF_CALL, KINDS };
void open_log(void);
bool say(enum kind kind, const char *form, ...) __attribute__((format(printf, 2, 3)));
int log_descriptor(void);
uint64_t log_due(void);
void write_log(void);
void end_log(void);
uint64_t lines_lost(void);

/* netlink.c: each asks the system, and gives 0 or the number of an error. */
struct seen {
    unsigned index, flags;
    uint8_t hardware[6];
    bool has_hardware;
    uint8_t address[16];
    bool has_address;
};
void open_netlink(void);
int netlink_descriptor(void);
bool netlink_heard(void);
bool look_at_links(struct seen seen[MOST_LINKS]);
int put_address(const struct link *link, const uint8_t address[16], uint8_t length, bool is_deprecated);
int drop_address(const struct link *link, const uint8_t address[16], uint8_t length);
int put_route(const struct link *link, const struct prefix *to);
int drop_route(const struct link *link, const struct prefix *to);
size_t find_routes(const struct link *link, struct prefix *list, size_t most);
void drop_addresses_in(const struct link *link, const struct prefix *prefix);

/* links.c */
void begin_links(char **names, size_t count);
struct link *link_of_index(unsigned index);
struct link *link_of_endpoint(uint32_t endpoint);
void follow_links(void);
uint64_t links_due(void);

/* sockets.c */
enum received { NOTHING, USELESS, PACKET };
extern int udp, icmp; /* -1: none */
void open_udp(void);
void open_icmp(void);
void join_groups(unsigned index);
void leave_groups(unsigned index);
enum received receive(int from, struct arrival *it);
bool send_out(int by, const struct link *link, const uint8_t to[16], uint16_t port, const uint8_t *bytes, size_t count);

/* router.c: the library's router, its events, and what is told of it. */
void begin_router(void);
bool is_done(uint8_t status, const char *call);
bool attach(struct link *link);
bool detach(struct link *link);
bool tick(void);
uint8_t delegate(const struct delegation *it, bool *is_refused);
uint8_t withdraw(const struct prefix *prefix);
bool set_addresses(const hn_address *list, size_t count);
enum received take_datagram(void);
uint64_t router_due(void);
size_t read_used(hn_used list[MOST_USED]);
const hn_assigned *assignments(size_t *count);
bool is_assigned(const struct link *link, const struct prefix *prefix);
void want_report(void);
void report(void);

/* held.c: replies to multicasts wait a little, and requests for one another. */
void hold(const hn_sent *sent, uint64_t at, uint64_t gap, const uint8_t *bytes, size_t count);
uint64_t held_due(void);
void send_held(void);
void drop_held(const struct link *link);

/* routes.c */
void begin_routes(void);
void take_over(struct link *link);
void forget_routes(const struct link *link);
void follow_routes(const hn_assigned *list, size_t count);
uint64_t routes_due(void);
void end_left(void);
void end_routes(void);
void write_addresses(void (*write)(FILE *, const struct link *, const uint8_t *, const struct prefix *), FILE *to);

/* adverts.c */
void begin_adverts(struct link *link);
void tell_departed(struct link *link, const struct prefix *prefix, uint32_t valid);
void watch_adverts(void);
enum received take_neighbor(void);
uint64_t adverts_due(void);
void send_adverts(void);
bool end_adverts(void);

/* state.c: what is kept over a restart. */
void read_state(void);
void begin_state(void);
void remember(const hn_assigned *it);
void look_at_state(void);
void keep_state(void);
void follow_state(void);
uint64_t state_due(void);
void end_state(void);

/* file.c: the file of -k. A call gives nothing, or why it is not done. */
const char *read_file(bool (*take)(const char *line));
bool is_writing(void);
const char *begin_writing(void (*write_lines)(FILE *));
bool has_written(const char **why);

/* uplinks.c: prefixes that are delegated to this router. Each call gives nothing, or why it is not done. */
const char *add_uplink(const struct delegation *it);
const char *remove_uplink(const struct prefix *prefix);
bool remove_uplinks(void);
bool has_uplink(const struct prefix *prefix);
void write_uplinks(void (*write)(FILE *, const struct prefix *, uint64_t, uint64_t), FILE *to);

/* ula.c: a ULA prefix of the router's own making. */
bool take_ula(const struct prefix *it, bool was_made);
void forget_ula(void);
const struct prefix *own_ula(bool *made);
void begin_ula(void);
void hear_nodes(size_t length);
void follow_ula(void);
uint64_t ula_due(void);
const char *set_ula(bool is_wanted);
void end_ula(void);

/* commands.c: a line of input gives the text of a reply, which is to be freed; its last line says how it went. */
char *obey(const char *line);
void open_input(void);
int input_descriptor(void);
void take_input(void);

/* show.c */
void show(FILE *to);
void show_json(FILE *to);

/* control.c: the control socket. */
struct pollfd;
void open_control(void);
size_t control_descriptors(struct pollfd *list);
void serve_control(const struct pollfd *list, size_t count);
void end_control(void);
_Noreturn void ask_daemon(void);
enum { MOST_CLIENTS = 4 };

#endif

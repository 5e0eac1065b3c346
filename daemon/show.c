/* What the router has come to by now, as lines or as JSON. */
#include "hnd.h"

#include <endian.h>
#include <inttypes.h>
#include <string.h>

static bool is_first; /* nothing stands in the list of JSON yet */

/* Milliseconds as seconds; 2^32 - 1 never ends. */
static uint64_t seconds(uint64_t lifetime)
{
    return lifetime == NEVER ? UINT32_MAX : lifetime / 1000;
}

/* The network state hash as a number. */
static uint64_t network_hash(void)
{
    uint64_t hash;
    hn_router_network_hash(&router, (uint8_t *)&hash);
    return be64toh(hash);
}

static const char *state_of(const struct link *link)
{
    return !link->is_attached ? "detached" : link->is_fit ? "attached" : "unusable";
}

static void write_uplink(FILE *to, const struct prefix *it, uint64_t valid, uint64_t preferred)
{
    fprintf(to, "delegated %s valid=%" PRIu64 " preferred=%" PRIu64 "\n", text_of(it->bits, it->length), valid, preferred);
}

static void write_address(FILE *to, const struct link *link, const uint8_t *address, const struct prefix *prefix)
{
    fprintf(to, "address %s %s\n", link->name, text_of(address, prefix->length));
}

/* Writes a line for each thing. */
void show(FILE *to)
{
    hn_used used[MOST_USED];
    uint32_t id;
    size_t count, nodes = hn_router_nodes(&router);
    fprintf(to, "show id=%08" PRIx32 " number=%" PRIu32 " net=%016" PRIx64 "\n", hn_router_identifier(&router),
            hn_router_number(&router), network_hash());
    for (size_t place = 0; place < nodes && is_done(hn_router_node(&router, place, &id), "node"); place++)
        fprintf(to, "node %08" PRIx32 "\n", id);
    for (const struct link *it = links; it < links + link_count; it++)
        fprintf(to, "link %s endpoint=%" PRIu32 " state=%s address=%s\n", it->name, it->endpoint, state_of(it),
                it->is_fit ? address_text(it->address) : "none");
    write_uplinks(write_uplink, to);
    for (const hn_used *it = used, *end = used + read_used(used); it < end; it++)
        fprintf(to, "used %s valid=%" PRIu64 " preferred=%" PRIu64 "\n", text_of(it->prefix, it->length), seconds(it->valid),
                seconds(it->preferred));
    for (const hn_assigned *it = assignments(&count), *end = it + count; it < end; it++)
        fprintf(to, "assigned %s %s in=%s applied=%s\n", link_of_endpoint(it->endpoint)->name, text_of(it->prefix, it->length),
                text_of(it->delegated, it->delegated_length), it->applied ? "yes" : "no");
    write_addresses(write_address, to);
    fprintf(to, "lost lines=%" PRIu64 "\n", lines_lost());
}

/* Begins the next thing of a list. */
static void part(FILE *to)
{
    fputs(is_first ? "" : ",", to);
    is_first = false;
}

static void begin_list(FILE *to, const char *name)
{
    fprintf(to, ",\"%s\":[", name);
    is_first = true;
}

/* Writes a name of an interface, which may have any byte but a slash, a space and a zero. */
static void write_name(FILE *to, const char *name)
{
    fputc('"', to);
    for (const unsigned char *it = (const unsigned char *)name; *it != '\0'; it++) {
        if (*it < 0x20 || *it >= 0x7f || *it == '"' || *it == '\\')
            fprintf(to, "\\u%04x", *it);
        else
            fputc(*it, to);
    }
    fputc('"', to);
}

static void write_lifetimes(FILE *to, const uint8_t *prefix, unsigned length, uint64_t valid, uint64_t preferred)
{
    part(to);
    fprintf(to, "{\"prefix\":\"%s\",\"valid\":%" PRIu64 ",\"preferred\":%" PRIu64 "}", text_of(prefix, length), valid, preferred);
}

static void write_uplink_json(FILE *to, const struct prefix *it, uint64_t valid, uint64_t preferred)
{
    write_lifetimes(to, it->bits, it->length, valid, preferred);
}

static void write_address_json(FILE *to, const struct link *link, const uint8_t *address, const struct prefix *prefix)
{
    part(to);
    fputs("{\"link\":", to);
    write_name(to, link->name);
    fprintf(to, ",\"address\":\"%s\"}", text_of(address, prefix->length));
}

static void write_link(FILE *to, const struct link *it)
{
    part(to);
    fputs("{\"name\":", to);
    write_name(to, it->name);
    fprintf(to, ",\"endpoint\":%" PRIu32 ",\"state\":\"%s\"", it->endpoint, state_of(it));
    if (it->is_fit)
        fprintf(to, ",\"address\":\"%s\"", address_text(it->address));
    fputc('}', to);
}

static void write_assigned(FILE *to, const hn_assigned *it)
{
    part(to);
    fputs("{\"link\":", to);
    write_name(to, link_of_endpoint(it->endpoint)->name);
    fprintf(to, ",\"prefix\":\"%s\",\"in\":\"%s\",\"applied\":%s}", text_of(it->prefix, it->length),
            text_of(it->delegated, it->delegated_length), it->applied ? "true" : "false");
}

/* Writes one object, on one line. */
void show_json(FILE *to)
{
    hn_used used[MOST_USED];
    uint32_t id;
    size_t count, nodes = hn_router_nodes(&router);
    fprintf(to, "{\"id\":\"%08" PRIx32 "\",\"number\":%" PRIu32 ",\"network\":\"%016" PRIx64 "\",\"lost_lines\":%" PRIu64,
            hn_router_identifier(&router), hn_router_number(&router), network_hash(), lines_lost());
    begin_list(to, "nodes");
    for (size_t place = 0; place < nodes && is_done(hn_router_node(&router, place, &id), "node"); place++) {
        part(to);
        fprintf(to, "\"%08" PRIx32 "\"", id);
    }
    fputc(']', to);
    begin_list(to, "links");
    for (const struct link *it = links; it < links + link_count; it++)
        write_link(to, it);
    fputc(']', to);
    begin_list(to, "delegated");
    write_uplinks(write_uplink_json, to);
    fputc(']', to);
    begin_list(to, "used");
    for (const hn_used *it = used, *end = used + read_used(used); it < end; it++)
        write_lifetimes(to, it->prefix, it->length, seconds(it->valid), seconds(it->preferred));
    fputc(']', to);
    begin_list(to, "assigned");
    for (const hn_assigned *it = assignments(&count), *end = it + count; it < end; it++)
        write_assigned(to, it);
    fputc(']', to);
    begin_list(to, "addresses");
    write_addresses(write_address_json, to);
    fputs("]}\n", to);
}

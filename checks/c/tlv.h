/* Node data and datagrams as a stranger makes them: TLVs of RFC 7787, section 7, and RFC 7788, section 10. */
#ifndef TLV_H
#define TLV_H

#include "home.h"
#include "md5.h"

enum { MOST_DATA = 65507 };

/* Types of TLVs (RFC 7787, section 7; RFC 7788, section 10). */
enum { NODE_ENDPOINT = 3, NODE_STATE = 5, PEER = 8, VERSION = 32, EXTERNAL = 33, DELEGATED = 34, ASSIGNED = 35 };

/* A list of TLVs that grows. */
struct bytes {
    uint8_t at[MOST_DATA];
    size_t count;
};

static inline void put(struct bytes *to, const void *from, size_t count)
{
    CHECK(to->count + count <= MOST_DATA);
    memcpy(to->at + to->count, from, count);
    to->count += count;
}

static inline void put_number(struct bytes *to, uint32_t number)
{
    const uint8_t four[4] = {(uint8_t)(number >> 24), (uint8_t)(number >> 16), (uint8_t)(number >> 8), (uint8_t)number};
    put(to, four, 4);
}

/* A TLV: type, length, value, and zeros up to the next multiple of four. */
static inline void put_tlv(struct bytes *to, uint16_t type, const struct bytes *value)
{
    static const uint8_t zeros[3];
    put_number(to, (uint32_t)type << 16 | (uint32_t)value->count);
    put(to, value->at, value->count);
    put(to, zeros, (4 - value->count % 4) % 4);
}

/* A Peer TLV: the node that is the peer, its endpoint, and the own one. */
static inline void put_peer(struct bytes *to, uint32_t node, uint32_t its, uint32_t own)
{
    struct bytes peer;
    peer.count = 0;
    put_number(&peer, node);
    put_number(&peer, its);
    put_number(&peer, own);
    put_tlv(to, PEER, &peer);
}

/* An HNCP-Version TLV without capabilities. */
static inline void put_version(struct bytes *to)
{
    struct bytes version;
    version.count = 0;
    put_number(&version, 0);
    put(&version, "evil", 4);
    put_tlv(to, VERSION, &version);
}

/* A datagram: who sends it, and the state of a node, with its data and their hash. */
static inline void put_state(struct bytes *to, uint32_t sender, uint32_t node, uint32_t number, const struct bytes *data)
{
    static struct bytes part;
    uint8_t hash[8];
    md5_front(data->at, data->count, hash);
    part.count = 0;
    put_number(&part, sender);
    put_number(&part, LINK);
    put_tlv(to, NODE_ENDPOINT, &part);
    part.count = 0;
    put_number(&part, node);
    put_number(&part, number);
    put_number(&part, 0);
    put(&part, hash, 8);
    put(&part, data->at, data->count);
    put_tlv(to, NODE_STATE, &part);
}

#endif

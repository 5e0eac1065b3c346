"""Forged nodes with large data, as a stranger on a link would make them: their datagrams, for `attack`.

They stand in a row: the first is a peer of the node that is attacked, and each is a peer of the next one, so all are reachable.
"""
import struct

from rulercress.tools.items import hash_of, padded

# Types of TLVs (RFC 7787, section 7; RFC 7788, section 10).
NODE_ENDPOINT, NODE_STATE, PEER, VERSION, EXTERNAL, DELEGATED, ASSIGNED = 3, 5, 8, 32, 33, 34, 35
# The identifiers: of the first node of the row, of nodes that are named and never come, and of the one whose state changes.
FIRST, ABSENT, CHANGING = 0x100, 0x10000, 0x20000
# The table of `hncp` has room for 256 nodes; the node that is attacked, its peer and the changing one are three of them.
MOST_NODES = 245
# How many Peers a node says it has, or how many prefixes it has assigned: some 56 kB of either, and 40 kB.
PEERS, PREFIXES = 3500, 2000
# The front of all prefixes here, 32 bits: none is inside the delegated prefix of the node that is attacked.
FRONT = bytes.fromhex("20010db9")


def tlv(kind, value):
    return struct.pack(">HH", kind, len(value)) + padded(value)


def peer(node, its, own):
    return tlv(PEER, struct.pack(">III", node, its, own))


def prefix_value(bits, length):
    """A prefix: its length, and as many bytes as it has."""
    return bytes([length]) + bits[:(length + 7) // 8]


def assigned(place):
    """An Assigned-Prefix of 64 bits, of so many that follow one another."""
    return tlv(ASSIGNED, struct.pack(">IB", 9, 2) + prefix_value(FRONT + struct.pack(">I", place), 64))


def external(length, lifetime=7200):
    """An External-Connection with one Delegated-Prefix, in which all those prefixes are."""
    return tlv(EXTERNAL, tlv(DELEGATED, struct.pack(">II", lifetime * 1000, lifetime * 1000) + prefix_value(FRONT + bytes(4), length)))


def data(items):
    """Node data: an HNCP-Version and these TLVs, in ascending order, each once (RFC 7787, section 7.2.3)."""
    return b"".join(sorted({tlv(VERSION, bytes(4) + b"evil"), *items}))


def states(first, numbered, age=0):
    """A datagram of a node: its Node Endpoint, and Node States, each of an identifier, a number and data."""
    parts = [tlv(NODE_ENDPOINT, struct.pack(">II", first, 1))]
    for node, number, body in numbered:
        parts.append(tlv(NODE_STATE, struct.pack(">III", node, number, age) + hash_of(body) + body))
    return b"".join(parts)


def row(place, count):
    """The Peers by which a node of the row has its neighbours. The first has the changing node too, if that has it."""
    items = [peer(1, 1, 1), peer(CHANGING, 9, 9)] if place == 0 else [peer(FIRST + place - 1, 2, 3)]
    return items + ([peer(FIRST + place + 1, 3, 2)] if place + 1 < count else [])


def bulk(kind, place, chance):
    """The large part of a node's data: Peers that nobody confirms, or assigned prefixes that follow those of the node before."""
    if kind == "peers":
        return [peer(ABSENT + chance.randrange(8), chance.randrange(1, 2 ** 31), 5 + j) for j in range(PEERS)]
    return [assigned(place * PREFIXES + j) for j in range(PREFIXES)]


def crowd(kind, count, chance):
    """The datagrams of so many nodes, one each."""
    return [states(FIRST, [(FIRST + place, 1, data(row(place, count) + bulk(kind, place, chance)))]) for place in range(count)]

"""The TLVs of HNCP, and what is heard on a link: datagrams and Router Advertisements."""
import collections
import ipaddress
import struct

from .. import items

PORT = 8231                 # RFC 7788, section 3
REQUEST_NETWORK, REQUEST_NODE, NODE_ENDPOINT, NETWORK_STATE, NODE_STATE = 1, 2, 3, 4, 5      # RFC 7787, section 7
PEER, KEEP_ALIVE = 8, 9
VERSION, EXTERNAL, DELEGATED, ASSIGNED, ADDRESS, DHCPV6 = 32, 33, 34, 35, 36, 38             # RFC 7788, section 10
BRIEF = 90                  # seconds of the lifetimes of prefixes, so that hosts forget them soon

State = collections.namedtuple('State', 'number age digest data heard')
Assigned = collections.namedtuple('Assigned', 'endpoint priority prefix')
Option = collections.namedtuple('Option', 'on_link autonomous valid preferred prefix')


def tlv(kind, value=b''):
    return struct.pack('>HH', kind, len(value)) + items.padded(value)


def read(octets):
    """The TLVs of a list, as types and values; what is no list is a ValueError."""
    found, at = [], 0
    while at < len(octets):
        if at + 4 > len(octets):
            raise ValueError(f'{len(octets) - at} bytes are left at place {at}')
        kind, length = struct.unpack_from('>HH', octets, at)
        end = at + 4 + length
        if end > len(octets):
            raise ValueError(f'the TLV at place {at} goes past the end')
        found.append((kind, octets[at + 4:end]))
        at = end + -end % 4
    return found


def values(octets, kind):
    """The values of a type in node data."""
    try:
        return [value for each, value in read(octets) if each == kind]
    except ValueError:
        return []


def number(octets):
    return int.from_bytes(octets, 'big')


def four(value):
    return struct.pack('>I', value & 0xffffffff)


def network_hash(states):
    """The network state hash of states: identifier -> State (RFC 7787, section 4.1.1)."""
    return items.hash_of(items.network_state((node, four(state.number), state.digest) for node, state in states.items()))


def prefix_bytes(prefix):
    return bytes([prefix.prefixlen]) + prefix.network_address.packed[:(prefix.prefixlen + 7) // 8]


def prefix_of(octets):
    """The prefix of a length and bytes, or None where they are none."""
    if not octets or octets[0] > 128 or len(octets) < 1 + (octets[0] + 7) // 8:
        return None
    return ipaddress.ip_network((octets[1:1 + (octets[0] + 7) // 8].ljust(16, b'\0'), octets[0]), strict=False)


def delegated(prefix, valid=BRIEF, preferred=BRIEF, more=b''):
    """A Delegated-Prefix."""
    fixed = struct.pack('>II', valid, preferred) + prefix_bytes(prefix)
    return tlv(DELEGATED, items.padded(fixed) + more if more else fixed)


def external(*prefixes):
    """An External-Connection of Delegated-Prefixes."""
    return tlv(EXTERNAL, b''.join(prefixes))


def assigned(prefix, endpoint, priority=2):
    """An Assigned-Prefix."""
    return tlv(ASSIGNED, four(endpoint) + bytes([priority]) + prefix_bytes(prefix))


def version(agent=b'examiner', capabilities=b'\0\0'):
    return tlv(VERSION, b'\0\0' + capabilities + agent)


def keep_alive(endpoint, milliseconds):
    return tlv(KEEP_ALIVE, four(endpoint) + four(milliseconds))


def peer(node, endpoint, own):
    return tlv(PEER, node + four(endpoint) + four(own))


def assignments(data):
    """The assigned prefixes of node data."""
    found = [(value, prefix_of(value[5:])) for value in values(data, ASSIGNED) if len(value) > 5]
    return [Assigned(number(value[:4]), value[4] & 15, prefix) for value, prefix in found if prefix]


class Heard:
    """A datagram of HNCP that was heard: where, from whom, and its TLVs, or why it has none."""

    def __init__(self, link, packet):
        self.link, self.frame, self.moment = link, packet.frame, packet.moment
        self.source, self.destination, self.mac = packet.source, packet.destination, packet.from_mac
        self.from_port, self.port = struct.unpack('>HH', packet.payload[:4])
        self.octets = packet.payload[8:]
        self.multicast = packet.destination.startswith('ff')
        self.fault, self.tlvs = None, []
        try:
            self.tlvs = read(self.octets)
        except ValueError as error:
            self.fault = str(error)

    def all(self, kind, least=0):
        return [value for each, value in self.tlvs if each == kind and len(value) >= least]

    @property
    def endpoint(self):
        """The first Node Endpoint: identifier and endpoint, or None."""
        found = self.all(NODE_ENDPOINT, 8)
        return (found[0][:4], number(found[0][4:8])) if found else None

    @property
    def digest(self):
        """The last network state hash, or None."""
        found = self.all(NETWORK_STATE, 8)
        return found[-1][:8] if found else None

    @property
    def states(self):
        return {value[:4]: State(number(value[4:8]), number(value[8:12]), value[12:20], value[20:], self)
                for value in self.all(NODE_STATE, 20)}


class Advert:
    """A Router Advertisement (RFC 4861, section 4.2)."""

    def __init__(self, link, packet):
        self.link, self.frame, self.moment = link, packet.frame, packet.moment
        self.source, self.mac, self.hops, self.size = packet.source, packet.from_mac, packet.hops, packet.octets - 14
        self.is_fragmented = packet.is_fragmented
        self.octets = packet.payload
        self.code = packet.payload[1]
        self.managed, self.other = bool(packet.payload[5] & 0x80), bool(packet.payload[5] & 0x40)
        self.lifetime = number(packet.payload[6:8])
        self.fault, self.options = None, []
        self.read_options(packet.payload[16:])

    def read_options(self, left):
        while left:
            size = 8 * left[1] if len(left) > 1 else 0
            if not size or size > len(left):
                self.fault = 'an option goes past the end, or has no length'
                return
            if left[0] == 3 and size == 32:
                length, flags, valid, preferred = struct.unpack('>BBII', left[2:12])
                prefix = ipaddress.ip_network((left[16:32], min(length, 128)), strict=False)
                self.options.append(Option(bool(flags & 0x80), bool(flags & 0x40), valid, preferred, prefix))
            left = left[size:]

    def of(self, prefix):
        """The option of a prefix, or None."""
        return next((each for each in self.options if each.prefix == prefix), None)

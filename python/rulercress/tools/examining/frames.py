"""Ethernet frames with IPv6: read, put together from fragments, made, and written to a pcap."""
import socket
import struct

from ..common import Problem

ETHERNET, HEADER = 14, 40                   # bytes of both headers
IPV6 = 0x86dd
HOP_BY_HOP, UDP, FRAGMENT, ICMPV6 = 0, 17, 44, 58
MOST_PARTS = 64                             # datagrams of which fragments are kept
ROUTER_SOLICITATION, ROUTER_ADVERTISEMENT, ECHO_REQUEST, ECHO_REPLY = 133, 134, 128, 129


class Packet:
    """An IPv6 packet that went over the link: its frame, its moment, addresses, hop limit, protocol and payload."""

    def __init__(self, frame, moment, octets):
        self.frame, self.moment = frame, moment
        self.to_mac, self.from_mac = octets[:6], octets[6:12]
        header = octets[ETHERNET:ETHERNET + HEADER]
        length, self.protocol, self.hops = struct.unpack('>HBB', header[4:8])
        self.source, self.destination = (socket.inet_ntop(socket.AF_INET6, header[at:at + 16]) for at in (8, 24))
        self.payload = octets[ETHERNET + HEADER:ETHERNET + HEADER + length]
        self.octets = ETHERNET + HEADER + length
        self.is_fragmented = False
        if self.protocol == HOP_BY_HOP and len(self.payload) >= 8:
            self.protocol, self.payload = self.payload[0], self.payload[8 * (1 + self.payload[1]):]


def packet_of(frame, moment, octets):
    """The IPv6 packet of a frame, or None."""
    if len(octets) < ETHERNET + HEADER or struct.unpack('>H', octets[12:14])[0] != IPV6:
        return None
    return Packet(frame, moment, octets)


class Parts:
    """Puts datagrams together from fragments (RFC 8200, section 4.5)."""

    def __init__(self):
        self.known = {}

    def whole(self, packet):
        """The packet, if it is whole now, and else None."""
        if packet.protocol != FRAGMENT or len(packet.payload) < 8:
            return packet
        protocol, _, place, number = struct.unpack('>BBHI', packet.payload[:8])
        key = packet.source, packet.destination, number
        if key not in self.known and len(self.known) >= MOST_PARTS:
            del self.known[next(iter(self.known))]
        parts = self.known.setdefault(key, {})
        parts[place & ~7] = packet.payload[8:], not place & 1
        if not self.is_whole(parts):
            return None
        packet.payload = b''.join(octets for _, (octets, _) in sorted(parts.items()))
        packet.protocol, packet.is_fragmented = protocol, True
        del self.known[key]
        return packet

    @staticmethod
    def is_whole(parts):
        at = 0
        for place, (octets, is_last) in sorted(parts.items()):
            if place != at:
                return False
            at += len(octets)
        return is_last


def packed(address):
    return socket.inet_pton(socket.AF_INET6, address)


def checksum(source, destination, protocol, octets):
    """The checksum of the upper layer (RFC 8200, section 8.1)."""
    whole = packed(source) + packed(destination) + struct.pack('>II', len(octets), protocol) + octets
    whole += bytes(len(whole) % 2)
    total = sum(struct.unpack(f'>{len(whole) // 2}H', whole))
    while total >> 16:
        total = (total & 0xffff) + (total >> 16)
    return ~total & 0xffff


def made(from_mac, to_mac, source, destination, protocol, octets, place, hops=255):
    """A frame with a packet, whose checksum belongs at a place of the payload."""
    octets = octets[:place] + bytes(2) + octets[place + 2:]
    digest = checksum(source, destination, protocol, octets) or 0xffff
    octets = octets[:place] + struct.pack('>H', digest) + octets[place + 2:]
    header = struct.pack('>IHBB', 6 << 28, len(octets), protocol, hops) + packed(source) + packed(destination)
    return to_mac + from_mac + struct.pack('>H', IPV6) + header + octets


def datagram(from_mac, to_mac, source, destination, port, octets):
    """A frame with a UDP datagram from a port to the same one."""
    return made(from_mac, to_mac, source, destination, UDP, struct.pack('>HHHH', port, port, 8 + len(octets), 0) + octets, 6)


def icmp(from_mac, to_mac, source, destination, octets):
    """A frame with a message of ICMPv6."""
    return made(from_mac, to_mac, source, destination, ICMPV6, octets, 2)


def group_mac(address):
    """The address of Ethernet of a multicast address (RFC 2464, section 7)."""
    return b'\x33\x33' + packed(address)[12:]


class Record:
    """A capture of frames, written as they come (pcap with nanoseconds)."""

    def __init__(self, path):
        self.path, self.count = path, 0
        try:
            self.file = open(path, 'wb')
        except OSError as error:
            raise Problem(f'{path}: {error.strerror}')
        self.write(struct.pack('<IHHiIII', 0xa1b23c4d, 2, 4, 0, 0, 0x40000, 1))

    def write(self, octets):
        try:
            self.file.write(octets)
        except OSError as error:
            raise Problem(f'{self.path}: {error.strerror}')

    def put(self, moment, octets):
        """Writes a frame, and gives its number."""
        self.count += 1
        whole, part = divmod(round(moment * 10 ** 9), 10 ** 9)
        self.write(struct.pack('<IIII', whole, part, len(octets), len(octets)) + octets)
        return self.count

    def flush(self):
        try:
            self.file.flush()
        except OSError as error:
            raise Problem(f'{self.path}: {error.strerror}')

    def close(self):
        try:
            self.file.close()
        except OSError as error:
            raise Problem(f'{self.path}: {error.strerror}')

"""Writes a capture of a simulated home: a file that Wireshark, tshark and tcpdump read, of a home that never was.

Each datagram of the script is one frame at the simulated moment at which it was sent, from the fe80 address of the endpoint
that sent it, by UDP port 8231, with right checksums; a multicast goes to ff02::11. It is there whether its copies came or were
lost, as a sniffer beside the sender has it. With --link the capture is that of one link. What an endpoint sends to a link
without another endpoint is not known. It needs hnlook.
"""
import ipaddress
import struct

from ..tools import common, logs
from ..tools.common import Problem

MULTICAST = bytes.fromhex('ff02' + '0' * 26 + '11')
STRANGER = bytes([2, 0xff, 0, 0, 0, 0])    # the Ethernet address of who is no router of the home
PORT = 8231
HOP_LIMIT = 255
UDP = 17


def address(place, endpoint):
    """The address of an endpoint: fe80::, the router's place in order of definition, and the endpoint."""
    return struct.pack('>HHIII', 0xfe80, 0, 0, place, endpoint)


def ethernet(place, endpoint):
    """An address of one's own making for the frame: 02, a zero, and what is left of place and endpoint."""
    return struct.pack('>BBHH', 2, 0, place & 0xffff, endpoint & 0xffff)


def checksum(data):
    """The checksum of the Internet (RFC 1071)."""
    data += bytes(len(data) % 2)
    total = sum(struct.unpack(f'>{len(data) // 2}H', data))
    while total > 0xffff:
        total = (total & 0xffff) + (total >> 16)
    return ~total & 0xffff


def frame(source, target, ethernets, payload):
    """An Ethernet frame with a UDP datagram over IPv6 (RFC 8200, section 8.1; RFC 2464)."""
    length = 8 + len(payload)
    head = struct.pack('>HHH', PORT, PORT, length)
    total = checksum(source + target + struct.pack('>II', length, UDP) + head + bytes(2) + payload)
    packet = struct.pack('>IHBB', 0x60000000, length, UDP, HOP_LIMIT) + source + target
    return ethernets[1] + ethernets[0] + b'\x86\xdd' + packet + head + struct.pack('>H', total or 0xffff) + payload


class Frames:
    """The frames of a home."""

    def __init__(self, log, link):
        self.home = log.home
        self.link = link
        self.frames = []          # (moment, bytes)
        self.unicasts = self.multicasts = self.injected = 0
        sent = [(copy.moment, copy.number, copy) for copy in log.copies if copy.number == copy.datagram]
        sent += [(each.moment, each.after + 0.5, each) for each in log.injected]
        for moment, _, each in sorted(sent, key=lambda one: one[:2]):
            if self.link in (None, each.link):
                self.add(moment, each)

    def ends(self, endpoint):
        """The addresses of an endpoint: of IPv6, and of Ethernet."""
        place = self.home.place(endpoint[0])
        return address(place, endpoint[1]), ethernet(place, endpoint[1])

    def add(self, moment, each):
        """The datagram of a copy, or one that is injected."""
        if isinstance(each, logs.Injected):
            multicast = each.way == 'multi'
            source = self.ends(each.sender) if each.sender else (ipaddress.IPv6Address(each.source).packed, STRANGER)
            self.injected += 1
        else:
            source, multicast = self.ends(each.sender), each.multicast
            self.multicasts += multicast
            self.unicasts += not multicast
        self.put(moment, source, None if multicast else self.ends(each.receiver), each.data)

    def put(self, moment, source, target, data):
        """A frame to an endpoint, or else to all on the link (RFC 2464, section 7)."""
        to = target or (MULTICAST, b'\x33\x33' + MULTICAST[-4:])
        self.frames.append((moment, frame(source[0], to[0], (source[1], to[1]), data)))


def write(path, frames):
    """Writes a capture with the frames, whose moments are in milliseconds."""
    with open(path, 'wb') as file:
        file.write(struct.pack('<IHHiIII', 0xa1b2c3d4, 2, 4, 0, 0, 262144, 1))
        for moment, data in frames:
            file.write(struct.pack('<IIII', moment // 1000 % 2 ** 32, moment % 1000 * 1000, len(data), len(data)) + data)


def main(words=None):
    words = common.parser(__doc__, [
        ('--link', {'metavar': 'LINK', 'help': 'only what goes over this link'}),
        ('script', {'metavar': 'SCRIPT', 'help': 'a script of hncp lab'}),
        ('file', {'metavar': 'FILE', 'help': 'the capture to write'}),
    ]).parse_args(words)
    log = logs.of_script(common.read_script(words.script))
    if words.link is not None and words.link not in log.home.links:
        raise Problem(f'the script has no link {words.link}')
    made = Frames(log, words.link)
    write(words.file, made.frames)
    print(f'{len(made.frames)} frames: {made.multicasts} multicasts, {made.unicasts} unicasts, {made.injected} injected')

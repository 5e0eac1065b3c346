"""The examiner's end of a link: what it sends, and all that it hears there, which is recorded."""
import collections
import ctypes
import errno
import select
import socket
import struct
import time

from .. import links
from ..common import Problem
from . import frames
from .wire import PORT, Advert, Heard

ALL_FRAMES, OUTGOING, ETHERNET = 0x0003, 4, 1            # of packet sockets: every protocol, sent from here, kind of interface
ATTACH_FILTER, TIMESTAMPS, BUFFER_BY_FORCE = 26, 35, 33  # options of sockets that Python has no names for
BUFFER = 2 ** 22
MOST_BYTES = 65600
ALL_ROUTERS, ALL_NODES = 'ff02::2', 'ff02::1'
DRAINING = 1.0                                           # seconds after the end for what waits already
ROOM_TRIES, ROOM_PAUSE = 100, 0.02                      # how often, and after how many seconds, what finds no room is sent again
KEPT = 2000                                              # sent frames that are remembered
IS_UP = 1                                                # of the flags of an interface

# The frames that are taken, as a program of the system's packet filter: IPv6 with fragments, ICMPv6, or UDP from or to port 8231.
# Each instruction has its code, how many to skip where it holds and where not, and its value.
LOAD_HALF, LOAD_BYTE, IS_EQUAL, RETURN = 0x28, 0x30, 0x15, 0x06
PROGRAM = [(LOAD_HALF, 0, 0, 12), (IS_EQUAL, 0, 9, frames.IPV6), (LOAD_BYTE, 0, 0, 20), (IS_EQUAL, 6, 0, frames.FRAGMENT),
           (IS_EQUAL, 5, 0, frames.ICMPV6), (IS_EQUAL, 0, 5, frames.UDP), (LOAD_HALF, 0, 0, 54), (IS_EQUAL, 2, 0, PORT),
           (LOAD_HALF, 0, 0, 56), (IS_EQUAL, 0, 1, PORT), (RETURN, 0, 0, 0x40000), (RETURN, 0, 0, 0)]


def lacks_right(error):
    return error.errno in (errno.EPERM, errno.EACCES)


def ear_of(name):
    """A packet socket that hears and sends frames of an interface."""
    try:
        made = socket.socket(socket.AF_PACKET, socket.SOCK_RAW, 0)
    except OSError as error:
        why = 'run it as root, or with CAP_NET_RAW' if lacks_right(error) else error.strerror
        raise Problem(f'no packet socket can be opened: {why}')
    rows = b''.join(struct.pack('HBBI', *row) for row in PROGRAM)
    room = ctypes.create_string_buffer(rows)
    try:
        made.setsockopt(socket.SOL_SOCKET, ATTACH_FILTER, struct.pack('@HP', len(PROGRAM), ctypes.addressof(room)))
        made.setsockopt(socket.SOL_SOCKET, TIMESTAMPS, 1)
        try:
            made.setsockopt(socket.SOL_SOCKET, BUFFER_BY_FORCE, BUFFER)
        except OSError:
            made.setsockopt(socket.SOL_SOCKET, socket.SO_RCVBUF, BUFFER)
        made.bind((name, ALL_FRAMES))
    except OSError as error:
        made.close()
        raise Problem(f'the interface {name}: {error.strerror}')
    if made.getsockname()[3] != ETHERNET:
        made.close()
        raise Problem(f'the interface {name} is not of Ethernet')
    return made


def must_be_up(name):
    """An interface that is down is told as such, and not as one without an address."""
    try:
        with open(f'/sys/class/net/{name}/flags') as file:
            flags = int(file.read(), 16)
    except (OSError, ValueError):
        return
    if not flags & IS_UP:
        raise Problem(f'the interface {name} is down; ip link set {name} up')


class Link:
    """A link: the examiner's address there, its sockets, and the last frames that it sent."""

    def __init__(self, name, record):
        self.name, self.record = name, record
        self.index = links.index_of(name)
        must_be_up(name)
        self.ear = ear_of(name)
        self.sockets = [self.ear]
        self.mac = self.ear.getsockname()[4]
        self.parts = frames.Parts()
        self.sent = collections.deque(maxlen=KEPT)      # (moment, payload) of datagrams
        try:
            self.address = links.link_local(name)
            self.unicasts = self.open(links.on_link, self.address)
            self.open(lambda _, port, index: links.in_group(port, index), None)
        except (OSError, Problem):
            self.close()
            raise

    def open(self, maker, address, port=PORT):
        made = maker(address, port, self.index)
        self.sockets.append(made)
        return made

    def close(self):
        for each in self.sockets:
            each.close()

    # Sending

    def send(self, octets, to, port=PORT, by=None):
        """Sends a datagram."""
        self.put(lambda: (by or self.unicasts).sendto(octets, (to, port, 0, self.index)))

    def send_frame(self, octets):
        self.put(lambda: self.ear.send(octets))

    def put(self, send):
        """Sends as soon as there is room for it. An interface that fails ends the examination."""
        for left in reversed(range(ROOM_TRIES)):
            try:
                send()
                return
            except OSError as error:
                if error.errno not in (errno.ENOBUFS, errno.EAGAIN) or not left:
                    self.fail(error)
                time.sleep(ROOM_PAUSE)

    def fail(self, error):
        must_be_up(self.name)
        raise Problem(f'the interface {self.name}: {error.strerror}')

    def other_port(self):
        """A socket of the examiner's address at a port that the system chooses."""
        return self.open(links.on_link, self.address, 0)

    def solicit(self):
        """Sends a Router Solicitation (RFC 4861, section 4.1)."""
        octets = struct.pack('>BBHI', frames.ROUTER_SOLICITATION, 0, 0, 0) + b'\x01\x01' + self.mac
        self.send_frame(frames.icmp(self.mac, frames.group_mac(ALL_ROUTERS), self.address, ALL_ROUTERS, octets))

    # Hearing

    def take(self):
        """What came next at the ear: a datagram, an advertisement, an echo, or None."""
        try:
            octets, control, _, (_, _, kind, *_) = self.ear.recvmsg(MOST_BYTES, 64)
        except OSError as error:
            self.fail(error)
        moment = next((seconds + parts / 10 ** 9 for seconds, parts in
                       (struct.unpack('qq', data[:16]) for level, what, data in control if what == TIMESTAMPS)), time.time())
        frame = self.record.put(moment, octets)
        packet = frames.packet_of(frame, moment, octets)
        packet = packet and self.parts.whole(packet)
        if packet is None:
            return None
        if kind == OUTGOING:
            if packet.protocol == frames.UDP:
                self.sent.append((moment, packet.payload[8:]))
            return None
        return self.heard(packet)

    def heard(self, packet):
        if packet.protocol == frames.UDP and len(packet.payload) >= 8:
            return Heard(self, packet)
        if packet.protocol == frames.ICMPV6 and packet.payload[:1] == bytes([frames.ROUTER_ADVERTISEMENT]) and len(packet.payload) >= 16:
            return Advert(self, packet)
        if packet.protocol == frames.ICMPV6 and packet.payload[:1] == bytes([frames.ECHO_REPLY]):
            return packet
        return None


def hear(ends, seconds, take, until):
    """Takes what comes at links for so many seconds, or up to what is looked for. Each thing that was heard is handed to take
    first. The answer is all that was heard."""
    end, found = time.monotonic() + seconds, []
    while True:
        left = end - time.monotonic()
        ready = select.select([each.ear for each in ends], [], [], max(0, left))[0]
        if left <= 0 and (not ready or left < -DRAINING):
            return found
        for end_of_link in ends:
            if end_of_link.ear not in ready:
                continue
            each = end_of_link.take()
            if each is None:
                continue
            take(each)
            found.append(each)
            if until(each):
                return found

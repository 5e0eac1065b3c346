"""A filter between a device and a link, which makes a sound device a faulty one.

    filtering.py FAULT INNER:OUTER ..      with a pair of interfaces for each link of the device

It hands frames on between each pair, and lets a fault change the datagrams of HNCP and the Router Advertisements. Where node data
are changed, all hashes are made right: what the device says of itself and of others is shown as if it had published so, and what
the link says to it is changed back. For this the filter asks the device itself, under the name of the examiner, from a port of its
own. It writes `ready` once it hears, and ends by SIGTERM.
"""
import collections
import itertools
import os
import random
import select
import socket
import struct
import sys
import time

sys.dont_write_bytecode = True
sys.path.insert(0, os.path.join(os.path.dirname(os.path.realpath(__file__)), '..'))
import common  # noqa: F401: it finds the package
from checks import faulty
from rulercress.tools import items, links
from rulercress.tools.examining import frames, wire
from rulercress.tools.examining.wire import NETWORK_STATE, NODE_ENDPOINT, NODE_STATE, PORT, REQUEST_NETWORK, REQUEST_NODE, tlv

ASKING = 8232             # the port from which the filter asks the device
PATIENCE = 0.4            # seconds to wait for an answer of the device
MOST_TRIES = 2            # how often it asks for one datagram: what the device has no longer cannot be known
ALL_FRAMES, OUTGOING = 3, 4


def ear_of(name):
    made = socket.socket(socket.AF_PACKET, socket.SOCK_RAW, 0)
    made.bind((name, ALL_FRAMES))
    return made


class Datagram:
    """A datagram on its way, which a fault may change."""

    def __init__(self, packet, pair):
        self.packet, self.pair = packet, pair
        self.source, self.destination = packet.source, packet.destination
        self.from_mac, self.to_mac = packet.from_mac, packet.to_mac
        self.from_port, self.port = struct.unpack('>HH', packet.payload[:4])
        self.octets = packet.payload[8:]
        self.multicast = packet.destination.startswith('ff')
        try:
            self.tlvs = wire.read(self.octets)
        except ValueError:
            self.tlvs = None

    def kinds(self):
        return [kind for kind, _ in self.tlvs]

    def of(self, kind):
        return [value for each, value in self.tlvs if each == kind]

    @property
    def sender(self):
        """Who the Node Endpoint names, or None."""
        found = [value for value in self.of(NODE_ENDPOINT) if len(value) == 8]
        return found[0][:4] if found else None

    def frame(self):
        octets = self.octets if self.tlvs is None else b''.join(tlv(kind, value) for kind, value in self.tlvs)
        body = struct.pack('>HHHH', self.from_port, self.port, 8 + len(octets), 0) + octets
        return frames.made(self.from_mac, self.to_mac, self.source, self.destination, frames.UDP, body, 6)


class Pair:
    """A link of the device: the interface towards it, and the one towards the link."""

    def __init__(self, place, names):
        self.place = place
        self.inner, self.outer = (ear_of(name) for name in names.split(':'))
        self.device = None             # (address, address of Ethernet, endpoint)
        self.examiner = None           # the same of who was heard last on the link


class Filter:
    """The filter, with what it knows of the device and of the neighbours."""

    def __init__(self, fault, pairs):
        self.fault, self.pairs = fault, pairs
        self.id = None                 # the identifier of the device
        self.data = {}                 # (node, digest) -> node data, as the device has them
        self.networks = {}             # network state hash of the device -> the states that it is of
        self.back = {}                 # (node, digest at the device) -> (digest, data) as the neighbour published them
        self.forth = {}                # (node, digest as published) -> digest at the device
        self.real = {}                 # network state hash as it is shown -> that of the device
        self.last = {}                 # node -> (number, digest, data, moment), as a neighbour published it last
        self.own = None                # (number, data) of the device, the last that is known
        self.held = collections.deque()
        self.waiting = []              # (moment, place, socket, frame)
        self.places = itertools.count()
        self.asked_at, self.tries = 0.0, 0
        self.heard = (False, 0.0)      # whether the last datagram to the device was a multicast, and when
        self.memory = {}               # what a fault remembers
        self.draw = random.Random(8231)

    # Sending

    def later(self, seconds, to, frame):
        self.waiting.append((time.monotonic() + seconds, next(self.places), to, frame))

    def to_link(self, datagram, seconds=0.0):
        self.emit(datagram.pair.outer, datagram.frame(), seconds)

    def to_device(self, datagram, seconds=0.0):
        self.emit(datagram.pair.inner, datagram.frame(), seconds)

    def emit(self, to, frame, seconds):
        if seconds:
            self.later(seconds, to, frame)
        else:
            self.put(to, frame)

    @staticmethod
    def put(to, frame):
        try:
            to.send(frame)
        except OSError:
            pass                       # an interface went away: the frame is lost, as it could be on a link

    def say(self, pair, tlvs, seconds=0.0, multicast=False):
        """Sends a datagram to the link in the name of the device."""
        address, mac, _ = pair.device
        destination, to_mac = (links.GROUP, frames.group_mac(links.GROUP)) if multicast else pair.examiner
        octets = b''.join(tlv(kind, value) for kind, value in tlvs)
        body = struct.pack('>HHHH', PORT, PORT, 8 + len(octets), 0) + octets
        self.emit(pair.outer, frames.made(mac, to_mac, address, destination, frames.UDP, body, 6), seconds)

    def tell(self, pair, octets):
        """Sends a datagram to the device in the name of the examiner."""
        source, from_mac = pair.examiner
        body = struct.pack('>HHHH', PORT, PORT, 8 + len(octets), 0) + octets
        self.put(pair.inner, frames.made(from_mac, pair.device[1], source, pair.device[0], frames.UDP, body, 6))

    def name(self, pair):
        """The Node Endpoint of the device."""
        return NODE_ENDPOINT, self.id + wire.four(pair.device[2])

    # From the device

    def take_inner(self, pair, octets):
        packet = frames.packet_of(0, 0.0, octets)
        if packet and packet.protocol == frames.UDP and len(packet.payload) >= 8:
            datagram = Datagram(packet, pair)
            if datagram.port == ASKING:
                self.learn(datagram)
                self.asked_at = 0.0
                return
            if PORT in (datagram.port, datagram.from_port):
                self.held.append(datagram)
                return
        if packet and packet.protocol == frames.ICMPV6 and packet.payload[:1] == bytes([frames.ROUTER_ADVERTISEMENT]) and self.fault.advert:
            for each in self.fault.advert(self, packet.payload):
                made = frames.made(packet.from_mac, packet.to_mac, packet.source, packet.destination, frames.ICMPV6, each[1], 2, each[2])
                self.emit(pair.outer, made, each[0])
            return
        self.put(pair.outer, octets)

    def release(self):
        """Hands on what the device sent, in its order, as soon as enough is known."""
        while self.held:
            datagram = self.held[0]
            if datagram.tlvs is not None and self.lacks(datagram) and self.ask(datagram.pair):
                return
            self.held.popleft()
            self.asked_at, self.tries = 0.0, 0
            self.pass_on(datagram)

    def lacks(self, datagram):
        """Whether hashes of the datagram cannot be made right yet."""
        if not (self.fault.data or self.fault.network or self.back):
            return False
        return any(value[:8] not in self.networks or self.fault.data and (self.id, self.own_digest(value[:8])) not in self.data
                   for value in datagram.of(NETWORK_STATE)) or \
            bool(self.fault.data) and any(value[:4] == self.id and (self.id, value[12:20]) not in self.data and len(value) == 20
                                          for value in datagram.of(NODE_STATE))

    def own_digest(self, digest):
        return next((state[2] for state in self.networks[digest] if state[0] == self.id), None)

    def ask(self, pair):
        """Asks the device for its network and its data. Whether there is still time for the answer."""
        now = time.monotonic()
        if pair.device is None or pair.examiner is None or self.tries > MOST_TRIES:
            return False
        if not self.asked_at:
            self.asked_at, self.tries = now, self.tries + 1
            source, from_mac = pair.examiner
            octets = tlv(REQUEST_NETWORK) + tlv(REQUEST_NODE, self.id or bytes(4))
            body = struct.pack('>HHHH', ASKING, PORT, 8 + len(octets), 0) + octets
            self.put(pair.inner, frames.made(from_mac, pair.device[1], source, pair.device[0], frames.UDP, body, 6))
        return now < self.asked_at + PATIENCE

    def learn(self, datagram):
        """What the device says of itself and of its network."""
        if datagram.tlvs is None:
            return
        states = [value for value in datagram.of(NODE_STATE) if len(value) >= 20]
        for value in states:
            if len(value) > 20:
                self.data[value[:4], value[12:20]] = value[20:]
                if value[:4] == self.id:
                    self.own = wire.number(value[4:8]), value[20:]
        parts = {value[:4]: (value[:4], value[4:8], value[12:20]) for value in states}
        for value in datagram.of(NETWORK_STATE):
            if items.hash_of(items.network_state(parts.values())) == value[:8]:
                self.networks[value[:8]] = sorted(parts.values())

    def pass_on(self, datagram):
        pair = datagram.pair
        if datagram.tlvs is not None:
            if datagram.sender:
                self.id = datagram.sender
                pair.device = datagram.source, datagram.from_mac, next(wire.number(value[4:8]) for value in datagram.of(NODE_ENDPOINT))
            self.learn(datagram)
            datagram.tlvs = [(kind, self.shown(kind, value)) for kind, value in datagram.tlvs]
            if self.fault.out and self.fault.out(self, datagram) is False:
                return
        self.to_link(datagram, self.reply_delay(datagram))

    def reply_delay(self, datagram):
        """A sound device delays its replies to multicasts (RFC 7787, section 4.4)."""
        multicast, moment = self.heard
        if datagram.multicast or not multicast or time.monotonic() > moment + 0.1 or self.fault.at_once:
            return 0.0
        return self.memory.setdefault(('delay', moment), self.draw.uniform(0.0, 0.1))

    def shown(self, kind, value):
        """A TLV of the device as the link gets it."""
        if kind == NODE_STATE and len(value) >= 20:
            digest, data = self.shown_data(value[:4], value[12:20], value[20:])
            return value[:12] + digest + (data if value[20:] else b'')
        if kind == NETWORK_STATE and value[:8] in self.networks:
            return self.shown_network(value[:8]) + value[8:]
        return value

    def shown_data(self, node, digest, data):
        if node == self.id and self.fault.data:
            real = data or self.data.get((node, digest))
            made = self.fault.data(self, real) if real else None
            return (items.hash_of(made), made) if made is not None else (digest, data)
        return self.back.get((node, digest), (digest, data))

    def shown_network(self, digest):
        states = {node: wire.State(wire.number(number), 0, self.shown_data(node, own, b'')[0], b'', None)
                  for node, number, own in self.networks[digest]}
        made = (self.fault.network or wire.network_hash)(states)
        self.real[made] = digest
        return made

    # From the link

    def take_outer(self, pair, octets):
        packet = frames.packet_of(0, 0.0, octets)
        if packet and packet.protocol == frames.UDP and len(packet.payload) >= 8:
            datagram = Datagram(packet, pair)
            if datagram.port == PORT:
                self.take_datagram(pair, datagram)
                return
        if packet and self.fault.frame and self.fault.frame(self, pair, packet) is False:
            return
        self.put(pair.inner, octets)

    def take_datagram(self, pair, datagram):
        if datagram.source.startswith('fe80'):
            pair.examiner = datagram.source, datagram.from_mac
        self.heard = datagram.multicast, time.monotonic()
        if datagram.tlvs is not None:
            for value in datagram.of(NODE_STATE):
                self.note(value)
            datagram.tlvs = [(kind, self.hidden(datagram, kind, value)) for kind, value in datagram.tlvs]
        if self.fault.into and self.fault.into(self, datagram) is False:
            return
        self.to_device(datagram)

    def note(self, value):
        """Remembers what a neighbour published, before it is changed."""
        if len(value) > 20 and value[:4] != self.id:
            before = self.last.get(value[:4])
            self.memory['before', value[:4]] = before
            self.last[value[:4]] = wire.number(value[4:8]), value[12:20], value[20:], time.monotonic()

    def hidden(self, datagram, kind, value):
        """A TLV of the link as the device gets it."""
        if kind == NETWORK_STATE:
            return self.real.get(value[:8], value[:8]) + value[8:]
        if kind != NODE_STATE or len(value) < 20 or value[:4] == self.id:
            return value
        node, digest, data = value[:4], value[12:20], value[20:]
        made = faulty.changed(self, datagram, node, data) if data else data
        if made != data:
            new = items.hash_of(made)
            self.back[node, new], self.forth[node, digest] = (digest, data), new
            return value[:12] + new + made
        return value[:12] + (digest if data else self.forth.get((node, digest), digest)) + data

    # The loop

    def run(self):
        sockets = {each: (pair, take) for pair in self.pairs for each, take in ((pair.inner, self.take_inner), (pair.outer, self.take_outer))}
        while True:
            due = min((each[0] for each in self.waiting), default=time.monotonic() + 1.0)
            wait = max(0.0, min(due - time.monotonic(), 0.02 if self.held else 1.0))
            for ready in select.select(list(sockets), [], [], wait)[0]:
                try:
                    octets, (_, _, kind, *_) = ready.recvfrom(70000)
                except OSError:
                    return             # the links are taken away at the end
                if kind != OUTGOING:
                    pair, take = sockets[ready]
                    take(pair, octets)
            self.release()
            now = time.monotonic()
            for each in sorted(each for each in self.waiting if each[0] <= now):
                self.waiting.remove(each)
                self.put(each[2], each[3])


def main():
    fault, *pairs = sys.argv[1:]
    made = Filter(faulty.FAULTS[fault], [Pair(place, names) for place, names in enumerate(pairs)])
    print('ready', flush=True)
    made.run()


if __name__ == '__main__':
    main()

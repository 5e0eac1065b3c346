"""A neighbour that the examiner plays: its identifier, its endpoint, its number and its node data."""
import os
import time

from .. import items, links
from . import wire
from .catalogue import CannotTell, Silent
from .wire import NODE_ENDPOINT, NODE_STATE, REQUEST_NETWORK, REQUEST_NODE, four, tlv

TRIES = 4                # how often a request is sent before the device counts as silent
ANSWER = 1.0             # seconds to wait for an answer; the device may delay one, or leave one out (RFC 7787, section 4.4)
TAKEN = 4.0              # seconds within which the device takes what was published
BRIEF = 100              # milliseconds of the keep-alive interval of a neighbour that leaves
MOST_ENDPOINT = 9999


def drawn_identifier():
    """A random identifier, never 0."""
    return four(int.from_bytes(os.urandom(4), 'big') or 1)


class Answer:
    """An answer to a Request Network State, perhaps in several datagrams."""

    def __init__(self, heard):
        self.heard = [each for each in heard if each.digest or each.states]
        self.digest = next((each.digest for each in reversed(self.heard) if each.digest), None)
        self.states = {}
        for each in self.heard:
            self.states.update(each.states)

    @property
    def is_right(self):
        return self.digest == wire.network_hash(self.states)


class Neighbour:
    """A node on a link of the device. Nothing is sent before a call sends it."""

    def __init__(self, session, device, identifier=None, endpoint=None):
        self.session, self.device, self.link = session, device, device.link
        self.id = identifier or drawn_identifier()
        self.endpoint = endpoint or 1 + int.from_bytes(os.urandom(2), 'big') % MOST_ENDPOINT
        self.number, self.data, self.born = 1, b'', time.monotonic()
        self.answers = True          # whether it answers a Request Node State about itself
        self.greeted = False
        session.neighbours.append(self)

    # Sending

    @property
    def name(self):
        return tlv(NODE_ENDPOINT, self.id + four(self.endpoint))

    def send(self, *tlvs, multicast=False):
        """Sends a datagram that begins with the Node Endpoint."""
        self.greeted = self.greeted or not multicast
        self.link.send(self.name + b''.join(tlvs), links.GROUP if multicast else self.device.address)

    def state(self, with_data=True, age=None):
        """The own Node State."""
        if age is None:
            age = int((time.monotonic() - self.born) * 1000)
        return node_state(self.id, self.number, self.data, age, with_data)

    def items(self, *more, peer=True, version=True):
        """The node data: an HNCP-Version, a Peer of the device, and more."""
        found = list(more)
        if version:
            found.append(wire.version())
        if peer:
            found.append(wire.peer(self.device.id, self.device.endpoint, self.endpoint))
        return b''.join(sorted(set(found)))

    def publish(self, *more, peer=True, version=True, tell=True):
        """Publishes node data under the next number."""
        self.number = (self.number + 1) % 2 ** 32
        self.data, self.born = self.items(*more, peer=peer, version=version), time.monotonic()
        if tell:
            self.send(self.state())

    def tell(self, text):
        """Sends a Node State of the own identifier as it is given."""
        self.send(tlv(NODE_STATE, self.id + text))

    # Hearing

    def hear(self, seconds, until=lambda each: False):
        """The datagrams of the device that come on this link."""
        found = self.session.hear(seconds, lambda each: self.is_of_device(each) and until(each))
        return [each for each in found if self.is_of_device(each)]

    def is_of_device(self, each):
        return isinstance(each, wire.Heard) and each.link is self.link and each.source == self.device.address

    def ask(self, tlvs, is_answer, named=True, tries=TRIES):
        """Sends a request until something that is an answer comes by unicast: what was heard after the last one, or nothing."""
        for _ in range(tries):
            if named:
                self.send(tlvs)
            else:
                self.link.send(tlvs, self.device.address)
            heard = self.hear(ANSWER, lambda each: not each.multicast and is_answer(each))
            if any(not each.multicast and is_answer(each) for each in heard):
                return [each for each in heard if not each.multicast]
        return []

    def network(self, named=True, tries=TRIES):
        """The answer to a Request Network State, once its hash is right, or all of its parts may have come."""
        heard = []
        for _ in range(2):
            heard = self.ask(tlv(REQUEST_NETWORK), lambda each: each.digest, named, tries)
            if not heard:
                raise Silent('no Request Network State is answered')
            if not Answer(heard).is_right:
                heard += [each for each in self.hear(0.4) if not each.multicast]
            if Answer(heard).is_right:
                break
        return Answer(heard)

    def node(self, node, named=True, tries=2):
        """The state of a node with its data, as the device tells it, or None. One without data may belong to an earlier answer."""
        heard = self.ask(tlv(REQUEST_NODE, node), lambda each: node in each.states and each.states[node].data, named, tries)
        found = [each.states[node] for each in heard if node in each.states and each.states[node].data]
        return found[-1] if found else None

    def own(self, named=True):
        """The device's own state, with data."""
        found = self.node(self.device.id, named, TRIES)
        if not found:
            raise Silent('no Request Node State about the device itself is answered with its data')
        return found

    def published(self, kind):
        return wire.values(self.own().data, kind)

    def peers(self, node, named=True):
        """The Peers of a node that the device publishes: (endpoint of the node, own endpoint)."""
        return [(wire.number(value[4:8]), wire.number(value[8:12])) for value in wire.values(self.own(named).data, wire.PEER)
                if value[:4] == node]

    def assignments(self, inside):
        """The prefixes that the device assigns inside a delegated one."""
        return [each for each in wire.assignments(self.own().data) if each.prefix.subnet_of(inside)]

    # What takes time

    def wait(self, seconds, test, pause=0.2):
        """What a test gives as soon as it holds, or what it gave last."""
        end = time.monotonic() + seconds
        while True:
            found = test()
            if found or time.monotonic() > end:
                return found
            self.hear(pause)

    def holds(self, node, number=None, digest=None):
        """Whether the device has a node in its network, with this number and hash if they are given."""
        state = self.network().states.get(node)
        return state if state and number in (None, state.number) and digest in (None, state.digest) else None

    def is_taken(self):
        """Whether the device has the own data of now."""
        return self.holds(self.id, self.number % 2 ** 32, items.hash_of(self.data))

    def taken(self, seconds=TAKEN):
        return self.wait(seconds, self.is_taken)

    def join(self, *more):
        """Becomes a mutual peer with node data that the device has."""
        self.send()
        self.hear(0.05)
        self.publish(*more)
        if not self.wait(TAKEN, lambda: self.is_taken() or self.send(self.state())):
            raise CannotTell('the device does not take the examiner as a mutual peer and its data')

    def keep(self, multicast=False):
        """Tells the device its own network state hash, so that the examiner stays its peer."""
        self.send(tlv(wire.NETWORK_STATE, self.network().digest), multicast=multicast)

    def leave(self):
        """Publishes nothing but a brief keep-alive interval, and falls silent, so that the device forgets it at once."""
        self.answers = False
        if self.greeted:
            self.number = (self.number + 1) % 2 ** 32
            self.data, self.born = self.items(wire.keep_alive(0, BRIEF)), time.monotonic()
            self.send(self.state())


def node_state(node, number, data, age=0, with_data=True, digest=None):
    """A Node State of a node."""
    fixed = node + four(number) + four(age) + (items.hash_of(data) if digest is None else digest)
    return tlv(NODE_STATE, fixed + (data if with_data else b''))

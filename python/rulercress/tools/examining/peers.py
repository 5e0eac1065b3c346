"""Examinations of how neighbours become peers, and cease to be."""
import os
import time

from . import wire
from .catalogue import MUST, SHOULD, CannotTell, examination, want
from .neighbour import Neighbour
from .timing import multicasts
from .wire import NETWORK_STATE, NODE_ENDPOINT, four, tlv

NOTICED = 3.0            # seconds within which a peer is published
MULTIPLIER = 2.1         # keep-alive intervals (RFC 7788, section 3)
SHORT = 2.0              # seconds of the keep-alive interval that a peer publishes
MOST_MULTIPLIER = 15     # that the RFC speaks of, for lossy links
SILENCE = 60.0           # seconds after which a peer with the default interval is gone for sure


@examination('RFC 7787, sections 4.5 and 7.3.1', MUST, 2)
def unicast_makes_a_peer(x):
    """A unicast with a Node Endpoint makes its sender a peer, which is published under a new number."""
    before = x.own(named=False)
    x.send()
    found = x.wait(NOTICED, lambda: x.peers(x.id))
    after = x.own()
    want(found, 'no Peer of the examiner is published', after.heard)
    want(found[0][0] == x.endpoint, f'the Peer has the endpoint {found[0][0]} of the examiner, whose is {x.endpoint}', after.heard)
    want(found[0][1] == x.device.endpoint, f'the Peer has the own endpoint {found[0][1]}, and the Node Endpoint {x.device.endpoint}', after.heard)
    want(after.number != before.number, f'the data changed, and the number {after.number} did not', before.heard, after.heard)


@examination('RFC 7787, section 4.5', MUST, 2)
def multicast_makes_no_peer(x):
    """A Node Endpoint that came by multicast alone makes no peer."""
    x.send(tlv(NETWORK_STATE, os.urandom(8)), multicast=True)
    x.hear(0.5)
    x.send(tlv(NETWORK_STATE, os.urandom(8)), multicast=True)
    x.hear(0.5)
    state = x.own(named=False)
    want(not any(value[:4] == x.id for value in wire.values(state.data, wire.PEER)), 'it is published as a peer', state.heard)


@examination('RFC 7787, section 4.5', MUST, 3)
def two_nodes_of_one_address_are_two_peers(x):
    """Nodes are told apart by their identifiers, also where they send from one address."""
    y = Neighbour(x.session, x.device)
    x.send()
    y.send()

    def both():
        nodes = {value[:4] for value in x.published(wire.PEER)}
        return {x.id, y.id} <= nodes
    want(x.wait(NOTICED, both), 'not both of two nodes are published as peers', x.own().heard)


@examination('RFC 7787, section 7.2.1; RFC 7788, section 3', SHOULD, 2)
def endpoint_zero_makes_no_peer(x):
    """A Node Endpoint with the reserved endpoint 0 makes no peer."""
    x.link.send(tlv(NODE_ENDPOINT, x.id + bytes(4)), x.device.address)
    x.hear(0.6)
    state = x.own(named=False)
    want(not any(value[:4] == x.id for value in wire.values(state.data, wire.PEER)), 'it is published as a peer', state.heard)


@examination('RFC 7787, section 4.5', SHOULD, 2)
def is_no_peer_of_itself(x):
    """A Node Endpoint with the device's own identifier makes no peer."""
    x.link.send(tlv(NODE_ENDPOINT, x.device.id + four(x.endpoint)), x.device.address)
    x.hear(0.6)
    state = x.own(named=False)
    want(not any(value[:4] == x.device.id for value in wire.values(state.data, wire.PEER)), 'it is published as a peer of itself', state.heard)


def removal(x, seconds):
    """Falls silent, and waits until the device announces another network state, without the examiner as its peer; nothing is asked
    before. The answer is how many seconds that took, or None, and what was heard last."""
    x.answers = False
    digest, begin, heard = x.network().digest, time.monotonic(), None
    while time.monotonic() < begin + seconds:
        found = multicasts(x, x.hear(begin + seconds - time.monotonic(), lambda each: each.multicast and each.digest not in (None, digest)))
        if not found or found[-1].digest == digest:
            continue
        heard, digest, passed = found[-1], found[-1].digest, time.monotonic() - begin
        if not x.peers(x.id, named=False):
            return passed, heard
    return (None, heard) if x.peers(x.id, named=False) else (time.monotonic() - begin, heard)


@examination('RFC 7787, section 6.1.5', MUST, 8)
def uses_the_interval_of_a_peer(x):
    """A peer that publishes its keep-alive interval is removed after its silence for so many of them: here of 2 s."""
    x.join(wire.keep_alive(x.endpoint, int(SHORT * 1000)))
    x.send()
    passed, heard = removal(x, SHORT * MOST_MULTIPLIER + 2)
    want(passed is not None, f'it is still published after {SHORT * MOST_MULTIPLIER + 2:g} s of silence')
    want(passed > SHORT * 1.8, f'it was removed after {passed:.1f} s of silence', *filter(None, [heard]))


@examination('RFC 7787, sections 6.1.4 and 6.1.5; RFC 7788, section 3', MUST, 45)
def forgets_a_silent_peer(x):
    """A peer that is silent is removed after 2.1 keep-alive intervals of 20 s, which is 42 s."""
    x.join()
    x.send()
    passed, heard = removal(x, SILENCE)
    want(passed is not None, f'it is still published after {SILENCE:g} s of silence')
    want(passed > 39, f'it was removed after {passed:.1f} s of silence', *filter(None, [heard]))


@examination('RFC 7787, section 6.1.4', MUST, 55)
def consistent_multicasts_keep_a_peer(x):
    """A peer that sends nothing but multicasts with the same network state hash is kept."""
    x.join()
    digest, end = x.network().digest, time.monotonic() + 50
    while time.monotonic() < end:
        x.send(tlv(NETWORK_STATE, digest), multicast=True)
        other = [each for each in multicasts(x, x.hear(5.0)) if each.digest != digest]
        if other:
            want(x.peers(x.id, named=False), f'it was removed {end - time.monotonic():.0f} s before the end', *other)
            digest = x.network(named=False).digest
    want(x.peers(x.id, named=False), 'it was removed', x.own(named=False).heard)


@examination('RFC 7787, sections 6.1.5 and 7.3.2', SHOULD, 60)
def keeps_a_peer_without_keep_alives(x):
    """A peer that publishes an interval of 0 sends no keep-alives, and its silence does not remove it."""
    x.join(wire.keep_alive(x.endpoint, 0))
    x.send()
    passed, heard = removal(x, 52)
    if passed is not None and passed < 10:
        raise CannotTell('it was removed at once, as a device may that has no other means to see whether its peer is there')
    want(passed is None, f'it was removed after {passed or 0:.1f} s of silence', *filter(None, [heard]))


@examination('RFC 7787, section 4.5', MUST, 3)
def follows_a_peer_to_another_endpoint(x):
    """A peer that comes back under another endpoint of its own is published with that one."""
    x.join()
    y = Neighbour(x.session, x.device, identifier=x.id, endpoint=x.endpoint + 1)
    y.number, y.data, y.born = x.number, x.data, x.born
    x.answers = False
    y.send()
    found = y.wait(NOTICED, lambda: [each for each in y.peers(y.id) if each[0] == y.endpoint])
    want(found, f'no Peer with the endpoint {y.endpoint}', y.own().heard)

"""Examinations of what a device announces, what it answers, and what its node data are."""
import ipaddress
import os
import time

from .. import items
from . import wire
from .catalogue import MUST, SHOULD, CannotTell, examination, want
from .neighbour import TRIES, Answer, Neighbour
from .wire import NETWORK_STATE, NODE_ENDPOINT, REQUEST_NETWORK, REQUEST_NODE, tlv

UNANSWERED = 0.7       # seconds after which nothing more is expected
ANNOUNCED = 27.0       # seconds within which a keep-alive comes at the latest


@examination('RFC 7787, sections 4.2 and 4.3; RFC 7788, section 3', MUST, 2)
def announces_itself(x):
    """A node announces its network state by multicast to ff02::11, port 8231, with its Node Endpoint before it."""
    x.send()
    heard = x.hear(ANNOUNCED, lambda each: each.multicast and each.digest)
    found = [each for each in heard if each.multicast and each.digest]
    want(found, f'no Network State by multicast within {ANNOUNCED:g} s')
    each = found[-1]
    want(each.destination == 'ff02::11', f'it goes to {each.destination}', each)
    want(each.port == wire.PORT, f'it goes to port {each.port}', each)
    want(each.endpoint and each.endpoint[0] == x.device.id, 'it has no Node Endpoint of the node', each)
    want(each.endpoint[1] != 0, 'its endpoint is 0', each)


@examination('RFC 7787, section 4.2', MUST, 2)
def names_itself_before_its_network_state(x):
    """Each datagram with a Network State has a Node Endpoint before it."""
    heard = []
    for _ in range(3):
        heard += x.ask(tlv(REQUEST_NETWORK), lambda each: each.digest)
    found = [each for each in heard if each.digest]
    if not found:
        raise CannotTell('no datagram with a Network State was heard')
    for each in found:
        kinds = [kind for kind, _ in each.tlvs]
        want(NODE_ENDPOINT in kinds[:kinds.index(NETWORK_STATE)], 'no Node Endpoint stands before the Network State', each)


@examination('RFC 7787, section 4.4', MUST, 1)
def answers_a_request_for_the_network(x):
    """A Request Network State is answered by unicast with a Network State, and a Node State of each node of its hash."""
    heard = x.ask(tlv(REQUEST_NETWORK), lambda each: each.digest or each.states)
    want(heard, 'no answer by unicast')
    answer = Answer(heard + [each for each in x.hear(0.3) if not each.multicast])
    want(answer.digest, 'the answer has no Network State', *heard)
    want(answer.states, 'the answer has no Node State', *answer.heard)
    want(x.device.id in answer.states, 'the answer has no Node State of the device itself', *answer.heard)


@examination('RFC 7787, section 4.4', MUST, 2)
def answers_a_request_by_multicast(x):
    """A Request Network State that came by multicast is answered by unicast."""
    for _ in range(4):
        x.send(tlv(REQUEST_NETWORK), multicast=True)
        heard = x.hear(1.0, lambda each: not each.multicast and each.digest)
        if any(not each.multicast and each.digest for each in heard):
            return
    want(False, 'no answer by unicast to four requests')


@examination('RFC 7787, section 4.4', MUST, 1)
def answers_whoever_asks(x):
    """A request without a Node Endpoint, as a monitor sends, is answered too, and makes no peer."""
    before = x.own(named=False)
    heard = x.ask(tlv(REQUEST_NETWORK), lambda each: each.digest, named=False)
    want(heard, 'no answer by unicast')
    want(not new_peers(before, x.own(named=False)), 'it publishes a new peer', *heard)


def new_peers(before, after):
    return set(wire.values(after.data, wire.PEER)) - set(wire.values(before.data, wire.PEER))


@examination('RFC 7788, section 3', MUST, 1)
def answers_to_the_port_that_asked(x):
    """A request from another UDP port is answered to that port."""
    other = x.link.other_port()
    port = other.getsockname()[1]
    for _ in range(4):
        x.link.send(tlv(REQUEST_NETWORK), x.device.address, by=other)
        heard = x.hear(1.0, lambda each: each.digest and each.port == port)
        if any(each.digest and each.port == port for each in heard):
            return
    astray = [each for each in heard if not each.multicast and each.digest]
    want(False, f'no answer to port {port}' + (f', but to {astray[-1].port}' if astray else ''), *astray)


@examination('RFC 7787, sections 4.4 and 7.2.3', MUST, 1)
def gives_the_data_of_a_node(x):
    """A Request Node State is answered with the node data, whose hash is that of the Node State."""
    state = x.node(x.device.id, tries=TRIES)
    if not state:
        heard = x.ask(tlv(REQUEST_NODE, x.device.id), lambda each: x.device.id in each.states)
        want(False, 'the Node State has no data' if heard else 'no Node State of the device', *heard[-1:])
    want(items.hash_of(state.data) == state.digest, 'the hash is not that of the data', state.heard)


@examination('RFC 7787, section 4.4', SHOULD, 1)
def sends_no_data_with_the_network(x):
    """The Node States that answer a Request Network State have no node data."""
    answer = x.network()
    with_data = [state.heard for state in answer.states.values() if state.data]
    want(not with_data, 'a Node State has data that nobody asked for', *with_data)


@examination('RFC 7787, section 4.4', MUST, 2)
def says_nothing_of_an_unknown_node(x):
    """A Request Node State about a node that nobody knows is not answered."""
    ghost = os.urandom(4)
    x.send(tlv(REQUEST_NODE, ghost))
    heard = [each for each in x.hear(UNANSWERED) if ghost in each.states]
    want(not heard, 'a Node State of a node that nobody knows', *heard)
    x.own()


@examination('RFC 7787, section 7.2.3', MUST, 1)
def orders_its_data(x):
    """Node data are TLVs in strictly ascending order, padded with zeros."""
    state = x.own()
    try:
        found = [tlv(kind, value) for kind, value in wire.read(state.data)]
    except ValueError as error:
        want(False, f'the data are no list of TLVs: {error}', state.heard)
    want(b''.join(found) == state.data, 'a pad byte is not zero', state.heard)
    want(all(one < other for one, other in zip(found, found[1:])), 'the TLVs are not in ascending order', state.heard)


@examination('RFC 7788, sections 4 and 10.1', MUST, 1)
def has_a_version(x):
    """Node data have an HNCP-Version, with capabilities from 0 to 7 and a user agent in UTF-8."""
    state = x.own()
    found = [value for value in wire.values(state.data, wire.VERSION) if len(value) >= 4]
    want(found, 'no HNCP-Version', state.heard)
    high = [nibble for octet in found[0][2:4] for nibble in (octet >> 4, octet & 15) if nibble > 7]
    want(not high, f'a capability is {high[:1]}; 8 to 15 are reserved', state.heard)
    try:
        found[0][4:].decode('utf-8')
    except UnicodeDecodeError:
        want(False, 'the user agent is not in UTF-8', state.heard)


@examination('RFC 7787, section 4.1.1', MUST, 3)
def hashes_its_network(x):
    """The network state hash is that of numbers and data hashes of all nodes, in the order of their identifiers."""
    alone = x.network()
    want(alone.states, 'no Node State comes with the network state hash', *alone.heard)
    want(alone.is_right, 'the network state hash is not that of the Node States of its answer', *alone.heard)
    y = Neighbour(x.session, x.device, identifier=b'\xff' + os.urandom(3))
    x.id = b'\0' + os.urandom(2) + b'\1'
    x.join()
    y.join()
    answer = y.network()
    want(answer.is_right, f'the network state hash is not that of the {len(answer.states)} Node States of its answer, in their order', *answer.heard)


@examination('RFC 7787, section 7.2.3', MUST, 4)
def lets_its_data_age(x):
    """The milliseconds since origination grow as time goes by."""
    for _ in range(3):
        first = x.own()
        x.hear(1.2)
        second = x.own()
        if first.number == second.number:
            break
    else:
        raise CannotTell('it published in between')
    grown, passed = second.age - first.age, 1000 * (second.heard.moment - first.heard.moment)
    want(abs(grown - passed) < 400, f'{grown} ms more after {passed:.0f} ms', first.heard, second.heard)


@examination('RFC 7788, section 3', MUST, 2)
def sends_from_a_link_local_address(x):
    """What a node sends comes from a link-local address."""
    x.send(tlv(NETWORK_STATE, os.urandom(8)), multicast=True)
    end, found = time.monotonic() + 1.0, []
    while time.monotonic() < end:
        found += [each for each in x.session.hear(0.25) if isinstance(each, wire.Heard) and each.link is x.link]
    mine = [each for each in found if each.endpoint and each.endpoint[0] == x.device.id]
    if not mine:
        raise CannotTell('nothing was heard of it')
    far = [each for each in mine if not ipaddress.ip_address(each.source).is_link_local]
    want(not far, f'it sends from {far[0].source if far else ""}', *far)

"""Examinations of which node data a device takes, asks for, keeps and counts."""
import os

from .. import items
from . import wire
from .catalogue import MUST, SHOULD, CannotTell, examination, want
from .neighbour import drawn_identifier, node_state
from .wire import NODE_STATE, REQUEST_NODE, four, tlv

HALF = 2 ** 31
ANCIENT = 2 ** 32 - 1000        # milliseconds; from 2^32 - 2^15 on data no longer lead to other nodes (RFC 7787, section 4.6)
UNCHANGED = 0.6                 # seconds after which what was not taken will not be taken
MOST_BYTES = 4000               # of a datagram that each node can receive (RFC 7788, section 3)
PIECE = 900


def told(x):
    """The examiner's state as the device tells it, with the datagram."""
    state = x.network().states.get(x.id)
    if state is None:
        raise CannotTell('the device dropped the examiner from its network')
    return state


def take(x, number, text):
    """Publishes under a number, and whether the device takes it."""
    x.number = (number - 1) % 2 ** 32
    x.publish(tlv(201, text))
    return x.taken(3.0)


def is_asked(x, node):
    """Whether the device asks for the data of a node."""
    heard = x.hear(1.5, lambda each: node in each.all(REQUEST_NODE, 4))
    return any(node in each.all(REQUEST_NODE, 4) for each in heard)


@examination('RFC 7787, sections 4.4 and 4.6', MUST, 3)
def takes_the_data_of_a_peer(x):
    """Data of a mutual peer are taken: it is a node of the network, with its number and its hash."""
    x.send()
    x.hear(0.1)
    x.publish(tlv(200, b'data'))
    x.wait(4.0, lambda: x.is_taken() or x.send(x.state()))
    answer = x.network()
    want(x.id in answer.states, 'the examiner is no node of its network', *answer.heard)
    state = answer.states[x.id]
    want((state.number, state.digest) == (x.number, items.hash_of(x.data)), f'it has number {state.number} or other data', *answer.heard)


@examination('RFC 7787, section 4.4', SHOULD, 3)
def ignores_data_with_a_wrong_hash(x):
    """A Node State whose hash is not that of its data is ignored."""
    x.join()
    number, data = x.number, x.items(tlv(200, b'forged'))
    x.answers = False
    for digest in (os.urandom(8), os.urandom(8)):
        x.number += 5
        x.send(node_state(x.id, x.number, data, digest=digest))
        x.hear(UNCHANGED / 2)
    x.number, state = number, told(x)
    want(state.number == number and state.digest == items.hash_of(x.data), f'number {state.number} was taken, with a wrong hash', state.heard)


@examination('RFC 7787, section 4.4', MUST, 4)
def ignores_older_numbers(x):
    """A Node State with an older number changes nothing."""
    x.number = 1000
    x.join()
    for older in (x.number - 1, x.number - 900):
        x.send(node_state(x.id, older, x.items(tlv(200, b'old'))))
    x.hear(UNCHANGED)
    state = told(x)
    want(state.number == x.number, f'number {state.number} was taken after {x.number}', state.heard)


@examination('RFC 7787, section 4.4', MUST, 4)
def goes_on_past_the_greatest_number(x):
    """Numbers go on with 0 after 2^32 - 1: 5 is newer than 4294967295, and that is older than 5."""
    x.number = 2 ** 32 - 2
    x.join()
    want(take(x, 5, b'new'), '5 was not taken after 4294967295', told(x).heard)
    x.send(node_state(x.id, 2 ** 32 - 1, x.items(tlv(200, b'old'))))
    x.hear(UNCHANGED)
    state = told(x)
    want(state.number == 5, f'number {state.number} was taken after 5', state.heard)


@examination('RFC 7787, section 4.4', MUST, 5)
def compares_numbers_on_a_circle(x):
    """A number that is up to 2^31 - 1 ahead is newer, and one that is further ahead is older."""
    x.number = 10
    x.join()
    begin = x.number
    want(take(x, begin + HALF - 1, b'far'), f'{begin + HALF - 1} was not taken after {begin}', told(x).heard)
    x.send(node_state(x.id, x.number + HALF + 5, x.items(tlv(200, b'behind'))))
    x.hear(UNCHANGED)
    state = told(x)
    want(state.number == x.number, f'{(x.number + HALF + 5) % 2 ** 32}, which is older, was taken after {x.number}', state.heard)


@examination('RFC 7787, section 4.4', MUST, 3)
def asks_for_newer_data(x):
    """A newer Node State without data is answered with a Request Node State."""
    x.join()
    x.answers = False
    for _ in range(3):
        x.publish(tlv(202, os.urandom(4)), tell=False)
        x.send(x.state(with_data=False))
        if is_asked(x, x.id):
            return
    want(False, 'no Request Node State after three such states')


@examination('RFC 7787, section 4.4', MUST, 3)
def asks_for_data_of_a_new_node(x):
    """A Node State without data of a node that is not known is answered with a Request Node State."""
    x.join()
    for _ in range(3):
        node = drawn_identifier()
        x.send(node_state(node, 1, tlv(202, b'data'), with_data=False))
        if is_asked(x, node):
            return
    want(False, 'no Request Node State after three such states')


@examination('RFC 7787, section 4.4', MUST, 3)
def takes_other_data_under_one_number(x):
    """A Node State with the same number and another hash takes the place of what is held."""
    x.join()
    x.data = x.items(tlv(203, b'other'))
    want(x.wait(3.0, lambda: x.is_taken() or x.send(x.state())), 'other data under the same number were not taken', told(x).heard)


@examination('RFC 7787, section 4.4', MUST, 3)
def takes_a_new_number_for_the_same_data(x):
    """A newer number with the same hash is taken, and the data stay."""
    x.join()
    x.number += 3
    x.born -= 1.0
    x.answers = False
    x.send(x.state(with_data=False))
    if not x.taken(1.0):
        x.answers = True
        x.send(x.state(with_data=False))
    want(x.taken(2.0), f'the number {x.number} was not taken', told(x).heard)
    state = x.node(x.id)
    want(state and state.data == x.data, 'the data are not those of before', *([state.heard] if state else []))


@examination('RFC 7787, section 4.4', MUST, 3)
def keeps_unknown_tlvs(x):
    """TLVs of unknown types within node data are kept as they are, and passed on."""
    x.join(tlv(60000, os.urandom(37)), tlv(777, tlv(60001, os.urandom(5)) + tlv(9)))
    state = x.node(x.id)
    want(state, 'no Node State of the examiner')
    want(state.data == x.data, 'other data come back', state.heard)


@examination('RFC 7787, sections 4.4 and 7', MUST, 2)
def ignores_unknown_tlvs_beside_others(x):
    """Unknown TLVs of a datagram are ignored, and those beside them are not."""
    unknown = tlv(60000, os.urandom(9)) + tlv(501) + tlv(11, bytes(4))
    heard = x.ask(unknown + tlv(wire.REQUEST_NETWORK) + unknown, lambda each: each.digest)
    want(heard, 'a request between unknown TLVs is not answered')


@examination('RFC 7787, section 4.6', MUST, 3)
def leaves_out_who_is_no_mutual_peer(x):
    """A node whose data have no Peer of the device is not reachable, and no part of the network."""
    x.send()
    x.hear(0.2)
    x.publish(peer=False)
    x.hear(UNCHANGED)
    answer = x.network()
    want(x.id not in answer.states, 'the examiner is a node of its network', *answer.heard)
    want(answer.is_right, 'the network state hash is not that of the Node States of its answer', *answer.heard)


@examination('RFC 7787, section 4.6', MUST, 3)
def says_nothing_of_an_unreachable_node(x):
    """Data of a node that is not reachable are given to nobody."""
    x.send()
    x.hear(0.2)
    x.answers = False
    x.publish(peer=False)
    x.hear(UNCHANGED)
    x.send(tlv(REQUEST_NODE, x.id))
    heard = [each for each in x.hear(0.8) if x.id in each.states]
    want(not heard, 'a Node State of the examiner, which is not reachable', *heard)
    x.own()


def behind(x, back=True, more=()):
    """A node two hops away, behind the examiner: its identifier, the Node State that tells it, and the Peer that leads there."""
    node = drawn_identifier()
    peer = [wire.peer(x.id, 77, 5)] if back else []
    data = b''.join(sorted([wire.version(b'behind'), *peer, *more]))
    return node, node_state(node, 3, data), wire.peer(node, 5, 77)


@examination('RFC 7787, section 4.6', MUST, 3)
def reaches_a_node_behind_a_peer(x):
    """A node that a peer has as its mutual peer is reachable too, and a part of the network."""
    node, state, peer = behind(x)
    x.join(peer)
    found = x.wait(4.0, lambda: x.holds(node, 3) or x.send(state))
    answer = x.network()
    want(found, 'the node behind the examiner is no node of its network', *answer.heard)


@examination('RFC 7787, section 4.6', MUST, 3)
def reaches_nobody_by_one_sided_peers(x):
    """A node that has no Peer of the node before it is not reachable, though that one has a Peer of it."""
    node, state, peer = behind(x, back=False)
    x.join(peer)
    x.send(state)
    x.hear(UNCHANGED)
    x.send(state)
    x.hear(UNCHANGED)
    answer = x.network()
    want(node not in answer.states, 'it is a node of its network', *answer.heard)


@examination('RFC 7787, section 4.6', MUST, 4)
def loses_who_is_behind_a_lost_peer(x):
    """Once a peer withdraws its Peer of the device, it and all behind it are hashed no more."""
    node, state, peer = behind(x)
    x.join(peer)
    if not x.wait(4.0, lambda: x.holds(node, 3) or x.send(state)):
        raise CannotTell('the node behind the examiner was not taken')
    x.publish(peer, peer=False)
    x.wait(3.0, lambda: x.id not in x.network().states)
    answer = x.network()
    want(x.id not in answer.states, 'the examiner is still a node of its network', *answer.heard)
    want(node not in answer.states, 'the node behind it is still a node of its network', *answer.heard)
    want(answer.is_right, 'the network state hash is not that of the Node States of its answer', *answer.heard)


@examination('RFC 7787, section 4.6; RFC 7788, section 3', SHOULD, 5)
def remembers_a_lost_node(x):
    """Data of a node that is reachable no longer are kept for a while, for 42 s: it comes back without being told again."""
    node, state, peer = behind(x)
    x.join(peer)
    if not x.wait(4.0, lambda: x.holds(node, 3) or x.send(state)):
        raise CannotTell('the node behind the examiner was not taken')
    x.publish()
    if not x.wait(3.0, lambda: node not in x.network().states):
        raise CannotTell('the node behind the examiner is still a node of its network')
    x.hear(2.0)
    x.publish(peer)
    x.wait(4.0, lambda: x.holds(node, 3))
    want(x.holds(node, 3), 'it does not know the node any more, which was lost for two seconds', *x.network().heard)


@examination('RFC 7787, section 4.6', MUST, 4)
def takes_a_lost_node_back(x):
    """A node that was not reachable for a moment is reachable again with its new data."""
    x.join()
    x.publish(peer=False)
    if not x.wait(3.0, lambda: x.id not in x.network().states):
        raise CannotTell('the examiner is still a node of its network')
    x.publish()
    want(x.wait(4.0, lambda: x.is_taken() or x.send(x.state())), 'the examiner is no node of its network any more', *x.network().heard)


@examination('RFC 7787, section 4.6', MUST, 4)
def reaches_nobody_by_ancient_data(x):
    """Data that are older than 2^32 - 2^15 ms lead to no other node."""
    node, state, peer = behind(x)
    x.join(peer)
    if not x.wait(4.0, lambda: x.holds(node, 3) or x.send(state)):
        raise CannotTell('the node behind the examiner was not taken')
    x.answers = False
    x.number += 1
    x.data = x.items(peer, tlv(204, b'ancient'))
    x.send(x.state(age=ANCIENT))
    gone = x.wait(3.0, lambda: node not in x.network().states)
    want(gone, 'a node behind data of that age is still a node of its network', *x.network().heard)


@examination('RFC 7788, section 3', MUST, 3)
def takes_a_datagram_of_4000_bytes(x):
    """Each node can receive datagrams of 4,000 bytes: data of such a length are taken, and given whole."""
    pieces = [tlv(300 + place, os.urandom(PIECE)) for place in range(4)]
    x.join()
    room = MOST_BYTES - len(x.name) - len(tlv(NODE_STATE, bytes(20) + x.items(*pieces)))
    pieces.append(tlv(310, os.urandom((room - 4) // 4 * 4)))
    x.publish(*pieces)
    want(x.wait(4.0, lambda: x.is_taken() or x.send(x.state())), f'data of {len(x.data)} bytes were not taken')
    state = x.node(x.id)
    want(state and state.data == x.data, 'the data do not come back whole', *([state.heard] if state else []))


@examination('RFC 7787, section 7.2.3', MUST, 4)
def passes_the_age_on(x):
    """The age of another node's data is told with the time that went by since."""
    x.born -= 30.0
    x.send()
    x.hear(0.1)
    x.number, x.data = 9, x.items(tlv(205, four(1)))
    x.send(x.state(age=30000))
    x.answers = False
    if not x.wait(4.0, x.is_taken):
        raise CannotTell('the data of the examiner were not taken')
    first = told(x)
    x.hear(1.5)
    second = told(x)
    want(30000 <= first.age <= 36000, f'data of 30,000 ms are told with an age of {first.age} ms', first.heard)
    grown, passed = second.age - first.age, 1000 * (second.heard.moment - first.heard.moment)
    want(abs(grown - passed) < 400, f'{grown} ms more after {passed:.0f} ms', first.heard, second.heard)


@examination('RFC 7787, section 4.4', MUST, 3)
def forgets_what_left_the_data(x):
    """Newer data take the place of the older ones, whole."""
    x.join(tlv(206, b'first'))
    x.publish(tlv(207, b'second'))
    want(x.taken(), 'the newer data were not taken', told(x).heard)
    state = x.node(x.id)
    want(state and state.data == x.data, 'the data are not the newer ones alone', *([state.heard] if state else []))


@examination('RFC 7787, sections 4.6 and 7.3.1', MUST, 4)
def reaches_by_the_endpoints_of_peers(x):
    """Peers count as mutual by their endpoints: with another endpoint in the Peer a node is not reachable."""
    x.send()
    x.hear(0.2)
    wrong = wire.peer(x.device.id, x.device.endpoint + 1, x.endpoint)
    x.publish(wrong, peer=False)
    x.hear(UNCHANGED)
    answer = x.network()
    want(x.id not in answer.states, 'the examiner is a node of its network, by another endpoint', *answer.heard)

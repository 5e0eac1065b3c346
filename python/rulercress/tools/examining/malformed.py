"""Examinations of what a device makes of datagrams that are wrong, or that it has to ignore."""
import ipaddress
import os
import random
import struct

from .. import items
from . import frames, wire
from .catalogue import MUST, CannotTell, Silent, examination, want
from .neighbour import Neighbour, drawn_identifier, node_state
from .wire import EXTERNAL, NETWORK_STATE, NODE_ENDPOINT, NODE_STATE, PEER, PORT, REQUEST_NETWORK, REQUEST_NODE, four, tlv

SETTLED = 0.5            # seconds after which a datagram has had its effect
CUT = 60                 # bytes of the TLV that is cut
GARBAGE, SEED, PAUSE = 1500, 7, 25
LONGEST = 65507          # bytes of a UDP datagram
FAR = '2001:db8:ffff::99'
STRANGE = 'ff02::1'


def still_there(x, before, *what):
    """The device answers, and has not begun anew: its number has not fallen, nor its identifier changed."""
    try:
        after = x.own()
    except Silent:
        want(False, 'it does not answer afterwards')
    if not before:
        return after
    want((after.number - before.number) % 2 ** 32 < 2 ** 31, f'it began anew: its number is {after.number}, and was {before.number}',
         before.heard, after.heard)
    return after


def unchanged(x, before, what):
    """The device answers, and its data are as before: no TLV is new, and none is gone but Peers of others, which may have left. Its
    own uplink may have changed."""
    after = still_there(x, before)
    old, new = (set(wire.read(each.data)) for each in (before, after))
    strange = [pair for pair in new - old if pair[0] != EXTERNAL]
    gone = [pair for pair in old - new if pair[0] not in (EXTERNAL, PEER) or pair[1][:4] == x.id and pair[0] == PEER]
    want(not strange and not gone, f'its data changed: {what}', before.heard, after.heard)


def raw(kind, length, octets):
    return struct.pack('>HH', kind, length) + octets


@examination('RFC 7787, section 7', MUST, 5)
def ignores_a_tlv_that_is_cut(x):
    """A TLV whose length goes past the end of the datagram is not taken for one that ends there."""
    x.join()
    before, number = x.own(), x.number
    for place, less in enumerate((CUT + 4, 4, 40), 1):     # the first one leaves a list of TLVs
        data = x.items(tlv(200, bytes(CUT)))
        kept = data[:len(data) - less]
        fixed = x.id + four(number + place) + four(0) + items.hash_of(kept)
        x.send(raw(NODE_STATE, 20 + len(data), fixed + kept))
        x.hear(SETTLED)
    state = x.network().states.get(x.id)
    want(state is None or state.number == number, f'number {state and state.number} was taken from a TLV that is cut', *([state.heard] if state else []))
    unchanged(x, before, 'a cut TLV')


@examination('RFC 7787, section 7', MUST, 5)
def ignores_values_that_are_too_short(x):
    """A TLV whose value is shorter than its fields is ignored."""
    stranger = Neighbour(x.session, x.device)
    x.join()
    before = x.own()
    short = [tlv(NODE_ENDPOINT, stranger.id), tlv(NODE_ENDPOINT, stranger.id + b'\0\0\1'), tlv(NODE_ENDPOINT)]
    for each in short:
        x.link.send(each, x.device.address)
    for each in [tlv(NETWORK_STATE, b'1234'), tlv(NETWORK_STATE), tlv(REQUEST_NODE, b'12'), tlv(REQUEST_NODE), tlv(NODE_STATE),
                 tlv(NODE_STATE, x.id + four(x.number + 9)), tlv(NODE_STATE, x.id + four(x.number + 9) + four(0) + b'1234567')]:
        x.send(each)
        x.hear(0.1)
    x.hear(SETTLED)
    state = x.network().states.get(x.id)
    want(state is None or state.number == x.number, f'number {state and state.number} was taken from a short Node State', *([state.heard] if state else []))
    unchanged(x, before, 'short values')


def wrong_lists():
    """Datagrams that are no list of TLVs, one for each cause at each place: left bytes, lengths, pad bytes."""
    good = tlv(REQUEST_NETWORK)
    for front in (b'', good, tlv(NETWORK_STATE, bytes(8))):
        for left in (b'\0', b'\0\4', b'\0\4\0', raw(NETWORK_STATE, 8, bytes(7)), raw(7, 65535, b''), raw(201, 5, b'12345'),
                     raw(201, 5, b'12345\0\1\0')):
            yield front + left


def wrong_data(x):
    """Node data that are wrong within: at the level of the data, and below it."""
    cut = raw(wire.DELEGATED, 60, struct.pack('>IIB', 7200, 3600, 56) + bytes(7))
    yield raw(PEER, 12, bytes(8))
    yield raw(EXTERNAL, 2000, cut)
    yield tlv(EXTERNAL, cut)
    yield tlv(EXTERNAL, raw(wire.DELEGATED, 16, struct.pack('>IIB', 7200, 3600, 129) + bytes(7)))
    yield tlv(EXTERNAL, tlv(wire.DELEGATED, struct.pack('>IIB', 7200, 3600, 64) + bytes(3)))
    yield tlv(PEER, bytes(3)) + tlv(wire.KEEP_ALIVE, bytes(7)) + tlv(wire.ASSIGNED, bytes(5)) + tlv(wire.ASSIGNED, four(1) + b'\2\x81' + bytes(17))
    yield tlv(wire.ADDRESS, bytes(9)) + tlv(wire.VERSION, b'\0') + tlv(wire.VERSION, b'\0\0\0\0\xff\xfe')


@examination('RFC 7787, section 7', MUST, 10)
def faults_of_the_grammar_change_nothing(x):
    """Datagrams and node data that are no lists of TLVs, one fault in each, leave the device as it was."""
    x.join()
    before = x.own()
    for each in wrong_lists():
        x.send(each)
        x.link.send(each, x.device.address)
        x.hear(0.03)
    unchanged(x, before, 'a datagram that is no list of TLVs')
    for each in wrong_data(x):
        x.number += 1
        data = x.items() + each
        x.send(node_state(x.id, x.number, data))
        x.hear(0.3)
        unchanged(x, before, f'node data with {each[:12].hex()}..')


@examination('RFC 7787, section 7', MUST, 8)
def survives_garbage(x):
    """Random datagrams, by unicast and by multicast, do not stop the device."""
    before, draw = x.own(named=False), random.Random(SEED)
    for place in range(GARBAGE):
        octets = bytes(draw.getrandbits(8) for _ in range(draw.choice([0, 1, 3, 4, 8, 40, 200])))
        if place % 3 == 0:
            value = bytes(draw.getrandbits(8) for _ in range(draw.randrange(40)))
            octets = tlv(draw.choice([1, 2, 4, 8, 9, 10, 32, 33, 60]), value)[:draw.randrange(1, 60)]
        x.link.send(octets, x.device.address if place % 2 else 'ff02::11')
        if place % PAUSE == 0:
            x.hear(0.02)
    x.hear(1.0)
    still_there(x, before)


@examination('RFC 7787, section 4.2; RFC 7788, section 3', MUST, 4)
def survives_the_longest_datagram(x):
    """A datagram of 65,507 bytes, with a list of TLVs or not, does not stop the device."""
    x.join()
    before = x.own()
    room = LONGEST - len(x.name) - 24 - 64
    long = x.items(tlv(300, bytes(room // 2)), tlv(301, bytes(room // 2 - 16)))
    x.send(node_state(x.id, x.number + 1, long))
    x.hear(1.0)
    x.link.send(x.name + os.urandom(LONGEST - len(x.name)), x.device.address)
    x.hear(1.0)
    still_there(x, before)
    x.number += 1


def from_elsewhere(x, source, octets, destination=None):
    """Sends a datagram from another source address, or to another destination, as a frame of its own."""
    destination = destination or x.device.address
    to_mac = frames.group_mac(destination) if destination.startswith('ff') else x.device.mac
    x.link.send_frame(frames.datagram(x.link.mac, to_mac, source, destination, PORT, octets))


@examination('RFC 7788, section 3', MUST, 3)
def ignores_a_source_that_is_not_link_local(x):
    """A datagram whose source address is not link-local is ignored."""
    x.join()
    number, stranger = x.number, drawn_identifier()
    from_elsewhere(x, FAR, tlv(NODE_ENDPOINT, stranger + four(1)))
    from_elsewhere(x, FAR, x.name + node_state(x.id, number + 1, x.items(tlv(210, b'far'))))
    x.hear(SETTLED)
    state = x.own()
    want(not any(value[:4] == stranger for value in wire.values(state.data, PEER)), f'a node at {FAR} is published as a peer', state.heard)
    told = x.network().states.get(x.id)
    want(told is None or told.number == number, 'node data were taken', *([told.heard] if told else []))


def address_of(x):
    """An address of the device that is not link-local, and that it answers at; None where none is known."""
    mac = x.device.mac
    low = bytes([mac[0] ^ 2]) + mac[1:3] + b'\xff\xfe' + mac[3:]
    data = x.own().data
    found = [ipaddress.ip_address(value[4:20]) for value in wire.values(data, wire.ADDRESS) if len(value) >= 20]
    prefixes = [each.prefix for each in wire.assignments(data)]
    if x.session.last_advert:
        prefixes += [each.prefix for each in x.session.last_advert.options]
    found += [ipaddress.ip_address(each.network_address.packed[:8] + low) for each in prefixes if each.prefixlen == 64]
    for address in found:
        echo = struct.pack('>BBHHH', frames.ECHO_REQUEST, 0, 0, 1, 1) + b'examine'
        x.link.send_frame(frames.icmp(x.link.mac, mac, x.link.address, str(address), echo))
        heard = x.session.hear(0.8, lambda each: isinstance(each, frames.Packet))
        if any(isinstance(each, frames.Packet) and each.source == str(address) for each in heard):
            return str(address)
    return None


@examination('RFC 7788, section 3', MUST, 3)
def ignores_a_destination_that_is_not_link_local(x):
    """A datagram to an address of the device that is not link-local is ignored."""
    x.join()
    address = address_of(x)
    if address is None:
        raise CannotTell('no address of the device is known that is not link-local and answers an echo request')
    stranger = drawn_identifier()
    from_elsewhere(x, x.link.address, tlv(NODE_ENDPOINT, stranger + four(1)), address)
    from_elsewhere(x, x.link.address, x.name + node_state(x.id, x.number + 1, x.items(tlv(210, b'far'))), address)
    x.hear(SETTLED)
    state = x.own()
    want(not any(value[:4] == stranger for value in wire.values(state.data, PEER)), f'what came to {address} made a peer', state.heard)
    told = x.network().states.get(x.id)
    want(told is None or told.number == x.number, f'node data that came to {address} were taken', *([told.heard] if told else []))

"""The faults that the check of judge plants in a sound capture, one at a time, and what judge has to find then."""
import copy
import itertools
import struct

from checks import homes
from checks.samples import packed, tlv
from rulercress.tools import items
from rulercress.tools.captures import Datagram

REQUEST = tlv(1, b'')
ENDPOINT, NETWORK_STATE, NODE_STATE = 3, 4, 5
A, B, C = 1, 2, 3
LAN, ATTIC, DEN = (packed(f'2001:db8:0:{each}::')[:8] for each in ('18', '6c', '41'))


def tlvs(octets):
    """The TLVs of a sound list, as types and values."""
    found, at = [], 0
    while at < len(octets):
        kind, length = struct.unpack('>HH', octets[at:at + 4])
        found.append((kind, octets[at + 4:at + 4 + length]))
        at += 4 + length + -length % 4
    return found


def spelled(found):
    return b''.join(tlv(kind, value) for kind, value in found)


def endpoint(node, number):
    return tlv(ENDPOINT, struct.pack('>II', node, number))


def node_state(node, number, age, digest, data=b''):
    return tlv(NODE_STATE, struct.pack('>III', node, number, age) + digest + data)


class Plant:
    """The sound capture, to be changed."""

    def __init__(self):
        self.datagrams = [copy.copy(each) for each in homes.home()]

    def find(self, test, after=0.0):
        """The first datagram after a moment whose types of TLVs pass."""
        return next(each for each in self.datagrams if each.moment >= after and test([kind for kind, _ in tlvs(each.payload)]))

    def multicast(self, after=0.0):
        return self.find(lambda kinds: kinds == [ENDPOINT, NETWORK_STATE], after)

    def answer(self, after=0.0):
        """An answer with the states of all nodes, without data, that no other answer follows at once."""
        def is_alone(answer):
            return not any(answer.moment <= each.moment < answer.moment + 0.2 and each.frame > answer.frame and
                           each.source == answer.source for each in self.datagrams)
        return next(each for each in self.datagrams if each.moment >= after and is_alone(each) and
                    [len(value) for kind, value in tlvs(each.payload) if kind == NODE_STATE] == [20, 20, 20])

    def put(self, datagram, payload):
        datagram.payload, datagram.length = payload, len(payload)
        return datagram

    def change(self, datagram, edit):
        """Other TLVs of a datagram."""
        return self.put(datagram, spelled(edit(tlvs(datagram.payload))))

    def add(self, moment, source, destination, payload, port=8231):
        """One more datagram; the frames are numbered anew."""
        made = Datagram(0, moment, '0', source, 8231, destination, port, payload)
        self.datagrams.append(made)
        self.datagrams.sort(key=lambda each: each.moment)
        self.number()
        return made

    def number(self):
        for place, each in enumerate(self.datagrams, 1):
            each.frame = place

    def keep(self, test):
        self.datagrams = [each for each in self.datagrams if test(each)]
        self.number()

    # Node data

    def versions(self):
        """Of each node its numbers, and of each number the hash and the data, or None."""
        found = {}
        for each in self.datagrams:
            for kind, value in tlvs(each.payload):
                if kind == NODE_STATE:
                    node, number = struct.unpack('>II', value[:8])
                    known = found.setdefault(node, {}).get(number)
                    found[node][number] = value[12:20], value[20:] or (known and known[1])
        return found

    def state(self, node, moment, back=0):
        """The last Node State of a node, or one before it, at a moment: number, age, hash."""
        number, (digest, _) = sorted(self.versions()[node].items())[-1 - back]
        first, shown = next((each, value) for each in self.datagrams for kind, value in tlvs(each.payload)
                            if kind == NODE_STATE and value[:8] == struct.pack('>II', node, number))
        return number, struct.unpack('>I', shown[8:12])[0] + round((moment - first.moment) * 1000), digest

    def publish(self, node, edit):
        """Other data of a node, whenever it was published and wherever they are shown, with all hashes made anew. The answer is the
        first datagram that shows changed data."""
        before = self.versions()
        changed = {}
        for number, (digest, data) in before[node].items():
            made = edit(data) if data else data
            changed[number] = (items.hash_of(made), made) if made != data else (digest, data)
        networks = network_hashes(before, {**before, node: changed})
        first = None
        for each in self.datagrams:
            found, is_changed = [], False
            for kind, value in tlvs(each.payload):
                if kind == NODE_STATE and struct.unpack('>I', value[:4])[0] == node:
                    digest, data = changed[struct.unpack('>I', value[4:8])[0]]
                    is_changed = is_changed or bool(value[20:]) and data != value[20:]
                    value = value[:12] + digest + (data if value[20:] else b'')
                elif kind == NETWORK_STATE:
                    value = networks.get(value, value)
                found.append((kind, value))
            self.put(each, spelled(found))
            first = first or (each if is_changed else None)
        return first


def network_hashes(before, after, more={}):
    """Of each network state hash that nodes can come to, what it becomes, with numbers that are greater by so much."""
    choices = [[None, *((node, number) for number in numbers)] for node, numbers in before.items()]
    made = {}
    for chosen in itertools.product(*choices):
        parts = [[(struct.pack('>I', node), struct.pack('>I', (number + added.get(node, 0)) % 2 ** 32), states[node][number][0])
                  for node, number in filter(None, chosen)] for states, added in ((before, {}), (after, more))]
        old, new = (items.hash_of(items.network_state(each)) for each in parts)
        made[old] = new
    return made


def with_more(more):
    """One more TLV, at its place."""
    return lambda data: b''.join(sorted([*(tlv(*each) for each in tlvs(data)), more]))


def on_kind(kind, edit):
    """An edit of the values of a type."""
    return lambda data: spelled([(each, edit(value) if each == kind else value) for each, value in tlvs(data)])


def backward(data):
    return spelled(tlvs(data)[::-1])


def first_twice(data):
    return spelled([*tlvs(data)[:1], *tlvs(data)])


def without(kind):
    return lambda data: spelled([each for each in tlvs(data) if each[0] != kind])


def at(place, octets):
    return lambda value: value[:place] + octets + value[place + len(octets):]


def swapped(old, new):
    return lambda data: data.replace(old, new)


# The faults: each is a name, what judge has to find, and a function that plants it. It gives the datagram in whose frame the first
# of these stands, or None for any.

def malformed(edit):
    def plant(sound):
        answer = sound.answer()
        return sound.put(answer, edit(answer.payload))
    return plant


def more_in_datagram(more, after=0.0):
    def plant(sound):
        answer = sound.answer(after)
        return sound.put(answer, answer.payload + more)
    return plant


def published(node, edit):
    return lambda sound: sound.publish(node, edit)


def at_the_end(node, edit):
    """Other data that make the home at the end another; the frame may be that of the data of another node."""
    return lambda sound: sound.publish(node, edit) and None


def added(moment, source, destination, payload, port=8231):
    return lambda sound: sound.add(moment, source, destination, payload, port)


def other_way(**values):
    def plant(sound):
        multicast = sound.multicast(1.0)
        for name, value in values.items():
            setattr(multicast, name, value)
        return multicast
    return plant


def headless(sound):
    return sound.change(sound.multicast(1.0), lambda found: found[1:])


def turned(sound):
    return sound.change(sound.multicast(1.0), lambda found: found[::-1])


def doubled(after, gap):
    """A multicast comes once more."""
    def plant(sound):
        first = sound.multicast(after)
        return sound.add(first.moment + gap, first.source, first.destination, first.payload)
    return plant


def astray(sound):
    """A monitor asks from a port of its own, and is answered at another one."""
    answer = next(each for each in sound.datagrams if each.source == THERE and NETWORK_STATE in [kind for kind, _ in tlvs(each.payload)])
    sound.add(40.0, MONITOR, THERE, REQUEST).source_port = 40000
    return sound.add(40.01, THERE, MONITOR, endpoint(B, 1) + tlv(NETWORK_STATE, dict(tlvs(answer.payload))[NETWORK_STATE]))


def storm(sound):
    """A multicast comes each 100 ms, for some seconds."""
    first = sound.multicast(45.0)
    for place in range(1, 30):
        sound.add(first.moment + 0.1 * place, first.source, first.destination, first.payload)
    return next(each for each in sound.datagrams if each.source == first.source and each.moment > first.moment)


def begun_anew(sound):
    """A router shows an earlier number of its own."""
    number, age, digest = sound.state(A, 40.0, 1)
    return sound.add(40.0, HERE, THERE, endpoint(A, 1) + node_state(A, number, age, digest))


def silent(sound):
    last = sound.datagrams[-1]
    sound.keep(lambda each: each.source != last.source or each is last or each.moment < last.moment - 25)
    return last


def dead(sound):
    """The last router sends nothing more from 20 s on; nobody else notices."""
    sound.keep(lambda each: each.source != homes.address(C, 1) or each.moment < 20.0)
    return next(each for each in reversed(sound.datagrams) if each.source == homes.address(C, 1))


def of_two_minds(sound):
    """The home goes on at rest, but that the last router says another network state hash in its keep-alives, for a minute and more."""
    lasts = {each.source: each for each in sound.datagrams if each.destination == homes.GROUP}
    made = []
    for number in range(1, 6):
        for source, last in lasts.items():
            odd = source == homes.address(C, 1)
            payload = last.payload[:-8] + bytes(8) if odd else last.payload
            made += [sound.add(last.moment + 20.0 * number, source, last.destination, payload)] * odd
    return made[-1]


def asked_twice(sound):
    request = sound.find(lambda kinds: kinds == [ENDPOINT, 1], 1.0)
    return sound.add(request.moment + 0.05, request.source, request.destination, request.payload)


def state_left_out(sound):
    return sound.change(sound.answer(), lambda found: found[:-1])


def other_network(sound):
    return sound.change(sound.answer(), lambda found: [(kind, bytes(8) if kind == NETWORK_STATE else value) for kind, value in found])


def other_data(sound):
    shows = sound.find(lambda kinds: NODE_STATE in kinds and NETWORK_STATE not in kinds, 1.0)

    def edit(found):
        return [(kind, value[:27] + bytes([value[27] ^ 1]) + value[28:] if kind == NODE_STATE and value[20:] else value) for kind, value in found]
    return sound.change(shows, edit)


def shown_at(moment, change, back=0):
    """Node 2 shows a Node State of node 1, other than it is."""
    def plant(sound):
        number, age, digest = change(*sound.state(A, moment, back))
        return sound.add(moment, homes.address(B, 1), homes.address(A, 1), endpoint(B, 1) + node_state(A, number, age, digest))
    return plant


def lived_out(show):
    """The delegated prefix is valid for 30 s; whether a later Node State without data tells its age."""
    short = on_kind(33, lambda value: spelled([(34, at(0, struct.pack('>II', 30, 30))(sub)) for _, sub in tlvs(value)]))

    def plant(sound):
        sound.publish(A, short)
        if show:
            return shown_at(65.0, lambda *state: state)(sound)
        return next(each for each in reversed(sound.datagrams) for kind, value in tlvs(each.payload)
                    if kind == NODE_STATE and struct.unpack('>I', value[:4])[0] == A)
    return plant


def unpadded(data):
    """The last sub-TLV of the External-Connection stands there without its padding, which the enclosing length leaves out: some
    gateways send that."""
    def edit(value):
        _, sub = tlvs(value)[-1]
        short = sub[:8] + b'\x30' + sub[9:15]   # a prefix of 48 bits takes 15 bytes, which want a pad byte
        return tlv(34, short)[:-1]
    return on_kind(33, edit)(data)


def preferred_above_valid(value):
    return spelled([(34, at(0, struct.pack('>II', 7200, 7201))(sub)) for _, sub in tlvs(value)])


def with_inner(value):
    """One more Delegated-Prefix, inside of the first one."""
    _, sub = tlvs(value)[0]
    return value + tlv(34, sub[:8] + bytes([sub[8] + 4]) + sub[9:17].ljust((sub[8] + 11) // 8, b'\0'))


def assigned(number, prefix, endpoint_priority=2):
    return tlv(35, struct.pack('>IB', number, endpoint_priority) + b'\x40' + prefix)


HERE, THERE, MONITOR = homes.address(A, 1), homes.address(B, 1), 'fe80::99'
FAULTS = [
    ('a datagram ends with two bytes', 'malformed', malformed(lambda octets: octets + bytes(2))),
    ('a length passes the end', 'malformed', malformed(lambda octets: octets[:-4])),
    ('a pad byte is missing', 'malformed', malformed(lambda octets: octets + tlv(600, b'x')[:-3])),
    ('a pad byte is not zero', 'malformed', malformed(lambda octets: octets + tlv(600, b'x')[:-1] + b'\1')),
    ('a Request Node State without a node', 'bad', more_in_datagram(tlv(2, b''))),
    ('a pad byte before sub-TLVs is not zero', 'bad', published(C, with_more(tlv(35, struct.pack('>IB', 9, 2) + b'\x08\x20\1' + REQUEST)))),
    ('a bit past the prefix length', 'bad', published(C, with_more(tlv(35, struct.pack('>IB', 9, 2) + b'\x3f' + DEN[:7] + b'\1')))),
    ('a user agent that is not in UTF-8', 'bad no-version', published(C, on_kind(32, lambda value: value[:4] + b'\xff'))),
    ('a prefix length above 128', 'bad', published(C, with_more(tlv(35, struct.pack('>IB', 9, 2) + b'\x81' + bytes(17))))),
    ('a Node State without all of its fields', 'bad', more_in_datagram(tlv(5, bytes(12)))),
    ('a sub-TLV without padding inside the enclosing TLV', 'no-padding', published(A, unpadded)),
    ('node data that are no list of TLVs', 'body', published(C, lambda data: data + bytes(2))),
    ('a source that is not link-local', 'far-source', added(40.0, '2001:db8::9', HERE, endpoint(9, 1) + REQUEST)),
    ('HNCP over IPv4', 'far-source far-destination', added(40.0, '10.0.0.9', '10.0.0.1', endpoint(9, 1) + REQUEST)),
    ('HNCP over IPv4 of link-local addresses', 'far-source far-destination', added(40.0, '169.254.0.9', '169.254.0.1', endpoint(9, 1) + REQUEST)),
    ('a destination that is not link-local', 'far-destination', added(40.0, THERE, '2001:db8::9', endpoint(B, 1) + REQUEST)),
    ('a multicast to another group', 'far-destination', other_way(destination='ff02::1')),
    ('a multicast to another port', 'port', other_way(port=8232)),
    ('an answer to a port that asked nothing', 'port', added(40.0, THERE, HERE, endpoint(B, 1) + REQUEST, 50000)),
    ('an answer to port 8231 of a host that asked from another', 'port listener', astray),
    ('more than 4000 bytes', 'long', more_in_datagram(tlv(600, bytes(4000)))),
    ('a Network State without a Node Endpoint', 'no-endpoint', headless),
    ('a Network State before the Node Endpoint', 'no-endpoint', turned),
    ('a listener', 'listener', added(40.0, 'fe80::9', HERE, REQUEST)),
    ('another Node Endpoint of a source', 'other-endpoint', added(40.0, THERE, HERE, endpoint(9, 1) + REQUEST)),
    ('a Node Endpoint of two sources', 'two-sources', added(40.0, 'fe80::9', HERE, endpoint(B, 1) + REQUEST)),
    ('endpoint 0 in a Node Endpoint', 'endpoint-zero', added(40.0, 'fe80::9', HERE, endpoint(9, 0) + REQUEST)),
    ('endpoint 0 in a Peer', 'endpoint-zero', published(C, with_more(tlv(8, struct.pack('>III', 9, 0, 1))))),
    ('a Peer outside of node data', 'misplaced', more_in_datagram(tlv(8, struct.pack('>III', 9, 1, 1)))),
    ('a Node Endpoint within node data', 'misplaced', published(C, with_more(endpoint(9, 1)))),
    ('a Delegated-Prefix outside of an External-Connection', 'misplaced', published(C, with_more(tlv(34, bytes(8) + b'\x08\x20')))),
    ('node data whose TLVs are not in order', 'order', published(C, backward)),
    ('a TLV that stands twice in node data', 'order', published(C, first_twice)),
    ('a multicast each 100 ms', 'too-soon', storm),
    ('a multicast again after 50 ms', 'too-soon', doubled(1.0, 0.05)),
    ('a multicast again after 3 s, in a home at rest', 'too-soon', doubled(45.0, 3.0)),
    ('no keep-alive for 25 s', 'too-late', silent),
    ('keep-alives each 20 s, where the data promise 5 s', 'too-late', at_the_end(C, with_more(tlv(9, struct.pack('>II', 0, 5000))))),
    ('a router that sends nothing for the last 50 s', 'silent', dead),
    ('a router that says another network state hash for a minute', 'differ', of_two_minds),
    ('two requests within 50 ms', 'asks-often', asked_twice),
    ('an answer without one of the nodes', 'network-hash', state_left_out),
    ('an answer with another network state hash', 'network-hash', other_network),
    ('data with the hash of others', 'data-hash', other_data),
    ('one number with two hashes', 'two-hashes', shown_at(40.0, lambda number, age, digest: (number, age, digest[::-1]))),
    ('a number that falls', 'number-falls', shown_at(40.0, lambda *state: state, back=1)),
    ('a router that begins anew', 'number-falls', begun_anew),
    ('data that become older at once', 'age', shown_at(40.0, lambda number, age, digest: (number, age + 60000, digest))),
    ('data that become younger', 'age', shown_at(40.0, lambda number, age, digest: (number, 0, digest))),
    ('data that are too old', 'too-old', shown_at(40.0, lambda number, age, digest: (number, 2 ** 32 - 1, digest))),
    ('no HNCP-Version', 'no-version', published(C, without(32))),
    ('a capability of 9', 'capability', published(C, on_kind(32, at(2, b'\x90')))),
    ('reserved bits of an HNCP-Version', 'reserved', published(C, on_kind(32, at(0, b'\1')))),
    ('reserved bits of an Assigned-Prefix', 'reserved', published(C, on_kind(35, at(4, b'\x12')))),
    ('a delegated prefix that ended, as a Node State tells', 'ended', lived_out(True)),
    ('a delegated prefix that ended before the end', 'ended', lived_out(False)),
    ('a node that is its own peer', 'own-peer', published(C, with_more(tlv(8, struct.pack('>III', C, 2, 1))))),
    ('an assigned prefix of multicast addresses', 'scope', published(C, with_more(assigned(9, packed('ff02::')[:8])))),
    ('an assigned prefix of link-local addresses', 'scope', published(C, with_more(assigned(9, packed('fe80::')[:8])))),
    ('a delegated prefix of link-local addresses', 'scope', published(C, with_more(tlv(33, tlv(34, struct.pack('>IIB', 7200, 3600, 64) + packed('fe80::')[:8]))))),
    ('an assigned prefix of link-local addresses of IPv4', 'scope',
     published(C, with_more(tlv(35, struct.pack('>IB', 9, 2) + b'\x70' + packed('::ffff:169.254.0.0')[:14])))),
    ('a delegated prefix inside another one of its uplink', 'delegated-overlap', published(A, on_kind(33, with_inner))),
    ('a preferred lifetime above the valid one', 'preferred', published(A, on_kind(33, preferred_above_valid))),
    ('no delegated prefix', 'inside-nothing', at_the_end(A, without(33))),
    ('two links with one prefix', 'overlap', at_the_end(C, swapped(DEN, LAN))),
    ('a link whose prefix has that of another link in it', 'overlap address-outside',
     at_the_end(C, on_kind(35, at(5, b'\x3c' + packed('2001:db8:0:10::')[:8])))),
    ('one link with two prefixes', 'two-prefixes', at_the_end(A, with_more(assigned(1, packed('2001:db8:0:99::')[:8])))),
    ('an address inside no assigned prefix', 'address-outside', at_the_end(C, on_kind(36, at(4, packed('2001:db8:1::1'))))),
    ('a node address that is link-local', 'address-outside', at_the_end(C, on_kind(36, at(4, packed('fe80::1'))))),
    ('an address of two nodes', 'address-twice', at_the_end(C, on_kind(36, at(4, packed('2001:db8:0:18::604b'))))),
]

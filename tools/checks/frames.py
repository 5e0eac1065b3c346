"""The check of what judge makes of frames: several links in one capture, frames that stand twice, out of order or without a part,
and datagrams that are made to take long."""
import copy
import os
import struct
import sys

from checks import faults, homes, samples
from checks.helpers import lines_of, must, run
from rulercress.tools import items
from rulercress.tools.judging.judgement import judge

LINKS = {(1, 1): 10, (2, 1): 10, (2, 2): 20, (3, 1): 20}    # the VLAN of each endpoint of the sound home
TAG, OUTER = 0x8100, 0x88a8
LATER = 0.0003          # seconds after which a mirroring port shows a frame again
SMALL, GROWTH = 300, 2.6
AT_REST = 20000         # milliseconds
VERSION, REQUEST = faults.tlv(32, bytes(4)), faults.tlv(1, b'')


def one_address_each():
    """The sound home, each of whose routers has one address on all of its links, and the VLAN of each datagram."""
    made = []
    for each in homes.home():
        each = copy.copy(each)
        post = struct.unpack('>II', each.payload[4:12])
        each.source = homes.address(post[0], 0)
        if each.destination != homes.GROUP:
            each.destination = homes.address(homes.OTHER_END[post][0], 0)
        made.append((each, LINKS[post]))
    return made


def must_be_sound(path, name, *said):
    status, text, messages = run('judge', path)
    must(status == 0, f'{name}: status {status}, {messages} {[line for line in text.splitlines() if line.startswith("  frame")][:3]}')
    for each in said:
        must(each in text, f'{name}: judge does not say "{each}": {text.splitlines()[:4]}')


def check_links(path):
    """One address on two links is no fault: by the tags of a trunk, by `tcpdump -i any`, and where two captures were merged."""
    home = one_address_each()
    trunk = [(each.moment, homes.tagged(homes.frame_of(each), (TAG, vlan))) for each, vlan in home]
    double = [(each.moment, homes.tagged(homes.frame_of(each), (OUTER, vlan), (TAG, 7))) for each, vlan in home]
    merged = [(each.moment, homes.frame_of(each)) for each, _ in home]
    cooked = [(each.moment, homes.cooked(homes.frame_of(each), vlan)) for each, vlan in home]
    for name, frames in [('a trunk', trunk), ('a trunk of two tags', double), ('two captures that were merged', merged)]:
        homes.write_frames(path, frames)
        must_be_sound(path, name)
    homes.write_frames(path, cooked, homes.COOKED)
    must_be_sound(path, 'tcpdump -i any')
    # The host is the router between both links: each frame comes by the trunk with its tag, and by the interface of its VLAN.
    bridged = [pair for each, vlan in home for pair in
               [(each.moment, homes.cooked(homes.tagged(homes.frame_of(each), (TAG, vlan)), 2)),
                (each.moment + LATER / 10, homes.cooked(homes.frame_of(each), vlan))]]
    homes.write_frames(path, sorted(bridged, key=lambda pair: pair[0]), homes.COOKED)
    must_be_sound(path, 'tcpdump -i any beside a trunk', f'{len(home)} frames stand twice')
    must(lines_of('judge', path)[0].startswith('capture datagrams=165 sources='), 'a frame that stands twice is judged twice')
    # On one link of the trunk a gateway names an endpoint that it has not.
    changed = [(each.moment, homes.tagged(homes.frame_of(each), (TAG, vlan))) for each, vlan in home]
    wrong = copy.copy(home[40][0])
    wrong.payload = faults.endpoint(struct.unpack('>I', wrong.payload[4:8])[0], 9) + wrong.payload[12:]
    changed[40] = wrong.moment, homes.tagged(homes.frame_of(wrong), (TAG, home[40][1]))
    homes.write_frames(path, changed)
    text = lines_of('judge', path, status=3)
    must(any(line.startswith('  frame 41 ') and ' other-endpoint: ' in line for line in text), f'another endpoint on a trunk: {text[:6]}')
    return 6


def check_twice(path):
    """A frame that stands twice is judged once. A multicast that comes again after 50 ms is none."""
    twice = [(each.moment + more, homes.frame_of(each)) for each in homes.home() for more in (0, LATER)]
    homes.write_frames(path, sorted(twice, key=lambda pair: pair[0]))
    must_be_sound(path, 'each frame twice', '165 frames stand twice')
    sound = faults.Plant()
    faults.doubled(1.0, 0.05)(sound)
    homes.write_frames(path, sorted(((each.moment + more, homes.frame_of(each)) for each in sound.datagrams for more in (0, LATER)), key=lambda pair: pair[0]))
    text = lines_of('judge', path, status=3)
    must(any(' too-soon: ' in line for line in text), f'a multicast that comes again, each frame twice: {text[:5]}')
    return 1


def check_order(path):
    """Frames out of the order of time are judged in that order, and judge says which tool writes them so."""
    frames = [(each.moment, homes.frame_of(each)) for each in homes.home()]
    frames[30], frames[60] = frames[60], frames[30]
    homes.write_frames(path, frames[:100] + frames[130:] + frames[100:130])
    must_be_sound(path, 'frames out of order', 'out of the order of time', 'reordercap')
    return 1


def check_parts(path):
    """Datagrams with a missing fragment are counted, those of other ports are not, and each fragment may stand twice."""
    whole = [(each.moment, homes.frame_of(each)) for each in homes.home()]
    size = len(whole)
    long = samples.udp(samples.tlv(1000, bytes(2000)))
    parts = [list(samples.fragments(datagram, 1448, number)) for number, datagram in
             [(1, long), (2, long), (3, samples.udp(bytes(3000), 9999)), (4, long)]]
    more = [parts[0][0], *parts[1][1:], parts[2][0], *(part for part in parts[3] for _ in 'ab')]
    homes.write_frames(path, whole[:size] + [(75.0 + place / 1000, frame) for place, frame in enumerate(more)])
    status, text, _ = run('judge', path)
    must('left out: 2 datagram(s), of which a fragment is missing' in text, f'lost fragments: status {status}, {text.splitlines()[:4]}')
    status, _, messages = run('decode-capture', path)
    must(status == 0 and 'left out: 2 datagram(s)' in messages, f'decode-capture with lost fragments: status {status}, {messages}')
    homes.write_frames(path, [(place / 1000, frame) for place, frame in enumerate(parts[0][:1])])
    status, _, messages = run('judge', path)
    must(status == 1 and 'has no HNCP' in messages and '1 datagram' in messages, f'a lost fragment alone: status {status}, {messages}')
    return 2


# Datagrams that are made to take long: of each kind one with so many things

def delegated(place):
    return faults.tlv(34, struct.pack('>IIB', 7200, 3600, 40) + b'\x20' + struct.pack('>I', place))


def assigned(place, number=1):
    return faults.tlv(35, struct.pack('>IBB', number, 2, 40) + b'\x20' + struct.pack('>I', place))


def stating(data):
    """A datagram of node 9 with these node data, which are at rest, and with their network state hash. So a home is judged by them."""
    digest = items.hash_of(VERSION + data)
    network = items.hash_of(items.network_state([(struct.pack('>I', 9), struct.pack('>I', 1), digest)]))
    return faults.endpoint(9, 1) + faults.tlv(faults.NETWORK_STATE, network) + faults.node_state(9, 1, AT_REST, digest, VERSION + data)


def many_prefixes(count):
    outside = faults.tlv(33, b''.join(map(delegated, range(count))))
    return stating(outside + b''.join(map(assigned, range(count))))


def one_prefix(count):
    return stating(b''.join(assigned(7, number) for number in range(1, 2 * count)))


def nested_prefixes(count):
    lengths = [1 + place % 120 for place in range(count)]
    return stating(b''.join(faults.tlv(35, struct.pack('>IBB', 1 + place // 120, 2, each) + bytes((each + 7) // 8)) for place, each in enumerate(lengths)))


def own_peers(count):
    return stating(b''.join(faults.tlv(8, struct.pack('>III', 9, place, place + 1)) for place in range(1, count)))


def many_addresses(count):
    addresses = b''.join(faults.tlv(36, struct.pack('>IBIIHB', 1, 0x20, place, 0, 0, 1) + bytes(4)) for place in range(count))
    return stating(addresses + b''.join(map(assigned, range(count))))


def many_nodes(count):
    return faults.endpoint(9, 1) + b''.join(faults.node_state(place, 1, 0, bytes(8)) for place in range(count))


def many_at_once(count):
    """A request again and again in one moment, each one another datagram."""
    return [faults.endpoint(9, 1) + REQUEST + samples.tlv(1000, struct.pack('>I', place)) for place in range(count)]


KINDS = [many_prefixes, one_prefix, nested_prefixes, own_peers, many_addresses, many_nodes, many_at_once]


def calls_of(payloads):
    """How many calls a judgement takes, those of Python's own functions too. So much is the same on each machine."""
    count = 0

    def one_more(_, event, __):
        nonlocal count
        count += event in ('call', 'c_call')

    datagrams = [faults.Datagram(place, 1.0, '0', 'fe80::9', 8231, 'fe80::8', 8231, payload) for place, payload in enumerate(payloads, 1)]
    sys.setprofile(one_more)
    try:
        made = judge(datagrams)
        list(made.home.lines())
    finally:
        sys.setprofile(None)
    return count


def check_hostile():
    """Twice as many things take about twice as many calls. The greatest are those of a datagram of 64 kB."""
    for kind in KINDS:
        few, more = (calls_of(made if isinstance(made, list) else [made]) for made in map(kind, (SMALL, 2 * SMALL)))
        must(more < GROWTH * few, f'{kind.__name__}: {few} calls for {SMALL}, and {more} for {2 * SMALL}')
    must(len(many_prefixes(1600)) < 2 ** 16, 'it is no datagram')
    judge([faults.Datagram(1, 1.0, '0', 'fe80::9', 8231, homes.GROUP, 8231, many_prefixes(1600))])
    return len(KINDS)


def check_frames(folder):
    path = os.path.join(folder, 'frames.pcap')
    return check_links(path) + check_twice(path) + check_order(path) + check_parts(path)

"""Faults of which data a device takes, of what it makes of malformed datagrams, and of its identifier."""
import struct
import time

from checks.faulty.base import (answers, drops_states, each_of, edited, edits_states, FAULTS, has_peer, mark, own, published, put,
                                read, since, spelled, states_in)
from rulercress.tools import items
from rulercress.tools.examining import frames
from rulercress.tools.examining.wire import NETWORK_STATE, NODE_ENDPOINT, NODE_STATE, PEER, REQUEST_NODE, VERSION, four, number, tlv


# States

def is_past_the_end(f, d, value):
    """Whether a node goes on with small numbers after great ones."""
    now, before = number(value[4:8]), f.memory.get(('number', value[:4]), 0)
    if now < 2 ** 30 and before > 3 * 2 ** 30:
        return True
    f.memory['number', value[:4]] = now
    return False


def newer_at_least(f, value):
    """An older number becomes a newer one, where both are small."""
    now, before = number(value[4:8]), f.memory.get(('number', value[:4]))
    if before is not None and now < before < 2 ** 31:
        return value[:4] + four(before + 1) + value[8:]
    f.memory['number', value[:4]] = now
    return value


def is_other_under_one_number(f, d, value):
    key = value[:8]
    return f.memory.setdefault(('hash', key), value[12:20]) != value[12:20] and value[:4] != f.id


def is_renumbered(f, d, value):
    digest = f.memory.get(('digest', value[:4]))
    f.memory['digest', value[:4]] = value[12:20]
    return len(value) == 20 and digest == value[12:20]


def asks_not(known):
    def out(f, d):
        d.tlvs = [(kind, value) for kind, value in d.tlvs if kind != REQUEST_NODE or (value in f.last) != known]
    return out


def unknown_left_out(f, d):
    edited(d, NODE_STATE, lambda value: value[:20] + each_of(60000, lambda _: None)(value[20:]) if len(value) > 20 and value[:4] != f.id else value)


def remembers_tlvs(f, d):
    for value in states_in(d):
        for kind, inner in read(value[20:]):
            if kind == 206:
                f.memory['kept', value[:4]] = kind, inner


def old_tlvs_stay(f, d):
    if not d.multicast:
        edited(d, NODE_STATE, lambda value: value[:20] + spelled([*read(value[20:]), f.memory['kept', value[:4]]])
               if len(value) > 20 and ('kept', value[:4]) in f.memory else value)


def out_of_reach(f):
    """The neighbours that the device has not, of those that published lately."""
    return [(node, state) for node, state in f.last.items() if not has_peer(f, state[2]) and state[3] > time.monotonic() - 4]


def counts_strangers(f, d):
    """Shows a node that is no mutual peer, and has published nothing but its version under its first number."""
    strangers = [(node, state) for node, state in out_of_reach(f) if [kind for kind, _ in read(state[2])] == [VERSION] and state[0] == 2]
    if answers(d) and strangers:
        node, (count, digest, data, _) = strangers[0]
        d.tlvs.append((NODE_STATE, node + four(count) + four(9) + digest))
        parts = [(value[:4], value[4:8], value[12:20]) for value in states_in(d)]
        edited(d, NETWORK_STATE, lambda value: items.hash_of(items.network_state(parts)))


def tells_of_strangers(f, d):
    for node in d.of(REQUEST_NODE) if d.tlvs else []:
        for stranger, (count, digest, data, _) in out_of_reach(f):
            if node == stranger:
                f.say(d.pair, [f.name(d.pair), (NODE_STATE, node + four(count) + four(9) + digest + data)], 0.05)


def is_forwarded(f, d, value):
    return len(value) > 20 and d.sender not in (None, value[:4]) and value[:4] != f.id


def peers_of_both(f, d, node, data):
    """A node that another one has as its peer gets that one as its own."""
    found = [(other, value) for other, value in published(f, PEER) if value[:4] == node and other == d.sender]
    if d.sender == node or not found or has_peer(f, data, found[0][0]):
        return data
    other, value = found[0]
    return spelled([*read(data), (PEER, other + value[8:12] + value[4:8])])


def is_parting(f, d, value):
    """Whether a node withdraws its Peer of the device, and has other peers."""
    before = f.memory.get(('before', value[:4]))
    return bool(before and len(value) > 20 and value[:4] != f.id and has_peer(f, before[2]) and not has_peer(f, value[20:]) and
                any(kind == PEER for kind, _ in read(value[20:])))


def forgets_the_lost(f, d, node, data):
    """A Peer that a node had withdrawn, and publishes again, leads nowhere."""
    now = {value[:4] for kind, value in read(data) if kind == PEER and value[:4] != f.id}
    lost = f.memory.setdefault(('lost', node), set())
    lost |= f.memory.get(('peers', node), set()) - now
    f.memory['peers', node] = now
    again = now & lost
    return each_of(PEER, lambda value: value[:8] + four(number(value[8:12]) + 1000) if value[:4] in again else value)(data) if again else data


def is_lost_for_good(f, d, value):
    """Whether a node comes back that had withdrawn its Peer of the device, its only one."""
    before = f.memory.get(('before', value[:4]))
    if value[:4] != f.id and before and len(value) > 20 and has_peer(f, before[2]) and not any(kind == PEER for kind, _ in read(value[20:])):
        f.memory['lost', value[:4]] = True
        return False
    return ('lost', value[:4]) in f.memory


def grows_no_older(f, d):
    edited(d, NODE_STATE, lambda value: value[:8] + f.memory.setdefault(('age', value[:8]), value[8:12]) + value[12:]
           if len(value) >= 20 and value[:4] != f.id else value)


def right_endpoint(f, d, node, data):
    return each_of(PEER, lambda value: value[:4] + four(d.pair.device[2]) + value[8:] if value[:4] == f.id else value)(data) \
        if has_peer(f, data) else data


def short_of_fragments(f, pair, packet):
    return packet.protocol != frames.FRAGMENT


put('takes-no-data', 'takes_the_data_of_a_peer', into=drops_states(lambda f, d, value: len(value) > 20 and value[:4] != f.id))
put('checks-no-hash', 'ignores_data_with_a_wrong_hash',
    into=edits_states(lambda f, value: value[:12] + items.hash_of(value[20:]) + value[20:] if len(value) > 20 else value))
put('takes-older-numbers', 'ignores_older_numbers', into=edits_states(newer_at_least))
put('numbers-end', 'goes_on_past_the_greatest_number', into=drops_states(is_past_the_end))
put('numbers-in-a-row', 'compares_numbers_on_a_circle', into=drops_states(
    lambda f, d, value: 2 ** 30 < (number(value[4:8]) - (f.memory.setdefault(('number', value[:4]), number(value[4:8])))) % 2 ** 32 < 2 ** 31))
put('asks-for-no-news', 'asks_for_newer_data', out=asks_not(True))
put('asks-for-nobody-new', 'asks_for_data_of_a_new_node', out=asks_not(False))
put('one-hash-for-each-number', 'takes_other_data_under_one_number', into=drops_states(is_other_under_one_number))
put('no-new-numbers-for-the-same', 'takes_a_new_number_for_the_same_data', into=drops_states(is_renumbered))
put('unknown-tlvs-left-out', 'keeps_unknown_tlvs', out=unknown_left_out)
put('drops-what-it-does-not-know', 'ignores_unknown_tlvs_beside_others', into=lambda f, d: not (d.tlvs and 501 in d.kinds()))
put('counts-strangers', 'leaves_out_who_is_no_mutual_peer', 'judge_finds_nothing', out=counts_strangers)
put('tells-of-strangers', 'says_nothing_of_an_unreachable_node', into=tells_of_strangers)
put('reaches-its-peers-alone', 'reaches_a_node_behind_a_peer', into=drops_states(is_forwarded))
put('one-sided-peers', 'reaches_nobody_by_one_sided_peers', their=peers_of_both)
put('never-loses', 'loses_who_is_behind_a_lost_peer', into=drops_states(is_parting))
put('forgets-the-lost', 'remembers_a_lost_node', their=forgets_the_lost)
put('lost-for-good', 'takes_a_lost_node_back', into=drops_states(is_lost_for_good))
put('no-data-are-ancient', 'reaches_nobody_by_ancient_data',
    into=edits_states(lambda f, value: value[:8] + four(0) + value[12:] if number(value[8:12]) >= 2 ** 32 - 2 ** 15 else value))
put('short-datagrams-alone', 'takes_a_datagram_of_4000_bytes', frame=short_of_fragments)
put('age-as-it-came', 'passes_the_age_on', 'judge_finds_nothing', out=grows_no_older)
put('old-tlvs-stay', 'forgets_what_left_the_data', out=old_tlvs_stay, into=remembers_tlvs)
put('peers-by-nodes', 'reaches_by_the_endpoints_of_peers', their=right_endpoint)


# Malformed datagrams

def whole(f, d):
    """A last TLV that goes past the end is taken for one that ends there."""
    at, octets = 0, d.octets
    while d.tlvs is None and at + 4 <= len(octets):
        kind, length = struct.unpack_from('>HH', octets, at)
        if at + 4 + length > len(octets):
            d.octets = octets[:at] + tlv(kind, octets[at + 4:])
            if kind == NODE_STATE:
                d.octets = octets[:at] + struct.pack('>HH', kind, len(octets) - at - 4) + octets[at + 4:]
            return
        at += 4 + length + -length % 4


def fills_short_values(f, d):
    if d.tlvs:
        edited(d, NODE_ENDPOINT, lambda value: value.ljust(8, b'\1') if 4 <= len(value) < 8 else value)


def confused_by_rests(f, d):
    """One to three bytes at the end make a peer of nobody, another one each time."""
    if d.tlvs is None and len(d.octets) % 4 and len(d.octets) < 24:
        f.memory['nobodies'] = f.memory.get('nobodies', 0) + 1
        f.tell(d.pair, tlv(NODE_ENDPOINT, four(0xabcd0000 + f.memory['nobodies']) + four(3)))


def dead_for_a_while(f):
    return since(f, 'died') < 9


def dies_of_garbage(f, d):
    if d.tlvs is None:
        f.memory['bad'] = f.memory.get('bad', 0) + 1 if mark(f, 'bad at') < 2 else 1
        if f.memory['bad'] == 500:
            mark(f, 'died')
    return not dead_for_a_while(f)


def dies_of_length(f, pair, packet):
    if packet.protocol == frames.FRAGMENT and struct.unpack('>H', packet.payload[2:4])[0] & ~7 > 50000:
        mark(f, 'died')


def from_far(f, d):
    if not d.source.startswith('fe80') and d.pair.examiner:
        d.source = d.pair.examiner[0]


def to_far(f, d):
    if not d.destination.startswith(('fe80', 'ff')) and d.pair.device:
        d.destination = d.pair.device[0]


def answers_echoes(f, pair, packet):
    """The address that the Node-Address tells answers echo requests."""
    if packet.protocol == frames.ICMPV6 and packet.payload[:1] == bytes([frames.ECHO_REQUEST]) and packet.destination == '2001:db8:99::1':
        octets = bytes([frames.ECHO_REPLY]) + packet.payload[1:]
        f.put(pair.outer, frames.icmp(packet.to_mac, packet.from_mac, packet.destination, packet.source, octets))
        return False


put('takes-what-is-cut', 'ignores_a_tlv_that_is_cut', 'faults_of_the_grammar_change_nothing', into=whole)
put('fills-short-values', 'ignores_values_that_are_too_short', into=fills_short_values)
put('confused-by-rests', 'faults_of_the_grammar_change_nothing', into=confused_by_rests)
put('dies-of-garbage', 'survives_garbage', into=dies_of_garbage, out=lambda f, d: not dead_for_a_while(f))
put('dies-of-length', 'survives_the_longest_datagram', frame=dies_of_length, into=lambda f, d: not dead_for_a_while(f),
    out=lambda f, d: not dead_for_a_while(f))
put('any-source', 'ignores_a_source_that_is_not_link_local', into=from_far)
put('any-destination', 'ignores_a_destination_that_is_not_link_local', into=to_far, data=FAULTS['addressed'].data, frame=answers_echoes)
FAULTS['addressed'].frame = answers_echoes


# Its identifier, and its version

def claims(f, d):
    """The claims on the identifier of the device in a datagram to it: number and data."""
    return [(number(value[4:8]), value[20:]) for value in states_in(d) if value[:4] == f.id]


def heeds_not(test):
    return drops_states(lambda f, d, value: value[:4] == f.id and test(f, number(value[4:8]), value[20:]))


def told_by_strangers(f, d):
    """After a stranger published under its identifier, the device gives that data for its own."""
    if not d.multicast and since(f, 'claimed') < 2:
        data = f.memory['stranger']
        edited(d, NODE_STATE, lambda value: value[:12] + items.hash_of(data) + data if value[:4] == f.id and len(value) > 20 else value)


def takes_claims(f, d):
    for _, data in claims(f, d):
        if any(kind == VERSION for kind, _ in read(data)):
            f.memory['stranger'] = data
            mark(f, 'claimed')


def old_ones_too(f, d):
    """The old identifier stays in the network."""
    mine = f.memory.setdefault('first', f.id)
    if answers(d) and mine != f.id:
        d.tlvs.append((NODE_STATE, mine + four(7) + four(7) + items.hash_of(b'')))
        parts = [(value[:4], value[4:8], value[12:20]) for value in states_in(d)]
        edited(d, NETWORK_STATE, lambda value: items.hash_of(items.network_state(parts)))


put('claims-not-back', 'claims_its_identifier_back', into=heeds_not(lambda f, count, data: not data))
put('shares-its-number', 'claims_its_number_back', into=heeds_not(lambda f, count, data: any(kind == 208 for kind, _ in read(data))))
put('told-by-strangers', 'holds_its_own_data', out=told_by_strangers, into=takes_claims)
put('keeps-an-identifier-of-two', 'leaves_an_identifier_of_two', into=heeds_not(lambda f, count, data: any(kind == 209 for kind, _ in read(data))))
put('old-identifier-too', 'says_nothing_under_an_old_identifier', 'judge_finds_nothing', out=old_ones_too)
put('reserved-bits', 'judge_finds_nothing', data=own(VERSION, lambda value: b'\1' + value[1:]))

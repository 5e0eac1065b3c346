"""Faults of what a device answers and says of itself, of when it sends, and of its peers."""
import time

from checks.faulty.base import (answers, each_of, edited, is_news, mark, own, put, read, since, theirs, watches_news, without)
from rulercress.tools import items
from rulercress.tools.examining import frames, wire
from rulercress.tools.examining.neighbour import node_state
from rulercress.tools.examining.wire import (KEEP_ALIVE, NETWORK_STATE, NODE_ENDPOINT, NODE_STATE, PEER, REQUEST_NETWORK, REQUEST_NODE,
                                             VERSION, four, number, tlv)


# What it answers, and what its data are

def to_another_group(f, d):
    if d.multicast:
        d.destination, d.to_mac = 'ff02::1', frames.group_mac('ff02::1')


def name_behind(f, d):
    if not d.multicast and d.of(NETWORK_STATE):
        d.tlvs = [pair for pair in d.tlvs if pair[0] != NODE_ENDPOINT] + [pair for pair in d.tlvs if pair[0] == NODE_ENDPOINT]


def deaf_to_requests(multicast, named):
    def into(f, d):
        if d.tlvs and d.multicast == multicast and bool(d.sender) == named and d.of(REQUEST_NETWORK):
            without(d, REQUEST_NETWORK)
    return into


def wrong_own_hash(f, d):
    edited(d, NODE_STATE, lambda value: value[:12] + bytes(8) + value[20:] if value[:4] == f.id and len(value) > 20 else value)


def data_for_all(f, d):
    if answers(d) and f.own:
        edited(d, NODE_STATE, lambda value: value[:20] + f.own[1] if value[:4] == f.id else value)


def knows_everybody(f, d):
    for node in d.of(REQUEST_NODE) if d.tlvs else []:
        if len(node) == 4 and node != f.id and node not in f.last and all(node != state[0] for states in f.networks.values() for state in states):
            f.say(d.pair, [f.name(d.pair), (NODE_STATE, node_state(node, 1, b'')[4:])], 0.05)


def backward_hash(states):
    return items.hash_of(b''.join(four(state.number) + state.digest for _, state in sorted(states.items(), reverse=True)))


def far_copies(f, d):
    if not d.multicast:
        return
    source, d.source = d.source, '2001:db8:99::1'
    f.to_link(d, 0.01)
    d.source = source


put('multicasts-to-another-group', 'announces_itself', out=to_another_group)
put('node-endpoint-behind', 'names_itself_before_its_network_state', 'judge_finds_nothing', out=name_behind)
put('no-answer-for-the-network', 'answers_a_request_for_the_network', 'ignores_unknown_tlvs_beside_others', into=deaf_to_requests(False, True))
put('no-answer-to-multicasts', 'answers_a_request_by_multicast', into=deaf_to_requests(True, True))
put('no-answer-to-monitors', 'answers_whoever_asks', 'answers_to_the_port_that_asked', into=deaf_to_requests(False, False))
put('answers-to-8231-alone', 'answers_to_the_port_that_asked', out=lambda f, d: d.port == wire.PORT)
put('hash-of-other-data', 'gives_the_data_of_a_node', 'judge_finds_nothing', out=wrong_own_hash)
put('data-for-all', 'sends_no_data_with_the_network', out=data_for_all)
put('knows-everybody', 'says_nothing_of_an_unknown_node', into=knows_everybody)
put('data-backward', 'orders_its_data', data=lambda f, data: b''.join(reversed([tlv(*pair) for pair in read(data)])))
put('no-version', 'has_a_version', 'judge_finds_nothing', data=own(VERSION, lambda value: None))
put('hash-in-another-order', 'hashes_its_network', 'judge_finds_nothing', network=backward_hash)
put('age-stands-still', 'lets_its_data_age', 'judge_finds_nothing',
    out=lambda f, d: edited(d, NODE_STATE, lambda value: value[:8] + four(5) + value[12:] if value[:4] == f.id else value))
put('far-source', 'sends_from_a_link_local_address', out=far_copies)


# When it sends

def late_multicasts(f, d):
    if d.multicast:
        f.to_link(d, 0.7)
        return False


def repeat(gap, count, when):
    def out(f, d):
        is_news(f, d)
        if d.multicast and d.of(NETWORK_STATE) and when(f):
            for place in range(count):
                f.to_link(d, gap * (place + 1))
    return out


def multicasts_at_once(f, d):
    """Each new network state hash that is told to somebody is announced at once."""
    digest = d.of(NETWORK_STATE)[:1]
    if digest and digest != f.memory.get('digest'):
        f.memory['digest'] = digest
        f.say(d.pair, [f.name(d.pair), (NETWORK_STATE, digest[0])], multicast=True)


def marks_multicasts(f, d):
    if d.multicast and d.tlvs and d.of(NETWORK_STATE):
        mark(f, 'their multicast')


def is_consistent(f, d):
    return bool(d.multicast and d.tlvs and any(value[:8] in f.networks or [value[:8]] == f.memory.get('digest') for value in d.of(NETWORK_STATE)))


def hears_no_consistent(f, d):
    if is_consistent(f, d) and mark(f, 'consistent') < 0.5:
        return False


def resets_for_others(f, d):
    if d.multicast and d.tlvs and d.of(NETWORK_STATE) and not is_consistent(f, d) and f.memory.get('digest'):
        f.say(d.pair, [f.name(d.pair), (NETWORK_STATE, f.memory['digest'][0])], 0.15, multicast=True)


def suppressed_by_others(f, d):
    is_news(f, d)
    return not (d.multicast and since(f, 'inconsistent') < 0.3)


def marks_inconsistent(f, d):
    if d.multicast and d.tlvs and d.of(NETWORK_STATE) and not is_consistent(f, d):
        mark(f, 'inconsistent')


def no_keep_alives(f, d):
    is_news(f, d)
    return not (d.multicast and since(f, 'news') > 5 and since(f, 'their multicast') < 3)


def deaf_to_hashes(multicast):
    def into(f, d):
        if d.tlvs and d.multicast == multicast and not is_consistent(f, d):
            without(d, NETWORK_STATE)
    return into


def asks_for_its_own_hash(f, d):
    if is_consistent(f, d):
        f.say(d.pair, [f.name(d.pair), (REQUEST_NETWORK, b'')], 0.05)


def asks_often(f, d):
    if d.of(REQUEST_NETWORK):
        for place in range(8):
            f.to_link(d, 0.005 * (place + 1))


put('late-multicasts', 'resets_trickle', out=late_multicasts)
put('intervals-do-not-double', 'doubles_its_intervals', 'judge_finds_nothing',
    out=repeat(0.7, 3, lambda f: 0.5 < since(f, 'news') < 3.5 and since(f, 'their multicast') > 1), into=marks_multicasts)
put('short-intervals', 'doubles_up_to_the_longest_interval', 'judge_finds_nothing',
    out=repeat(3.3, 3, lambda f: since(f, 'news') > 15 and since(f, 'their multicast') > 1), into=marks_multicasts)
put('multicasts-at-once', 'waits_for_half_an_interval', out=multicasts_at_once)
put('multicasts-twice', 'waits_for_half_an_interval', 'judge_finds_nothing', out=repeat(0.015, 1, lambda f: since(f, 'news') < 0.6))
put('hears-no-consistent-ones', 'hears_a_consistent_neighbour', out=watches_news, into=hears_no_consistent)
put('resets-for-others', 'lets_other_hashes_pass', 'judge_finds_nothing', out=watches_news, into=resets_for_others)
put('suppressed-by-others', 'counts_no_other_hashes', out=suppressed_by_others, into=marks_inconsistent)
put('no-keep-alives', 'keeps_alive', 'judge_finds_nothing', out=no_keep_alives, into=marks_multicasts)
put('replies-at-once', 'delays_replies_to_multicasts', at_once=True)
put('asks-no-multicaster', 'asks_when_the_hash_differs', out=watches_news, into=deaf_to_hashes(True))
put('asks-no-peer', 'asks_a_peer_when_the_hash_differs', into=deaf_to_hashes(False))
put('asks-for-its-own-hash', 'is_content_when_the_hash_is_the_same', 'judge_finds_nothing', out=watches_news,
    into=asks_for_its_own_hash)
put('asks-often', 'asks_once_for_each_hash', 'judge_finds_nothing', out=asks_often)


# Peers

def greets_multicasters(f, d):
    if d.multicast and d.tlvs and d.of(NODE_ENDPOINT):
        f.tell(d.pair, b''.join(tlv(NODE_ENDPOINT, value) for value in d.of(NODE_ENDPOINT)))


def last_of_its_address(f, d):
    """Remembers which node sent last."""
    if d.tlvs and not d.multicast and d.sender:
        f.memory['node'] = d.sender


def one_node_for_each_address(f, data):
    return each_of(PEER, lambda value: value if f.memory.get('node') in (None, value[:4]) else None)(data)


def other_endpoint(f, d):
    def edit(value):
        if len(value) != 8:
            return value
        return value[:4] + f.memory.setdefault(('endpoint', value[:4]), value[4:])
    if d.tlvs:
        edited(d, NODE_ENDPOINT, edit)


def endpoint_of_zero(f, d):
    if d.tlvs:
        edited(d, NODE_ENDPOINT, lambda value: value[:4] + four(99) if value[4:] == bytes(4) else value)


TWIN = four(0xeeee0001)


def greets_itself(f, d):
    if d.tlvs:
        edited(d, NODE_ENDPOINT, lambda value: TWIN + value[4:] if value[:4] == f.id else value)


def renews_silent_peers(f, d):
    """Names each peer that publishes no interval of its own again and again."""
    if f.memory.get('begun') and since(f, 'renewed') > 5:
        mark(f, 'renewed')
        for node, (_, _, data, moment) in f.last.items():
            peers = [value for kind, value in read(data) if kind == PEER and value[:4] == f.id]
            if moment > time.monotonic() - 70 and peers and not any(kind == KEEP_ALIVE for kind, _ in read(data)):
                f.tell(d.pair, tlv(NODE_ENDPOINT, node + peers[0][8:12]))
    f.memory['begun'] = True


def deaf_to_rare_consistent(f, d):
    if is_consistent(f, d) and mark(f, 'consistent') > 3:
        return False


put('wrong-endpoint-in-peer', 'unicast_makes_a_peer', data=own(PEER, lambda value: value[:8] + four(number(value[8:12]) + 1)))
put('multicast-makes-a-peer', 'multicast_makes_no_peer', into=greets_multicasters)
put('one-node-for-each-address', 'two_nodes_of_one_address_are_two_peers', into=last_of_its_address, data=one_node_for_each_address)
put('takes-endpoint-zero', 'endpoint_zero_makes_no_peer', into=endpoint_of_zero)
put('peer-of-itself', 'is_no_peer_of_itself', into=greets_itself, data=
    lambda f, data: each_of(PEER, lambda value: f.id + value[4:] if value[:4] == TWIN else value)(data))
put('default-interval-for-all', 'uses_the_interval_of_a_peer', 'keeps_a_peer_without_keep_alives',
    their=theirs(KEEP_ALIVE, lambda value: None if number(value[4:8]) > 500 else value))
put('never-forgets', 'forgets_a_silent_peer', out=renews_silent_peers)
put('multicasts-renew-nothing', 'consistent_multicasts_keep_a_peer', out=watches_news, into=deaf_to_rare_consistent)
put('default-interval-for-zero', 'keeps_a_peer_without_keep_alives', their=theirs(KEEP_ALIVE, lambda value: value if number(value[4:8]) else None))
put('first-endpoint-for-ever', 'follows_a_peer_to_another_endpoint', into=other_endpoint)

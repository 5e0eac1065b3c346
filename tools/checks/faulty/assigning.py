"""Faults of prefixes, of what hosts are told, and of a device between two links."""
import ipaddress
import struct
import time

from checks.faulty.base import (assigned, delegations, drops_states, each_of, edited, edits_states, has_peer, is_news, own, part, prefix_in, published,
                                put, read, since, spelled, within)
from rulercress.tools.examining import wire
from rulercress.tools.examining.wire import ASSIGNED, DELEGATED, EXTERNAL, NODE_ENDPOINT, PEER, VERSION, four, number, tlv


# Prefixes

def assigns_nothing(f, data):
    """Hides assignments while one neighbour alone publishes a delegated prefix, under its first number."""
    owners = {node for node, _ in delegations(f)}
    is_first = len(owners) == 1 and f.last[next(iter(owners))][0] == 2 and not published(f, ASSIGNED)
    return each_of(ASSIGNED, lambda value: None)(data) if is_first else data


def all_at_once(f, data):
    """Where eight prefixes are delegated, each has an assignment at once."""
    found = delegations(f, 56)
    if len(found) < 8:
        return data
    there = [prefix_in(value) for kind, value in read(data) if kind == ASSIGNED]
    return spelled([*read(data), *[assigned(f, part(prefix, 5)) for _, prefix in found if not any(each.subnet_of(prefix) for each in there)]])


def beside_others(f, data):
    found = [prefix_in(value) for node, value in published(f, ASSIGNED) if value[4] == 4]
    return spelled([*read(data), assigned(f, part(found[0].supernet(new_prefix=56), 77))]) if found else data


def from_low(endpoint_is_own, priority):
    """Takes the assigned prefixes of neighbours out: those of the endpoint to the device, or of another; of this priority."""
    def their(f, d, node, data):
        own_endpoints = {value[8:12] for kind, value in read(data) if kind == PEER and value[:4] == f.id}
        return each_of(ASSIGNED, lambda value: None if value[4] == priority and (value[:4] in own_endpoints) == endpoint_is_own else value)(data) \
            if any(kind == ASSIGNED for kind, _ in read(data)) else data
    return their


def rival(front, edit):
    """Edits the assigned prefixes of a node whose identifier begins so."""
    def their(f, d, node, data):
        return each_of(ASSIGNED, edit)(data) if node.startswith(front) and any(kind == ASSIGNED for kind, _ in read(data)) else data
    return their


def another_after(f, data):
    def edit(value):
        prefix = prefix_in(value)
        return assigned(f, part(prefix, 1))[1] if prefix.network_address.packed[7] == 9 else value
    return each_of(ASSIGNED, edit)(data)


def is_lost_publisher(f, d, value):
    """Whether a node that publishes a prefix withdraws its Peer of the device."""
    return value[:4] != f.id and len(value) > 20 and any(kind == ASSIGNED for kind, _ in read(value[20:])) and not has_peer(f, value[20:]) and \
        not any(kind == EXTERNAL for kind, _ in read(value[20:]))


def keeps_assignments(f, data):
    """What was assigned stays for a while after nobody delegates anything any more."""
    now = [pair for pair in read(data) if pair[0] == ASSIGNED]
    if delegations(f, seconds=15):
        f.memory['assigned'] = now or f.memory.get('assigned', [])
        f.memory['delegated at'] = time.monotonic()
    elif since(f, 'delegated at') < 8:
        return spelled([*read(data), *f.memory.get('assigned', [])])
    return data


def inner_too(f, data):
    outer = [prefix for _, prefix in delegations(f, 56)]
    inner = [prefix for _, prefix in delegations(f, 60) if any(prefix.subnet_of(each) for each in outer)]
    return spelled([*read(data), assigned(f, part(inner[0], 3))]) if inner else data


def one_uplink(f, data):
    """Hides the assignments within the delegated prefix of the latest of two neighbours, which both published once."""
    found = delegations(f, 56)
    owners = list(dict.fromkeys(node for node, _ in found))
    is_first = len(owners) > 1 and all(f.last[node][0] == 2 for node in owners)
    unwanted = [prefix for node, prefix in found if node == owners[0]] if is_first else []
    return each_of(ASSIGNED, lambda value: None if any(prefix_in(value).subnet_of(each) for each in unwanted) else value)(data)


def taken_one(f, data):
    around = [prefix for _, prefix in delegations(f, 60)] if len(published(f, ASSIGNED)) > 20 else []

    def edit(value):
        inside = [each for each in around if prefix_in(value).subnet_of(each)]
        return assigned(f, part(inside[0], 1))[1] if inside else value
    return each_of(ASSIGNED, edit)(data)


def full_one(f, data):
    full = [prefix for _, prefix in delegations(f, 63)]
    return spelled([*read(data), assigned(f, part(full[0], 0))]) if full else data


def with_version(f, d, node, data):
    return data if any(kind == VERSION for kind, _ in read(data)) else spelled([*read(data), (VERSION, b'\0\0\0\0made')])


def in_reach(f, d, node, data):
    peers = [value for kind, value in read(data) if kind == PEER and value[:4] == f.id]
    if peers or not any(kind == EXTERNAL for kind, _ in read(data)) or d.sender != node:
        return data
    endpoint = next(value[4:8] for value in d.of(NODE_ENDPOINT))
    return spelled([*read(data), (PEER, f.id + four(d.pair.device[2]) + endpoint)])


def bare_ones(f, d, node, data):
    found = read(data)
    if not any(kind == DELEGATED for kind, _ in found):
        return data
    bare = [tlv(kind, value) for kind, value in found if kind == DELEGATED]
    return spelled([*[pair for pair in found if pair[0] != DELEGATED], (EXTERNAL, b''.join(bare))])


def wanders(f, data):
    found = [prefix for node, prefix in delegations(f, 56) if any(other == node and value[4] == 9 for other, value in published(f, ASSIGNED))]

    def edit(value):
        prefix = prefix_in(value)
        return assigned(f, part(ipaddress.ip_network((prefix.network_address, 64)), 1))[1] if any(prefix.subnet_of(each) for each in found) else value
    return each_of(ASSIGNED, edit)(data)


def third_one(f, data):
    own_ones = [value for kind, value in read(data) if kind == ASSIGNED]
    around = [prefix for _, prefix in delegations(f, 62)]
    return spelled([*read(data), assigned(f, prefix_in(own_ones[0]), endpoint=77)]) if len(around) > 1 and len(own_ones) > 1 else data


put('assigns-nothing', 'assigns_a_prefix', data=assigns_nothing)
put('highest-priority', 'assigns_with_the_usual_priority', data=own(ASSIGNED, lambda value: value[:4] + b'\x0f' + value[5:]))
put('assigns-all-at-once', 'waits_at_random_before_it_assigns', data=all_at_once)
put('assigns-beside-others', 'follows_a_published_prefix', data=beside_others)
put('heeds-no-priority-of-its-link', 'gives_way_to_a_higher_priority', their=from_low(True, 15))
put('heeds-no-priority-elsewhere', 'gives_up_a_prefix_of_another_link', their=from_low(False, 15))
put('heeds-no-greater-identifier', 'yields_to_a_greater_identifier', their=rival(b'\xff\xff\xff', lambda value: None))
put('yields-to-anybody', 'stands_by_its_greater_identifier', their=rival(bytes(2), lambda value: value[:4] + b'\3' + value[5:]))
put('takes-another-one', 'takes_over_a_prefix', data=another_after)
put('follows-the-lost', 'takes_over_from_a_lost_node', into=drops_states(is_lost_publisher))
put('keeps-what-is-gone', 'drops_what_is_delegated_no_longer', data=keeps_assignments)
put('lifetimes-never-end', 'drops_what_has_ended', their=within(DELEGATED, lambda value: four(7200) + value[4:] if number(value[:4]) == 8 else value))
put('lifetimes-from-the-arrival', 'counts_lifetimes_from_the_origination',
    into=edits_states(lambda f, value: value[:8] + four(0) + value[12:] if 80000 < number(value[8:12]) < 200000 else value))
put('deprecated-ones-too', 'prefers_a_prefix_that_is_preferred',
    their=within(DELEGATED, lambda value: value[:4] + four(3600) + value[8:] if number(value[:4]) == 7200 and not number(value[4:8]) else value))
put('any-dhcp-option', 'heeds_dhcp_options_that_it_does_not_know', heedless=True)
put('inner-ones-too', 'uses_the_outer_of_two_prefixes', data=inner_too)
put('one-uplink', 'uses_both_of_two_uplinks', data=one_uplink)
put('takes-what-is-taken', 'chooses_a_prefix_that_is_free', 'judge_finds_nothing', data=taken_one)
put('makes-one-all-the-same', 'makes_none_where_none_is_free', data=full_one)
put('heeds-those-without-version', 'heeds_nobody_without_a_version', their=with_version)
put('heeds-those-out-of-reach', 'heeds_nobody_out_of_reach', their=in_reach)
put('bare-ones-too', 'uses_no_prefix_outside_of_an_external_connection', their=bare_ones)
put('wanders', 'keeps_its_prefix_while_others_come', data=wanders)
put('overlapping-prefixes', 'assigns_no_prefixes_that_overlap', 'judge_finds_nothing', data=third_one)


# What hosts are told (RFC 4861, section 4.2): the options of prefixes begin at place 16, and have 32 bytes each

def options_of(octets):
    left, found = octets[16:], []
    while len(left) >= 8 and left[1]:
        found.append(left[:8 * left[1]])
        left = left[8 * left[1]:]
    return found


def advert(head=lambda f, octets: octets, option=lambda f, octets: octets, hops=255, copies=(0.0,)):
    """A fault of advertisements: an edit of the first 16 bytes, and one of each option of a prefix; None takes it out."""
    def hook(f, octets):
        made = [option(f, each) if each[0] == 3 else each for each in options_of(octets)]
        return [(delay, head(f, octets[:16]) + b''.join(each for each in made if each is not None), hops) for delay in copies]
    return hook


def prefix_of_option(octets):
    return ipaddress.ip_network((octets[16:32], octets[2]), strict=False)


def is_own(f, octets):
    """Whether the device assigned the prefix of an option."""
    if f.own:
        f.memory.setdefault('assigned ever', set()).update(each.prefix for each in wire.assignments(f.own[1]))
    return prefix_of_option(octets) in f.memory.get('assigned ever', set())


def spared(f, octets):
    """Answers one solicitation of three, or none that comes soon after another answer."""
    f.memory['adverts'] = f.memory.get('adverts', 0) + 1
    return [(0.0, octets, 255)] if f.memory['adverts'] % 3 == 1 else []


def early_ones(f, octets):
    """Each prefix that the device assigns is advertised at once."""
    there = {prefix_of_option(each) for each in options_of(octets) if each[0] == 3}
    made = [each.prefix for each in wire.assignments(f.own[1])] if f.own else []
    more = b''.join(bytes([3, 4, 64, 0xc0]) + struct.pack('>III', 30, 30, 0) + prefix.network_address.packed for prefix in made if prefix not in there)
    return [(0.0, octets + more, 255)]


def padded_out(f, octets):
    """One with many prefixes gets options that nobody knows, up to some 1,400 bytes."""
    many = sum(each[0] == 3 for each in options_of(octets)) > 12
    while many and len(octets) < 1392:
        units = min(31, (1400 - len(octets)) // 8)
        octets += bytes([254, units]) + bytes(8 * units - 2)
    return [(0.0, octets, 255)]


def watched_data(f, data):
    """The data as they are; with this hook the filter asks for them."""
    return data


put('hop-limit-of-64', 'sends_advertisements_that_are_valid', hosts=True, advert=advert(hops=64))
put('answers-few-solicitations', 'answers_a_solicitation', hosts=True, advert=spared)
put('advertises-at-any-time', 'waits_between_advertisements', hosts=True, advert=advert(copies=(0.0, 1.2)))
put('advertises-at-once', 'advertises_an_applied_prefix', hosts=True, data=watched_data, advert=early_ones)
put('advertises-its-own-alone', 'advertises_a_prefix_that_it_follows', hosts=True, data=watched_data,
    advert=advert(option=lambda f, octets: octets if is_own(f, octets) else None))
put('no-autonomous-flag', 'advertises_prefixes_to_make_addresses_of', hosts=True,
    advert=advert(option=lambda f, octets: octets[:3] + b'\x80' + octets[4:]))
put('lifetimes-of-its-own', 'advertises_what_is_left_of_lifetimes', hosts=True,
    advert=advert(option=lambda f, octets: octets[:4] + four(7200) + octets[8:]))
put('preferred-for-good', 'deprecates_a_departed_prefix', hosts=True,
    advert=advert(option=lambda f, octets: octets[:8] + four(max(5, number(octets[8:12]))) + octets[12:]))
put('always-a-default-router', 'is_no_default_router_without_a_way_out', hosts=True,
    advert=advert(head=lambda f, octets: octets[:6] + struct.pack('>H', 1800) + octets[8:]))
put('too-long-an-advertisement', 'sends_advertisements_that_fit', hosts=True, advert=padded_out)
put('always-flags', 'elects_a_server_of_addresses', hosts=True, advert=advert(head=lambda f, octets: octets[:5] + b'\xc0' + octets[6:]))
put('no-flags', 'elects_a_server_of_addresses', hosts=True, advert=advert(head=lambda f, octets: octets[:5] + b'\0' + octets[6:]))


# Between two links

def one_endpoint_for_all(f, d):
    if d.pair.place:
        edited(d, NODE_ENDPOINT, lambda value: value[:4] + four(f.pairs[0].device[2]) if f.pairs[0].device else value)


def second_endpoint(f, d, node, data):
    """On the second link Peers name the endpoint that is shown there; the device gets its own."""
    if not d.pair.place or not has_peer(f, data) or not d.pair.device:
        return data
    return each_of(PEER, lambda value: value[:4] + four(d.pair.device[2]) + value[8:] if value[:4] == f.id else value)(data)


def same_prefix(f, data):
    found = [pair for pair in read(data) if pair[0] == ASSIGNED]
    if len(found) < 2:
        return data
    rest = [pair for pair in read(data) if pair[0] != ASSIGNED]
    return spelled(rest + [(ASSIGNED, value[:4] + found[0][1][4:]) for _, value in found])


def of_the_other_link(f, data):
    found = [prefix_in(value) for _, value in published(f, ASSIGNED, 15) if value[4] == 4]
    return spelled([*read(data), assigned(f, found[0])]) if found else data


def storms(f, d):
    if d.multicast and is_news(f, d) or since(f, 'news') < 2 and d.multicast:
        for place in range(25):
            f.to_link(d, 0.1 * (place + 1))


put('one-endpoint-for-all', 'has_an_endpoint_for_each_link', 'judge_finds_nothing', links=2, out=one_endpoint_for_all, their=second_endpoint)
put('silent-on-the-other-link', 'passes_on_what_it_hears', links=2, out=lambda f, d: not (d.pair.place and d.multicast))
put('one-prefix-for-all', 'gives_each_link_a_prefix_of_its_own', 'assigns_no_prefixes_that_overlap', 'gives_up_what_the_other_link_has',
    'judge_finds_nothing', links=2, data=same_prefix)
put('prefix-of-the-other-link', 'heeds_a_prefix_of_the_other_link', links=2, data=of_the_other_link)
put('heeds-no-other-link', 'gives_up_what_the_other_link_has', links=2, their=from_low(True, 15))
put('storms', 'is_at_rest_in_a_ring', links=2, out=storms)

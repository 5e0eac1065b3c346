"""What the faults share that a filter gives to a sound device, one at a time, with the examination that has to find each.

A fault has hooks, which the filter calls with itself and what is on its way:

    out      a datagram of the device; False drops it
    into     a datagram to the device; False drops it
    their    node data of a neighbour: what the device gets in their place
    data     node data of the device: what the link gets in their place
    network  the network state hash of states
    advert   a Router Advertisement: what is sent in its place, as (delay, octets, hop limit)
    frame    any other packet to the device; False drops it

`also` has the examinations that may find the fault too, since what it breaks is theirs as well.
"""
import ipaddress
import time

from rulercress.tools.examining import frames, wire
from rulercress.tools.examining.wire import ASSIGNED, DELEGATED, DHCPV6, EXTERNAL, NETWORK_STATE, NODE_STATE, PEER, four, tlv


FAULTS = {}


class Fault:
    """A fault: the examination that finds it, those that may find it too, its hooks, and how many links it takes."""

    def __init__(self, examination, also=(), links=1, hosts=False, at_once=False, heedless=False, **hooks):
        self.examination, self.also, self.links, self.hosts = examination, also, links, hosts
        self.at_once, self.heedless = at_once, heedless
        for name in ('out', 'into', 'their', 'data', 'network', 'advert', 'frame'):
            setattr(self, name, hooks.pop(name, None))
        assert not hooks, hooks


def put(name, examination, *also, **hooks):
    FAULTS[name] = Fault(examination, also, **hooks)


def read(data):
    """The TLVs of node data, or none."""
    try:
        return wire.read(data)
    except ValueError:
        return []


def spelled(found):
    return b''.join(sorted({tlv(kind, value) for kind, value in found}))


def each_of(kind, edit):
    """An edit of the values of a type in node data; None takes one out."""
    def change(data):
        made = [(each, edit(value) if each == kind else value) for each, value in read(data)]
        return spelled([pair for pair in made if pair[1] is not None])
    return change


def own(kind, edit):
    """The same for data of the device."""
    change = each_of(kind, edit)
    return lambda f, data: change(data)


def theirs(kind, edit):
    """The same for data of neighbours, where anything changes."""
    change = each_of(kind, edit)

    def their(f, datagram, node, data):
        made = change(data)
        return made if any(each == kind for each, _ in read(data)) else data
    return their


def within(kind, edit):
    """An edit of the TLVs within an External-Connection."""
    return theirs(EXTERNAL, lambda value: spelled([(each, edit(inner) if each == kind else inner) for each, inner in read(value)
                                                   if each != kind or edit(inner) is not None]))


def has_option(value):
    """Whether a Delegated-Prefix has DHCPv6 data."""
    fixed = 9 + (value[8] + 7) // 8
    return any(kind == DHCPV6 for kind, _ in read(value[fixed + -fixed % 4:]))


def heed_options(f, datagram, node, data):
    """A sound device assigns nothing within a prefix with options that it does not know (RFC 7788, section 6.3.2)."""
    if not any(kind == EXTERNAL and any(each == DELEGATED and has_option(inner) for each, inner in read(value)) for kind, value in read(data)):
        return data
    return within(DELEGATED, lambda value: None if has_option(value) else value)(f, datagram, node, data)


def changed(f, datagram, node, data):
    """Node data of a neighbour, as the device gets them."""
    if not f.fault.heedless:
        data = heed_options(f, datagram, node, data)
    return f.fault.their(f, datagram, node, data) if f.fault.their else data


def published(f, kind, seconds=60):
    """The values of a type that neighbours published lately: (node, value), the latest node first."""
    found = sorted(f.last.items(), key=lambda pair: -pair[1][3])
    return [(node, value) for node, (_, _, data, moment) in found if moment > time.monotonic() - seconds for each, value in read(data) if each == kind]


def delegations(f, length=None, seconds=60):
    """The delegated prefixes that neighbours publish: (node, prefix), the latest node first."""
    found = [(node, wire.prefix_of(inner[8:])) for node, value in published(f, EXTERNAL, seconds) for kind, inner in read(value) if kind == DELEGATED]
    return [(node, prefix) for node, prefix in found if prefix and length in (None, prefix.prefixlen)]


def part(prefix, place):
    return ipaddress.ip_network((int(prefix.network_address) + (place << 64), 64))


def assigned(f, prefix, priority=2, endpoint=None):
    """A value of an Assigned-Prefix of the device."""
    return ASSIGNED, four(f.pairs[0].device[2] if endpoint is None else endpoint) + bytes([priority]) + wire.prefix_bytes(prefix)


def prefix_in(value):
    return wire.prefix_of(value[5:])


def is_news(f, datagram):
    """Whether a multicast of the device has another hash than the one before; when the last such came is remembered."""
    digest = datagram.of(NETWORK_STATE)[:1] if datagram.multicast else []
    if digest and digest != f.memory.get('digest'):
        f.memory['digest'], f.memory['news'] = digest, time.monotonic()
        return True
    return False


def watches_news(f, d):
    """Hands all on, and remembers what multicasts say."""
    is_news(f, d)


def since(f, name):
    """Seconds since something is remembered to have been."""
    return time.monotonic() - f.memory.get(name, -1e9)


def mark(f, name):
    """Seconds since this was last marked, and marks it."""
    passed = since(f, name)
    f.memory[name] = time.monotonic()
    return passed


def answers(datagram):
    return not datagram.multicast and datagram.of(NETWORK_STATE) and datagram.of(NODE_STATE)


def without(datagram, kind):
    datagram.tlvs = [pair for pair in datagram.tlvs if pair[0] != kind]


def edited(datagram, kind, edit):
    datagram.tlvs = [(each, edit(value) if each == kind else value) for each, value in datagram.tlvs]


FAULTS['sound'] = Fault(None)
FAULTS['addressed'] = Fault(None, data=lambda f, data: spelled([*read(data), (wire.ADDRESS, four(1) + frames.packed('2001:db8:99::1'))]))


def states_in(d):
    return [value for value in d.of(NODE_STATE) if len(value) >= 20] if d.tlvs else []


def drops_states(test):
    """Takes Node States out of datagrams to the device."""
    def into(f, d):
        if d.tlvs:
            d.tlvs = [(kind, value) for kind, value in d.tlvs if kind != NODE_STATE or len(value) < 20 or not test(f, d, value)]
    return into


def edits_states(edit):
    def into(f, d):
        if d.tlvs:
            edited(d, NODE_STATE, lambda value: edit(f, value) if len(value) >= 20 else value)
    return into


def has_peer(f, data, node=None):
    return any(kind == PEER and value[:4] == (node or f.id) for kind, value in read(data))

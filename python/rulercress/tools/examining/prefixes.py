"""Examinations of prefix assignment: which delegated prefixes a device uses, and which prefixes it assigns to the link."""
import ipaddress
import os
import struct
import time

from . import wire
from .catalogue import MUST, SHOULD, CannotTell, Fail, examination, want
from .neighbour import TAKEN, Neighbour
from .wire import assigned, delegated, external, tlv

BACKOFF = 4.0            # seconds at most, before a prefix is assigned (RFC 7788, section 6.3.1)
ASSIGNED = 12.0          # seconds within which it is, on a busy machine too
NOTICED = 4.0            # seconds within which a change of others' data has its effect
UNUSED = BACKOFF + 1.5   # seconds after which what was not assigned will not be
MANY, AT_ONCE = 8, 0.7   # prefixes that are delegated at once; seconds within which not all are assigned, if it is at random
ENDS = 8                 # seconds of a lifetime that ends
ELSEWHERE = 60001        # an endpoint of the examiner that is on another link
DHCPV6_OPTION = 65001    # that nobody knows


def drawn_prefix(length=56):
    """A random prefix of those for documentation (RFC 3849)."""
    octets = bytes.fromhex('20010db8') + os.urandom(4)
    return ipaddress.ip_network((octets.ljust(16, b'\0'), length), strict=False)


def part(prefix, place):
    """The /64 of a place within a prefix."""
    return ipaddress.ip_network((int(prefix.network_address) + (place << 64), 64))


def of_link(x, state, prefix):
    """The prefixes that the device assigns within a delegated one to the examiner's link."""
    return [each for each in wire.assignments(state.data) if each.endpoint == x.device.endpoint and each.prefix.subnet_of(prefix)]


def wait_assigned(x, prefix, seconds=ASSIGNED):
    """The same, as soon as there is one."""
    return x.wait(seconds, lambda: of_link(x, x.own(), prefix), pause=0.3)


def must_assign(x, prefix):
    """The prefix that the device assigns; without any the examination cannot go on."""
    found = wait_assigned(x, prefix)
    if not found:
        raise CannotTell(f'the device assigns no prefix within {prefix}')
    return found[0]


class Unused:
    """Delegated prefixes that count for nothing, all published at once beside one that counts, so that one wait serves all. Each has
    a name; of each is kept whether the device took the data with it, and what it assigned within it."""

    def __init__(self, x):
        self.prefixes = {name: drawn_prefix() for name in ('control', 'deprecated', 'option', 'bare', 'versionless', 'unreachable', 'aged')}
        self.prefixes['full'] = drawn_prefix(63)
        self.found, self.why, self.untaken = {}, None, set()
        try:
            self.watch(x, *self.publish(x))
        except CannotTell as cannot:
            self.why = str(cannot)

    def publish(self, x):
        """The neighbours that publish them: one without an HNCP-Version, one that is no mutual peer, one with old data."""
        named, option = self.prefixes, tlv(wire.DHCPV6, struct.pack('>HH', DHCPV6_OPTION, 4) + b'data')
        full = [assigned(part(named['full'], place), ELSEWHERE + place, 2) for place in (0, 1)]
        x.join(external(delegated(named['control']), delegated(named['full']), delegated(named['deprecated'], 7200, 0),
                        delegated(named['option'], more=option)), delegated(named['bare']), *full)
        versionless, unreachable, aged = (Neighbour(x.session, x.device) for _ in range(3))
        for each in (versionless, unreachable, aged):
            each.send()
        x.hear(0.1)
        versionless.publish(external(delegated(named['versionless'])), version=False)
        unreachable.publish(external(delegated(named['unreachable'])), peer=False)
        aged.answers = False
        aged.number, aged.data = 5, aged.items(external(delegated(named['aged'], 60, 60)))
        aged.born -= 90
        aged.send(aged.state())
        self.untaken = {name for name, each in (('versionless', versionless), ('aged', aged))
                        if not each.wait(TAKEN, lambda each=each: each.is_taken() or each.send(each.state()))}
        return (versionless, aged)

    def watch(self, x, *others):
        begin = time.monotonic()
        must_assign(x, self.prefixes['control'])
        while time.monotonic() < begin + UNUSED:
            x.hear(0.5)
            state = x.own()
            for name, prefix in self.prefixes.items():
                for each in wire.assignments(state.data):
                    if each.prefix.subnet_of(prefix):
                        self.found.setdefault(name, (each.prefix, state.heard))
            for each in others:
                each.send()

    def must_be(self, name):
        if self.why:
            raise CannotTell(self.why)
        if name in self.untaken:
            raise CannotTell('the device does not take the data of the examiner')
        found, heard = self.found.get(name, (None, None))
        want(not found, f'{found} is assigned within {self.prefixes[name]}', *filter(None, [heard]))


def must_not_assign(x, name):
    """Nothing is assigned within a prefix of this name, though within another one there is, and the time for it is over."""
    x.session.fact(Unused, x).must_be(name)


def gives_up(x, prefix, seconds=NOTICED + 2):
    """Whether the device publishes a prefix no longer."""
    return x.wait(seconds, lambda: not any(each.prefix == prefix for each in wire.assignments(x.own().data)))


@examination('RFC 7788, sections 6.3.1 and 6.3.2; RFC 7695, section 4.1', MUST, 8)
def assigns_a_prefix(x):
    """A device assigns a prefix of 64 bits within a delegated prefix to its link, after at most 4 s."""
    prefix = drawn_prefix()
    x.join(external(delegated(prefix)))
    found = wait_assigned(x, prefix)
    state = x.own()
    want(found, f'no prefix within {prefix} is assigned to its endpoint within {ASSIGNED:g} s', state.heard)
    want(len(found) == 1, f'{len(found)} prefixes within {prefix} are assigned to one link', state.heard)
    want(found[0].prefix.prefixlen == 64, f'{found[0].prefix} has not 64 bits', state.heard)


@examination('RFC 7788, section 6.3.1', SHOULD, 6)
def assigns_with_the_usual_priority(x):
    """A prefix is assigned with the priority 2, so that others can be preferred."""
    prefix = drawn_prefix()
    x.join(external(delegated(prefix)))
    own = must_assign(x, prefix)
    want(own.priority == 2, f'{own.prefix} is assigned with the priority {own.priority}', x.own().heard)


def last_assigned(x, count):
    """After how many seconds the last of so many delegated prefixes, all published at once, has an assignment."""
    prefixes = [drawn_prefix() for _ in range(count)]
    begin = time.monotonic()
    x.publish(external(*map(delegated, prefixes)))
    if not x.wait(ASSIGNED, lambda: all(x.assignments(prefix) for prefix in prefixes), pause=0.1):
        raise CannotTell(f'not all of {count} delegated prefixes have an assignment')
    return time.monotonic() - begin


@examination('RFC 7695, section 4.1; RFC 7788, section 6.3.1', MUST, 7)
def waits_at_random_before_it_assigns(x):
    """A prefix is assigned after a random time of 0 to 4 s, so that not all devices of a link assign at once."""
    x.join()
    passed = [last_assigned(x, MANY)]
    while passed[-1] < AT_ONCE and len(passed) < 3:
        passed.append(last_assigned(x, MANY))
    want(passed[-1] >= AT_ONCE, f'{len(passed)} times {MANY} prefixes were all assigned within {max(passed):.1f} s', x.own().heard)


@examination('RFC 7695, section 4.1; RFC 7788, section 6.3', MUST, 8)
def follows_a_published_prefix(x):
    """A device assigns no other prefix where a neighbour on the link has published one within the delegated prefix."""
    prefix = drawn_prefix()
    x.join(external(delegated(prefix)), assigned(part(prefix, 9), x.endpoint, 4))
    end = time.monotonic() + UNUSED
    while time.monotonic() < end:
        x.hear(0.5)
        state = x.own()
        found = of_link(x, state, prefix)
        want(not found, f'{found and found[0].prefix} is assigned beside {part(prefix, 9)} of the examiner', state.heard)


@examination('RFC 7695, section 4.1; RFC 7788, section 6.3.1', MUST, 10)
def gives_way_to_a_higher_priority(x):
    """A device gives its prefix up where a neighbour publishes another one for the link with a higher priority."""
    prefix = drawn_prefix()
    x.join(external(delegated(prefix)))
    own = must_assign(x, prefix)
    other = part(prefix, 5) if own.prefix != part(prefix, 5) else part(prefix, 6)
    x.publish(external(delegated(prefix)), assigned(other, x.endpoint, 15))
    want(gives_up(x, own.prefix), f'it still publishes {own.prefix}, beside {other} of a higher priority', x.own().heard)


@examination('RFC 7695, section 4.1; RFC 7788, section 6.3.1', MUST, 12)
def gives_up_a_prefix_of_another_link(x):
    """A device gives its prefix up where it is published on another link with a higher priority."""
    prefix = drawn_prefix()
    x.join(external(delegated(prefix)))
    own = must_assign(x, prefix)
    x.publish(external(delegated(prefix)), assigned(own.prefix, ELSEWHERE, 15))
    want(gives_up(x, own.prefix), f'it still publishes {own.prefix}, which another link has with a higher priority', x.own().heard)


def rival(x, is_greater):
    """A neighbour whose identifier is greater than that of the device, or less; it is another one each time."""
    x.id = b'\xff\xff\xff' + os.urandom(1) if is_greater else b'\0\0' + os.urandom(1) + b'\1'
    if (x.id > x.device.id) != is_greater:
        raise CannotTell(f'the device has the identifier {x.device.id.hex()}')
    return x


@examination('RFC 7695, section 2; RFC 7788, section 6.3', MUST, 10)
def yields_to_a_greater_identifier(x):
    """Of two equal priorities on two links that of the greater identifier is valid: a device with the lesser gives its prefix up."""
    prefix = drawn_prefix()
    rival(x, True).join(external(delegated(prefix)))
    own = must_assign(x, prefix)
    x.publish(external(delegated(prefix)), assigned(own.prefix, ELSEWHERE, own.priority))
    want(gives_up(x, own.prefix), f'it still publishes {own.prefix}, which a node with a greater identifier has elsewhere', x.own().heard)


@examination('RFC 7695, section 2; RFC 7788, section 6.3', MUST, 12)
def stands_by_its_greater_identifier(x):
    """Of two equal priorities on two links that of the greater identifier is valid: a device with the greater keeps its prefix."""
    prefix = drawn_prefix()
    rival(x, False).join(external(delegated(prefix)))
    own = must_assign(x, prefix)
    x.publish(external(delegated(prefix)), assigned(own.prefix, ELSEWHERE, own.priority))
    if not x.taken():
        raise CannotTell('the device did not take the data of the examiner')
    want(not gives_up(x, own.prefix, 3.0), f'it gave {own.prefix} up, though the identifier {x.device.id.hex()} is greater than {x.id.hex()}',
         x.own().heard)


@examination('RFC 7695, section 4.1', MUST, 12)
def takes_over_a_prefix(x):
    """Where the neighbour that had published the prefix of the link withdraws it, a device publishes it in its place."""
    prefix = drawn_prefix()
    x.join(external(delegated(prefix)), assigned(part(prefix, 9), x.endpoint, 2))
    x.hear(2.0)
    x.publish(external(delegated(prefix)))
    found = wait_assigned(x, prefix)
    state = x.own()
    want(found, f'no prefix within {prefix} is assigned within {ASSIGNED:g} s', state.heard)
    want(found[0].prefix == part(prefix, 9), f'{found[0].prefix} is assigned in place of {part(prefix, 9)}, which the link had', state.heard)


@examination('RFC 7695, section 4.1; RFC 7787, section 4.6', MUST, 12)
def takes_over_from_a_lost_node(x):
    """Where the neighbour that had published the prefix of the link is reachable no longer, a device publishes it in its place."""
    prefix, y = drawn_prefix(), Neighbour(x.session, x.device)
    x.join(external(delegated(prefix)))
    y.join(assigned(part(prefix, 11), y.endpoint, 3))
    x.hear(2.0)
    y.publish(assigned(part(prefix, 11), y.endpoint, 3), peer=False)
    found = x.wait(ASSIGNED, lambda: [each for each in of_link(x, x.own(), prefix) if each.prefix == part(prefix, 11)], pause=0.3)
    state = x.own()
    shown = of_link(x, state, prefix)
    want(found, f'{shown[0].prefix if shown else "nothing"} is assigned in place of {part(prefix, 11)}, which the link had', state.heard)


@examination('RFC 7788, section 6.3; RFC 7695, section 4.1', MUST, 8)
def drops_what_is_delegated_no_longer(x):
    """Where a delegated prefix is withdrawn, a device publishes no assignment within it any more."""
    prefix = drawn_prefix()
    x.join(external(delegated(prefix)))
    own = must_assign(x, prefix)
    x.publish()
    want(gives_up(x, own.prefix, NOTICED), f'it still publishes {own.prefix}, though {prefix} is delegated no longer', x.own().heard)


@examination('RFC 7788, sections 6.2 and 10.2.1', MUST, 14)
def drops_what_has_ended(x):
    """Where the valid lifetime of a delegated prefix ends, a device publishes no assignment within it any more."""
    prefix = drawn_prefix()
    x.join(external(delegated(prefix, ENDS, ENDS)))
    begin = time.monotonic()
    own = must_assign(x, prefix)
    if time.monotonic() > begin + ENDS - 1:
        raise CannotTell('the prefix was assigned when it was about to end')
    x.hear(max(0.0, begin + ENDS + 0.5 - time.monotonic()))
    want(gives_up(x, own.prefix, 3.0), f'it still publishes {own.prefix}, though the lifetime of {prefix} has ended', x.own().heard)


@examination('RFC 7788, section 10.2.1', MUST, 8)
def counts_lifetimes_from_the_origination(x):
    """Lifetimes count from the origination of the data: a prefix of 60 s within data of 90 s has ended."""
    must_not_assign(x, 'aged')


@examination('RFC 7788, section 6.3.2', MUST, 8)
def prefers_a_prefix_that_is_preferred(x):
    """No prefix is assigned within a deprecated delegated prefix, where another one is preferred."""
    must_not_assign(x, 'deprecated')


@examination('RFC 7788, section 6.3.2', MUST, 8)
def heeds_dhcp_options_that_it_does_not_know(x):
    """No prefix is assigned within a delegated prefix whose DHCPv6 data have an option that the device does not know."""
    must_not_assign(x, 'option')


@examination('RFC 7788, section 6.2', MUST, 8)
def uses_the_outer_of_two_prefixes(x):
    """Of a delegated prefix within another one only the outer is used: one prefix is assigned to the link, and not two."""
    outer = drawn_prefix()
    inner = ipaddress.ip_network((part(outer, 0x40).network_address, 60))
    x.join(external(delegated(outer), delegated(inner)))
    must_assign(x, outer)
    x.hear(BACKOFF + 0.5)
    state = x.own()
    found = of_link(x, state, outer)
    want(len(found) < 2, f'{len(found)} prefixes within {outer} are assigned to one link', state.heard)


@examination('RFC 7788, section 6.3', MUST, 8)
def uses_both_of_two_uplinks(x):
    """Of two delegated prefixes, of two nodes, each gives the link a prefix."""
    one, other = drawn_prefix(), drawn_prefix()
    y = Neighbour(x.session, x.device)
    x.join(external(delegated(one)))
    y.join(external(delegated(other)))
    for prefix in (one, other):
        want(wait_assigned(x, prefix), f'no prefix within {prefix} is assigned within {ASSIGNED:g} s', x.own().heard)


@examination('RFC 7788, section 6.3.2; RFC 7695, section 4.1', MUST, 8)
def chooses_a_prefix_that_is_free(x):
    """A new prefix overlaps none that is published elsewhere."""
    prefixes = [drawn_prefix(60), drawn_prefix(60)]
    taken = [part(prefix, place) for prefix in prefixes for place in range(16) if place % 4 != 2]
    x.join(external(*map(delegated, prefixes)), *[assigned(each, ELSEWHERE + place, 2) for place, each in enumerate(taken)])
    for prefix in prefixes:
        found = must_assign(x, prefix).prefix
        other = [each for each in taken if each.overlaps(found)]
        want(not other, f'{found} is assigned, which overlaps {other and other[0]} of another link', x.own().heard)


@examination('RFC 7788, section 6.3.2; RFC 7695, section 4.1', MUST, 8)
def makes_none_where_none_is_free(x):
    """Where all of a delegated prefix is published on other links, no prefix is assigned within it."""
    must_not_assign(x, 'full')


@examination('RFC 7788, sections 4 and 10.1', MUST, 8)
def heeds_nobody_without_a_version(x):
    """The delegated prefixes of a node without an HNCP-Version count for nothing."""
    must_not_assign(x, 'versionless')


@examination('RFC 7787, section 4.6; RFC 7788, section 6.2', MUST, 8)
def heeds_nobody_out_of_reach(x):
    """The delegated prefixes of a node that is not reachable count for nothing."""
    must_not_assign(x, 'unreachable')


@examination('RFC 7788, section 10.2.1', MUST, 7)
def uses_no_prefix_outside_of_an_external_connection(x):
    """A Delegated-Prefix counts within an External-Connection alone."""
    must_not_assign(x, 'bare')


@examination('RFC 7695, section 4.1', MUST, 12)
def keeps_its_prefix_while_others_come(x):
    """An assignment stays as it is while neighbours come and go, and other prefixes are published."""
    prefix, other = drawn_prefix(), drawn_prefix()
    x.join(external(delegated(prefix)))
    own = must_assign(x, prefix)
    y = Neighbour(x.session, x.device)
    y.join(external(delegated(other)))
    x.publish(external(delegated(prefix)), assigned(part(prefix, (own.prefix.network_address.packed[7] + 1) % 256), ELSEWHERE, 9))
    x.hear(3.0)
    state = x.own()
    found = [each.prefix for each in of_link(x, state, prefix)]
    if not found:
        raise Fail(f'it gave {own.prefix} up', state.heard)
    want(found == [own.prefix], f'{own.prefix} became {found[0]}', state.heard)

"""Examinations of what hosts on the link hear: Router Advertisements. They are asked for by a raw socket."""
import ipaddress
import time

from . import wire
from .catalogue import MUST, SHOULD, CannotTell, examination, want
from .neighbour import TAKEN, Neighbour
from .prefixes import drawn_prefix, must_assign, part
from .wire import BRIEF, assigned, delegated, external

ANSWERED = 4.5           # seconds: half a second of delay, three between two advertisements (RFC 4861, section 6.2.6), and some
TRIES = 3
APPLIED = 10.0           # seconds after which an assignment is applied (RFC 7788, section 6.3.3)
APPLIED_LATEST = 24.0
MOST_BYTES = 1280        # of a packet that each link takes (RFC 8200, section 5)
MANY, SOME = 20, 4
SOLICITED = 3.3          # seconds between solicitations
GONE_LATEST = 9.0        # seconds within which hosts are told what is no longer so
HIGHEST = b'\x07\x77'    # capabilities: all of 7, but for M


def is_advert(x):
    return lambda each: isinstance(each, wire.Advert) and x.session.is_of_device(each) and each.link is x.link


def advert(x, seconds=ANSWERED):
    """The next advertisement after a solicitation, or None."""
    x.link.solicit()
    return next(filter(is_advert(x), x.session.hear(seconds, is_advert(x))), None)


def must_advertise(x):
    """An advertisement of the device. Where it never sent any, it is no router for hosts."""
    if x.session.has_advertised is not False:
        for _ in range(TRIES):
            found = advert(x)
            if found:
                return found
        want(not x.session.has_advertised, f'no Router Advertisement within {ANSWERED:g} s of a solicitation, {TRIES} times')
        x.session.has_advertised = False
    raise CannotTell('it sends no Router Advertisements')


class Told:
    """What hosts are told while a neighbour with two delegated prefixes comes and goes: all advertisements with their moments, so
    that one wait serves all. Of one prefix the device assigns a part to the link, of the other the neighbour does. A second
    neighbour has a priority for DHCPv6."""

    def __init__(self, x):
        self.adverts, self.why, self.gone = [], None, None
        try:
            self.before = must_advertise(x)
            states = list(filter(None, map(x.node, x.network().states)))
            self.has_way_out = any(wire.values(state.data, wire.EXTERNAL) for state in states)
            self.has_server = any(value[3] >> 4 for state in states for value in wire.values(state.data, wire.VERSION) if len(value) >= 4)
            self.watch(x)
        except CannotTell as cannot:
            self.why = str(cannot)

    def watch(self, x):
        y, one, other = Neighbour(x.session, x.device), drawn_prefix(), drawn_prefix()
        self.elect(y)
        self.followed, self.begin = part(other, 3), time.time()
        x.join(external(delegated(one, BRIEF, BRIEF // 2), delegated(other)), assigned(self.followed, x.endpoint, 6))
        self.followed_at = time.time()
        self.own = must_assign(x, one).prefix
        self.own_at = time.time()
        self.collect(x, APPLIED_LATEST, lambda each: each.of(self.own) and each.of(self.followed) and each.lifetime)
        self.gone = time.time()
        x.publish()
        y.publish()
        self.collect(x, GONE_LATEST, lambda each: not each.lifetime and not each.managed and not each.other and
                     each.of(self.own) and not each.of(self.own).preferred)

    @staticmethod
    def elect(y):
        """Publishes a priority for DHCPv6."""
        y.send()
        y.hear(0.1)
        y.number, y.data = 5, b''.join(sorted([wire.version(capabilities=HIGHEST), wire.peer(y.device.id, y.device.endpoint, y.endpoint)]))
        if not y.wait(TAKEN, lambda: y.is_taken() or y.send(y.state())):
            raise CannotTell('the device does not take the data of the examiner')

    def collect(self, x, seconds, is_enough):
        """Puts down what is advertised, up to one that is enough. Solicitations keep asking, and the neighbour stays a peer."""
        end = time.monotonic() + seconds
        while time.monotonic() < end:
            found = advert(x, min(SOLICITED, max(0.1, end - time.monotonic())))
            if found:
                self.adverts.append(found)
                if is_enough(found):
                    return
            x.hear(0.3)
            x.own()

    def with_prefix(self, prefix):
        """The advertisements with a prefix, while it was delegated."""
        return [each for each in self.adverts if each.moment < self.gone and each.of(prefix)]

    def after(self):
        return [each for each in self.adverts if each.moment > self.gone + 0.3]


def told(x):
    found = x.session.fact(Told, x)
    if found.why:
        raise CannotTell(found.why)
    return found


@examination('RFC 4861, sections 6.1.2 and 4.2', MUST, 6)
def sends_advertisements_that_are_valid(x):
    """An advertisement is from a link-local address, with hop limit 255 and code 0, and its options have lengths."""
    found = must_advertise(x)
    want(ipaddress.ip_address(found.source).is_link_local, f'its source is {found.source}', found)
    want(found.hops == 255, f'its hop limit is {found.hops}', found)
    want(found.code == 0, f'its code is {found.code}', found)
    want(found.fault is None, f'{found.fault}', found)


@examination('RFC 4861, sections 6.2.6 and 10', MUST, 10)
def answers_a_solicitation(x):
    """A Router Solicitation is answered within half a second, or three after the last advertisement."""
    must_advertise(x)
    x.session.hear(3.2)
    late, shown = 0, []
    for _ in range(TRIES):
        begin = time.monotonic()
        found = advert(x)
        late += found is None
        shown += [found] if found else []
        x.session.hear(max(0.0, 3.3 - (time.monotonic() - begin)))
    want(late < 2, f'{late} of {TRIES} solicitations were not answered within {ANSWERED:g} s', *shown)


@examination('RFC 4861, sections 6.2.6 and 10', MUST, 10)
def waits_between_advertisements(x):
    """Two advertisements to all nodes are three seconds apart or more."""
    must_advertise(x)
    found, end = [], time.monotonic() + 7.0
    while time.monotonic() < end:
        x.link.solicit()
        found += list(filter(is_advert(x), x.session.hear(0.5)))
    for one, other in zip(found, found[1:]):
        gap = other.moment - one.moment
        want(gap > 2.8, f'{gap:.2f} s lie between two advertisements', one, other)


def must_be_applied(found, prefix, since, how):
    """The advertisements with a prefix, of which the first came 10 s after it was assigned, and not before."""
    shown = found.with_prefix(prefix)
    want(shown, f'{prefix} is not advertised {APPLIED_LATEST:g} s after it was {how}', *found.adverts[-1:])
    passed = shown[0].moment - since
    want(passed > APPLIED - 1.5, f'{prefix} is advertised {passed:.1f} s after it was {how}', shown[0])
    return shown


@examination('RFC 7788, sections 6.3.3 and 7.1; RFC 7695, section 4.3', MUST, 32)
def advertises_an_applied_prefix(x):
    """The prefix that a device assigned to the link is advertised once 10 s went by, and not before."""
    found = told(x)
    must_be_applied(found, found.own, found.own_at, 'assigned')


@examination('RFC 7788, section 6.3; RFC 7695, section 4.3', MUST, 32)
def advertises_a_prefix_that_it_follows(x):
    """A prefix that a neighbour publishes for the link is advertised too, once 10 s went by, and not before."""
    found = told(x)
    must_be_applied(found, found.followed, found.followed_at, 'published')


@examination('RFC 7788, section 7.1; RFC 4862, section 5.5.3', MUST, 32)
def advertises_prefixes_to_make_addresses_of(x):
    """A prefix of the link is advertised with 64 bits, for autonomous configuration, and as on the link."""
    found = told(x)
    shown = found.with_prefix(found.own)
    if not shown:
        raise CannotTell(f'{found.own} is not advertised')
    for each in shown:
        want(each.of(found.own).autonomous, f'{found.own} is not for autonomous configuration', each)
        want(each.of(found.own).on_link, f'{found.own} is not said to be on the link', each)


@examination('RFC 7788, section 7.1; RFC 4861, section 6.2.1', MUST, 32)
def advertises_what_is_left_of_lifetimes(x):
    """Hosts are told no longer lifetimes than what is left of those of the delegated prefix."""
    found = told(x)
    shown = found.with_prefix(found.own)
    if not shown:
        raise CannotTell(f'{found.own} is not advertised')
    for each in shown:
        passed, option = each.moment - found.begin, each.of(found.own)
        for left, most in ((option.valid, BRIEF), (option.preferred, BRIEF // 2)):
            want(left <= most - passed + 3, f'{left} s are advertised, and {most - passed:.0f} s are left', each)
        want(option.preferred <= option.valid, f'preferred for {option.preferred} s, valid for {option.valid} s', each)


@examination('RFC 9096, section 3.5; RFC 7084, section 4.3', MUST, 32)
def deprecates_a_departed_prefix(x):
    """Once a delegated prefix is withdrawn, hosts are told that its prefix is preferred no longer."""
    found = told(x)
    after = found.after()
    if not found.with_prefix(found.own) or not after:
        raise CannotTell(f'{found.own} is not advertised, or nothing is once it is withdrawn')
    shown = [each for each in after if each.of(found.own)]
    want(shown, f'{found.own} is advertised no longer, and hosts are not told that it is preferred no longer', *after[-1:])
    want(not shown[-1].of(found.own).preferred, f'{found.own} is still advertised as preferred', shown[-1])


@examination('RFC 7788, section 7.1; RFC 4861, section 6.2.1', MUST, 32)
def is_no_default_router_without_a_way_out(x):
    """The router lifetime is 0 where no node of the home has a way out, and not 0 where one has."""
    found = told(x)
    if found.has_way_out:
        raise CannotTell('a node of the home has a way out of its own')
    with_way = [each for each in found.adverts if each.moment < found.gone]
    want(found.before.lifetime == 0, f'the router lifetime is {found.before.lifetime} s, and no node has a way out', found.before)
    want(not with_way or any(each.lifetime for each in with_way), 'the router lifetime is 0, though a node has a way out', *with_way[-1:])
    after = found.after()
    want(not after or not after[-1].lifetime, f'the router lifetime is {after and after[-1].lifetime} s, and no node has a way out any more',
         *after[-1:])


@examination('RFC 7788, sections 4 and 7.1', SHOULD, 32)
def elects_a_server_of_addresses(x):
    """Where a node on the link with a priority for DHCPv6 is elected, hosts are told so by the flags M or O, and else not."""
    found = told(x)
    if found.has_server:
        raise CannotTell('a node of the home has a priority of its own')
    want(not found.before.managed and not found.before.other, 'a flag is set, though nobody has a priority', found.before)
    elected = [each for each in found.adverts if each.moment < found.gone]
    want(any(each.managed or each.other for each in elected), 'neither flag is set, though the examiner has a priority of 7', *elected[-1:])
    after = found.after()
    want(not after or not (after[-1].managed or after[-1].other), 'a flag is set still, though nobody has a priority', *after[-1:])


@examination('RFC 6980, section 5; RFC 8200, section 5', MUST, 45)
def sends_advertisements_that_fit(x):
    """An advertisement has at most 1,280 bytes, and no fragments, which hosts drop: also after many prefixes came and went."""
    must_advertise(x)
    shown = []
    for turn in range(2):
        many = [drawn_prefix() for _ in range(MANY)]
        more = external(*[delegated(each) for each in many])
        x.publish(more) if turn else x.join(more)
        found = adverts_with(x, many)
        if not any(has_some(each, many) for each in found):
            break
        shown += found
    if not shown:
        raise CannotTell(f'of {MANY} prefixes not even {SOME} are advertised')
    for each in shown:
        want(each.size <= MOST_BYTES and not each.is_fragmented, f'an advertisement of {each.size} bytes', each)


def has_some(found, many, least=SOME):
    """Whether an advertisement has parts of so many prefixes or more."""
    return sum(any(option.prefix.subnet_of(each) for option in found.options) for each in many) >= least


def adverts_with(x, many):
    """The advertisements up to one with parts of all of many prefixes. The neighbour stays a peer meanwhile."""
    end, shown = time.monotonic() + APPLIED_LATEST, []
    while time.monotonic() < end and not (shown and has_some(shown[-1], many, len(many))):
        found = advert(x, SOLICITED)
        shown += [found] if found else []
        x.own()
    return shown

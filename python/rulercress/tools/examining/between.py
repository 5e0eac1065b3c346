"""Examinations of a device between two links: tools/examine INTERFACE INTERFACE2."""
import time

from . import wire
from .catalogue import MUST, CannotTell, examination, want
from .neighbour import TAKEN
from .prefixes import ASSIGNED, UNUSED, drawn_prefix, gives_up, part
from .timing import multicasts, news
from .wire import assigned, delegated, external


def on_other_link(x):
    """A fresh neighbour on the other link of the device."""
    return x.session.neighbour(1)


def both_assigned(x, prefix):
    """The prefixes that the device assigns within a delegated one to both links, by endpoint."""
    ends = {device.endpoint for device in x.session.devices}

    def found():
        made = {each.endpoint: each for each in x.assignments(prefix) if each.endpoint in ends}
        return made if len(made) == len(ends) else None
    return x.wait(ASSIGNED, found, pause=0.3)


@examination('RFC 7788, section 3; RFC 7787, section 2', MUST, 1, links=2)
def has_an_endpoint_for_each_link(x):
    """A node has another endpoint number on each link, and one identifier."""
    one, other = x.session.devices
    want(one.id == other.id, f'its identifiers are {one.id.hex()} and {other.id.hex()}')
    want(one.endpoint != other.endpoint, f'its endpoint is {one.endpoint} on both links')


@examination('RFC 7787, sections 4.3 and 4.4', MUST, 4, links=2)
def passes_on_what_it_hears(x):
    """What a neighbour on one link publishes is announced and told on the other link."""
    y = on_other_link(x)
    x.join()
    y.join()
    x.publish(news())
    heard = multicasts(y, y.hear(2.0, lambda each: each.multicast and each.digest))
    want(heard, 'no Network State by multicast on the other link within 2 s')
    found = y.wait(TAKEN, lambda: y.holds(x.id, x.number))
    want(found, 'the data are not told on the other link', *y.network().heard)
    state = y.node(x.id)
    want(state and state.data == x.data, 'other data are told on the other link', *([state.heard] if state else []))


@examination('RFC 7695, section 4.1; RFC 7788, section 6.3', MUST, 10, links=2)
def gives_each_link_a_prefix_of_its_own(x):
    """Each link gets a prefix within a delegated one, and those of two links do not overlap."""
    prefix = drawn_prefix()
    x.join(external(delegated(prefix)))
    made = both_assigned(x, prefix)
    state = x.own()
    want(made, f'not both links have a prefix within {prefix}', state.heard)
    one, other = (each.prefix for each in made.values())
    want(not one.overlaps(other), f'the links have {one} and {other}', state.heard)


@examination('RFC 7695, section 4.1', MUST, 10, links=2)
def heeds_a_prefix_of_the_other_link(x):
    """A prefix that a neighbour publishes on one link is not used on the other."""
    prefix, y = drawn_prefix(64), on_other_link(x)
    y.join(external(delegated(prefix)), assigned(part(prefix, 0), y.endpoint, 4))
    x.join()
    end = time.monotonic() + UNUSED
    while time.monotonic() < end:
        x.hear(0.5)
        y.own()
        state = x.own()
        found = [each for each in wire.assignments(state.data) if each.prefix.overlaps(prefix) and each.endpoint == x.device.endpoint]
        want(not found, f'{prefix} of the other link is assigned to this one', state.heard)


@examination('RFC 7695, section 4.1', MUST, 14, links=2)
def gives_up_what_the_other_link_has(x):
    """A device gives the prefix of one link up where a neighbour publishes it on the other with a higher priority."""
    prefix, y = drawn_prefix(), on_other_link(x)
    x.join(external(delegated(prefix)))
    y.join()
    made = both_assigned(x, prefix)
    if not made:
        raise CannotTell(f'not both links have a prefix within {prefix}')
    own = made[x.device.endpoint].prefix
    y.publish(assigned(own, y.endpoint, 15))

    def is_gone():
        y.own()
        return gives_up(x, own, 0.1)
    want(x.wait(6.0, is_gone), f'{own} is still assigned to the first link', x.own().heard)


@examination('RFC 7787, sections 4.3 and 4.6', MUST, 8, links=2)
def is_at_rest_in_a_ring(x):
    """In a ring, where both neighbours are peers too, each node is hashed once, and news end after a few datagrams."""
    y = on_other_link(x)
    one, other = wire.peer(y.id, 71, 72), wire.peer(x.id, 72, 71)
    x.join(one)
    y.join(other)
    x.publish(one, news())
    y.send(x.state())
    if not x.taken():
        raise CannotTell('the device does not take the data of the examiner')
    begin, heard = time.monotonic(), []
    while time.monotonic() < begin + 3.0:
        heard += x.hear(0.3) + y.hear(0.3)
    answer = x.network()
    want(answer.is_right and {x.id, y.id} <= set(answer.states), 'its network is not of all three nodes', *answer.heard)
    want(len(heard) < 24, f'{len(heard)} datagrams within 3 s after nothing changed any more', *heard)

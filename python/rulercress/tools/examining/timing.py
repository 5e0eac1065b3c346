"""Examinations of when a device sends: Trickle, keep-alives, replies and requests."""
import os
import statistics
import time

from . import wire
from .catalogue import MUST, SHOULD, CannotTell, examination, want
from .wire import NETWORK_STATE, REQUEST_NETWORK, tlv

IMIN = 0.2               # seconds (RFC 7788, section 3)
DELAY = IMIN / 2         # by how much a reply or a keep-alive may be later (RFC 7787, sections 4.4 and 6.1.2)
KEEP_ALIVE = 20.0        # seconds (RFC 7788, section 3)
EARLY = 0.015            # seconds that moments may be off
BUSY = 0.25              # seconds that a busy machine may add
QUIET = 2.5              # seconds without a multicast, after which the intervals are long
SAMPLES = 16
AT_ONCE = 0.012          # seconds: replies whose median is below were not delayed by 0 to 100 ms, but once in 10,000 times


def news():
    """A TLV that nobody knows, with other contents each time."""
    return tlv(203, os.urandom(8))


def multicasts(x, heard):
    """The Network States by multicast."""
    return [each for each in heard if each.multicast and each.digest]


def rest(x):
    """Waits until Trickle has come to intervals of some seconds."""
    end = time.monotonic() + 12.0
    while time.monotonic() < end and multicasts(x, x.hear(QUIET, lambda each: each.multicast and each.digest)):
        pass


@examination('RFC 7787, section 4.3; RFC 7788, section 3', MUST, 8)
def resets_trickle(x):
    """When the network state hash changes, Trickle is reset: a Network State by multicast follows within Imin, 200 ms."""
    x.join()
    late, shown = 0, []
    for _ in range(4):
        x.hear(1.0)
        known = x.network().digest
        x.publish(news())
        heard = multicasts(x, x.hear(1.2, lambda each: each.multicast and each.digest not in (None, known)))
        new = [each for each in heard if each.digest != known]
        late += not new or new[0].moment - x.link.sent[-1][0] > IMIN + BUSY
        shown += new
    want(late < 3, f'{late} of 4 times no Network State came within {1000 * IMIN:g} ms', *shown)


@examination('RFC 6206, section 4.2; RFC 7788, section 3', MUST, 16)
def doubles_its_intervals(x):
    """The intervals of Trickle double, so that multicasts become rare while nothing changes."""
    x.join()
    x.hear(1.0)
    x.publish(news())
    begin = time.time()
    found = multicasts(x, x.hear(13.0))
    same = [each for each in found if each.digest == found[-1].digest]
    if same and same[0].moment > begin + 2.5:
        raise CannotTell('the network state hash changed in between')
    want(len(same) >= 3, f'{len(same)} multicasts within 13 s; with Imin of 200 ms there are 6', *same)
    want(len(same) <= 9, f'{len(same)} multicasts within 13 s; with intervals that double from 200 ms there are 6', *same)
    gaps = [after.moment - before.moment for before, after in zip(same, same[1:])]
    want(max(gaps) >= 2.0, f'no two multicasts are more than {max(gaps):.1f} s apart; the sixth interval has 6.4 s', *same)


@examination('RFC 6206, section 4.2; RFC 7788, section 3', MUST, 9)
def waits_for_half_an_interval(x):
    """Multicasts come in the second half of an interval of 200 ms or more: 100 ms after a change at the earliest."""
    x.join()
    found, soon = [], []
    for _ in range(6):
        x.hear(0.9)
        known = x.network().digest
        x.publish(news())
        heard = multicasts(x, x.hear(0.45))
        new = [each for each in heard if each.digest != known]
        soon += [each for each in new[:1] if each.moment - x.link.sent[-1][0] < IMIN / 2 - EARLY]
        found += heard
    want(len(soon) < 3, f'{len(soon)} of 6 times a Network State came within {1000 * (IMIN / 2 - EARLY):.0f} ms of a change', *soon)
    near = [pair for pair in zip(found, found[1:]) if pair[1].moment - pair[0].moment < IMIN / 2 - 0.06]
    want(len(near) < 2, f'{len(near)} times two multicasts came within {1000 * (IMIN / 2 - 0.06):.0f} ms', *[each for pair in near for each in pair])


@examination('RFC 6206, section 4.2, steps 3 and 4; RFC 7788, section 3', SHOULD, 8)
def hears_a_consistent_neighbour(x):
    """A Network State of a neighbour with the same hash suppresses the own one of that interval (k = 1)."""
    x.join()
    x.publish(news())
    x.taken()
    digest, found, end = x.network().digest, [], time.monotonic() + 6.5
    while time.monotonic() < end:
        x.send(tlv(NETWORK_STATE, digest), multicast=True)
        found += [each for each in multicasts(x, x.hear(0.06)) if each.digest == digest]
    if x.network().digest != digest:
        raise CannotTell('the network state hash changed in between')
    want(len(found) < 3, f'{len(found)} multicasts within 6.5 s, while another one came each 60 ms', *found)


@examination('RFC 7787, section 4.3', MUST, 11)
def lets_other_hashes_pass(x):
    """A Network State with another hash does not reset Trickle: only a change of the own hash does."""
    x.join()
    x.hear(1.0)
    rest(x)
    digest, found = x.network().digest, []
    for _ in range(6):
        x.send(tlv(NETWORK_STATE, os.urandom(8)), multicast=True)
        found += multicasts(x, x.hear(0.5))
    if any(each.digest != digest for each in found):
        raise CannotTell('the network state hash changed in between')
    want(len(found) < 4, f'{len(found)} multicasts within 3 s, each after another hash was heard', *found)


@examination('RFC 7787, section 4.3', MUST, 6)
def counts_no_other_hashes(x):
    """A Network State with another hash does not suppress the own one: only those with the own hash count."""
    x.join()
    x.hear(0.5)
    x.publish(news())
    found, end = [], time.monotonic() + 3.5
    while time.monotonic() < end:
        x.send(tlv(NETWORK_STATE, os.urandom(8)), multicast=True)
        found += multicasts(x, x.hear(0.08))
    want(len(found) >= 2, f'{len(found)} multicasts within 3.5 s of a change, while others with other hashes came', *found)


@examination('RFC 6206, section 4.2; RFC 7788, section 3', MUST, 46)
def doubles_up_to_the_longest_interval(x):
    """The intervals double seven times or more, up to 25.6 s: from 13 s after a change on multicasts are ten seconds apart."""
    x.join()
    interval = interval_of(x)
    if 0 < interval < KEEP_ALIVE:
        raise CannotTell(f'its keep-alive interval is {interval:g} s')
    x.hear(1.0)
    x.publish(news())
    begin = time.time()
    heard = []
    while time.time() < begin + 43.0:
        heard += multicasts(x, x.hear(min(9.0, max(0.1, begin + 43.0 - time.time()))))
        x.send()
    found = [each for each in heard if each.moment > begin + 13.0]
    if len({each.digest for each in found}) > 1:
        raise CannotTell('the network state hash changed in between')
    want(len(found) <= 3, f'{len(found)} multicasts came 13 to 43 s after a change; with an interval of 25.6 s, and keep-alives, there are 1 to 3', *found)


def interval_of(x):
    """The keep-alive interval that the device says of its endpoint, in seconds."""
    said = {value[:4]: wire.number(value[4:8]) / 1000 for value in x.published(wire.KEEP_ALIVE) if len(value) >= 8}
    return said.get(wire.four(x.device.endpoint), said.get(bytes(4), KEEP_ALIVE))


@examination('RFC 7787, section 6.1.2; RFC 7788, section 3', MUST, 50)
def keeps_alive(x):
    """Where Trickle is suppressed, a Network State is sent all the same each 20 s, or as often as the node says."""
    x.join()
    interval = interval_of(x)
    if not 0 < interval <= 30:
        raise CannotTell(f'its keep-alive interval is {interval:g} s')
    digest = x.network().digest
    begin = time.monotonic()
    length, found, at = 2 * interval + 5, [], []
    while time.monotonic() < begin + length:
        x.send(tlv(NETWORK_STATE, digest), multicast=True)
        heard = [each for each in x.hear(1.0) if each.digest]
        found, at = found + heard, at + [each.moment for each in heard]
    moments = [x.link.sent[0][0] if not at else at[0], *at, x.link.sent[-1][0]]
    gap = max(after - before for before, after in zip(moments, moments[1:]))
    want(found and gap <= interval + DELAY + 4 * BUSY, f'{gap:.1f} s went by without a Network State; its keep-alive interval is {interval:g} s',
         *found)


def delay_of_reply(x, multicast):
    """How long a reply to a Request Network State took, in seconds, or None."""
    request = x.name + tlv(REQUEST_NETWORK)
    x.send(tlv(REQUEST_NETWORK), multicast=multicast)
    heard = x.hear(0.6, lambda each: not each.multicast and each.digest)
    found = [each for each in heard if not each.multicast and each.digest]
    sent = [moment for moment, octets in x.link.sent if octets == request]
    x.hear(0.12)
    return found[0].moment - sent[-1] if found and sent else None


def delays(x, multicast, count):
    found = [delay_of_reply(x, multicast) for _ in range(count)]
    return [each for each in found if each is not None]


@examination('RFC 7787, section 4.4', MUST, 8)
def delays_replies_to_multicasts(x):
    """A reply to a multicast is delayed by a random time of 0 to 100 ms (Imin / 2), so that not all nodes reply at once."""
    x.send()
    for tries in range(2):
        at_once, late = delays(x, False, 6), delays(x, True, SAMPLES)
        if len(at_once) < 3 or len(late) < SAMPLES // 2:
            raise CannotTell(f'only {len(at_once)} of 6 and {len(late)} of {SAMPLES} requests were answered')
        usual, found = statistics.median(at_once), statistics.median(late)
        if found - usual > AT_ONCE:
            break
    want(found - usual > AT_ONCE, f'the median delay is {1000 * found:.0f} ms, and that of replies to unicasts {1000 * usual:.0f} ms')
    want(found - usual < DELAY + BUSY, f'the median delay is {1000 * found:.0f} ms; at most {1000 * DELAY:.0f} are allowed')
    spread = max(late) - min(late)
    want(spread > 0.015, f'all delays are {1000 * min(late):.0f} to {1000 * max(late):.0f} ms: they are not random')


@examination('RFC 7787, section 4.4', MUST, 2)
def asks_when_the_hash_differs(x):
    """A Network State by multicast with another hash is answered with a Request Network State."""
    x.join()
    for _ in range(3):
        x.hear(0.3)
        x.send(tlv(NETWORK_STATE, os.urandom(8)), multicast=True)
        heard = x.hear(1.2, lambda each: not each.multicast and each.all(REQUEST_NETWORK))
        if any(not each.multicast and each.all(REQUEST_NETWORK) for each in heard):
            return
    want(False, 'no Request Network State after three such multicasts')


@examination('RFC 7787, section 4.4', MUST, 3)
def asks_a_peer_when_the_hash_differs(x):
    """A Network State of a peer with another hash is answered with a Request Network State, also by unicast."""
    x.join()
    for _ in range(3):
        x.hear(0.3)
        x.send(tlv(NETWORK_STATE, os.urandom(8)))
        heard = x.hear(1.2, lambda each: not each.multicast and each.all(REQUEST_NETWORK))
        if any(not each.multicast and each.all(REQUEST_NETWORK) for each in heard):
            return
    want(False, 'no Request Network State after three such unicasts')


@examination('RFC 7787, section 4.4', MUST, 3)
def is_content_when_the_hash_is_the_same(x):
    """A Network State with the own hash is answered with no request."""
    x.join()
    answer = x.network()
    x.hear(0.3)
    asked = []
    for _ in range(5):
        x.send(tlv(NETWORK_STATE, answer.digest), multicast=True)
        asked += [each for each in x.hear(0.3) if each.all(REQUEST_NETWORK)]
    if x.network().digest != answer.digest:
        raise CannotTell('the network state hash changed in between')
    want(len(asked) < 2, f'{len(asked)} requests after 5 Network States with its own hash', *asked)


@examination('RFC 7787, section 4.4', MUST, 2)
def asks_once_for_each_hash(x):
    """At most one Request Network State is sent on a link for each hash within Imin, 200 ms."""
    x.send(tlv(NETWORK_STATE, os.urandom(8)), multicast=True)
    x.hear(0.5)
    state = tlv(NETWORK_STATE, os.urandom(8))
    for _ in range(10):
        x.send(state, multicast=True)
    asked = [each for each in x.hear(0.8) if each.all(REQUEST_NETWORK)]
    want(len(asked) <= 3, f'{len(asked)} requests for one hash that was sent ten times at once', *asked)

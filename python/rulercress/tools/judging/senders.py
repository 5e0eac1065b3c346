"""Who sends what, and when: sources, destinations, Node Endpoints, Trickle, keep-alives and requests."""
import collections
import functools
import ipaddress

from .rules import HNCP, Finding

GROUP = 'ff02::11'                        # All-Homenet-Nodes (RFC 7788, section 13)
IMIN, IMAX = 0.2, 25.6                    # seconds: Imin, and Imin after 7 doublings (RFC 7788, section 3)
LAG = 0.1                                 # seconds that a gateway may begin an interval late
DELAY = IMIN / 2                          # how late a keep-alive or a reply by multicast may come (RFC 7787, sections 4.4, 6.1.2)
MOST_BYTES = 4000                         # that a node has to be able to receive (RFC 7788, section 3)
KEEP_ALIVE = 20.0                         # seconds, unless the node says otherwise (RFC 7788, section 3)
MISSED = 1.5                              # keep-alive intervals without a Network State: one was lost, or not sent
FEW = 64                                  # requests or hashes of one endpoint within some hundred milliseconds; no more are counted
FIRST_OF_HNCP = 32                        # the types from here to 43 are those of RFC 7788
DATA_KINDS = (8, 9, *range(FIRST_OF_HNCP, 44))    # types that have their place within node data alone


@functools.lru_cache(maxsize=4096)
def address_of(text):
    try:
        return ipaddress.ip_address(text)
    except ValueError:
        return None


@functools.lru_cache(maxsize=4096)
def is_link_local(text):
    address = address_of(text)
    return address is not None and address.version == 6 and address.is_link_local


@functools.lru_cache(maxsize=4096)
def is_multicast(text):
    address = address_of(text)
    return address is not None and address.is_multicast


# A request: its moment, the one at which it may have been decided on, its destination, and whether it is the first to that one.
Request = collections.namedtuple('Request', 'moment decided destination is_first')


class Sender:
    """What is remembered of an endpoint that speaks from a source, or of a source that names none."""

    def __init__(self, link, source, post):
        self.link, self.source = link, source
        self.post = post           # (node, endpoint) of its Node Endpoints, or None
        self.first = None          # its first datagram
        self.last = None           # its last datagram
        self.state = None          # the last one with a Network State
        self.multicast = None      # the last one by multicast with a Network State
        self.trickle = None        # the Trickle of its last hash
        self.said = []             # (moment, hash) of its Network States
        self.asked = collections.deque(maxlen=FEW)    # its last requests
        self.knows = set()         # whom it asked


class Source:
    """An address on a link. As a rule one endpoint speaks from it, but captures of two links may have been merged."""

    def __init__(self):
        self.ports = set()         # the ports that it sent from
        self.senders = {}          # (node, endpoint), or None -> Sender
        self.post = None           # that of its last Node Endpoint
        self.moments = []          # of all its datagrams

    def hashes(self, since):
        """The hashes that it said from a moment on."""
        found = set()
        for sender in self.senders.values():
            found.update(digest for moment, digest in sender.said[-FEW:] if moment >= since)
        return found


class Trickle:
    """How long Trickle's interval is at least, since a hash was first sent (RFC 6206, section 4.2).

    Trickle is reset if the hash changes, and not otherwise (RFC 7787, section 4.3). A reset begins an interval of Imin, and the
    multicast comes in its second half. With the same hash each interval is twice the one before, up to Imax, whether something
    is sent in it or not, and no two multicasts come in one. What comes when a keep-alive is due may be one; it begins an
    interval of the same length anew (RFC 7787, section 6.1.2).
    """

    def __init__(self, moment, digest):
        self.digest = digest
        self.start, self.length = moment - IMIN / 2, IMIN    # of the interval: the latest start, the least length
        self.next = 2 * IMIN       # the interval of the next multicast, at least
        self.early = 0.0           # how much earlier it may come

    def least(self, moment):
        """How long after the last multicast one at this moment comes, at least."""
        while self.length < IMAX and self.start + self.length + LAG <= moment:
            self.start += self.length + LAG
            self.length = min(2 * self.length, IMAX)
        return max(self.length, self.next) / 2 - self.early

    def begin_anew(self, moment, early):
        """What came may be a keep-alive. The next one comes in the second half of an interval that is as long."""
        self.start, self.next, self.early = moment, self.length, early

    def sent(self, moment, maybe_keep_alive):
        if maybe_keep_alive:
            self.begin_anew(moment, DELAY)
            return
        if self.next > self.length:
            # The interval that this multicast came in is as long, and half of it or more was over.
            self.start, self.length = moment - self.next / 2, self.next
        self.next, self.early = min(2 * self.length, IMAX), 0.0


class Senders:
    """Takes the datagrams in their order, and adds what it finds."""

    def __init__(self, findings, slack, ports):
        self.findings = findings
        self.slack = slack
        self.ports = ports
        self.known = {}            # (link, address) -> Source
        self.endpoints = {}        # (link, node, endpoint) -> the source that spoke for it last
        self.sources = {}          # (link, node, endpoint) -> all that did
        self.changes = []          # (datagram, the endpoint before, the endpoint then) where a source names another one
        self.intervals = {}        # node -> {endpoint: seconds}, by the Keep-Alive Intervals of its data
        self.missed = set()        # the sources of which a keep-alive or more is not there

    def of(self, link, address):
        source = self.known.get((link, address))
        if source is None:
            source = self.known[link, address] = Source()
        return source

    def senders(self):
        """The endpoints that were heard, each from each of its sources."""
        return [sender for source in self.known.values() for post, sender in source.senders.items() if post]

    def find(self, rule, datagram, text, **more):
        self.findings.append(Finding(rule, datagram.frame, datagram.source, text, **more))

    def take_frame(self, datagram):
        """What addresses, ports and size say, of a datagram that may be cut or malformed."""
        if not is_link_local(datagram.source):
            self.find('far-source', datagram, 'the source is not link-local, so that each node ignores it')
        multicast = is_multicast(datagram.destination)
        if multicast and address_of(datagram.destination) != address_of(GROUP):
            self.find('far-destination', datagram, f'a multicast to {datagram.destination}, and not to {GROUP}')
        elif not multicast and not is_link_local(datagram.destination):
            self.find('far-destination', datagram, f'the destination {datagram.destination} is not link-local')
        self.of(datagram.link, datagram.source).ports.add(datagram.source_port)
        if datagram.port not in self.ports and datagram.port not in self.of(datagram.link, datagram.destination).ports:
            what = 'a multicast' if multicast else f'a unicast to {datagram.destination}, which sent nothing from there,'
            self.find('port', datagram, f'{what} to port {datagram.port}')
        if datagram.length > MOST_BYTES:
            self.find('long', datagram, f'{datagram.length} bytes, and a node need not be able to receive more than {MOST_BYTES}')

    def take(self, datagram, found):
        """What the items say. The answer is the sender."""
        source = self.of(datagram.link, datagram.source)
        self.take_endpoints(source, datagram, found)
        sender = source.senders.get(source.post)
        if sender is None:
            sender = source.senders[source.post] = Sender(datagram.link, datagram.source, source.post)
        for item in found:
            if item.kind in DATA_KINDS:
                text = f'a TLV of type {item.kind} at place {item.place} of the datagram, outside of node data'
                self.find('misplaced', datagram, text, sections=f'{HNCP}, section 10' if item.kind >= FIRST_OF_HNCP else None)
        states = [item.words['hash'] for item in found if item.name == 'network-state']
        if states:
            self.take_state(sender, datagram, states[-1])
        if any(item.name == 'request-network' for item in found) and not is_multicast(datagram.destination):
            self.take_request(sender, datagram)
        sender.first, sender.last = sender.first or datagram, datagram
        source.moments.append(datagram.moment)
        return sender

    # Node Endpoints

    def take_endpoints(self, source, datagram, found):
        named = False
        for item in found:
            if item.name == 'network-state' and not named:
                self.find('no-endpoint', datagram, f'a Network State at place {item.place}, and no Node Endpoint before it')
            if item.name == 'node-endpoint':
                named = True
                self.take_endpoint(source, datagram, item.words['node'], int(item.words['endpoint']))
        if found and not named and not any(item.name == 'network-state' for item in found):
            self.find('listener', datagram, 'no Node Endpoint: it asks and listens, and becomes nobody\'s peer')

    def take_endpoint(self, source, datagram, node, endpoint):
        post = node, endpoint
        if endpoint == 0:
            self.find('endpoint-zero', datagram, 'a Node Endpoint with endpoint 0', node=node)
        if source.post not in (None, post):
            self.changes.append((datagram, source.post, post))
        source.post = post
        before = self.endpoints.get((datagram.link, *post))
        if before not in (None, datagram.source):
            self.find('two-sources', datagram, f'Node Endpoint {node}/{endpoint} came from {before} before', node=node)
        self.endpoints[(datagram.link, *post)] = datagram.source
        self.sources.setdefault((datagram.link, *post), set()).add(datagram.source)

    def end(self, posts):
        """Judges the sources that named another endpoint than before. One address may be on two links whose captures were merged:
        then the data of the nodes have both endpoints, and no other source speaks for them. If the nodes are two, the one before
        goes on to speak."""
        for datagram, before, post in self.changes:
            is_merged = all(each in posts and len(self.sources[(datagram.link, *each)]) == 1 for each in (before, post))
            if not is_merged or before[0] != post[0] and not self.goes_on(datagram, before):
                text = f'Node Endpoint {post[0]}/{post[1]}, and {before[0]}/{before[1]} before'
                self.find('other-endpoint', datagram, text, node=post[0])

    def goes_on(self, datagram, post):
        return self.of(datagram.link, datagram.source).senders[post].last.moment > datagram.moment

    # Trickle and keep-alives

    def keep_alive_of(self, sender):
        """The keep-alive interval of an endpoint in seconds, 0 for none, and whether its data say so."""
        node, endpoint = sender.post or (None, None)
        said = self.intervals.get(node, {})
        seconds = said.get(endpoint, said.get(0))
        return (KEEP_ALIVE, False) if seconds is None else (seconds, True)

    def take_state(self, sender, datagram, digest):
        interval, is_said = self.keep_alive_of(sender)
        last = sender.state
        if last and interval and datagram.moment - last.moment > interval + DELAY + self.slack:
            where = '' if is_said else ', which holds where the data say nothing else'
            text = f'{datagram.moment - last.moment:.3f} s after frame {last.frame}; its keep-alive interval is {interval:g} s{where}'
            self.find('too-late', datagram, text)
        if last and interval and datagram.moment - last.moment > MISSED * interval:
            self.missed.add(datagram.source)
        sender.state = datagram
        sender.said.append((datagram.moment, digest))
        if is_multicast(datagram.destination):
            self.take_multicast(sender, datagram, digest, interval)

    def take_multicast(self, sender, datagram, digest, keep_alive):
        last, sender.multicast = sender.multicast, datagram
        gap = datagram.moment - last.moment if last else None
        maybe_keep_alive = last is None or keep_alive and gap >= keep_alive - self.slack
        if last is None or digest != sender.trickle.digest:
            if last and 0 <= gap < IMIN / 2 - self.slack:
                self.find_soon(datagram, last, IMIN / 2, 'another')
            sender.trickle = Trickle(datagram.moment, digest)
            if maybe_keep_alive:
                sender.trickle.begin_anew(datagram.moment, 0.0 if last is None else DELAY)
            return
        least = sender.trickle.least(datagram.moment)
        if 0 <= gap < least - self.slack:
            self.find_soon(datagram, last, least, 'the same')
        sender.trickle.sent(datagram.moment, maybe_keep_alive)

    def find_soon(self, datagram, last, least, which):
        gap = datagram.moment - last.moment
        text = f'a multicast {gap:.3f} s after frame {last.frame}, with {which} hash; Trickle waits {least:g} s or more'
        self.find('too-soon', datagram, text)

    # Requests

    def take_request(self, sender, datagram):
        """At most one request for each hash within Imin on a link. The first one to a destination counts for that destination
        alone, since a node may ask each one that it does not know (RFC 7787, section 4.5). What replies to a multicast may come late,
        so that it was decided on before."""
        is_first = datagram.destination not in sender.knows
        sender.knows.add(datagram.destination)
        sender.asked.append(Request(datagram.moment, self.decided(datagram), datagram.destination, is_first))
        asked = [each for each in sender.asked if each.decided > datagram.moment - IMIN + self.slack]
        since = datagram.moment - IMIN - DELAY - self.slack
        same = [each for each in asked if each.destination == datagram.destination]
        again = [each for each in asked if not each.is_first]
        for found, where in [(same, f' to {datagram.destination}'), (again, ' to nodes that it asked before')]:
            if len(found) < 2:
                continue
            hashes = set().union(*(self.of(datagram.link, address).hashes(since) for address in {each.destination for each in found}))
            if len(found) > max(1, len(hashes)):
                text = f'{len(found)} requests within {datagram.moment - found[0].moment:.3f} s{where}, for {max(1, len(hashes))} hash(es)'
                self.find('asks-often', datagram, text)
                return

    def decided(self, datagram):
        """When a request may have been decided on: with the multicast that it replies to, or else as it is sent."""
        since = datagram.moment - DELAY - self.slack
        found = [each.multicast.moment for each in self.of(datagram.link, datagram.destination).senders.values() if each.multicast]
        return min((moment for moment in found if moment >= since), default=datagram.moment)

    def heard_last(self):
        """Of each endpoint that was heard its last datagram: (node, endpoint) -> datagram."""
        found = {}
        for sender in self.senders():
            if sender.post not in found or found[sender.post].moment < sender.last.moment:
                found[sender.post] = sender.last
        return found

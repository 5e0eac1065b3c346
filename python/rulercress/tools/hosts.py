"""What a host holds after each Router Advertisement (RFC 4862, section 5.5.3), and which prefixes a link has.

The host is on the link all the time, makes one address from each prefix of 64 bits, and hears every advertisement.
"""
import ipaddress
import re

from .looks import FOREVER, SECOND

TWO_HOURS = 7200 * SECOND
AUTONOMOUS = 0x40
ENDLESS = float('inf')
ASSIGNED = re.compile(r'prefix (\S+) ep=(\d+) in=(\S+) is=(\S+) published=(\S+) applied=(yes|no)$')


class Held:
    """An address's prefix: until when it is preferred and valid, in milliseconds."""

    def __init__(self, preferred, valid):
        self.preferred = preferred
        self.valid = valid

    def state(self, moment):
        if moment >= self.valid:
            return None
        return 'preferred' if moment < self.preferred else 'deprecated'


def until(moment, lifetime):
    return ENDLESS if lifetime == FOREVER else moment + lifetime * SECOND


class Host:
    """A host of a link, by what it hears."""

    def __init__(self):
        self.held = {}    # prefix -> Held

    def hear(self, moment, advert):
        """Processes the Prefix Information options of an advertisement."""
        for data, length, flags, valid, preferred in advert.prefixes:
            if not flags & AUTONOMOUS or preferred > valid or length != 64 or data[0] == 0xfe and data[1] & 0xc0 == 0x80:
                continue      # 5.5.3 (a), (b) and (c), and what makes no address in (d)
            prefix = f'{ipaddress.IPv6Address(data)}/{length}'
            held = self.held.get(prefix)
            if held is None or moment >= held.valid:
                if valid:
                    self.held[prefix] = Held(until(moment, preferred), until(moment, valid))
                continue
            held.preferred = until(moment, preferred)
            told, left = until(moment, valid), held.valid - moment
            if told - moment > TWO_HOURS or told > held.valid:
                held.valid = told                       # 5.5.3 (e), 1
            elif left > TWO_HOURS:
                held.valid = moment + TWO_HOURS         # 5.5.3 (e), 3; what is left between them stays, by 2


class Assigned:
    """A prefix of a link at one moment: inside which delegated one, who publishes it, who has it, and who applied it."""

    def __init__(self, inside):
        self.inside = inside
        self.publishers = []
        self.members = []
        self.applied = []


def assigned(text, known={}):
    """The assignments that a report `prefixes` tells, as (endpoint, delegated prefix, prefix, priority or no, applied)."""
    if text not in known:
        found = (ASSIGNED.match(line) for line in text.split('\n'))
        known[text] = [(int(each[2]), each[3], each[4], each[5], each[6] == 'yes') for each in found if each]
    return known[text]


def link_of(attached, name, endpoint):
    """The link of an assignment: endpoint 0 is a private link of the router."""
    return f'{name} private' if endpoint == 0 else attached.get((name, endpoint))


def prefixes_of_links(play):
    """At each look where they become others: the prefixes of links, as (look, link -> prefix -> Assigned)."""
    changes = {}
    for words, runs in play.runs.items():
        if words[0] == 'prefixes':
            for look, text in runs.pairs():
                changes.setdefault(look, {})[words[1]] = text
    now, last = {}, None
    for look, attached in enumerate(play.attached):
        if look not in changes and attached is last:
            continue
        last = attached
        now.update(changes.get(look, {}))
        links = {}
        for name in play.home.routers:
            for endpoint, inside, prefix, published, applied in assigned(now.get(name) or ''):
                link = link_of(attached, name, endpoint)
                if link is None:
                    continue
                each = links.setdefault(link, {}).setdefault(prefix, Assigned(inside))
                each.members.append(name)
                each.publishers += [name] if published != 'no' else []
                each.applied += [name] if applied else []
        yield look, links


class Lane:
    """What hosts of a link hold of a prefix over time: pieces (start, state, assigned, Held at the end)."""

    def __init__(self, prefix):
        self.prefix = prefix
        self.pieces = []

    def add(self, moment, state, is_assigned, held):
        ends = (held.preferred, held.valid) if held else (0, 0)
        if self.pieces and self.pieces[-1][1:3] == [state, is_assigned]:
            self.pieces[-1][3] = ends
        elif state or self.pieces:
            self.pieces.append([moment, state, is_assigned, ends])


def hosts_of_links(play, links_at):
    """Of each link the lanes of its hosts. Where an endpoint of the link was told to advertise in time, they hear what is
    sent; elsewhere they hear each router of the link at each look, as if it advertised then."""
    links = list(play.home.links)
    hosts, lanes = {link: Host() for link in links}, {link: {} for link in links}
    links_at, now = dict(links_at), {}
    sent, at = play.sent, 0
    for look, moment in enumerate(play.looks):
        now = links_at.get(look, now)
        attached = play.attached[look]
        while at < len(sent) and sent[at][0] <= moment:
            when, name, endpoint, advert = sent[at]
            at += 1
            link = attached.get((name, endpoint))
            if link in play.home.senders:
                turn(hosts[link], lanes[link], now.get(link, {}), when)
                hosts[link].hear(when, advert)
        for (name, endpoint), advert in play.adverts[look].items():
            link = attached.get((name, endpoint))
            if link is not None and link not in play.home.senders:
                hosts[link].hear(moment, advert)
        for link in links:
            turn(hosts[link], lanes[link], now.get(link, {}), moment)
    return lanes


def turn(host, lanes, prefixes, moment):
    """Notes what a host holds at a moment, and what ended since the one before."""
    for prefix, held in host.held.items():
        lane = lanes.setdefault(prefix, Lane(prefix))
        is_assigned = prefix in prefixes
        for end, state in ((held.preferred, 'deprecated'), (held.valid, None)):
            if lane.pieces and end <= moment and lane.pieces[-1][0] <= end and lane.pieces[-1][1] and lane.pieces[-1][1] != state:
                if held.state(end) == state:
                    lane.add(end, state, lane.pieces[-1][2], held)
        lane.add(moment, held.state(moment), is_assigned, held)

"""What a router holds, made in Python from what hncp says and from the bytes of the datagrams, as `hnlook table` writes it.

The events come from `hnlook log`, which has a check of its own. As lines of a script with reports after them hncp says what the
router is after each event. What it hears is read here: its peers, the node data that it holds, and of these the delegated
prefixes, with what becomes of each by RFC 7788, sections 6.2, 10.1 and 10.2.1.
"""
import ipaddress
import struct

import common
from checks.helpers import must
from rulercress.tools import logs

NODE_ENDPOINT, NETWORK_STATE, NODE_STATE, PEER, KEEP_ALIVE, VERSION, EXTERNAL, DELEGATED = 3, 4, 5, 8, 9, 32, 33, 34
ENDLESS = 2 ** 32 - 1            # seconds
NEVER = 2 ** 64 - 1              # milliseconds
MOST_USED = 32
MOST_PEERS = 64
FORGOTTEN = 42000                # milliseconds after which a lost node goes
TOO_OLD = 2 ** 32 - 2 ** 15      # milliseconds: from data of this age no path leads on
REPORTS = 'show hash prefixes used'.split()
BEGINS = 'router start'.split()
NOBODYS = 'time link drop'.split()     # events that are of no router


# Node data

def tlvs_of(octets):
    """The TLVs of a list, as types and values; None where it is none (RFC 7787, section 7)."""
    found, at = [], 0
    while at < len(octets):
        if at + 4 > len(octets):
            return None
        kind, length = struct.unpack('>HH', octets[at:at + 4])
        end = at + 4 + length
        if len(octets) < end + -end % 4 or any(octets[end:end + -end % 4]):
            return None
        found.append((kind, octets[at + 4:end]))
        at = end + -end % 4
    return found


def has_subs(value, end):
    """Whether what follows the fields is nothing, or zeros up to a multiple of 4 and a list of TLVs."""
    start = end + -end % 4
    return len(value) == end or len(value) >= start and not any(value[end:start]) and tlvs_of(value[start:]) is not None


def delegation_of(value):
    """The prefix and the lifetimes of a Delegated-Prefix (RFC 7788, section 10.2.1); None where it does not decode."""
    if len(value) < 9 or value[8] > 128:
        return None
    end = 9 + (value[8] + 7) // 8
    address = int.from_bytes(value[9:end] + bytes(25 - end), 'big')
    if len(value) < end or address << value[8] & 2 ** 128 - 1 or not has_subs(value, end):
        return None
    return (ipaddress.IPv6Network((address, value[8])), *struct.unpack('>II', value[:8]))


def is_text(octets):
    try:
        return octets.decode() is not None
    except UnicodeDecodeError:
        return False


class Data:
    """Node data, read: their peers, intervals and delegated prefixes, and whether there is an HNCP-Version."""

    def __init__(self, octets):
        self.octets = octets
        self.peers, self.intervals, self.delegations, self.has_version = set(), {}, [], False
        for kind, value in tlvs_of(octets):
            if kind == PEER and len(value) >= 12 and has_subs(value, 12):
                self.peers.add(struct.unpack('>III', value[:12]))
            elif kind == KEEP_ALIVE and len(value) >= 8 and has_subs(value, 8):
                self.intervals.setdefault(*struct.unpack('>II', value[:8]))
            elif kind == VERSION:
                self.has_version |= len(value) >= 4 and is_text(value[4:])
            elif kind == EXTERNAL:
                inner = [delegation_of(sub) for kind, sub in tlvs_of(value) or [] if kind == DELEGATED]
                self.delegations += [each for each in inner if each]

    def interval(self, endpoint):
        """How often a peer says that it is there (RFC 7787, section 6.1.5; RFC 7788, section 3)."""
        return self.intervals.get(endpoint, self.intervals.get(0, 20000))


def reach_of(own, bodies, old):
    """The identifiers that are reachable from an own one: each says the next a peer, and it says the same back (RFC 7787,
    section 4.6). No path leads on from old data."""
    reached, waiting = {own}, [own]
    while waiting:
        here = waiting.pop()
        for node, far, near in bodies[here].peers if here not in old else []:
            if node in bodies and node not in reached and (here, near, far) in bodies[node].peers:
                reached.add(node)
                waiting.append(node)
    return reached


# What a router heard

class Held:
    """A node that is held."""

    def __init__(self, state, moment, before):
        self.number, self.age, self.digest, self.data = state[1], state[2], state[3], Data(state[4])
        self.since, self.lost = moment, before and before.lost

    def renumber(self, state, moment):
        self.number, self.age, self.since = state[1], state[2], moment

    def age_at(self, moment):
        return self.age + moment - self.since


class Replay:
    """What a router came to by its events, one after another, from the bytes that it heard and the reports of hncp."""

    def __init__(self, events, name):
        self.log, self.name = events.log, name
        self.ports = {}       # endpoint -> (node, endpoint) of each peer -> when it was last heard, and where it sends from
        self.table = {}       # the nodes that are held
        self.since = {}       # pair of an endpoint and a delegated prefix -> the prefix that it has, and since when
        self.ticked = None, None, None    # place and moment of the last tick, and what hncp said after it
        self.is_private_new = False       # whether there was a line `private` since
        said = events.said_after_each(name)
        for place, event in enumerate(self.log.events):
            if event.word != 'stop' and events.is_at(event, name):
                self.moment = event.moment
                getattr(self, 'on_' + event.word, self.on_other)(event)
                self.born = event.moment if event.published or event.word in BEGINS else self.born
                self.now = said[place]
                self.refresh()
                if event.word == 'tick':
                    self.ticked, self.is_private_new = (place, self.moment, self.now), False
                elif event.word in BEGINS:
                    self.ticked = None, None, None
                elif event.word == 'private':
                    self.is_private_new = True
        self.runs = self.log.home.running[name]

    def refresh(self):
        """What follows each event: who is reached, since when others are not, and since when there are which assignments."""
        assigned = {(each['ep'], each['in']): each['is'] for each in self.now.assigned}
        self.since = {pair: self.since[pair] if self.since.get(pair, (None,))[0] == prefix else (prefix, self.moment)
                      for pair, prefix in assigned.items()}
        self.mark()

    def mark(self):
        own = Data(b'')
        own.peers = {(node, far, near) for near, peers in self.ports.items() for node, far in peers}
        bodies = {node: held.data for node, held in self.table.items()}
        old = {node for node, held in self.table.items() if held.age_at(self.moment) >= TOO_OLD}
        self.reach = reach_of(self.now.id, {**bodies, self.now.id: own}, old)
        for node, held in self.table.items():
            held.lost = None if node in self.reach else self.moment if held.lost is None else held.lost

    def on_other(self, _):
        pass

    def on_attach(self, event):
        self.ports[int(event.words[2])] = {}

    def on_detach(self, event):
        del self.ports[int(event.words[2])]

    def on_start(self, _):
        self.table, self.since = {}, {}
        self.ports = {endpoint: {} for endpoint in self.ports}

    def on_tick(self, event):
        """Silent peers go, then nodes that were lost long ago (RFC 7787, sections 4.6 and 6.1.5)."""
        for peers in self.ports.values():
            for peer in [peer for peer, (contact, _) in peers.items() if self.is_keep_alive_due(peer, contact)]:
                del peers[peer]
        self.mark()
        self.table = {node: held for node, held in self.table.items() if held.lost is None or held.lost + FORGOTTEN > event.moment}

    def is_keep_alive_due(self, peer, contact):
        node, far = peer
        interval = self.table[node].data.interval(far) if node in self.table else 20000
        return 0 < interval and 21 * interval <= 10 * (self.moment - contact)

    def on_deliver(self, event):
        copy = self.log.copies[int(event.words[1]) - 1]
        place = self.log.home.place(copy.sender[0])
        self.hear(event, copy.receiver[1], copy.data, copy.multicast, str(ipaddress.ip_address(f'fe80::{place:x}:0:{copy.sender[1]:x}')))

    def on_inject(self, event):
        _, _, endpoint, way, source, _, text = event.words
        if ipaddress.ip_address(source).is_link_local:
            self.hear(event, int(endpoint), logs.bytes_of(text), way == 'multi', source)

    def hear(self, event, endpoint, octets, multicast, source):
        """A datagram from a link-local address (RFC 7787, sections 4.4 and 7.2)."""
        sender, peers = None, self.ports[endpoint]
        answers = iter([each.split(' ')[2:] for each in event.notes if each.split(' ')[2] in ('took', 'own')])
        for kind, value in tlvs_of(octets) or []:
            if kind == NODE_ENDPOINT and sender is None and len(value) >= 8 and has_subs(value, 8):
                node, far = struct.unpack('>II', value[:8])
                if far and node != self.now.id:
                    sender = node, far
                    if not multicast and (sender in peers or len(peers) < MOST_PEERS):
                        peers[sender] = event.moment, source
            elif kind == NETWORK_STATE and value[:8].hex() == self.now.digest and len(value) >= 8 and sender in peers:
                peers[sender] = event.moment, peers[sender][1]
            elif kind == NODE_STATE and len(value) >= 20:
                self.take((*struct.unpack('>III', value[:12]), value[12:20], value[20:]), next(answers), event.moment)

    def take(self, state, answer, moment):
        """A Node State, by what the router notes of it."""
        if answer[0] == 'took' and answer[2] == 'kept':
            self.table[state[0]] = Held(state, moment, self.table.get(state[0]))
        elif answer[0] == 'took' and answer[2] == 'renumbered':
            self.table[state[0]].renumber(state, moment)


# What hncp says

class Said:
    """What hncp says of a router after an event."""

    def __init__(self):
        self.assigned, self.used = [], []

    def published(self):
        """The pairs of a delegated prefix and an endpoint, and whether their assignments are published."""
        return {(each['in'], int(each['ep'])): each['published'] != 'no' for each in self.assigned}

    def wanted(self):
        """The delegated prefixes that are used and wanted: not those that are deprecated beside others that are not (RFC 7788,
        section 6.3)."""
        fresh = [each for each in self.used if not each.endswith(' preferred=0')]
        return [each.split(' ')[1] for each in fresh or self.used]

    def read(self, line):
        kind, _, *words = line.split(' ')
        fields = dict(word.split('=', 1) for word in words if '=' in word)
        if kind == 'show':
            self.id, self.number, self.reach, self.held = int(fields['id'], 16), *(int(fields[each]) for each in ('number', 'reach', 'held'))
        elif kind == 'hash':
            self.digest = words[0]
        elif kind == 'prefix':
            self.assigned.append(fields)
        elif kind == 'use':
            self.used.append(' '.join(['used', *words]))


class Events:
    """The events of a home as lines of a script. Which random words are drawn stays the same, since no copy is lost."""

    def __init__(self, texts):
        self.log = logs.Log(common.look(['log'], texts))
        self.head = [text for text in texts if text.startswith(('hncp ', 'seed '))]
        self.lines = [self.line_of(event) for event in self.log.events]

    def line_of(self, event):
        words = event.words
        if event.word == 'inject':
            words = [*words[:3], words[3] if ipaddress.ip_address(words[4]).is_link_local else 'far', words[6]]
        elif event.word == 'addresses':
            words = ['address', words[1]]
        return ' '.join(words)

    def is_at(self, event, name):
        """Whether an event is one of a router."""
        if event.word == 'deliver':
            return self.log.copies[int(event.words[1]) - 1].receiver[0] == name
        return event.word not in NOBODYS and event.words[1] == name

    def said_after_each(self, name):
        """Of each event at a router, while it runs: what hncp says of it then."""
        texts, marks, runs = list(self.head), [], False
        for place, (event, line) in enumerate(zip(self.log.events, self.lines)):
            texts.append(line)
            if self.is_at(event, name):
                runs = event.word != 'stop' and (runs or event.word in BEGINS)
                if runs:
                    texts += [f'{word} {name}' for word in REPORTS]
                    marks.append(place)
        said, places = {}, iter(marks)
        for line in self.play(texts):
            if line.startswith(f'show {name} '):
                now = said[next(places)] = Said()
            if not line.startswith('note '):
                now.read(line)
        return said

    def ticked_at(self, place, name, moment):
        """What hncp says of a router after a tick at a moment, if nothing else happens after the event at a place."""
        now = Said()
        transcript = self.play([*self.head, *self.lines[:place + 1], f'time {moment}', f'tick {name}', f'prefixes {name}', f'used {name}'])
        for line in transcript:
            if not line.startswith('note '):
                now.read(line)
        return now

    @staticmethod
    def play(texts):
        transcript = common.play(texts)
        must(common.refusal(transcript) is None, f'the events are refused as a script: {transcript[-1:]}')
        return transcript


# The table

def remaining(age, seconds):
    """What is left of a lifetime, in milliseconds."""
    return NEVER if seconds == ENDLESS else max(0, 1000 * seconds - age)


def seconds_of(milliseconds):
    return ENDLESS if milliseconds == NEVER else milliseconds // 1000


def order_of(prefix):
    return prefix.network_address, prefix.prefixlen


class Delegations:
    """The delegated prefixes of the nodes that a router sees, with the age of their data, and what becomes of each."""

    def __init__(self, seen):
        self.seen = seen             # (identifier, age, data), in ascending order
        self.candidates = {}         # prefix -> what is left of its lifetimes, by each of its announcements
        for _, age, data in seen:
            for prefix, valid, preferred in data.delegations if data.has_version else []:
                if prefix.prefixlen <= 64 and remaining(age, valid):
                    self.candidates.setdefault(prefix, []).append((remaining(age, valid), remaining(age, preferred)))
        outermost = [each for each in self.candidates if not self.outers(each)]
        self.used = sorted(outermost, key=order_of)[:MOST_USED]

    def outers(self, prefix):
        """The other candidates that have a prefix inside."""
        return [each for each in self.candidates if each != prefix and prefix.subnet_of(each)]

    def fate(self, age, data, delegation):
        """Whether it is used, and else the first cause why not."""
        prefix, valid, _ = delegation
        if not data.has_version:
            return 'used=no why=no-version'            # RFC 7788, section 10.1
        if not remaining(age, valid):
            return 'used=no why=ended'                 # section 10.2.1
        if prefix.prefixlen > 64:
            return 'used=no why=long'
        outers = self.outers(prefix)                   # section 6.2
        if outers:
            return f'used=no why=inside outer={outers[0]}'
        return 'used=yes' if prefix in self.used else 'used=no why=past-32'

    def lines(self):
        for node, age, data in self.seen:
            yield from (delegated_line(node, each, self.fate(age, data, each)) for each in data.delegations)

    def used_lines(self):
        for prefix in self.used:
            valid, preferred = (max(each) for each in zip(*self.candidates[prefix]))
            yield f'used {prefix} valid={seconds_of(valid)} preferred={seconds_of(min(valid, preferred))}'


def delegated_line(node, delegation, fate):
    prefix, valid, preferred = delegation
    return f'delegated {prefix} node={node:08x} valid={valid} preferred={preferred} {fate}'


def data_lines(node, octets):
    return [f'data {node:08x}', *(common.decode(octets.hex()) if octets else ['tlvs 0'])]


def table_of(replay, own, backoffs):
    """The lines of the table, where these are the router's own node data and the lines of its backoffs."""
    now, name = replay.now, replay.name
    yield (f'table {name} node={now.id:08x} number={now.number} hash={now.digest} moment={replay.moment} '
           f'running={"yes" if replay.runs else "no"}')
    for near, peers in sorted(replay.ports.items()):
        for (node, far), (contact, source) in peers.items():
            yield f'peer ep={near} node={node:08x} of={far} contact={contact} at={source}'
    held = sorted(replay.table.items())
    for node, each in held:
        lost = 'yes' if each.lost is None else f'no lost={each.lost}'
        yield f'node {node:08x} number={each.number} hash={each.digest.hex()} age={each.age} since={each.since} reachable={lost}'
    for each in now.assigned:
        since = replay.since[each['ep'], each['in']][1]
        yield f'assigned ep={each["ep"]} in={each["in"]} is={each["is"]} since={since} applied={each["applied"]} published={each["published"]}'
    yield from backoffs
    seen = sorted([(now.id, replay.moment - replay.born, Data(own))]
                  + [(node, each.age_at(replay.moment), each.data) for node, each in held if each.lost is None],
                  key=lambda entry: entry[0])
    delegations = Delegations(seen)
    yield from delegations.lines()
    for node, each in held:
        if each.lost is not None:
            yield from (delegated_line(node, one, 'used=no why=unreachable') for one in each.data.delegations)
    yield from delegations.used_lines()
    yield from data_lines(now.id, own)
    for node, each in held:
        yield from data_lines(node, each.data.octets)

"""What Node States say: numbers, hashes, ages, and the data of nodes."""
import functools
import ipaddress
import re

from .. import items
from .rules import DNCP, HNCP, Finding
from .senders import DATA_KINDS, is_multicast

HEAD, FIELDS = 4, 20                 # bytes of type and length, and of the fields of a Node State
TOGETHER = 0.1                       # seconds within which the parts of one answer follow each other
ENDLESS = 2 ** 32 - 1                # a lifetime that never ends
OLDEST = 2 ** 32 - 2 ** 15           # milliseconds (RFC 7787, section 4.6)
AGE_SLACK, AGE_DRIFT = 1.0, 0.002    # seconds that an age may be off, and by how much of the time that went by
FLOODING = 5.0                       # seconds until new data are everywhere, and nobody shows the old ones any more
RESERVED_CAPABILITY = 8
NO_SCOPE = [ipaddress.ip_network(each) for each in ('fe80::/10', 'ff00::/8', '::ffff:169.254.0.0/112', '::ffff:224.0.0.0/100')]
LAST_OF_ALL = 32                     # types above this count beside an HNCP-Version alone (RFC 7788, section 4)


def is_older(one, other):
    """Whether one number is older than the other; numbers wrap (RFC 7787, section 4.4)."""
    return one != other and (one - other) % 2 ** 32 >= 2 ** 31


def walk(found):
    for item in found:
        yield item
        if item.below:
            yield from walk(item.below)


class State:
    """A Node State as a datagram shows it."""
    __slots__ = ('node', 'number', 'age', 'digest', 'frame', 'moment', 'source', 'item', 'octets', 'version', 'key')

    def __init__(self, datagram, item):
        self.node = item.words['node']
        self.number, self.age = int(item.words['number']), int(item.words['age']) / 1000
        self.digest = item.words['hash']
        self.frame, self.moment, self.source = datagram.frame, datagram.moment, datagram.source
        self.item = item
        at = item.place + HEAD
        self.octets = datagram.payload[at + FIELDS:at + item.length]
        self.version = self.node, self.number, self.digest
        self.key = self.node, self.digest     # what names the data: a node may publish the same ones under a new number

    @property
    def part(self):
        """What a network state hash is made of."""
        return bytes.fromhex(self.node), self.number.to_bytes(4, 'big'), bytes.fromhex(self.digest)


class Data:
    """The data of a node, with the state that showed them first: what a home is judged by."""

    def __init__(self, state):
        self.state = state
        self.below = state.item.below

    def named(self, name):
        return [item.words for item in self.below if item.name == name]

    def peers(self):
        """The peers: node, its endpoint, the own one."""
        return {(words['node'], int(words['endpoint']), int(words['own'])) for words in self.named('peer')}

    def posts(self):
        """The own endpoints that they name."""
        named = [words['own'] for words in self.named('peer')]
        named += [words['endpoint'] for name in ('assigned', 'address', 'keep-alive') for words in self.named(name)]
        return {(self.state.node, int(number)) for number in named}

    @functools.cached_property
    def intervals(self):
        """The Keep-Alive Intervals in seconds, by endpoint; the first of an endpoint counts."""
        return {int(words['endpoint']): int(words['interval']) / 1000 for words in reversed(self.named('keep-alive'))}

    @functools.cached_property
    def delegated(self):
        """The delegated prefixes, each with both lifetimes in seconds."""
        return [(item.words['prefix'], int(item.words['valid']), int(item.words['preferred']))
                for external in self.below if external.name == 'external' for item in external.below if item.name == 'delegated']


class Answer:
    """An answer to a Request Network State, perhaps in several datagrams."""

    def __init__(self, datagram, digest):
        self.datagram, self.digest = datagram, digest
        self.moment = datagram.moment
        self.states = []

    def is_right(self):
        """Whether the hash is that of the states, or of those without data: other answers may stand beside them."""
        for states in (self.states, [each for each in self.states if not each.octets]):
            parts = {state.node: state.part for state in states}
            if items.hash_of(items.network_state(parts.values())).hex() == self.digest:
                return True
        return False


class States:
    """Takes the Node States in their order, and adds what it finds."""

    def __init__(self, findings, senders):
        self.findings = findings
        self.senders = senders
        self.hashes = {}       # (node, number) -> {hash: frame}
        self.shown = {}        # (link, source, node) -> the greatest number that it showed since one fell, and when it did so first
        self.origins = {}      # (node, number, hash) -> the first state
        self.versions = {}     # node -> the first state of each of its numbers and hashes, as they came
        self.data = {}         # (node, hash) -> Data
        self.posts = set()     # (node, endpoint) for each endpoint that node data name as an own one
        self.latest = {}       # node -> State
        self.answers = {}      # (link, source, destination) -> Answer
        self.told = set()

    def find(self, rule, state, text, **more):
        self.findings.append(Finding(rule, state.frame, state.source, text, node=state.node, **more))

    def once(self, rule, state, text, about):
        """Adds a finding on the data of a node once, whoever shows them again."""
        if (rule, state.version, about) not in self.told:
            self.told.add((rule, state.version, about))
            self.find(rule, state, text)

    def take(self, datagram, found):
        states = [State(datagram, item) for item in found if item.name == 'node-state']
        post = self.senders.of(datagram.link, datagram.source).post if states else None
        for state in states:
            if state.age * 1000 >= OLDEST:
                self.find('too-old', state, f'the age is {state.age:.3f} s; from {OLDEST / 1000:.3f} s on the data no longer count')
            else:
                self.take_state(datagram, state, post)
        if not is_multicast(datagram.destination):
            digests = [item.words['hash'] for item in found if item.name == 'network-state']
            self.take_answer(datagram, digests[-1:], states)

    def take_state(self, datagram, state, post):
        self.take_number(datagram, state, post)
        self.take_hash(state)
        if state.octets:
            self.take_data(datagram, state)
        self.take_age(state)
        self.take_lifetimes(state)

    def take_number(self, datagram, state, post):
        """What the number says, in a datagram of the endpoint `post`."""
        key = datagram.link, datagram.source, state.node
        before, since = self.shown.get(key, (None, None))
        is_own = post is not None and post[0] == state.node
        falls = before is not None and is_older(state.number, before)
        if falls and state.moment - since > self.senders.slack:
            why = 'its own number; it began anew, or another node has its identifier' if is_own else 'of what it knows of the node'
            self.find('number-falls', state, f'number {state.number} after {before}, {why}')
        if before is None or state.number != before and (not falls or state.moment - since > self.senders.slack):
            self.shown[key] = state.number, state.moment
        latest = self.latest.get(state.node)
        if latest is None or is_own or not is_older(state.number, latest.number):
            self.latest[state.node] = state
            if state.key in self.data:
                self.senders.intervals[state.node] = self.data[state.key].intervals

    def take_hash(self, state):
        known = self.hashes.setdefault((state.node, state.number), {})
        if known and state.digest not in known:
            other, frame = next(iter(known.items()))
            self.find('two-hashes', state, f'number {state.number} with the hash {state.digest}, and with {other} in frame {frame}')
        known.setdefault(state.digest, state.frame)

    def take_age(self, state):
        origin, first = state.moment - state.age, self.origins.get(state.version)
        if first is None:
            first = self.origins[state.version] = state
            self.versions.setdefault(state.node, []).append(state)
        off, since = origin - (first.moment - first.age), abs(state.moment - first.moment)
        if abs(off) > AGE_SLACK + self.senders.slack + AGE_DRIFT * since:
            way = 'less' if off > 0 else 'more'
            text = (f'number {state.number} is {state.age:.3f} s old, {abs(off):.3f} s {way} than frame {first.frame} says '
                    f'({first.age:.3f} s, {state.moment - first.moment:.3f} s before)' + ('; or it was published twice' if off > 0 else ''))
            self.find('age', state, text)
            self.origins[state.version] = state

    def take_data(self, datagram, state):
        made = items.hash_of(state.octets).hex()
        if made != state.digest:
            self.find('data-hash', state, f'number {state.number} has the hash {state.digest}, and its data give {made}')
        elif state.key not in self.data and 'body' not in state.item.words:
            data = self.data[state.key] = Data(state)
            self.posts |= data.posts()
            self.senders.intervals[state.node] = data.intervals
        if 'body' not in state.item.words:
            self.take_items(datagram, state)

    def take_items(self, datagram, state):
        """What the items within the data say, each found once."""
        below = state.item.below
        self.take_order(datagram, state)
        counted = [item.kind for item in below if item.kind > LAST_OF_ALL and item.kind in DATA_KINDS]
        if not any(item.name == 'version' for item in below):
            ignored = f'; others ignore its TLVs of the types {", ".join(map(str, sorted(set(counted))))}' if counted else ''
            self.once('no-version', state, f'number {state.number} has no HNCP-Version{ignored}', '')
        for item in below:
            if item.kind < 6 or item.kind == 34:
                where = f'{DNCP}, section 7' if item.kind < 6 else f'{HNCP}, section 10.2.1'
                text = f'a TLV of type {item.kind} at place {item.place} of the datagram, directly within node data'
                self.misplaced(state, text, where)
        for item in walk(below):
            value = datagram.payload[item.place + HEAD:item.place + HEAD + item.length]
            if item.name == 'peer' and '0' in (item.words['endpoint'], item.words['own']):
                self.once('endpoint-zero', state, f'a Peer of node {item.words["node"]} with endpoint 0', item.words['node'])
            if item.name == 'version':
                self.take_version(state, item, value)
            if item.name == 'assigned' and value[4] & 0xf0:
                self.once('reserved', state, f'reserved bits of the Assigned-Prefix {item.words["prefix"]} are set', item.words['prefix'])
            self.take_words(state, item)

    def take_order(self, datagram, state):
        """The data are a set, whose TLVs ascend by all of their bytes, so that nodes with the same ones have the same hash."""
        octets = [datagram.payload[item.place:item.place + HEAD + item.length] for item in state.item.below]
        for item, before, after in zip(state.item.below[1:], octets, octets[1:]):
            if after <= before:
                how = 'is there twice' if after == before else 'stands behind a greater one'
                self.once('order', state, f'the TLV of type {item.kind} at place {item.place} of the datagram {how}', '')
                return

    def take_words(self, state, item):
        """What the fields of an item say that cannot be."""
        words = item.words
        if item.name == 'peer' and words['node'] == state.node:
            text = f'the Peer {words["node"]}/{words["endpoint"]} of endpoint {words["own"]} is the node itself'
            self.once('own-peer', state, text, (words['endpoint'], words['own']))
        if item.name in ('assigned', 'delegated') and not has_scope(words['prefix']):
            kind = {'assigned': 'Assigned-Prefix', 'delegated': 'Delegated-Prefix'}[item.name]
            text = f'the {kind} {shown(words["prefix"])} is of link-local or multicast addresses'
            self.once('scope', state, text, (item.name, words['prefix']))
        if item.name == 'external':
            self.take_external(state, item)
        if item.name == 'delegated' and int(words['preferred']) > int(words['valid']):
            text = f'{shown(words["prefix"])} is preferred for {words["preferred"]} s, and valid for {words["valid"]} s'
            self.once('preferred', state, text, words['prefix'])

    def take_external(self, state, item):
        """Two prefixes that overlap are neighbours in their order, since one is inside the other."""
        found = sorted(network(each.words['prefix']) for each in item.below if each.name == 'delegated')
        for one, other in zip(found, found[1:]):
            if other.subnet_of(one):
                text = f'{shown(str(one))} and {shown(str(other))} of one External-Connection overlap'
                self.once('delegated-overlap', state, text, text)
                return

    def misplaced(self, state, text, where):
        if ('misplaced', state.version, text) not in self.told:
            self.told.add(('misplaced', state.version, text))
            self.find('misplaced', state, text, sections=where)

    def take_version(self, state, item, value):
        high = [f'{name.upper()}={item.words[name]}' for name in 'mphl' if int(item.words[name]) >= RESERVED_CAPABILITY]
        if high:
            self.once('capability', state, f'{" ".join(high)} of the HNCP-Version; 8 to 15 are reserved', '')
        if any(value[:2]):
            self.once('reserved', state, 'reserved bits of the HNCP-Version are set', 'version')

    def take_lifetimes(self, state):
        """Lifetimes count from the origination of the data: a state without the data tells their age too."""
        known = self.data.get(state.key)
        for prefix, valid, _ in known.delegated if known else []:
            left = valid - state.age
            if valid != ENDLESS and left <= -FLOODING:
                text = f'{shown(prefix)} was valid for {valid} s, and number {state.number} is {state.age:.3f} s old: it ended {-left:.3f} s ago'
                self.once('ended', state, text, prefix)

    # Network state hashes

    def take_answer(self, datagram, digests, states):
        key = datagram.link, datagram.source, datagram.destination
        answer = self.answers.get(key)
        if digests or answer and datagram.moment - answer.moment > TOGETHER:
            self.close(key)
            answer = None
        if digests:
            answer = self.answers[key] = Answer(datagram, digests[0])
        if answer and states:
            answer.states += states
            answer.moment = datagram.moment
            if answer.is_right():
                del self.answers[key]

    def close(self, key):
        """Ends an answer, whose hash none of its parts came to."""
        answer = self.answers.pop(key, None)
        if answer and answer.states:
            states = {state.node for state in answer.states}
            text = f'the network state hash {answer.digest} is not that of the {len(states)} Node State(s) of the answer'
            self.findings.append(Finding('network-hash', answer.datagram.frame, answer.datagram.source, text))

    def end(self):
        for key in list(self.answers):
            self.close(key)


@functools.lru_cache(maxsize=4096)
def network(text):
    return ipaddress.ip_network(text)


@functools.lru_cache(maxsize=4096)
def has_scope(text):
    """Whether a prefix is of addresses that hosts can have beyond a link: none of link-local or multicast ones (RFC 4291, sections
    2.5.6 and 2.7; RFC 3927; RFC 5771)."""
    prefix = network(text)
    return not any(prefix.prefixlen >= each.prefixlen and prefix.network_address in each for each in NO_SCOPE)


def shown(text):
    """A prefix or an address, as IPv4 where it is IPv4-mapped (RFC 4291, section 2.5.5.2)."""
    address, _, length = text.partition('/')
    found = re.match(r'::ffff:([0-9a-f]{1,4}):([0-9a-f]{1,4})$', address)
    if found and (not length or int(length) >= 96):
        high, low = (int(each, 16) for each in found.groups())
        octets = high >> 8, high & 255, low >> 8, low & 255
        return '.'.join(map(str, octets)) + (f'/{int(length) - 96}' if length else '')
    return text

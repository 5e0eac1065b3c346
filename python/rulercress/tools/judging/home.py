"""The home at the end of a capture: which nodes, peers, links and prefixes, and what does not fit."""
from .. import items
from .groups import Groups
from .rules import Finding
from .senders import KEEP_ALIVE
from .states import ENDLESS, FLOODING, has_scope, network, shown, walk

SILENCE = 2.1     # keep-alive intervals after which a peer is gone (RFC 7788, section 3)
REST = 10.0       # seconds after which an assignment is applied, if nobody objects (RFC 7695, section 4.3; RFC 7788, section 6.3.3)
BITS = 128


class Assigned:
    """An assigned prefix: what it is, who published it, on which endpoint, and with which priority."""

    def __init__(self, data, words):
        self.state = data.state
        self.post = data.state.node, int(words['endpoint'])
        self.text, self.priority = words['prefix'], words['priority']
        self.prefix = network(words['prefix'])


class Prefixes:
    """Prefixes, to be looked up by what is inside them: one look for each length that there is."""

    def __init__(self, texts):
        self.texts = {}
        for text in texts:
            prefix = network(text)
            self.texts.setdefault((int(prefix.network_address) >> (BITS - prefix.prefixlen), prefix.prefixlen), text)
        self.lengths = sorted({length for _, length in self.texts})

    def around(self, prefix):
        """Those that a prefix is inside of, the largest first."""
        value = int(prefix.network_address)
        keys = ((value >> (BITS - length), length) for length in self.lengths if length <= prefix.prefixlen)
        return [self.texts[key] for key in keys if key in self.texts]


def clashing(assigned, link_of):
    """Of each assigned prefix the first one around it, or equal to it, on another link."""
    around = []     # nested prefixes: each with the first one of those so far, and the first one on another link than that
    for each in sorted(assigned, key=lambda each: (each.prefix, each.post)):
        while around and not each.prefix.subnet_of(around[-1][0].prefix):
            around.pop()
        link = link_of(each.post)
        first, second = around[-1][1:] if around else (each, None)
        if link_of(first.post) != link:
            yield first, each
            second = second or each
        elif second:
            yield second, each
        around.append((each, first, second))


class Home:
    """The nodes as the last Node States of each say, at the moment of the last datagram."""

    def __init__(self, states, senders, end):
        self.states, self.senders, self.end = states, senders, end
        self.latest = states.latest
        self.data = {node: states.data[state.key] for node, state in self.latest.items() if state.key in states.data}
        self.peers = {node: data.peers() for node, data in self.data.items()}
        self.last = senders.heard_last()
        self.heard = {endpoint: last for endpoint, last in self.last.items() if not self.is_silent(endpoint, last)}
        self.reached = self.reach(node for node, _ in self.heard)
        self.is_whole = self.knows_all()
        self.links = self.find_links()
        self.assigned = [Assigned(data, words) for node, data in self.data.items() if node in self.reached for words in data.named('assigned')]
        self.delegated = self.find_delegated()
        self.prefixes = Prefixes(text for text, _, _, _ in self.delegated)
        self.said = self.said_last()
        self.hashes = {}     # node -> the network state hash of what it reaches, where the data of that are known
        self.confirmed = self.find_confirmed()
        self.homes = self.find_homes()
        self.young = []      # what does not fit, in a home that changed too lately to be judged

    def silence_of(self, endpoint):
        """How long an endpoint may be silent before it is no peer any more, or None where it promises nothing."""
        node, number = endpoint
        said = self.senders.intervals.get(node, {})
        return said.get(number, said.get(0, KEEP_ALIVE)) * SILENCE or None

    def is_silent(self, endpoint, last, times=1):
        seconds = self.silence_of(endpoint)
        return seconds is not None and seconds * times < self.end - last.moment

    def is_mutual(self, node, peer, endpoint, own):
        return (node, own, endpoint) in self.peers.get(peer, ())

    def reach(self, nodes):
        """These nodes, and those that they reach by mutual peers (RFC 7787, section 4.6)."""
        found, left = set(), list(nodes)
        while left:
            node = left.pop()
            if node not in found:
                found.add(node)
                left += [peer for peer, endpoint, own in self.peers.get(node, ()) if self.is_mutual(node, peer, endpoint, own)]
        return found

    def said_last(self):
        """Of each endpoint that is heard the network state hash that it said last."""
        found = {}
        for sender in self.senders.senders():
            if sender.said and sender.post in self.heard and found.get(sender.post, sender.said[-1]) <= sender.said[-1]:
                found[sender.post] = sender.said[-1]
        return {post: digest for post, (_, digest) in found.items()}

    def hash_of(self, nodes):
        parts = [self.latest[node].part for node in nodes if node in self.latest]
        return items.hash_of(items.network_state(parts)).hex()

    def find_confirmed(self):
        """The nodes whose last data the capture has: somebody said the network state hash that they make."""
        found, reached = set(), {}
        for (node, _), digest in self.said.items():
            if node not in reached:
                nodes = self.reach([node])
                made = self.hash_of(nodes) if all(each in self.data for each in nodes) else None
                reached.update((each, (nodes, made)) for each in nodes)
            if reached[node][1] == digest:
                found |= reached[node][0]
        self.hashes.update((node, made) for node, (_, made) in reached.items() if made)
        return found

    def find_homes(self):
        """Of each node that is reached the least one of its home: those that it reaches."""
        found = {}
        for node in sorted(self.reached):
            if node not in found:
                found.update(dict.fromkeys(self.reach([node]), node))
        return found

    def knows_all(self):
        """Whether the capture has the latest data of all nodes that are reached, and of the peers that they name."""
        named = {peer for node in self.reached for peer, _, _ in self.peers.get(node, ())}
        return bool(self.reached) and all(node in self.data for node in self.reached | named)

    def find_links(self):
        """Which endpoints are on one link: those of mutual peers are."""
        links = Groups()
        for post in self.heard:
            links.of(post)
        for node in self.reached & set(self.data):
            for words in self.data[node].named('assigned'):
                links.of((node, int(words['endpoint'])))
        for node in self.reached:
            for peer, endpoint, own in self.peers.get(node, ()):
                links.of((node, own))
                if self.is_mutual(node, peer, endpoint, own):
                    links.join((node, own), (peer, endpoint))
        return links

    def find_delegated(self):
        """The delegated prefixes of the nodes that are reached: (prefix, node, valid and preferred seconds that are left)."""
        found = []
        for node in sorted(self.reached & set(self.data)):
            age = self.age(node)
            for text, valid, preferred in self.data[node].delegated:
                found.append((text, node, valid if valid == ENDLESS else valid - age, preferred if preferred == ENDLESS else preferred - age))
        return found

    # Findings

    def judge(self, findings):
        findings += self.judge_lifetimes()
        fits_not = [*self.judge_inside(), *self.judge_pairs(), *self.judge_addresses()]
        if min(map(self.age, self.reached & set(self.latest)), default=0) < REST:
            self.young = fits_not
        else:
            findings += fits_not

    def age(self, node):
        """How old the last data of a node are at the end, in seconds."""
        return self.latest[node].age + self.end - self.latest[node].moment

    def judge_lifetimes(self):
        """What ended after the last Node State that told the age."""
        for text, node, valid, _ in self.delegated:
            state = self.latest[node]
            if valid <= -FLOODING and ('ended', state.version, text) not in self.states.told:
                yield finding('ended', state, f'{shown(text)} ended {-valid:.3f} s before the end of the capture')

    def judge_inside(self):
        for each in self.assigned:
            if self.is_whole and each.post[0] in self.confirmed and has_scope(each.text) and not self.prefixes.around(each.prefix):
                yield finding('inside-nothing', each.state, f'{shown(each.text)} of endpoint {each.post[1]} is inside no delegated prefix')

    def judge_pairs(self):
        """What clashes within a home. Two homes that do not reach each other may have the same prefixes."""
        by_home, first = {}, {}
        for each in self.assigned:
            if each.post[0] in self.confirmed:
                by_home.setdefault(self.homes[each.post[0]], []).append(each)
        for assigned in by_home.values():
            for one, other in clashing(assigned, self.links.of):
                yield self.clash('overlap', one, other, 'overlap, on two links')
        for each in sorted((each for assigned in by_home.values() for each in assigned), key=lambda each: each.state.frame):
            link = self.links.of(each.post)
            for text in self.prefixes.around(each.prefix)[:1]:
                one = first.setdefault((link, text), each)
                if one.prefix != each.prefix:
                    yield self.clash('two-prefixes', one, each, f'are on one link, and both inside {shown(text)}')

    @staticmethod
    def clash(rule, one, other, how):
        if other.state.frame < one.state.frame:
            one, other = other, one
        where = f'{shown(other.text)} of {name(other.post)}, and {shown(one.text)} of {name(one.post)} (frame {one.state.frame})'
        return finding(rule, other.state, f'{where} {how}')

    def judge_addresses(self):
        first, assigned = {}, Prefixes(each.text for each in self.assigned)
        for node in sorted(self.confirmed & self.reached & set(self.data)):
            for words in self.data[node].named('address'):
                address, state = words['address'], self.data[node].state
                if self.is_whole and not assigned.around(network(address)):
                    yield finding('address-outside', state, f'{shown(address)} is inside no assigned prefix')
                other = first.setdefault((self.homes[node], address), node)
                if other != node:
                    yield finding('address-twice', state, f'{shown(address)}, which node {other} has too')

    # The table

    def lines(self):
        delegated, heard = {}, {}
        for each in self.delegated:
            delegated.setdefault(each[1], []).append(each)
        for post in sorted(self.last):
            heard.setdefault(post[0], []).append(post)
        for node in sorted(self.latest):
            yield from self.node_lines(node, heard.get(node, ()), delegated.get(node, ()))
        for node in sorted(self.reached):
            for peer, endpoint, own in sorted(self.peers.get(node, ())):
                if not self.is_mutual(node, peer, endpoint, own):
                    yield f'peer {name((node, own))} - {name((peer, endpoint))} mutual={"no" if peer in self.data else "unknown"}'
                elif (node, own) < (peer, endpoint):
                    yield f'peer {name((node, own))} - {name((peer, endpoint))} mutual=yes'
        yield from self.link_lines()
        yield from self.network_lines()
        for each in self.young:
            yield f'changed less than {REST:g} s before the end, so not counted: {each}'

    def link_lines(self):
        assigned = {}
        for each in self.assigned:
            assigned.setdefault(self.links.of(each.post), []).append(each)
        for place, (link, posts) in enumerate(self.links.groups().items(), 1):
            yield f'link {place}: {" ".join(map(name, posts))}'
            for each in sorted(assigned.get(link, ()), key=lambda each: each.prefix):
                inside = ','.join(map(shown, self.prefixes.around(each.prefix))) or ('none' if self.is_whole else 'unknown')
                yield f'  assigned {shown(each.text)} by={name(each.post)} priority={each.priority} inside={inside}'

    def node_lines(self, node, heard, delegated):
        latest, data = self.latest[node], self.data.get(node)
        where = f'data=frame {data.state.frame}' if data else 'data=unknown'
        reached = 'yes' if node in self.reached else 'no'
        yield f'node {node} number={latest.number} hash={latest.digest} age={self.age(node):.3f} s reached={reached} {where}'
        for post in heard:
            silent = '' if post in self.heard else f' silent since frame {self.last[post].frame}'
            yield f'  endpoint {post[1]} source={self.last[post].source}{silent}'
        for words in data.named('version') if data else []:
            yield f'  version m={words["m"]} p={words["p"]} h={words["h"]} l={words["l"]} agent={agent(words["agent"])}'
        for text, _, valid, preferred in delegated:
            yield f'  delegated {shown(text)} valid={seconds(valid)} preferred={seconds(preferred)}'
        for words in data.named('address') if data else []:
            yield f'  address {shown(words["address"])} endpoint={words["endpoint"]}'
        for item in walk(data.below) if data else []:
            if item.is_padded:
                yield (f'  an External-Connection without its last padding, at place {item.place} of frame {data.state.frame}: '
                       'hncp does not use what it says; here it is read')
            elif item.name == 'bad':
                yield f'  a TLV of type {item.kind} that does not decode, at place {item.place} of frame {data.state.frame}: what it says is not used'

    def network_lines(self):
        nodes = [node for node in self.reached if node in self.latest]
        if nodes:
            made = self.hash_of(nodes)
            yield f'network state hash {made} of the {len(nodes)} node(s) that are reached'
            for post, digest in sorted(self.said.items()):
                yield f'  {name(post)} said last {digest}, which is {"the same" if digest == made else "another"}'


def finding(rule, state, text):
    return Finding(rule, state.frame, state.source, text, node=state.node)


def name(post):
    return f'{post[0]}/{post[1]}'


def seconds(left):
    return 'endless' if left == ENDLESS else f'{left:.0f} s' if left > 0 else f'ended {-left:.0f} s ago'


def agent(text):
    """A user agent as text, what is no printable ASCII by escapes."""
    octets = b'' if text == '-' else bytes.fromhex(text)
    return '"' + ''.join(chr(each) if 32 <= each < 127 and each not in (34, 92) else f'\\x{each:02x}' for each in octets) + '"'

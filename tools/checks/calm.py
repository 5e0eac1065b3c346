"""The check of `hnlook calm`: of random homes it says what is found here, by the definition (docs/MODEL.md, "A calm home stays while
it runs"); and homes that it calls calm are played on, up to the moment that it names.

What is found here comes from other texts: `audit` says whether a home is settled and quiet, `hnlook table` who has whom as a peer,
when it was heard, and which node data are held, and `hnlook log` when endpoints sent and what became of copies.
"""
import collections
import random

import common
from checks import samples, settled
from checks.helpers import SEED, Missing, must, must_be, need_look
from rulercress.tools import logs

HEARD = 20000                         # milliseconds: a keep-alive interval (RFC 7788, section 3)
YOUNG = 2 ** 32 - 2 ** 16             # own node data are published again at this age (RFC 7787, section 7.2.3)
YOUNG_HELD = 2 ** 32 - 2 ** 15        # no path leads on from data of this age (RFC 7787, section 4.6)
ENDLESS = 4294967295                  # as a lifetime: it never ends
PLAYED = [(100, 60000), (5000, 900000), (22000, 8000000)]     # steps, and how long a calm home is played on with each
BORN = ('router', 'start')


class RestingHome(settled.UneasyHome):
    """A random home that mostly has time to come to rest, and in which then one more thing may happen."""

    def __init__(self, chance, is_lossy, turn):
        super().__init__(chance, is_lossy, turn)
        if chance.randrange(4):
            self.texts.append('loss 0')
            self.rest(chance.choice([21000, 45000, 65000]))
        ways = [each for each in dir(self) if each.startswith('last_')]
        getattr(self, ways[turn % len(ways)])(chance.choice(self.routers))

    def rest(self, span):
        self.moment += span
        self.texts.append(f'run {self.moment} {self.chance.choice([100, 200])}')

    def last_nothing(self, _):
        pass

    last_nothing_too = last_nothing_again = last_nothing

    def last_time(self, _):
        """No router looks at its clock for a while."""
        self.moment += self.chance.choice([1, 1000, 15000, 19999, 20000, 25000])
        self.texts.append(f'time {self.moment}')

    def last_tick(self, name):
        """One router does, and what it sends waits."""
        self.moment += self.chance.choice([15000, 20000])
        self.texts += [f'time {self.moment}', f'tick {name}']

    def last_drop(self, name):
        """What it sends is lost."""
        self.last_tick(name)
        self.texts += ['loss 100', 'flow', 'loss 0']

    def last_lifetime(self, name):
        """A lifetime that ends soon, or by now."""
        self.texts.append(f'external {name} 2001:db8:70::/56 {self.chance.choice([3, 30, 50, 90])} {self.chance.choice([2, 3])}')
        self.rest(self.chance.choice([2500, 35000]))
        self.moment += self.chance.choice([0, 400, 600])
        self.texts.append(f'time {self.moment}')

    def last_stranger(self, _):
        """A router that is on none of its links."""
        self.texts += ['link far', 'router guest 000000aa', 'attach guest 1 far']


class Held:
    """What a router holds, by its table."""

    def __init__(self, lines):
        self.peers, self.reach, self.nodes, self.ends = [], set(), {}, []
        data = collections.defaultdict(list)
        node = None
        for line in lines:
            words = line.split(' ')
            one = settled.fields_of(words)
            if node is None and words[0] == 'table':
                self.id, self.moment = one['node'], int(one['moment'])
                self.reach.add(self.id)
            elif words[0] == 'data':
                node = words[1]
            elif node is not None:
                data[node].append(line)
            elif words[0] == 'peer':
                self.peers.append((int(one['ep']), one['node'], int(one['of']), int(one['contact'])))
            elif words[0] == 'node':
                self.nodes[words[1]] = int(one['since']) - int(one['age']), one['reachable'] == 'yes'
                self.reach |= {words[1]} if one['reachable'] == 'yes' else set()
        self.announced = {node: announced(data[node]) for node in self.reach}


def announced(lines):
    """The lifetimes in seconds that node data announce, if they have an HNCP-Version."""
    if not any(line.split(' ')[3:4] == ['version'] for line in lines if not line.startswith(' ')):
        return []
    lifetimes, inside = [], False
    for line in lines:
        if not line.startswith(' '):
            inside = line.split(' ')[3:4] == ['external']
        words = line.split(' ')[2:]
        if inside and line.startswith('  ') and not line.startswith('   ') and words[3:4] == ['delegated']:
            one = settled.fields_of(words)
            lifetimes += [int(one['valid']), int(one['preferred'])]
    return lifetimes


class Home:
    """A home at the end of a script."""

    def __init__(self, texts):
        self.texts = texts
        self.log = logs.Log(common.look(['log'], texts))
        self.home = self.log.home
        self.names = [name for name, runs in self.home.running.items() if runs]
        self.moment = self.log.events[-1].moment if self.log.events else 0
        self.held = {name: Held(common.look(['table', name], texts)) for name in self.names}
        self.sent, self.born, self.own = {}, {}, collections.defaultdict(dict)
        for event in self.log.events:
            self.go_over(event)
        lines = common.play([*texts, *(f'audit {name}' for name in self.names)])
        self.audit = {words[1]: words[2:4] for words in (line.split(' ') for line in lines[len(lines) - len(self.names):])}

    def go_over(self, event):
        """When endpoints sent by their timers, when node data were published, and which prefixes routers have of their own."""
        word, name, *rest = (event.words + [''])[:8]
        if word == 'tick':
            for copy in event.copies:
                if copy.multicast:
                    self.sent[copy.sender] = event.moment
            self.own[name] = {prefix: end for prefix, end in self.own[name].items() if end > event.moment}
        elif word == 'attach':
            self.sent[name, int(rest[0])] = event.moment
        elif word == 'start':
            self.sent.update({each: event.moment for each in self.sent if each[0] == name})
        elif word == 'external':
            self.own[name][rest[0]] = end_of(event.moment, int(rest[1]))
        elif word == 'withdraw':
            self.own[name].pop(rest[0], None)
        if word in BORN:
            self.born[name] = event.moment
        for each, _ in event.published:
            self.born[each] = event.moment

    def lasts_before(self, name):
        """The first moment at which something ends that a router keeps or sees."""
        held = self.held[name]
        ends = [self.born[name] + YOUNG, *self.own[name].values()]
        ends += [begun + YOUNG_HELD for begun, is_reachable in held.nodes.values() if is_reachable]
        for node, lifetimes in held.announced.items():
            begun = self.born[name] if node == held.id else held.nodes[node][0]
            ends += [end for end in (end_of(begun, seconds) for seconds in lifetimes) if end > held.moment]
        return min(ends)

    def apart(self, name):
        for other in self.names:
            if self.held[other].id not in self.held[name].reach:
                return f'apart router={other}'
        return None

    def waiting(self):
        for copy in self.log.copies:
            if not copy.fates:
                return f'waits copy={copy.number}'
        return None

    def missing_of(self, name, endpoint, node, far, contact):
        """What is missing of a peer, or nothing."""
        others = [other for other in self.names if other != name and self.held[other].id == node]
        link = self.home.attached.get((name, endpoint))
        sent = [self.sent[other, far] for other in others if link is not None and self.home.attached.get((other, far)) == link]
        where = f'router={name} ep={endpoint} node={node} peer-ep={far}'
        if not sent:
            return f'unlinked {where}'
        if contact + HEARD <= self.moment:
            return f'unheard {where} contact={contact}'
        if contact < sent[0]:
            return f'missed {where} contact={contact} sent={sent[0]}'
        return None

    def of_peers(self):
        for name in self.names:
            for peer in self.held[name].peers:
                found = self.missing_of(name, *peer)
                if found:
                    return found
        return None

    def ended(self):
        for name in self.names:
            if self.lasts_before(name) <= self.moment:
                return f'ended router={name}'
        return None

    def calm(self, name):
        """The words that `calm` has to say of a router."""
        if self.audit[name] != settled.AT_REST:
            return f'calm {name} calm=no cause=restless'
        found = self.apart(name) or self.waiting() or self.of_peers() or self.ended()
        if found:
            return f'calm {name} calm=no cause={found}'
        return f'calm {name} calm=yes until={min(self.lasts_before(each) for each in self.names)}'


def end_of(begun, seconds):
    return 2 ** 64 if seconds == ENDLESS else begun + 1000 * seconds


def need_calm():
    """An older hnlook has no form `calm`."""
    need_look()
    try:
        common.look(['calm', 'nobody'], ['hncp 1'])
    except common.Problem as problem:
        raise Missing(str(problem).split(':')[0]) from None


def assigned_in(lines):
    """The assignments that the last report tells, marks of application aside."""
    return [line.split(' applied=')[0] for line in lines if line.startswith('prefix ')]


def play_on(home, name, until, where):
    """A calm home stays settled and quiet, with the same assignments, before the moment that was named."""
    last = common.play([*home.texts, f'prefixes {name}'])
    reports = [f'audit {name}', f'prefixes {name}']
    before = assigned_in(last[len(common.play(home.texts)):])
    for step, span in PLAYED:
        finish = min(until - 1, home.moment + span)
        texts = [*home.texts, 'loss 0']
        halves = [home.moment + (finish - home.moment) // 2, finish]
        for moment in halves:
            texts += [f'run {moment} {step}', *reports]
        lines = common.play(texts)
        must(common.refusal(lines) is None, f'{where}: played on in steps of {step} ms it is refused: {lines[-1]}')
        said = [line for line in lines if line.startswith(f'audit {name} ')][-len(halves):]
        must(all(line.split(' ')[2:4] == settled.AT_REST for line in said), f'{where}: in steps of {step} ms up to {finish} it says {said}')
        tail = lines[len(lines) - len(before) - 1:]
        must_be(assigned_in(tail), before, f'{where}: assignments in steps of {step} ms')


def compare_router(home, name, where):
    """`calm` says what is found here. The answer: what was compared."""
    lines = common.look(['calm', name], home.texts)
    where = f'{where}, {name}: "{lines[0]}"'
    must(lines[0] == home.calm(name), f'{where}, and here it is "{home.calm(name)}"')
    if lines[0].endswith('cause=restless'):
        must(lines[1:] == common.look(['why', name], home.texts), f'{where}: what follows is not what `why` says')
        return 'restless'
    must(len(lines) == 2, f'{where}, and {len(lines)} lines')
    words = lines[0].split(' ')
    if words[2] == 'calm=yes':
        play_on(home, name, int(words[3].split('=')[1]), where)
        return 'calm'
    return settled.fields_of(words)['cause']


def check_calm(_, count):
    """Tries so many random homes.

    Held to: random homes, most of which have time to come to rest: of each router it says what is found by the
    definition, over `audit`, `hnlook table` and `hnlook log`. Homes that it calls calm are played on without loss, at
    steps of 100 ms, 5 s and 22 s, up to the moment that it names, or for 60 s, 900 s and 8,000 s: they stay settled and
    quiet, with the same assignments.
    """
    need_calm()
    counts = collections.Counter()
    for seed in range(count):
        chance = random.Random(f'{SEED} calm {seed}')
        home = Home(samples.without_refused(RestingHome(chance, seed % 2 == 1, seed // 2).texts))
        settled.compare_refused(home, f'random home {seed}', 'calm')
        for name in home.names:
            counts[compare_router(home, name, f'random home {seed}')] += 1
    return f'{count} random homes, of their routers ' + ', '.join(f'{many} {what}' for what, many in sorted(counts.items()))

"""The check of `hnlook why`: random homes, in which it says settled and quiet of each router where `audit` of hncp does, and of
the others a cause that the reports of hncp bear out.

Mostly a home comes to rest, and then one thing or some happen, after which not all routers look at their clocks. So causes of
each kind come up.
"""
import collections
import ipaddress
import random

import common
from checks import faults, samples
from checks.helpers import SEED, Missing, must, need_look
from rulercress.tools import looks
from rulercress.tools.items import hash_of

REPORTS = ['audit', 'show', 'used', 'prefixes']     # of each running router, in this order
AT_REST = ['settled=yes', 'quiet=yes']
FEW_ROUNDS = 5                                      # in which one router ticks, and the mail flows


class UneasyHome(samples.RandomHome):
    """A random home that is left where something happened. What happens last goes by turns."""

    def __init__(self, chance, is_lossy, turn):
        super().__init__(chance, is_lossy)
        if chance.randrange(5):
            self.texts += ['loss 0'] * (chance.randrange(4) > 0)
            self.moment += 30000
            self.texts.append(f'run {self.moment} {chance.choice([100, 200])}')
        ways = ['put_stop', 'put_inject', 'put_run'] + [each for each in dir(self) if each.startswith('end_')]
        for way in [*(chance.choice(ways) for _ in range(chance.randrange(3))), ways[turn % len(ways)]]:
            getattr(self, way)(chance.choice(self.routers))

    def end_with_one_clock(self, name):
        """One router looks at its clock for a while, and the others do not."""
        for _ in range(FEW_ROUNDS):
            self.moment += 100
            self.texts += [f'time {self.moment}', f'tick {name}', 'flow']

    def end_with_one_backoff(self, name):
        """So it does, after its backoffs have ended (RFC 7695, section 4.3)."""
        self.moment += 4000
        self.texts += [f'tick {name}', f'time {self.moment}', f'tick {name}']
        self.end_with_one_clock(name)

    def end_unplugged(self, name):
        """A second cable comes beside the first one, which a router leaves later."""
        other = self.chance.choice(self.routers)
        self.moment += 20000
        self.texts += ['link spare', f'attach {name} 7 spare', f'attach {other} 7 spare', f'run {self.moment} 100', f'detach {name} 1']
        self.end_with_one_clock(name)

    def end_with_another_prefix(self, name):
        """A delegated prefix goes and comes again, so that its router may assign others in it than before."""
        prefix = '2001:db8::/56' if name == 'r1' else '2001:db8:9::/56'
        self.moment += 20000
        self.texts += [f'external {name} {prefix} 7200 7200', f'run {self.moment} 100', f'withdraw {name} {prefix}', f'tick {name}',
                       f'external {name} {prefix} 7200 7200']
        self.end_with_one_backoff(name)

    def end_of_a_lifetime(self, name):
        """A lifetime ends, and one router takes notice."""
        valid, other = self.chance.choice([5, 7200]), self.chance.choice(self.routers)
        self.texts += [f'external {name} 2001:db8:7::/56 {valid} 5', f'run {self.moment + 3000} 100', f'time {self.moment + 6000}',
                       f'caps {other} 0 0 0 {self.chance.randrange(8)}']
        self.moment += 6000

    def end_with_a_guest(self, _):
        """A router comes, with an identifier of its own or one that is there."""
        node = self.chance.choice([6, 7, 8, 1, 2])
        self.texts += [f'router guest {node:08x}', f'attach guest 1 {self.chance.choice(self.links)}']
        self.routers.append('guest')

    def end_with_forged_peers(self, name):
        """Two endpoints on two links hear of each other by forged Node Endpoints."""
        other = self.chance.choice(self.routers)
        for place, (one, link) in enumerate([(name, 'north'), (other, 'south')]):
            sender = self.routers.index([other, name][place]) + 1
            self.texts += [f'link {link}', f'attach {one} 9 {link}', f'inject {one} 9 uni 00030008{sender:08x}00000009']
        self.moment += 1000
        self.texts.append(f'run {self.moment} 100')

    def end_with_forged_data(self, name):
        """A forged Node State of a router, perhaps under its number, which says one of its peers or none."""
        node, number = self.chance.randrange(1, len(self.routers) + 1), self.chance.randrange(1, 9)
        peer = samples.tlv(8, bytes([0, 0, 0, self.chance.randrange(1, 4), 0, 0, 0, 1, 0, 0, 0, 1]))
        body = peer * self.chance.randrange(2) + samples.tlv(32, bytes([0, 0, 0x40, 0]))
        self.texts.append(f'inject {name} 1 uni {faults.node_state(node, number, 0, hash_of(body), body).hex()}')

    def end_with_a_private_link(self, name):
        self.texts.append(f'private {name} {self.chance.choice([60, 64])}')

    def end_with_an_uplink(self, name):
        """A delegated prefix comes. Perhaps its router alone assigns prefixes from it."""
        self.texts.append(f'external {name} 2001:db8:{self.chance.randrange(16):x}::/{self.chance.choice([56, 63, 64])} 7200 3600')
        if self.chance.randrange(2):
            self.end_with_one_backoff(name)

    def end_of_an_uplink(self, name):
        prefixes = [text.split(' ')[2] for text in self.texts if text.startswith(f'external {name} ')]
        self.texts += [f'withdraw {name} {self.chance.choice(prefixes)}'] if prefixes else []

    def end_of_an_endpoint(self, name):
        self.texts.append(f'detach {name} {self.chance.randrange(1, 3)}')

    def end_with_an_endpoint(self, name):
        self.texts.append(f'attach {name} 5 {self.chance.choice(self.links)}')


# By the reports of hncp

class Said:
    """What hncp says of the running routers of a home, by reports at the end of the script."""

    def __init__(self, texts):
        self.texts = texts
        self.home = looks.Home()
        for place, text in enumerate(texts, 1):
            self.home.play(common.Line(place, text).words or [''])
        self.names = [name for name, runs in self.home.running.items() if runs]
        self.audit, self.nodes, self.numbers, self.used, self.assigned = {}, {}, {}, {}, {}
        lines = common.play([*texts, *(f'{word} {name}' for name in self.names for word in REPORTS)])
        must(common.refusal(lines) is None, f'a report is refused: {lines[-1:]}')
        for line in lines[len(common.play(texts)):]:
            self.read(*line.split(' '))

    def read(self, kind, name, *words):
        """Takes a line of a report."""
        fields = fields_of(words)
        if kind == 'audit':
            self.audit[name] = list(words)
        elif kind == 'show':
            self.nodes[name], self.numbers[name] = fields['id'], fields['number']
        elif kind == 'used':
            self.used[name] = {}
        elif kind == 'prefixes':
            self.assigned[name] = {}
        elif kind == 'use':
            self.used[name][words[0]] = int(fields['preferred'])
        elif kind == 'prefix':
            self.assigned[name][int(fields['ep']), fields['in']] = fields

    def owners(self, node):
        """The running routers that have an identifier now. A router leaves one that another node claims."""
        return [name for name in self.names if self.nodes[name] == node]

    def link(self, name, endpoint):
        return self.home.attached.get((name, int(endpoint)))

    def others_on(self, name, link):
        """Whether another running router has an endpoint on a link."""
        return any(there == link and other != name and other in self.names for (other, _), there in self.home.attached.items())

    def asks_at(self, name, endpoint):
        """Whether an endpoint is one that may ask for prefixes: an attached one, or the private link."""
        return endpoint == 0 or self.link(name, endpoint) is not None


def fields_of(words):
    return dict(word.split('=', 1) for word in words if '=' in word)


# What a cause says of the reports. Each answers whether they bear it out, where `one` has its fields.

def is_unknown(said, _, one):
    return not said.owners(one['node'])


def is_shared(said, _, one):
    return len(said.owners(one['node'])) > 1


def is_other_reach(said, name, one):
    """Another router, which is not known to reach the same."""
    lines = common.play([*said.texts, f'compare {name} {one["router"]}'])
    return one['router'] != name and not lines[-1].endswith('ids=same')


def is_old_data(said, _, one):
    return [said.numbers[each] for each in said.owners(one['node'])] == [one['current']] and one['router'] not in said.owners(one['node'])


def is_other_prefixes(said, _, one):
    """Other prefixes, or one that is not preferred any more; lifetimes are told in whole seconds."""
    mine, others = said.used[one['router']], said.used[one['other']]
    return list(mine) != list(others) or 0 in (*mine.values(), *others.values())


def is_stranger(said, name, one):
    return one['router'] != name and said.link(one['router'], one['ep']) == one['link'] and said.others_on(one['router'], one['link'])


def ends_of(said, one):
    """The two endpoints of a cause, and their links."""
    ends = [(one['router'], int(one['ep'])), (one['other'], int(one['other-ep']))]
    return ends, [said.link(*each) for each in ends]


def is_not_linked(said, _, one):
    ends, links = ends_of(said, one)
    return ends[0] != ends[1] and links[0] == links[1] and links[0] is not None


def is_not_on_one_link(said, _, one):
    ends, links = ends_of(said, one)
    return ends[0] != ends[1] and (links[0] != links[1] or links[0] is None)


def assignment_of(said, one):
    """The assignment of the pair of a cause, or nothing."""
    return said.assigned[one['router']].get((int(one['ep']), one['in']))


def is_asked(said, one):
    return one['in'] in said.used[one['router']] and said.asks_at(one['router'], int(one['ep']))


def is_unasked(said, _, one):
    """It has the assignment. Whether there is a private link the reports do not say."""
    found = assignment_of(said, one)
    return found is not None and found['is'] == one['is'] and (int(one['ep']) == 0 or not is_asked(said, one))


def is_making(said, _, one):
    return assignment_of(said, one) is None and is_asked(said, one)


def is_taking(said, _, one):
    best, delegated = (ipaddress.ip_network(one[each]) for each in ('best', 'in'))
    return is_making(said, None, one) and best.subnet_of(delegated)


def is_dropping(said, _, one):
    found = assignment_of(said, one)
    return found is not None and found['is'] == one['is'] and is_asked(said, one)


def is_changing(said, _, one):
    return is_dropping(said, None, one) and (one['best'] != one['is'] or assignment_of(said, one)['published'] != 'no')


# `not-held` is none of them: each router holds whom it reaches, so that another cause comes before it.
UNSETTLED = {'unknown': is_unknown, 'shared': is_shared, 'other-reach': is_other_reach, 'old-data': is_old_data, 'other-prefixes': is_other_prefixes,
             'stranger': is_stranger, 'not-linked': is_not_linked, 'not-on-one-link': is_not_on_one_link}
UNQUIET = {'unasked': is_unasked, 'makes': is_making, 'takes': is_taking, 'drops': is_dropping, 'changes': is_changing}


def need_why():
    """An older hnlook has no form `why`."""
    need_look()
    try:
        common.look(['why', 'nobody'], ['hncp 1'])
    except common.Problem as problem:
        raise Missing(str(problem).split(':')[0]) from None


def compare_router(said, name, where):
    """`why` says settled and quiet where `audit` does, and else a cause. The answer: the cause, or that there is none."""
    lines = common.look(['why', name], said.texts)
    words = lines[0].split(' ')
    where = f'{where}, {name}: "{lines[0]}"'
    must(len(lines) == 2 and words[:2] == ['why', name], f'{where}, and {len(lines)} lines')
    one, says = fields_of(words), said.audit[name]
    must(words[2:2 + len(says[:2])] == says[:2], f'{where}, and audit says {" ".join(says)}')
    if says[:2] == AT_REST:
        must(words[2:] == AT_REST, f'{where}, and it is at rest')
        return 'at rest'
    causes = UNQUIET if says[0] == 'settled=yes' else UNSETTLED
    must(one.get('cause') in causes, f'{where}: this cause cannot come')
    must(one.get('router', name) in said.names, f'{where}: the router of the cause does not run')
    must(causes[one['cause']](said, name, one), f'{where}, which the reports do not bear out')
    return f'{says[-1]} cause={one["cause"]}'


def compare_refused(said, where, form='why'):
    """A router that is stopped is refused by code 12, a name that is none by code 7."""
    stopped = [name for name, runs in said.home.running.items() if not runs][:1]
    for name, code in [('nobody', 7)] + [(each, 12) for each in stopped]:
        lines = common.look([form, name], said.texts)
        must(lines == [f'refused 0 {code}'], f'{where}, {name}: {lines}, and not code {code}')
    return len(stopped)


def check_order():
    """Of a stopped router and of a shared identifier the least identifier is told, whichever of both it is."""
    for node, cause in [('00000005', 'cause=shared node=00000003'), ('00000002', 'cause=unknown node=00000002')]:
        routers = ['router N 00000001', 'router Y 00000003', 'router Z 00000003', f'router X {node}']
        home = ['hncp 1', 'link lan', *routers, 'attach N 1 lan', 'attach Y 1 lan', 'attach X 1 lan', 'run 2000 100', 'stop X']
        said = common.look(['why', 'N'], home)[0]
        must(said == f'why N settled=no {cause}', f'with a stopped router {node}: {said}')


def check_settled(_, count):
    """Tries so many random homes.

    Held to: random homes, each left where something happened: it says settled and quiet where `audit` does. Else a
    cause of the kind that `audit` says, which the reports and attachments bear out. Not looked at is that no other
    cause comes first, and who has whom as a peer.
    """
    need_why()
    check_order()
    counts = collections.Counter()
    for seed in range(count):
        chance = random.Random(f'{SEED} why {seed}')
        said, where = Said(samples.without_refused(UneasyHome(chance, seed % 2 == 1, seed // 2).texts)), f'random home {seed}'
        counts['stopped'] += compare_refused(said, where)
        for name in said.names:
            counts[compare_router(said, name, where)] += 1
    return f'{count} random homes, of their routers ' + ', '.join(f'{many} {what}' for what, many in sorted(counts.items()))

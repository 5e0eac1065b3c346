"""What `tools/bench` runs: the homes, and the inputs of the other forms. Each input is the same whenever it is made."""
import collections
import functools
import random

import common

PREFIX = 'external r1 2001:db8::/48 7200 3600'
ENDLESS = 'external r1 2001:db8::/48 4294967295 4294967295'
FULL = (9, 16)                                   # the codes of a world that is full of events, or of copies
SOURCE = 2 ** 24                                 # bytes, the most that hncp reads
AUDITS = 200                                     # so many more has the longer of two scripts
ROUNDS = 990                                     # so many more has a second at steps of 1 ms than one at steps of 100 ms

# A case: its name, what it is, the words of the program, and what makes its input. If the last line has to be refused, the
# codes are there with which it may be. Where what is told is a difference, there is what makes the shorter input, and of how
# many things the longer one has more.
Case = collections.namedtuple('Case', 'name about words input codes program shorter more', defaults=[(), 'hncp', None, 1])


# Scripts

def ring(count):
    """Routers in a ring: K has its endpoint 1 on link K, and its endpoint 2 on the next link."""
    lines = [f'link l{k}' for k in range(1, count + 1)] + [f'router r{k} {k:08x}' for k in range(1, count + 1)]
    for k in range(1, count + 1):
        lines += [f'attach r{k} 1 l{k}', f'attach r{k} 2 l{k % count + 1}']
    return lines


def one_link(count):
    """Routers that have their endpoint 1 on the same link."""
    routers = range(1, count + 1)
    return ['link l'] + [f'router r{k} {k:08x}' for k in routers] + [f'attach r{k} 1 l' for k in routers]


def left(home, until, prefixes=(PREFIX,)):
    """The script of a home up to a moment, at steps of 100 ms."""
    return ['hncp 1', 'seed 1', *home, *prefixes, f'run {until} 100']


def played(home, until, prefixes=()):
    """The script of a home up to a moment, with reports. The last one compares r1 with the farthest."""
    count = sum(line.startswith('router ') for line in home)
    return [*left(home, until, prefixes), 'mail', 'show r1', f'compare r1 r{count // 2 + 1}']


def advertised(count, until):
    """The same of a ring with a prefix, whose endpoints send Router Advertisements."""
    sending = [f'radv r{k} {endpoint}' for k in range(1, count + 1) for endpoint in (1, 2)]
    return ['hncp 2', *played(ring(count), until, [PREFIX, *sending])[1:]]


def many_prefixes():
    """Eight delegated prefixes at each of four routers of a ring of 16."""
    routers = ['r1', 'r5', 'r9', 'r13']
    return [f'external {routers[k // 8]} 2001:db8:0:{256 * k:x}::/56 7200 3600' for k in range(32)]


def soaked(count, seed):
    """The script that `hncp soak` plays (docs/FORMATS.md, "The script of a soak")."""
    lines = ['hncp 1', f'seed {seed}', 'loss 10', *(f'link l{k}' for k in range(1, count + 1))]
    for k in range(1, count + 1):
        lines += [f'router r{k} {k:08x}', *([f'attach r{k} 1 l{k // 2}'] if k > 1 else []), f'attach r{k} 2 l{k}']
    return lines + ['external r1 2001:db8::/56 7200 3600', 'run 60000 100', f'compare r1 r{count}', 'audit r1', 'used r1',
                    'prefixes r1', f'prefixes r{count}', 'mail', 'show r1', f'show r{count}']


def never_delivered():
    """64 on one link, of which each sends one multicast a minute: 63 copies, until a tick finds that there are 1,000,000."""
    lines, ticks = ['hncp 1', 'seed 1', *one_link(64)], -(-1000000 // 63) + 1
    for place in range(ticks):
        lines += [f'time {(place // 64 + 1) * 60000}'] if place % 64 == 0 else []
        lines.append(f'tick r{place % 64 + 1}')
    return lines


# Other inputs

def digits(count):
    """So many hexadecimal digits, which are TLVs of the type 123 with a value of one byte."""
    return b'007b000178000000' * (count // 16)


def node_state(node, number, chance):
    """A line of a capture: a datagram that is a Node State with a random hash."""
    return f'00050014{node:08x}{number:08x}00000000{chance.getrandbits(64):016x}'


def node_states():
    """100,000 Node States of 1,000 nodes. A number that comes again has another hash."""
    chance = random.Random(1)
    return common.joined([node_state(chance.randrange(1000), chance.randrange(1000), chance) for _ in range(100000)])


def numbers(in_order):
    """As many Node States as a capture may have, each with another number: 256 of each node."""
    chance = random.Random(1)
    pairs = list(range(SOURCE // 49))
    if not in_order:
        chance.shuffle(pairs)
    return common.joined([node_state(pair >> 8, pair & 255, chance) for pair in pairs])


def late_fault():
    """A script of 3,355,000 lines, of which the last has an unknown word."""
    return b'hncp 1\n' + b'mail\n' * 3354998 + b'none\n'


# Cases

def script(name, about, lines, codes=(), **others):
    return Case(name, about, ['lab'], functools.partial(common.joined, lines), codes, **others)


def soak(count):
    return Case(f'soak-{count}', f'`soak {count} 1`', ['soak', str(count), '1'], bytes)


def look(name, about, words, lines):
    return script(name, about, lines, program='hnlook')._replace(words=words)


def audit(name, about, lines):
    """One audit, as a difference of two scripts."""
    shorter = functools.partial(common.joined, [*lines, 'audit r1'])
    return script(name, f'one `audit` of {about}', [*lines, *['audit r1'] * (AUDITS + 1)], shorter=shorter, more=AUDITS)


def tick(count):
    """One tick in which nothing is due, as a difference of two scripts. What is due in that second is so in both of them."""
    minute, ticks = left(ring(count), 60000, ()), ROUNDS * count
    shorter = functools.partial(common.joined, [*minute, 'run 61000 100', 'mail'])
    return script(f'tick-ring-{count}', f'one tick in a ring of {count} in which nothing is due', [*minute, 'run 61000 1', 'mail'],
                  shorter=shorter, more=ticks)


HOMES = [
    soak(32),
    soak(8),
    script('ring-8-idle', 'ring of 8, 8,000 s at steps of 100 ms, no prefixes', played(ring(8), 8000000)),
    script('ring-8-prefix', 'ring of 8 with a prefix, 600 s', played(ring(8), 600000, [PREFIX])),
    script('ring-32-prefix', 'ring of 32 with a prefix, 600 s', played(ring(32), 600000, [PREFIX])),
    script('link-64', '64 on one link, 10 s', played(one_link(64), 10000)),
    script('link-64-prefix', '64 on one link with a prefix, 20 s', played(one_link(64), 20000, [PREFIX])),
    script('ring-16-prefixes', 'ring of 16, eight prefixes at each of four routers, 30 s',
           played(ring(16), 30000, many_prefixes())),
    script('ring-4-radv', 'ring of 4 with a prefix, version 2, 2,000 s, `radv` on its 8 endpoints', advertised(4, 2000000)),
    script('link-128-loss', '128 on one link with a prefix, version 2, five of a hundred copies lost, until the 1,000,001st '
           'event or copy', ['hncp 2', 'seed 7', 'loss 5', *one_link(128), PREFIX, 'run 100000000 100'], FULL),
]
UNSETTLED, SETTLED = left(ring(32), 5000), left(ring(32), 60000)
FORMS = [
    Case('decode', '`decode` of 2^24 digits, TLVs with a value of one byte', ['decode'], functools.partial(digits, SOURCE)),
    Case('decode-half', '`decode` of half the digits', ['decode'], functools.partial(digits, SOURCE // 2)),
    Case('watch-states', '`watch` of 100,000 Node States of 1,000 nodes', ['watch'], node_states),
    Case('watch-random', '`watch` of 342,392 numbers in random order, 2^24 bytes', ['watch'], functools.partial(numbers, False)),
    Case('watch-ascending', 'the same in ascending order', ['watch'], functools.partial(numbers, True)),
    Case('late-fault', '`lab`: a script of 3,355,000 lines with a fault in the last', ['lab'], late_fault, (2,)),
    look('log-soak', '`hnlook log` of `soak 32 1`', ['log'], soaked(32, 1)),
    look('why-unsettled', '`hnlook why` of a ring of 32 after 5 s: not settled', ['why', 'r1'], UNSETTLED),
    look('why-settled', 'the same after 60 s: settled and quiet', ['why', 'r1'], SETTLED),
    look('table-unsettled', '`hnlook table` of the ring after 5 s', ['table', 'r1'], UNSETTLED),
    look('table-settled', 'the same after 60 s', ['table', 'r1'], SETTLED),
    audit('audit-ring-32', 'a settled ring of 32', SETTLED),
    audit('audit-ring-64', 'a settled ring of 64', left(ring(64), 60000)),
    audit('audit-link-32', '32 on one link, settled', left(one_link(32), 40000)),
    tick(8),
    tick(64),
    script('full-of-events', 'ring of 8 until the 1,000,001st event',
           ['hncp 1', 'seed 1', *ring(8), ENDLESS, 'run 100000000 100'], (9,)),
    script('full-of-copies', '64 on one link until there are 1,000,000 copies, none delivered', never_delivered(), (16,)),
]

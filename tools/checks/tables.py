"""The check of `hnlook table`: random homes, whose tables are made in Python, by checks/held.py, and compared line by line.

From the text itself come the router's own node data alone, which have to give the network state hash, and its backoffs, which
have to end when the text says.
"""
import collections
import ipaddress
import random
import struct

import common
from checks import faults, held, samples
from checks.helpers import SEED, Missing, lines_of, must, must_be, need_look
from checks.held import DELEGATED, ENDLESS, EXTERNAL, KEEP_ALIVE, PEER, VERSION
from rulercress.tools import logs
from rulercress.tools.items import hash_of, network_state

LATER = 4000                     # milliseconds: the longest backoff (RFC 7788, section 6.3.1)
COUNTED = 'table peer assigned backoff used'.split()


class FullHome(samples.RandomHome):
    """A random home without loss, in which delegated prefixes come up that are not used. What happens last goes by turns."""

    def __init__(self, chance, turn):
        super().__init__(chance, False)
        if chance.randrange(3):
            self.moment += chance.choice([5000, 20000])
            self.texts.append(f'run {self.moment} {chance.choice([100, 200])}')
        ways = [each for each in dir(self) if each.startswith('end_')]
        for way in [*(chance.choice(ways) for _ in range(chance.randrange(3))), ways[turn % len(ways)]]:
            getattr(self, way)(chance.choice(self.routers))

    put_sync = samples.RandomHome.put_run     # its question is none of a script

    def put_choice(self, name):
        """No prefixes of its own making, since in the log these are as others."""
        lines = [f'private {name} 64', f'private {name} off', f'address {name}', f'caps {name} 0 {self.chance.randrange(8)} 0 4']
        self.texts.append(self.chance.choice(lines))

    def forge(self, name, items, node=9, number=1, age=0):
        """Data of a node that nobody is. It is a peer of the router, at its endpoint 1."""
        own = self.routers.index(name) + 1
        body = samples.tlv(PEER, struct.pack('>III', own, 1, 1)) + items
        state = faults.node_state(node, number, age, hash_of(body), body)
        self.texts.append(f'inject {name} 1 uni {(faults.endpoint(node, 1) + state).hex()}')
        return hash_of(body)

    def prefixes(self, count):
        """An External-Connection with so many delegated prefixes, some of them twice, inside others, ended or too long."""
        return samples.tlv(EXTERNAL, b''.join(self.delegated() for _ in range(count)))

    def delegated(self):
        length = self.chance.choice([40, 48, 56, 56, 60, 64, 65, 72, 128])
        address = (0x20010db8 << 96) + (self.chance.getrandbits(8) << 88) + (self.chance.getrandbits(3) << 64)
        head = (address >> 128 - length << 128 - length).to_bytes(16, 'big')[:(length + 7) // 8]
        valid = self.chance.choice([0, 3, 7200, 7200, ENDLESS])
        return samples.tlv(DELEGATED, struct.pack('>II', valid, self.chance.choice([0, valid])) + bytes([length]) + head)

    def version(self):
        return samples.tlv(VERSION, bytes(4) + self.chance.choice([b'', b'hncp', b'x']))

    def later(self, *spans):
        self.moment += self.chance.choice(spans)
        self.texts.append(f'run {self.moment} 100')

    def end_with_many_prefixes(self, name):
        self.forge(name, self.version() + self.prefixes(self.chance.choice([3, 12, 60])))

    def end_without_a_version(self, name):
        """Its data have none, or one that does not decode (RFC 7788, section 10.1)."""
        self.forge(name, self.chance.choice([b'', samples.tlv(VERSION, b'\0\0\0\0\xff')]) + self.prefixes(4))

    def end_with_what_does_not_decode(self, name):
        """Parts of its data decode to no item."""
        right, short = self.delegated(), samples.tlv(DELEGATED, bytes(8) + b'\x38\x20\x01')
        long = samples.tlv(DELEGATED, bytes(8) + b'\x81' + bytes(17))
        wrong = self.chance.choice([right[:-1] if right[-1:] == b'\0' else right + b'\1', right + short, short, right + long])
        self.forge(name, self.version() + samples.tlv(EXTERNAL, wrong) + samples.tlv(PEER, bytes(8)))

    def end_with_a_new_number(self, name):
        """A Node State without data gives the data another number and another age (RFC 7787, section 4.4)."""
        digest = self.forge(name, self.version() + self.prefixes(5), age=self.chance.choice([0, 2000, 2 ** 32 - 2 ** 15]))
        self.moment += 700
        state = faults.node_state(9, 2, self.chance.choice([0, 3000, 7200000]), digest)
        self.texts += [f'time {self.moment}', f'inject {name} 1 {self.chance.choice(["uni", "multi"])} {state.hex()}']

    def end_of_a_forged_node(self, name):
        """It falls silent, after a keep-alive interval of its own (RFC 7787, section 7.3.2), and is held still, or not."""
        interval = samples.tlv(KEEP_ALIVE, struct.pack('>II', self.chance.choice([0, 1, 2]), self.chance.choice([0, 1000, 5000])))
        self.forge(name, self.version() + interval * self.chance.randrange(2) + self.prefixes(4))
        self.later(1000, 12000, 45000, 90000)

    def end_of_a_router(self, name):
        self.texts += [f'external {name} 2001:db8:77::/56 7200 3600']
        self.later(1000, 20000)
        self.texts.append(f'stop {name}')
        self.later(30000, 60000, 100000)

    def end_with_nested_prefixes(self, name):
        other = self.chance.choice(self.routers)
        self.texts += [f'external {name} 2001:db8:40::/48 7200 3600', f'external {other} 2001:db8:40:10::/60 7200 7200',
                       f'external {other} 2001:db8:40::/{self.chance.choice([47, 56, 72])} 7200 7200' if self.chance.randrange(2) else 'flow']
        self.later(100, 3000)

    def end_of_a_lifetime(self, name):
        """A lifetime ends, and its router has not looked at its clock since."""
        valid = self.chance.choice([2, 3, 5])
        self.texts.append(f'external {name} 2001:db8:{self.chance.randrange(64, 80):x}::/{self.chance.choice([56, 72])} {valid} {valid}')
        self.later(1000, 1900)
        self.moment += self.chance.choice([900, 1100, 3100])
        self.texts += [f'time {self.moment}'] + [f'caps {each} 0 0 0 {self.chance.randrange(2)}' for each in self.routers]

    def end_with_a_backoff(self, name):
        """A delegated prefix comes, and a private link or a link."""
        self.texts += [f'external {name} 2001:db8:99::/56 7200 3600', self.chance.choice([f'private {name} 64', f'attach {name} 8 M'])]
        self.moment += self.chance.choice([10, 100, 2500])
        self.texts += [f'tick {name}', f'time {self.moment}', f'tick {name}']

    def end_with_one_identifier(self, name):
        """A guest has the identifier of a router."""
        self.texts += [f'router guest {self.routers.index(name) + 1:08x}', f'attach guest 1 {self.chance.choice(self.links)}']
        self.later(300, 6000)
        self.texts.append(f'external guest 2001:db8:55::/56 7200 1')

    def end_of_an_endpoint(self, name):
        self.texts.append(f'detach {name} {self.chance.randrange(1, 3)}')

    def end_with_a_restart(self, name):
        self.texts.append(f'start {name}')
        self.later(100, 400)


def own_data(text):
    """The bytes of the first node data of a table."""
    lines = text[next((place for place, line in enumerate(text) if line.startswith('data ')), len(text)):]
    end = next((place for place, line in enumerate(lines[1:], 1) if line.startswith('data ')), len(lines))
    return logs.bytes_of(lines_of('forge', data=common.joined(lines[1:end]))[0])


def compare_own(replay, own, where):
    """The router's own node data give the network state hash, with those that it reaches, and hncp counts as many."""
    now = replay.now
    parts = [(now.id, now.number, hash_of(own))]
    parts += [(node, each.number, each.digest) for node, each in replay.table.items() if each.lost is None]
    states = [(*(number.to_bytes(4, 'big') for number in part[:2]), part[2]) for part in parts]
    must(hash_of(network_state(states)).hex() == now.digest, f'{where}: the data give another network state hash than {now.digest}')
    must((len(parts), len(replay.table)) == (now.reach, now.held), f'{where}: hncp says reach={now.reach} held={now.held}')


def compare_backoffs(events, replay, lines, where):
    """After the last tick each backoff is of a pair without an assignment, and ends when it says. Without one no assignment is
    made at once. Only ticks make backoffs."""
    dues = {}
    for line in lines:
        one = dict(word.split('=') for word in line.split(' ')[1:])
        dues[one['in'], int(one['ep'])] = int(one['due'])
    pairs = [(held.order_of(ipaddress.ip_network(prefix)), endpoint) for prefix, endpoint in dues]
    must(pairs == sorted(set(pairs)) and len(pairs) == len(lines), f'{where}: backoffs are not in order')
    place, moment, before = replay.ticked
    if place is None:
        must(not lines, f'{where}: a backoff, and no tick')
        return 0
    later = events.ticked_at(place, replay.name, moment + LATER)
    made = {pair for pair, is_published in later.published().items() if is_published} - set(before.published())
    for pair in made:
        must(pair in dues or pair[1] == 0 and replay.is_private_new, f'{where}: the assignment of {pair} is made without a backoff')
    for pair, due in dues.items():
        must(pair not in before.published() and moment <= due <= moment + LATER, f'{where}: no backoff can be that of {pair}')
        must(pair in later.published() or pair[0] not in later.wanted(), f'{where}: the backoff of {pair} does not end')
        for at in (due - 1, due) if pair in made else ():
            is_there = at >= moment and pair in events.ticked_at(place, replay.name, at).published()
            must(is_there == (at == due), f'{where}: the backoff of {pair} does not end at {due}')
    return len(made)


def compare_table(events, texts, name, counts, where):
    """The table of a router is the one that is made here."""
    where = f'{where}, {name}'
    text = common.look(['table', name], texts)
    replay, own = held.Replay(events, name), own_data(text)
    compare_own(replay, own, where)
    backoffs = [line for line in text if line.startswith('backoff ')]
    must_be(text, list(held.table_of(replay, own, backoffs)), where)
    must_be([line for line in text if line.startswith('used ')], replay.now.used, f'{where}: by the report used')
    counts['backoffs that end'] += compare_backoffs(events, replay, backoffs, where)
    counts.update(filter(None, map(kind_of, text)))


def kind_of(line):
    """What a line is counted as, or nothing."""
    words = line.split(' ')
    if words[0] == 'delegated':
        return 'delegated ' + ' '.join(words[5:7])
    if words[0] == 'node':
        return 'node ' + words[6]
    return words[0] if words[0] in COUNTED else None


def need_table():
    """An older hnlook has no form `table`."""
    need_look()
    try:
        common.look(['table', 'nobody'], ['hncp 1'])
    except common.Problem as problem:
        raise Missing(str(problem).split(':')[0]) from None


def check_tables(_, count):
    """Tries so many random homes.

    Held to: random homes without loss, with delegated prefixes that are not used. The table of each router is made
    in Python, from the bytes of datagrams and reports after each event, and compared line by line. The own node
    data have to give the network state hash, and each backoff ends when it says.
    """
    need_table()
    counts = collections.Counter()
    for seed in range(count):
        texts, where = samples.without_refused(FullHome(random.Random(f'{SEED} table {seed}'), seed).texts), f'random home {seed}'
        events = held.Events(texts)
        for name in events.log.home.routers:
            compare_table(events, texts, name, counts, where)
        must(common.look(['table', 'nobody'], texts) == ['refused 0 7'], f'{where}: an unknown name is not refused by code 7')
    return f'{count} random homes: ' + ', '.join(f'{many} {what}' for what, many in sorted(counts.items()))

"""What `tools/fuzz` makes up: scripts, node files, captures, hexadecimal text and words, each from a seeded generator."""
import glob
import os
import random
import re
import string
import struct

import common
from checks import samples
from rulercress.tools import items

# Scripts of the repository that take long to play, and those above so many bytes, are not changed.
MOST_SEED = 20000
ROUTERS, LINKS, NAMES = ['r1', 'r2', 'r3'], ['K', 'L'], ['r1', 'r2', 'r3', 'r9', 'K', 'L', 'A', 'gate', 'x' * 16]
BOUNDS = [0, 1, 2, 7, 8, 15, 16, 17, 63, 64, 65, 100, 101, 127, 128, 129, 255, 256, 1000, 65534, 65535, 65536, 2 ** 31, 2 ** 32 - 1, 2 ** 32,
          2 ** 48, 2 ** 48 + 1, 2 ** 49, 2 ** 63, 2 ** 64 - 1, 2 ** 64, 10 ** 19, 10 ** 20]
PREFIXES = ['2001:db8::/56', '2001:db8:1::/64', '2001:db8::/32', 'fd00::/48', '::/0', '::/128', '2001:db8::/129', '2001:db8::1/64',
            'ffff:ffff:ffff:ffff:ffff:ffff:ffff:ffff/128', '::1.2.3.4/128', '1::2::/64', '2001:db8::/065', '/64', '::']
# Each word of the language, and the kinds of what follows it.
GRAMMAR = {
    'router': 'name id', 'link': 'name', 'attach': 'router ep link', 'detach': 'router ep', 'external': 'router prefix number number',
    'withdraw': 'router prefix', 'caps': 'router cap cap cap cap', 'stop': 'router', 'start': 'router', 'seed': 'number', 'loss': 'number',
    'time': 'moment', 'tick': 'router', 'run': 'moment step', 'deliver': 'copy', 'drop': 'copy', 'flow': '', 'inject': 'router ep how hex',
    'private': 'router length', 'address': 'router', 'ula': 'router', 'sync': 'router router', 'radv': 'router ep', 'solicit': 'router ep',
    'show': 'router', 'hash': 'router', 'used': 'router', 'prefixes': 'router', 'elect': 'router ep service', 'advert': 'router ep', 'audit': 'router',
    'compare': 'router router', 'mail': '', 'addresses': 'router', 'addressed': 'router', 'ulas': 'router', '#': 'copy', '': ''}
SELDOM = ('router', 'link', 'attach', 'detach', 'seed', 'loss', 'stop', 'deliver', 'sync')


def stored():
    """The texts of the repository that are changed: scripts and homes, captures, and hexadecimal text."""
    def of(kind):
        paths = sorted(glob.glob(os.path.join(samples.DATA, '*.' + kind)))
        texts = [open(path, 'rb').read() for path in paths if os.path.getsize(path) <= MOST_SEED]
        return [text for text in texts if b'281474976710656' not in text]
    crates = os.path.join(common.HERE, '..', 'crates')
    inputs = [open(path, 'rb').read() for path in sorted(glob.glob(os.path.join(crates, 'hn*', 'stdin')))]
    return of('script') + of('home') + inputs, of('capture'), of('hex')


def number(chance):
    return chance.choice(BOUNDS) if chance.randrange(4) == 0 else chance.randrange(1, 4000)


class Lines:
    """Lines of the grammar. Moments grow mostly, by few rounds, so that a script plays within a moment."""

    def __init__(self, chance):
        self.chance = chance
        self.moment = 0
        self.routers = chance.randrange(1, 4)
        self.datagrams = [data for data in samples.INJECTED] + [samples.mutant(chance, samples.INJECTED)]

    def word(self, kind):
        """A word of a kind, right mostly."""
        chance = self.chance
        if chance.randrange(60) == 0:
            return odd_word(chance)
        if kind in ('router', 'link') and chance.randrange(40):
            return chance.choice(ROUTERS[:self.routers] if kind == 'router' else LINKS)
        if kind in ('router', 'link', 'name'):
            return chance.choice(NAMES)
        return str(getattr(self, 'a_' + kind)())

    def a_id(self):
        return f'{self.chance.choice([0, 1, 2, 3, 9, 2 ** 32 - 1, self.chance.randrange(2 ** 32)]):08x}'

    def a_ep(self):
        return self.chance.choice([1] * 12 + [2, 3, 2 ** 32 - 1])

    def a_prefix(self):
        return self.chance.choice(PREFIXES[:6] if self.chance.randrange(20) else PREFIXES)

    def a_number(self):
        return number(self.chance) if self.chance.randrange(4) == 0 else self.chance.randrange(1, 100)

    def a_cap(self):
        return self.chance.randrange(8)

    def a_length(self):
        return self.chance.choice([1, 48, 63, 64, 64, 64, 64, 'off'])

    def a_moment(self):
        self.moment += self.chance.choice([0, 1, 100, 1000, 5000, 20000])
        return self.moment

    def a_step(self):
        return self.chance.choice([50, 100, 250, 1000, 2 ** 32, 2 ** 48])

    def a_copy(self):
        return self.chance.randrange(1, 30)

    def a_how(self):
        return self.chance.choice(['uni', 'multi', 'far'])

    def a_hex(self):
        return samples.mutant(self.chance, self.datagrams).hex()[:16000] or '-'

    def a_service(self):
        return self.chance.choice('MPHL')

    def line(self):
        """A line. Some words are refused mostly, and so they come seldom."""
        word = self.chance.choice(list(GRAMMAR))
        if word in SELDOM and self.chance.randrange(4):
            word = 'run'
        return ' '.join([word, *map(self.word, GRAMMAR[word].split())])

    def begin(self):
        """The lines of a small home, so that most of what follows is not refused."""
        texts = [f'seed {number(self.chance) % 2 ** 64}', 'link K', 'link L']
        for place in range(self.routers):
            texts += [f'router r{place + 1} 0000000{place + 1}', f'attach r{place + 1} 1 L']
        return texts + ['external r1 2001:db8::/56 7200 3600'] * self.chance.randrange(2)


def odd_word(chance):
    """A word that fits nothing, or is at a bound."""
    return chance.choice([str(chance.choice(BOUNDS)), '-', '', 'r9', '0x1', '-1', 'off', 'A' * 17, '1' * 21, '0' * 19 + '1', '\x7f', '\t',
                          ''.join(chance.choice(string.printable[:94]) for _ in range(chance.randrange(1, 20)))])


def grammar_script(chance):
    """A script of random lines. A line that is refused ends a play, so names and numbers are right mostly."""
    lines = Lines(chance)
    texts = [chance.choice(['hncp 1', 'hncp 2', 'hncp 2', 'hncp 2'])] + (lines.begin() if chance.randrange(8) else [])
    texts += [lines.line() for _ in range(chance.randrange(1, 12))]
    return '\n'.join(texts).encode('latin-1') + b'\n' * chance.randrange(2)


def home_script(chance):
    """A script of the homes of `tools/check`."""
    return common.joined(samples.RandomHome(chance, chance.randrange(2)).texts)


def random_bytes(chance):
    front = chance.choice([b'', b'', b'hncp 1\n', b'hncp 2\n'])
    if chance.randrange(2):
        return front + chance.randbytes(chance.randrange(300))
    return front + bytes(chance.choice(b' \n\r\t#-0123456789abcdefhncp:/') for _ in range(chance.randrange(300)))


def at_bound(chance, line):
    """A line with a number, or a word, that is another one."""
    words = line.split(b' ')
    places = [place for place, word in enumerate(words) if word.isdigit()] or list(range(len(words)))
    words[chance.choice(places)] = str(chance.choice(BOUNDS)).encode() if chance.randrange(4) else odd_word(chance).encode('latin-1')
    return b' '.join(words)


def changed(chance, text, pool):
    """A text with one to four changes: of bytes, lines, words and numbers."""
    for _ in range(chance.choice([1, 1, 1, 2, 3, 4])):
        lines = text.split(b'\n')
        at = chance.randrange(len(lines)) or min(chance.randrange(4), len(lines) - 1)    # the first line stays mostly
        way = chance.randrange(9)
        if way == 0 and text:
            data = bytearray(text)
            data[chance.randrange(len(data))] = chance.randrange(256)
            text = bytes(data)
            continue
        if way == 1:
            text = text[:chance.randrange(len(text) + 1)]
            continue
        if way == 2:
            del lines[at]
        elif way == 3:
            lines.insert(at, lines[at])
        elif way == 4:
            other = chance.randrange(len(lines))
            lines[at], lines[other] = lines[other], lines[at]
        elif way == 5:
            lines.insert(at, chance.choice(chance.choice(pool).split(b'\n')))
        elif way == 6:
            lines.insert(at, Lines(chance).line().encode('latin-1'))
        else:
            lines[at] = at_bound(chance, lines[at])
        text = b'\n'.join(lines)
    return text


SCRIPTS, CAPTURES, HEXES = stored()
DATAGRAMS = [data for data in samples.stored() if len(data) <= 600] + list(samples.at_limits())


def script(chance):
    """A script, in one of four ways."""
    way = chance.randrange(10)
    if way == 0:
        return random_bytes(chance)
    if way < 5:
        return grammar_script(chance)
    if way < 6:
        return home_script(chance)
    return changed(chance, chance.choice(SCRIPTS), SCRIPTS)


def datagram(chance):
    """A datagram: random, of the repository, or one of these that is changed."""
    return chance.randbytes(chance.randrange(60)) if chance.randrange(8) == 0 else samples.mutant(chance, DATAGRAMS)


def prefix_field(chance):
    """A prefix in 2001:db8::/32 as TLVs have it (RFC 7788, section 10): its length, and the bytes that hold it."""
    length = chance.choice([48, 56, 60, 64])
    whole = 0x20010db8 << 96 | chance.randrange(8) << 80 | chance.randrange(4) << 68 | chance.randrange(4) << 64
    return bytes([length]) + (whole >> 128 - length << 128 - length).to_bytes(16, 'big')[:(length + 7) // 8]


def friend(chance):
    """A datagram by which node 00000001 reaches one of three others if it arrives by unicast at endpoint 1 or 2: a Node Endpoint
    and a Node State (RFC 7787, sections 7.2.1 and 7.2.3), whose data have the router's endpoints as peers, and their hash.
    """
    node, endpoint = struct.pack('>L', chance.randrange(2, 5)), chance.randrange(1, 3)
    said = {samples.tlv(8, struct.pack('>3L', 1, theirs, own)) for theirs in (1, 2) for own in (1, 2)}
    said.add(samples.tlv(32, bytes([0, 0, chance.randrange(128), chance.randrange(128)]) + b'fuzz'))
    for _ in range(chance.randrange(4)):
        lifetimes = struct.pack('>2L', chance.choice([0, 60, 7200, 2 ** 32 - 1]), chance.choice([0, 60, 2 ** 32 - 1]))
        said.add(chance.choice([
            samples.tlv(33, samples.tlv(34, lifetimes + prefix_field(chance))),
            samples.tlv(35, struct.pack('>LB', chance.randrange(1, 3), chance.randrange(16)) + prefix_field(chance)),
            samples.tlv(36, struct.pack('>L', chance.randrange(1, 3)) + bytes.fromhex('20010db8') + bytes(10) + chance.randbytes(2)),
        ]))
    data = b''.join(sorted(said))
    state = node + struct.pack('>2L', chance.randrange(2 ** 32), chance.randrange(1000)) + items.hash_of(data) + data
    return samples.tlv(3, node + struct.pack('>L', endpoint)) + samples.tlv(5, state)


def spelled(chance, data):
    """Hexadecimal text of bytes: digits of either case, and spaces and line feeds here and there."""
    text = data.hex().upper() if chance.randrange(2) else data.hex()
    if chance.randrange(2):
        text = ''.join(digit + chance.choice(['', '', '', ' ', '\n']) for digit in text)
    return text.encode()


def hexadecimal(chance):
    if chance.randrange(10) == 0:
        return changed(chance, chance.choice(HEXES), HEXES)
    text = spelled(chance, datagram(chance))
    return changed(chance, text, HEXES) if chance.randrange(8) == 0 else text


def capture(chance):
    """A capture, mostly without a line that is refused."""
    if chance.randrange(8) == 0:
        return changed(chance, chance.choice(CAPTURES), CAPTURES)
    lines = [datagram(chance).hex() or '-' for _ in range(chance.randrange(12))]
    text = '\n'.join(lines).encode() + b'\n' * chance.randrange(2)
    return changed(chance, text, CAPTURES) if chance.randrange(8) == 0 else text


def node_file(chance):
    lines, texts = Lines(chance), [chance.choice(['hncp 1'] * 8 + ['hncp 2', '', 'hncp 1 '])]
    for _ in range(chance.randrange(8)):
        kinds = chance.choice(['caps cap cap cap cap', 'external prefix number number', '# copy', 'router name id'][:3 + (chance.randrange(9) == 0)])
        word, *rest = kinds.split()
        texts.append(' '.join([word, *map(lines.word, rest)]))
    text = '\n'.join(texts).encode('latin-1') + b'\n' * chance.randrange(2)
    return changed(chance, text, SCRIPTS) if chance.randrange(8) == 0 else text


def is_name(word):
    return bool(re.fullmatch('[A-Za-z][A-Za-z0-9_-]{0,15}', word))


def name(chance, data):
    """A name for `hnlook`: one that the script defines, mostly."""
    found = [words[1] for words in (line.split() for line in data.split(b'\n')) if len(words) > 1 and words[0] == b'router']
    if not found or chance.randrange(10) == 0:
        return chance.choice(NAMES)
    word = chance.choice(found).decode('latin-1')
    return word if is_name(word) else 'A'


def any_words(chance):
    """Words of a command line, few of which ask for a form."""
    pool = ['lab', 'udp', 'soak', 'node', 'decode', 'watch', 'log', 'why', 'calm', 'table', '2', '33', '00000001', '9000', '65534', '', '-h', '--help', 'é']
    return [chance.choice(pool) if chance.randrange(4) else str(chance.choice(BOUNDS)) for _ in range(chance.randrange(6))]

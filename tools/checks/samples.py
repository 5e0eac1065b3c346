"""What `tools/check` tries the tools on: datagrams with faults, captures, and scripts, all from seeded generators."""
import glob
import ipaddress
import os
import random
import struct

import common

DATA = os.path.join(common.HERE, '..', 'crates', 'transcripts', 'data')


def scripts():
    """The paths of the repository's scripts."""
    return sorted(glob.glob(os.path.join(DATA, '*.script')))


def captures():
    return sorted(glob.glob(os.path.join(DATA, '*.capture')))


def transcript_of(path):
    return common.read(os.path.splitext(path)[0] + '.transcript')


def injected(path):
    """The datagrams that a script injects, as hexadecimal digits in lower case, `-` for none."""
    words = (line.words for line in common.read_script(path))
    return [each[4].lower() for each in words if each[:1] == ['inject'] and len(each) == 5]


def stored():
    """All datagrams of the repository's data, each once, the shortest first."""
    texts = [text for path in scripts() for text in injected(path)]
    for path in glob.glob(os.path.join(DATA, '*.hex')):
        texts.append(''.join(common.read(path)).replace(' ', ''))
    for path in captures():
        texts.extend(common.read(path))
    found = set()
    for text in texts:
        try:
            found.add(bytes.fromhex(text))
        except ValueError:
            pass  # files that `decode` and `watch` refuse
    return sorted(found, key=lambda each: (len(each), each))


def tlv(kind, value):
    return struct.pack('>HH', kind, len(value)) + value + bytes(-len(value) % 4)


def tlv_places(data):
    """Where TLVs begin, those within others guessed at."""
    return [at for at in range(0, len(data) - 3, 4) if data[at] == 0 and data[at + 1] in range(1, 38)]


def mutant(chance, pool):
    """A datagram with a change or some; one in eight has none."""
    data = bytearray(chance.choice(pool))
    for _ in range(chance.choice([0, 1, 1, 1, 1, 2, 2, 3])):
        way = chance.randrange(9)
        at = chance.randrange(len(data)) if data else 0
        places = tlv_places(data)
        if way == 0 and data:
            data[at] ^= 1 << chance.randrange(8)
        elif way == 1 and data:
            data[at] = chance.choice([0, 1, 0x7f, 0x80, 0xc3, 0xe2, 0xed, 0xf4, 0xff])
        elif way == 2:
            del data[at:]
        elif way == 3:
            del data[at - at % 4:at - at % 4 + 4 * chance.randrange(1, 4)]
        elif way == 4 and places:
            place = chance.choice(places)  # another length
            data[place + 2:place + 4] = struct.pack('>H', chance.choice([0, 4, 5, 8, 13, 20, 21, 24, 36]))
        elif way == 5 and places:
            data[chance.choice(places) + 1] = chance.choice([1, 2, 3, 4, 5, 8, 9, 10, 32, 33, 34, 35, 36, 37])
        elif way == 6:
            for _ in range(chance.randrange(1, 10)):  # deeper, below External-Connections or as node data
                data = bytearray(tlv(33, bytes(data)) if chance.randrange(3) else tlv(5, bytes(20) + bytes(data)))
                if len(data) > 4000:
                    break
        elif way == 7:
            data += tlv(chance.choice([1, 5, 5, 9, 32, 34, 35, 36]), chance.randbytes(chance.randrange(0, 28)))
        elif way == 8:
            agent = chance.choice([b'hncp', 'ü€𝄞'.encode(), b'\xc0\x80', b'\xed\xa0\x80', b'\xf4\x90\x80\x80', b'\xe2\x82', b'\xff'])
            data += tlv(chance.choice([32, 32, 34]), bytes(4) + agent)
    return bytes(data)


def at_limits():
    """Prefixes with each length around a limit and some bytes too few or too many, addresses with each pattern of zeros, and
    lists that end early."""
    for length in [0, 1, 7, 8, 9, 64, 127, 128, 129, 136, 255]:
        for more in [-1, 0, 1, 2, 3, 4]:
            for last in [0, 0x80, 1]:
                size = (length + 7) // 8 + more
                field = bytes([length]) + bytes(max(size - 1, 0)) + bytes([last]) * (size > 0)
                yield tlv(34, bytes(8) + field)
                yield tlv(35, bytes(5) + field)
    for pattern in range(256):
        groups = [0x2001 if pattern >> place & 1 else 0 for place in range(8)]
        yield tlv(36, bytes(4) + struct.pack('>8H', *groups))
    yield tlv(36, bytes(4) + struct.pack('>8H', 0, 0, 0, 0, 0, 0xffff, 0xa00, 1))
    whole = tlv(3, bytes(8)) + tlv(32, b'\0\0\4\5abcde')
    for end in range(len(whole) + 1):
        yield whole[:end]
        yield tlv(33, whole[:end])
        yield tlv(5, bytes(20) + whole[:end])


def mutants(seed, count):
    """Datagrams of the repository and at limits, and so many more, most of them changed."""
    chance = random.Random(seed)
    pool = [data for data in stored() if len(data) <= 600]
    return pool + list(at_limits()) + [mutant(chance, pool) for _ in range(count)]


# Captures

FILE_HEAD = struct.pack('<IHHiIII', 0xa1b2c3d4, 2, 4, 0, 0, 262144, 1)
SOURCE, DESTINATION = bytes.fromhex('fe80' + 27 * '0' + '1'), bytes.fromhex('ff02' + 26 * '0' + '11')


def packed(text):
    """The bytes of an address."""
    return ipaddress.ip_address(text).packed


def checksum(data):
    data += bytes(len(data) % 2)
    total = sum(struct.unpack(f'>{len(data) // 2}H', data))
    while total > 0xffff:
        total = (total & 0xffff) + (total >> 16)
    return ~total & 0xffff


def udp(payload, port=8231):
    """A UDP datagram, with the checksum that IPv6 asks for (RFC 8200, section 8.1)."""
    length = 8 + len(payload)
    head = struct.pack('>HHH', port, port, length)
    total = checksum(SOURCE + DESTINATION + struct.pack('>II', length, 17) + head + bytes(2) + payload)
    return head + struct.pack('>H', total or 0xffff) + payload


def ipv6(next_header, payload):
    """An Ethernet frame with an IPv6 packet."""
    packet = struct.pack('>IHBB', 0x60000000, len(payload), next_header, 255) + SOURCE + DESTINATION + payload
    return bytes(12) + b'\x86\xdd' + packet


def fragments(payload, size, identification):
    """The frames of a UDP datagram in fragments (RFC 8200, section 4.5); size is a multiple of 8."""
    for at in range(0, len(payload), size):
        more = int(at + size < len(payload))
        yield ipv6(44, struct.pack('>BBHI', 17, 0, at | more, identification) + payload[at:at + size])


def icmp_error(packet):
    """A frame with an ICMPv6 error that quotes a packet (RFC 4443, section 3.1)."""
    return ipv6(58, struct.pack('>BBHI', 1, 4, 0, 0) + packet[14:])


def write_capture(path, frames):
    """Writes frames a second apart; a pair has the bytes that the capture kept, and how many the frame had."""
    with open(path, 'wb') as file:
        file.write(FILE_HEAD)
        for moment, frame in enumerate(frames):
            kept, length = frame if isinstance(frame, tuple) else (frame, len(frame))
            file.write(struct.pack('<IIII', moment, 0, len(kept), length) + kept)


# Scripts

class RandomHome:
    """A random script of version 2, with most of its words. Few of its lines are refused."""

    def __init__(self, chance, is_lossy):
        self.chance = chance
        self.routers = [f'r{k}' for k in range(1, chance.randrange(3, 6))]
        self.links = ['K', 'L', 'M']
        self.moment = 0
        self.attached = {}        # (router, endpoint) -> link
        self.stopped = set()
        self.texts = ['hncp 2', f'seed {chance.randrange(2 ** 32)}'] + [f'link {link}' for link in self.links]
        if is_lossy:
            self.texts.append(f'loss {chance.choice([3, 10, 30, 50])}')
        for number, name in enumerate(self.routers, 1):
            self.texts.append(f'router {name} {number:08x}')
            self.attach(name, 1, 'K' if chance.randrange(4) else 'L')
            if chance.randrange(2):
                self.attach(name, 2, 'M')
        self.texts.append('external r1 2001:db8::/56 7200 3600')
        ways = [each for each in dir(self) if each.startswith('put_')]
        for _ in range(chance.randrange(6, 26)):
            getattr(self, chance.choice(ways))(chance.choice(self.routers))
        self.texts += [f'show {name}' for name in self.routers] + ['mail']

    def attach(self, name, endpoint, link):
        self.attached[name, endpoint] = link
        self.texts.append(f'attach {name} {endpoint} {link}')

    def put_run(self, _):
        self.moment += self.chance.choice([100, 300, 1000, 3000])
        self.texts.append(f'run {self.moment} {self.chance.choice([50, 100, 130])}')

    put_rounds = put_run

    def put_long_run(self, _):
        self.moment += self.chance.choice([20000, 50000])
        self.texts.append(f'run {self.moment} {self.chance.choice([500, 1000, 2500])}')

    def put_ticks(self, _):
        self.moment += self.chance.choice([0, 90, 150, 400])
        self.texts += [f'time {self.moment}'] + [f'tick {each}' for each in self.routers if each not in self.stopped]

    def put_flow(self, _):
        self.texts.append('flow')

    def put_copies(self, _):
        for _ in range(self.chance.randrange(1, 4)):
            self.texts.append(f'{self.chance.choice(["deliver", "deliver", "drop"])} {self.chance.randrange(1, 16)}')

    def put_inject(self, name):
        data = self.chance.choice(INJECTED) if self.chance.randrange(5) else self.chance.randbytes(self.chance.randrange(9))
        self.texts.append(f'inject {name} {self.chance.randrange(1, 3)} {self.chance.choice(["uni", "multi", "far"])} {data.hex() or "-"}')

    def put_endpoint(self, name):
        endpoint = self.chance.randrange(1, 4)
        if (name, endpoint) in self.attached:
            del self.attached[name, endpoint]
            self.texts.append(f'detach {name} {endpoint}')
        else:
            self.attach(name, endpoint, self.chance.choice(self.links))

    def put_stop(self, name):
        self.texts.append(f'start {name}' if name in self.stopped else f'{self.chance.choice(["stop", "start"])} {name}')
        (self.stopped.add if self.texts[-1].startswith('stop') else self.stopped.discard)(name)

    def put_prefix(self, name):
        prefix = f'2001:db8:{self.chance.randrange(1, 4):x}::/{self.chance.choice([56, 62, 64])}'
        goes, valid = self.chance.randrange(3) == 0, self.chance.choice([1, 60, 7200])
        self.texts.append(f'withdraw {name} {prefix}' if goes else f'external {name} {prefix} {valid} 1')

    def put_choice(self, name):
        number = self.chance.randrange(8)
        lines = [f'private {name} 64', f'private {name} off', f'address {name}', f'ula {name}', f'caps {name} 0 {number} 0 4']
        self.texts.append(self.chance.choice(lines))

    def put_sync(self, name):
        self.texts.append(f'sync {name} {self.chance.choice([each for each in self.routers if each != name])}')

    def put_reports(self, name):
        self.texts += ['mail', f'show {name}']


INJECTED = [tlv(1, b''), tlv(3, bytes.fromhex('0000000900000001')) + tlv(1, b''), tlv(3, bytes.fromhex('0000000200000001')) + tlv(1, b''),
            tlv(3, bytes.fromhex('0000000900000001')) + tlv(4, bytes(8)),
            tlv(3, bytes.fromhex('0000000100000001')) + tlv(2, bytes.fromhex('00000002')),
            bytes.fromhex('00030008000000090000000100050024000000090000000100000000f0f91d40654589650008000c000000010000000100000001')]


def without_refused(texts):
    """The lines of a script, without those that are refused."""
    texts = list(texts)
    refused = common.refusal(common.play(texts))
    while refused:
        del texts[refused[0] - 1]
        refused = common.refusal(common.play(texts))
    return texts


def random_home(chance, is_lossy):
    """The lines of a random script, without those that are refused; one script in ten keeps them."""
    texts = RandomHome(chance, is_lossy).texts
    return without_refused(texts) if chance.randrange(10) else texts

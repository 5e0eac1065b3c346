"""The datagrams of a capture, as tshark reads it."""
import bisect
import functools
import os
import re
import shutil
import subprocess

from . import common, items
from .. import library, players
from .common import Problem

PORT = 8231       # RFC 7788, section 3
HEADER = 8        # bytes of a UDP header, which udp.length counts
UDP = '17'
BATCH = 2 ** 22   # bytes that are decoded by one call, which takes up to 2 ** 24
# Which link a frame is of: the interface of the capture, that of `tcpdump -i any`, and the tags of VLANs.
LINK = ['frame.interface_id', 'sll.ifindex', 'ieee8021ad.id', 'ieee8021ad.svid', 'ieee8021ad.cvid', 'vlan.id']
FRAGMENT = ['ipv6.fraghdr.ident', 'ipv6.fraghdr.offset', 'ipv6.fraghdr.nxt', 'ip.id', 'ip.frag_offset', 'ip.flags.mf', 'ip.proto', 'data.data']
FIELDS = ['frame.number', 'frame.time_relative', *LINK, 'ipv6.src', 'ipv6.dst', 'ip.src', 'ip.dst', 'udp.srcport', 'udp.dstport',
          'udp.length', 'udp.payload', *FRAGMENT]
FRAGMENTED = 'ipv6.fraghdr || ip.flags.mf == 1 || ip.frag_offset > 0'


class Datagram:
    """A UDP datagram: the frame that ended it, its moment in seconds after the first frame, the link as the capture knows it, both
    addresses and ports, the bytes that the capture has, and how many bytes it had."""

    def __init__(self, frame, moment, link, source, source_port, destination, port, payload, length=None):
        self.frame = frame
        self.moment = moment
        self.link = link
        self.source = source
        self.source_port = source_port
        self.destination = destination
        self.port = port
        self.payload = payload
        self.length = len(payload) if length is None else length
        self.told = None

    @property
    def is_cut(self):
        return self.length != len(self.payload)

    @property
    def lines(self):
        """What `hncp decode` says of it."""
        if self.told is None:
            self.told = Told(decoded(self.payload))
        return self.told.lines

    @property
    def items(self):
        """Its TLVs as a tree, each time a new one; None if it is no list of TLVs."""
        if self.told is None:
            self.told = Told(self.lines)
        return self.told.items()


class Told:
    """What `hncp decode` says of a datagram."""

    def __init__(self, lines):
        self.lines = lines

    def items(self):
        return None if MALFORMED.match(self.lines[0]) else items.told_tree(self.lines[1:])


class ToldAmongOthers:
    """What `hncp decode` says of a list of TLVs that it read as a part of a longer one, in which the list begins at this place."""

    def __init__(self, start):
        self.start, self.read = start, []

    @property
    def lines(self):
        """The lines that it would have alone."""
        alone = [re.sub(r'\d+', lambda place: str(int(place[0]) - self.start), line, count=1) for line in self.read]
        return [f'tlvs {sum(not line.startswith(" ") for line in alone)}', *alone]

    def items(self):
        return items.told_tree(self.read, self.start)


MALFORMED = re.compile(r'malformed place=(\d+) why=(\d)$')


def decode(payload):
    """The lines of `hncp decode` for these bytes."""
    lines = players.decode(payload).splitlines()
    if not lines or lines[0].split()[:1] not in (['tlvs'], ['malformed']):
        raise not_hncp(lines[:1])
    return lines


def not_hncp(lines):
    return Problem(f'{common.player()} decode writes "{"".join(lines)[:60]}"; it is no hncp')


@functools.lru_cache(maxsize=4096)
def decoded(payload):
    """The lines of `hncp decode` for these bytes; a capture has many datagrams more than once."""
    return decode(payload)


def decode_all(payloads):
    """What `hncp decode` says of each: a table. By the library each has a call of its own. By the program lists of TLVs one after
    another are one list, which a single call decodes; what is no list has a call of its own, and as many of these run at once as
    there are processors."""
    payloads = list(dict.fromkeys(payloads))
    if library.found():
        return {payload: Told(decode(payload)) for payload in payloads}
    alone = [payload for payload in payloads if items.list_fault(payload)]
    told = dict(zip(alone, map(Told, common.in_order(decode, alone))))
    batch, size = [], 0
    for payload in payloads:
        if payload not in told:
            batch.append(payload)
            size += len(payload)
        if size > BATCH:
            told.update(decode_batch(batch))
            batch, size = [], 0
    told.update(decode_batch(batch))
    return told


def decode_batch(batch):
    """Decodes lists of TLVs by one call: what it says of each."""
    told, ends, size = [], [], 0
    for payload in batch:
        told.append(ToldAmongOthers(size))
        size += len(payload)
        ends.append(size)
    at = end = 0
    for line in decode(b''.join(batch))[1:] if batch else []:
        if line[:1] != ' ':
            place = line[:line.find(' ')]
            if not place.isdigit() or int(place) >= size:
                raise not_hncp([line])
            if int(place) >= end:
                at = bisect.bisect_right(ends, int(place), at)
                end, read = ends[at], told[at].read
        read.append(line)
    return zip(batch, told)


def decoded_ahead(datagrams):
    """The same datagrams, whose texts are made by few calls."""
    waiting, size = [], 0
    for datagram in datagrams:
        waiting.append(datagram)
        size += len(datagram.payload)
        if size > BATCH:
            yield from with_texts(waiting)
            waiting, size = [], 0
    yield from with_texts(waiting)


def with_texts(datagrams):
    told = decode_all(each.payload for each in datagrams if not each.is_cut)
    for each in datagrams:
        each.told = told.get(each.payload)
    return datagrams


def ports_of(given, parsed):
    """The ports of the words `-p PORT`, 8231 without any."""
    ports = [common.number(word, 65535) for word in parsed.ports or [str(PORT)]]
    if None in ports:
        given.error(f'{parsed.ports[ports.index(None)]} is no port')
    return ports


PORTS = ('-p', {'metavar': 'PORT', 'dest': 'ports', 'action': 'append', 'help': 'another port than 8231; may be repeated'})
CAPTURE = ('capture', {'metavar': 'CAPTURE', 'help': 'a file that tshark reads'})


def last(text):
    """The value of a field in the innermost packet of a frame."""
    return text.rpartition(',')[2]


@functools.lru_cache(maxsize=4096)
def link_of(*texts):
    """The link of a frame, by its values of LINK: those that say it, but for tags of VLAN 0, which are none."""
    said = [[each for each in text.split(',') if each and (name == LINK[0] or each != '0')] for name, text in zip(LINK, texts)]
    return ' '.join([','.join(said[0]) or '0', *(f'{name.rpartition(".")[2]}={",".join(each)}' for name, each in zip(LINK[1:], said[1:]) if each)])


def datagram_of(values):
    """The datagram of a frame's fields."""
    source, destination = (last(values['ipv6.' + way]) or last(values['ip.' + way]) for way in ('src', 'dst'))
    payload = bytes.fromhex(last(values['udp.payload']).replace(':', ''))
    length = int(last(values['udp.length']) or 0)
    return Datagram(int(values['frame.number']), float(values['frame.time_relative']), link_of(*(values[name] for name in LINK)), source,
                    int(last(values['udp.srcport'])), destination, int(last(values['udp.dstport'])), payload, length - HEADER if length else None)


class Capture:
    """The datagrams from or to one of the ports, in the order of their frames. Fragments are joined; datagrams with a missing
    fragment are left out, and how many is known at the end. Packets within ICMP errors are left out too."""

    def __init__(self, path, ports):
        self.path, self.ports = path, ports
        self.parts = {}     # of each fragmented datagram the port that is known of it, or None; 0 where it is whole, or not of HNCP

    @property
    def left_out(self):
        """How many datagrams are not whole. Where the first fragment is missing, nobody knows the port; they count too."""
        return sum(port is None or port in self.ports for port in self.parts.values())

    def words(self):
        tshark = shutil.which('tshark')
        if not tshark:
            raise Problem('there is no tshark; on Debian: apt-get install tshark')
        if not os.path.isfile(self.path):
            raise Problem(f'there is no file {self.path}')
        wanted = ' || '.join(f'udp.port == {port}' for port in self.ports)
        words = [tshark, '-n', '-r', self.path, '-o', 'ipv6.defragment:TRUE', '-o', 'ip.defragment:TRUE']
        words += ['-Y', f'({wanted} || {FRAGMENTED}) && !icmp && !icmpv6', '-T', 'fields', '-E', 'separator=/t', '-E', 'occurrence=a']
        return words + [word for field in FIELDS for word in ('-e', field)]

    def __iter__(self):
        """What the capture has. Without any datagram it is a problem, and so is one that breaks off, after what it has."""
        found = False
        with subprocess.Popen(self.words(), stdout=subprocess.PIPE, stderr=subprocess.PIPE) as run:
            for line in run.stdout:
                values = dict(zip(FIELDS, line.decode('ascii', 'replace').rstrip('\n').split('\t')))
                self.take_fragment(values)
                ports = {int(last(values[name]) or 0) for name in ('udp.srcport', 'udp.dstport')}
                if ports & set(self.ports):
                    found = True
                    yield datagram_of(values)
            faults = [text for text in run.stderr.read().decode('utf-8', 'replace').splitlines() if not text.startswith('Running as user')]
        if run.returncode != 0:
            raise Problem(faults[0] if faults else f'tshark ended with status {run.returncode}')
        if not found:
            raise Problem(f'{self.path} has no HNCP: no UDP datagram from or to port {" or ".join(map(str, self.ports))}{self.more()}')

    def more(self):
        return f'; {self.left_out} datagram(s) with a missing fragment were left out' if self.left_out else ''

    def take_fragment(self, values):
        """Puts down what a frame says of a fragmented datagram. One that is joined has its ports in the frame that ended it."""
        six, four = last(values['ipv6.fraghdr.ident']), last(values['ip.id'])
        if six:
            key, offset, kind = six, last(values['ipv6.fraghdr.offset']), last(values['ipv6.fraghdr.nxt'])
        elif '1' in values['ip.flags.mf'] or 'True' in values['ip.flags.mf'] or last(values['ip.frag_offset']) not in ('', '0'):
            key, offset, kind = four, last(values['ip.frag_offset']), last(values['ip.proto'])
        else:
            return
        key = last(values['ipv6.src'] or values['ip.src']), last(values['ipv6.dst'] or values['ip.dst']), key
        if values['udp.srcport'] or kind != UDP:
            self.parts[key] = 0
        elif self.parts.setdefault(key, None) is None and offset == '0' and len(last(values['data.data'])) >= 8:
            ports = [int(last(values['data.data'])[place:place + 4], 16) for place in (0, 4)]
            self.parts[key] = next((port for port in ports if port in self.ports), 0)


def read(path, ports):
    """The datagrams of a capture from or to one of the ports."""
    return iter(Capture(path, ports))

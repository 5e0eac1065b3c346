"""The check of capture: what tshark reads in it is what the script says of its home."""
import collections
import ipaddress
import os
import subprocess

import common
from checks import samples
from checks.helpers import lines_of, must, must_be, need, need_look, run, short
from rulercress.tools import looks

LOSSY = ['a_lossy_home.script', 'a_router_begins_anew.script']
CAPTURED = ['two_routers_meet.script', 'a_short_outage.script', 'a_triangle_of_gateways.script', 'a_forging_guest.script'] + LOSSY
EXCHANGE = 'an_exchange_repairs.script'
LINKED = 'a_triangle_of_gateways.script'
QUIET = ['two_routers_meet.script', 'a_triangle_of_gateways.script', 'an_uplink_that_flaps.script']    # nobody stops or forges
FIELDS = ['frame.time_epoch', 'ipv6.src', 'ipv6.dst', 'udp.srcport', 'udp.dstport', 'udp.checksum.status', 'udp.payload']


class Frame:
    """What tshark says of a frame."""

    def __init__(self, columns):
        self.moment = round(float(columns[0]) * 1000)
        self.source, self.target = (ipaddress.IPv6Address(each) for each in columns[1:3])
        self.ports, self.status, self.payload = columns[3:5], columns[5], columns[6]

    def key(self):
        return self.moment, str(self.source), str(self.target), self.payload


def frames_of(path):
    words = ['tshark', '-n', '-r', path, '-o', 'udp.check_checksum:TRUE', '-T', 'fields']
    for field in FIELDS:
        words += ['-e', field]
    done = subprocess.run(words, stdout=subprocess.PIPE, stderr=subprocess.PIPE)
    must(done.returncode == 0, f'tshark ended with status {done.returncode}: {done.stderr.decode()[-200:]}')
    return [Frame(line.split('\t')) for line in done.stdout.decode().split('\n')[:-1]]


def captured(folder, name, *words):
    """The frames of a script."""
    path = os.path.join(folder, 'home.pcap')
    status, text, messages = run('capture', *words, os.path.join(samples.DATA, name), path)
    must(status == 0 and text.count('\n') == 1, f'{name}: status {status}, {messages[-120:]}')
    frames = frames_of(path)
    must(text.startswith(f'{len(frames)} frames: '), f'{name}: tshark reads {len(frames)} frames, and it says {text.strip()}')
    return frames


class Homes:
    """The home of a script at each of its moments, by its lines alone."""

    def __init__(self, path):
        self.home, self.at = looks.Home(), {}
        for line in common.read_script(path)[1:]:
            if line.words:
                self.at.setdefault(self.home.moment, []).append(dict(self.home.attached))
                self.home.play(line.words)
                self.at.setdefault(self.home.moment, []).append(dict(self.home.attached))
        self.names = list(self.home.routers)

    def attached(self, moment):
        """The attachments in force at a moment at which nothing but time is played: those of the end of the line before."""
        last = max((each for each in self.at if each < moment), default=0)
        return self.at[last][-1]

    def endpoint(self, address):
        place, endpoint = address.packed[8:12], address.packed[12:]
        return self.names[int.from_bytes(place, 'big') - 1], int.from_bytes(endpoint, 'big')


def compare_frame(frame, homes, name):
    """A frame's addresses are those of endpoints on one link, and its first TLV names its sender. The answer: its copies."""
    attached = homes.attached(frame.moment)
    sender = homes.endpoint(frame.source)
    text = common.decode(frame.payload)
    must(text[1].endswith(f'node-endpoint node={homes.home.routers[sender[0]]} endpoint={sender[1]}'), f'{name}: {frame.source} sends {text[1]}')
    others = [each for each, link in attached.items() if link == attached.get(sender) and each != sender]
    if frame.target == ipaddress.IPv6Address('ff02::11'):
        must('network-state' in text[2] and len(text) == 3, f'{name}: a multicast says {text[2:]}')
        return len(others)
    must(homes.endpoint(frame.target) in others, f'{name}: {frame.source} and {frame.target} are on no common link')
    return 1


def compare_counts(frames, counts, path):
    """At each look so many copies were made as the frames up to it have."""
    play, made, at = looks.Play(common.read_script(path)), 0, 0
    for look, moment in enumerate(play.looks):
        while at < len(frames) and frames[at].moment <= moment:
            made += counts[at]
            at += 1
        if look + 1 == len(play.looks) or play.looks[look + 1] > moment:
            text = play.runs[('mail',)].at(look)
            must(text.split()[1] == f'copies={made}', f'{short(path)}: at {moment} ms {text}, and the frames have {made}')
    must(at == len(frames), f'{short(path)}: frames after the end')


def compare_numbers(frames, path):
    """What `hncp watch` finds in the frames are the numbers and identifiers that the routers show at the end."""
    home = Homes(path).home
    texts = common.read(path)
    shown = common.play(texts + [f'show {name}' for name in home.routers])[-len(home.routers):]
    expected = sorted((each.split()[2][3:], each.split()[3]) for each in shown)
    watched = common.call('watch', ''.join((frame.payload or '-') + '\n' for frame in frames).encode())[0]
    must(watched[0] == f'watch datagrams={len(frames)} malformed=0', f'{short(path)}: {watched[0]}')
    must_be([tuple(line.split()[1:3]) for line in watched[1:]], expected, f'{short(path)}: numbers')


def compare_exchange(folder):
    """With `sync` the question is a frame of its asker, and each copy of the exchange is one."""
    frames, homes = captured(folder, EXCHANGE), Homes(os.path.join(samples.DATA, EXCHANGE))
    copies = sum(compare_frame(frame, homes, EXCHANGE) for frame in frames)
    said = common.play(common.read(os.path.join(samples.DATA, EXCHANGE)) + ['mail'])[-1]
    must(said.split()[1] == f'copies={copies - 1}', f'{EXCHANGE}: {copies} copies with the question, and {said}')


def judged(folder):
    """tools/judge finds nothing in homes where nobody stops or lies."""
    if not os.path.exists(os.path.join(common.HERE, 'judge')):
        return 'there is no tools/judge'
    for name in QUIET:
        captured(folder, name)
        status, text, messages = run('judge', os.path.join(folder, 'home.pcap'))
        must(status == 0, f'judge ends with status {status} for {name}: {(text + messages)[:300]}')
    return f'judge finds nothing in {len(QUIET)} homes'


def check_capture(folder):
    """Held to: tshark reads right checksums, addresses of endpoints on one link, the sender's Node Endpoint, so many
    copies at each moment as `mail` says, in homes with loss too, and by `hncp watch` the numbers that routers show;
    links are apart; `judge` finds nothing where nobody stops."""
    need('tshark')
    need_look()
    total = copies = 0
    for name in CAPTURED:
        path = os.path.join(samples.DATA, name)
        frames, homes = captured(folder, name), Homes(path)
        must(len(frames) >= 10, f'{name}: {len(frames)} frames')
        for frame in frames:
            must(frame.ports == ['8231', '8231'] and frame.status == '1', f'{name}: ports {frame.ports}, checksum {frame.status}')
        injected = samples.injected(path)
        must_be([frame.payload for frame in frames if str(frame.source) == 'fe80::'], injected, f'{name}: injected datagrams')
        sent = [frame for frame in frames if str(frame.source) != 'fe80::']
        counts = [compare_frame(frame, homes, name) for frame in sent]
        compare_counts(sent, counts, path)
        if not injected and name not in LOSSY:
            compare_numbers(sent, path)
        total, copies = total + len(frames), copies + sum(counts)
    whole, parts = collections.Counter(frame.key() for frame in captured(folder, LINKED)), collections.Counter()
    links = Homes(os.path.join(samples.DATA, LINKED)).home.links
    for link in links:
        parts.update(frame.key() for frame in captured(folder, LINKED, '--link', link))
    must(parts == whole, f'{LINKED}: the captures of its links are not that of the home')
    compare_exchange(folder)
    lines_of('capture', '--link', 'nowhere', os.path.join(samples.DATA, LINKED), os.path.join(folder, 'none.pcap'), status=1)
    return f'{total} frames of {len(CAPTURED)} homes with {copies} copies, {len(links)} links apart; {judged(folder)}'

"""The checks of what stands beside real gateways: judge, and the page on them."""
import os
import random
import re
import shutil
import struct

import common
from checks import faults, frames, homes, samples, talks
from checks.helpers import SEED, lines_of, must, must_be, run, short
from rulercress.tools import captures, items
from rulercress.tools.judging.judgement import Judgement, judge
from rulercress.tools.judging.rules import TOLD
from rulercress.tools.judging.text import text_of

PAGE = os.path.join(common.HERE, '..', 'docs', 'BESIDE-REAL-GATEWAYS.md')
MUTANTS = 10000
TOGETHER = 100         # mutants that are judged as one capture
SOUND_HOMES = ['a_home_with_an_uplink.script', 'a_triangle_of_gateways.script', 'an_uplink_that_flaps.script']
WHOLE = 20             # how many shorter captures of the sound home are judged


class Decoded(captures.Datagram):
    """A datagram whose text is known."""

    lines = None


def texts_of(payloads):
    """What `hncp decode` says of each, by few calls: of what is no list of TLVs it is made here."""
    told = captures.decode_all(payload for payload in payloads if not items.list_fault(payload))
    texts = {payload: each.lines for payload, each in told.items()}
    for payload in payloads:
        fault = items.list_fault(payload)
        if fault:
            texts[payload] = [f'malformed place={fault[0]} why={fault[1]}']
    return [texts[payload] for payload in payloads]


# judge

def renumbered(node, more):
    """The sound home with greater numbers of a node; they wrap."""
    sound = faults.Plant()
    before = sound.versions()
    networks = faults.network_hashes(before, before, {node: more})
    for each in sound.datagrams:
        found = []
        for kind, value in faults.tlvs(each.payload):
            if kind == faults.NODE_STATE and struct.unpack('>I', value[:4])[0] == node:
                number = (struct.unpack('>I', value[4:8])[0] + more) % 2 ** 32
                value = value[:4] + struct.pack('>I', number) + value[8:]
            elif kind == faults.NETWORK_STATE:
                value = networks.get(value, value)
            found.append((kind, value))
        sound.put(each, faults.spelled(found))
    return sound.datagrams


def check_sound():
    """Nothing is found in the sound capture, in its fronts and rests, and where numbers wrap."""
    sound = homes.home()
    step = len(sound) // WHOLE
    others = [sound[place:] for place in range(step, len(sound), step)] + [sound[:place] for place in range(step, len(sound), step)]
    wraps = next(number for number, (_, data) in sorted(faults.Plant().versions()[1].items()) if data) + 1
    for name, datagrams in [('the sound capture', sound), ('numbers that wrap', renumbered(1, 2 ** 32 - wraps)),
                            *((f'a part of {len(each)}', each) for each in others)]:
        made = judge(datagrams)
        must(not made.findings, f'in {name}: {next(iter(made.findings), "")}')
    return len(others) + 2


def check_faults():
    """Each fault is found where it was planted, and nothing but what follows from it."""
    for name, rules, plant in faults.FAULTS:
        sound = faults.Plant()
        planted = plant(sound)
        made = judge(sound.datagrams)
        found = {finding.rule for finding in made.findings + made.told}
        must(found == set(rules.split()), f'{name}: found {" ".join(sorted(found)) or "nothing"}, and not {rules}')
        must(bool(made.findings) == (not found <= set(TOLD)), f'{name}: {len(made.findings)} findings')
        frames = {finding.frame for finding in made.findings + made.told if finding.rule == rules.split()[0]}
        must(planted is None or planted.frame in frames, f'{name}: in the frames {sorted(frames)}, and not {planted and planted.frame}')
        must(all('RFC ' in finding.sections for finding in made.findings + made.told), f'{name}: without a section')
    return len(faults.FAULTS)


def check_mutants():
    """No mutants of datagrams, addresses, ports and moments give a traceback, and each judgement has its text."""
    chance = random.Random(SEED)
    sound = homes.home()
    pool = [each.payload for each in sound] + [data for data in samples.stored() if len(data) <= 600]
    payloads = [samples.mutant(chance, pool) for _ in range(MUTANTS)]
    texts = texts_of(payloads)
    for place in range(0, MUTANTS, MUTANTS // 200):
        must_be(texts[place], common.decode(payloads[place].hex()), f'{payloads[place].hex()}: decoded with others')
        must(items.first_fault(payloads[place]) == items.list_fault(payloads[place]), f'{payloads[place].hex()}: another fault')
    addresses = [*dict.fromkeys(each.source for each in sound), 'ff02::11', 'ff02::1', '2001:db8::1', '10.0.0.1', '']
    known, items.first_fault = items.first_fault, items.list_fault
    found = 0
    try:
        for first in range(0, MUTANTS, TOGETHER):
            made = Judgement()
            for payload, lines in zip(payloads[first:first + TOGETHER], texts[first:first + TOGETHER]):
                base = chance.choice(sound)
                source, destination = (chance.choice(addresses) if chance.randrange(8) == 0 else end for end in (base.source, base.destination))
                port = chance.choice([8231, 8231, 8231, 50000])
                moment = base.moment + chance.choice([0, 0, 0, 0, 0, 0, 10 ** 9, -10 ** 9])
                datagram = Decoded(base.frame, moment, '0', source, 8231, destination, port, payload, len(payload) + (chance.randrange(50) == 0))
                datagram.lines = lines
                made.take(datagram)
            made.close()
            found += len(made.findings)
            must(len(list(text_of(made, True))) >= len(made.findings), 'a finding is not shown')
    finally:
        items.first_fault = known
    must(found >= MUTANTS, f'only {found} findings in mutants')
    return MUTANTS


def check_captures(folder):
    """By tshark the same is found: in the sound capture, with a fault of each kind of address, and in bad captures."""
    path = os.path.join(folder, 'home.pcap')
    homes.write(path, homes.home())
    text = lines_of('judge', path)
    must(text[0].startswith('capture datagrams=165 sources=4 ') and 'not proved: 0' in text[2], f'the sound capture: {text[:3]}')
    wanted = {'a source that is not link-local', 'HNCP over IPv4', 'one link with two prefixes', 'a multicast again after 50 ms'}
    for name, _, plant in faults.FAULTS:
        if name in wanted:
            sound = faults.Plant()
            plant(sound)
            homes.write(path, sound.datagrams)
            shown = {line.strip() for line in lines_of('judge', path, status=3) if line.startswith('  frame ')}
            must(shown == {str(finding) for finding in judge(sound.datagrams).findings}, f'{name}: by a capture {shown}')
    with open(path, 'rb') as file:
        octets = file.read()
    check_programs(path)
    sound = [homes.frame_of(each) for each in homes.home()[:9]]
    samples.write_capture(path, sound + [(sound[0][:-9], len(sound[0]))])
    status, text, messages = run('judge', path)
    must(status == 1 and 'cut: the capture has 15 of 24 bytes' in text and '1 of 10' in messages, f'a cut frame: status {status}, {text} {messages}')
    for name, kept, said in [('cut short', octets[:-9], 'cut short'), ('without HNCP', octets[:24], 'has no HNCP'), ('that is none', b'nothing' * 20, 'capture file')]:
        with open(path, 'wb') as file:
            file.write(kept)
        status, _, messages = run('judge', path)
        must(status == 1 and said in messages and messages.count('\n') == 1, f'a capture {name}: status {status}, {messages}')


def check_programs(path):
    """A program that is no hncp is told."""
    known = os.environ['HNCP']
    try:
        for program in ['/bin/true', '/bin/cat', '/bin/echo']:
            os.environ['HNCP'] = program
            for tool in ['judge', 'decode-capture']:
                status, text, messages = run(tool, path)
                must(status == 1 and messages.count('\n') == 1 and 'findings' not in text, f'{tool} with {program}: status {status}, {messages[-200:]}')
    finally:
        os.environ['HNCP'] = known


def check_simulated(folder):
    """What tools/capture makes of homes in which nothing goes wrong is sound. Where it makes nothing, nothing is judged."""
    path, count = os.path.join(folder, 'simulated.pcap'), 0
    for script in samples.scripts():
        if short(script) in SOUND_HOMES and os.path.exists(os.path.join(common.HERE, 'capture')):
            if run('capture', script, path)[0] == 0:
                text = lines_of('judge', path)
                must('not proved: 0' in text[2], f'{short(script)}: {text[2]}')
                count += 1
    return count


def check_judge(folder):
    """Held to: a capture of three routers as the program sent it, its fronts and rests, with numbers that wrap, and
    captures of `tools/capture`: nothing is found. In it some 70 faults, one at a time: each is found in its frame, and
    nothing that does not follow from it. Random mutants of it give no traceback.

    Who talks: homes with a gateway that is deaf or dies: the rule is found, in the rest of the capture too. Homes where
    one leaves a link, comes late or moves, or that fall in two parts and meet, their fronts and rests, and with lost frames: nothing.

    Frames: one address on two links by VLANs, by `-i any` and merged; frames that stand twice, out of order, without a
    fragment. Datagrams with twice as many prefixes, peers or nodes take about twice as many calls."""
    sound, planted, mutants, talking = check_sound(), check_faults(), check_mutants(), talks.check_talks()
    hostile, more = frames.check_hostile(), '; no capture files, as there is no tshark'
    if shutil.which('tshark'):
        check_captures(folder)
        sound += check_simulated(folder)
        more = f', {frames.check_frames(folder)} kinds of frames'
    return f'nothing in {sound} sound captures, each of {planted} faults, {talking} captures of who talks, {hostile} hostile, {mutants} mutants{more}'


def check_page(_):
    """docs/BESIDE-REAL-GATEWAYS.md: after a line of bytes each line that decode is said to say is one that it says."""
    octets = said = 0
    lines = []
    for text in common.read(PAGE):
        if re.fullmatch('`[0-9a-f ]+`', text):
            lines = common.decode(text.strip('`'))
            octets += 1
        for shown in re.findall(r'`(\d+ \d+ \d+ [^`]*)`', text):
            must(shown in lines, f'"{shown}" is not what decode says: {lines}')
            said += 1
        place = re.search(r'`tools/explain` with this line says: (.*)\.', text)
        if place:
            must(any(line.startswith(place.group(1)) for line in lines_of('explain', lines[-1])), f'explain does not say {place.group(1)}')
            said += 1
    must(octets >= 5 and said >= 6, f'only {octets} byte texts, and {said} lines on them')
    return f'{octets} byte texts, {said} lines on them'

"""The checks of what reads and writes datagrams: hncp.lua, decode-capture and forge."""
import collections
import os
import re
import struct
import subprocess

import common
from checks import samples
from checks.helpers import SEED, Missing, lines_of, must, must_be, need, run, short


# hncp.lua

def shown(path, *words):
    """What tshark writes with hncp.lua, as lines."""
    words = ['tshark', '-n', '-X', 'lua_script:' + os.path.join(common.HERE, 'hncp.lua'), '-r', path, *words]
    done = subprocess.run(words, stdout=subprocess.PIPE, stderr=subprocess.PIPE)
    must(done.returncode == 0, f'tshark ended with status {done.returncode}: {done.stderr.decode()[-200:]}')
    return done.stdout.decode().split('\n')[:-1]


def fields_of(path, *fields):
    """The values of fields in each frame."""
    words = [word for field in fields for word in ('-e', field)]
    return [line.split('\t') for line in shown(path, '-T', 'fields', '-E', 'separator=/t', '-E', 'aggregator=|', *words)]


def dissected(path):
    """Of each frame what hncp.lua says: the texts of its TLVs, and the messages of its expert items."""
    flags = ['hncp.malformed', 'hncp.bad', 'hncp.body']
    for texts, messages, *flagged in fields_of(path, 'hncp.tlv', '_ws.expert.message', *flags):
        yield texts.split('|') if texts else [], messages.split('|') if messages else [], {
            name for name, value in zip(flags, flagged) if value}


def refused_by(text):
    """What `hncp decode` refuses of a datagram, by its lines: the flags of hncp.lua."""
    body = any(' node-state ' in line and ' body=' in line for line in text)
    bad = any(re.match(r' *\d+ \d+ \d+ bad why=', line) for line in text)
    malformed = text[0].startswith('malformed ')
    return {name for name, so in [('hncp.malformed', malformed), ('hncp.bad', bad), ('hncp.body', body)] if so}


def bads(text):
    """The places and causes of what decodes to no item."""
    found = (re.match(r' *(\d+) \d+ \d+ bad why=(\d)', line) for line in text)
    return [f'bad place={each.group(1)} why={each.group(2)}' for each in found if each]


def check_lua(folder):
    """Held to: datagrams of the repository, some at limits, and mutants of a seeded generator: it marks exactly those
    that `hncp decode` calls malformed, `bad` or ` body=`, and of the others the texts of all TLVs are the same; and
    names, user agents, IPv4 and cut datagrams."""
    need('tshark')
    if b'Lua' not in subprocess.run(['tshark', '--version'], stdout=subprocess.PIPE, stderr=subprocess.PIPE).stdout:
        raise Missing('this tshark is built without Lua')
    datagrams = [data for data in samples.mutants(SEED, 700) if data]
    path = os.path.join(folder, 'lua.pcap')
    samples.write_capture(path, [samples.ipv6(17, samples.udp(data)) for data in datagrams])
    frames = list(dissected(path))
    must(len(frames) == len(datagrams), f'{len(frames)} frames and not {len(datagrams)}')
    counts = collections.Counter()
    for data, (texts, messages, flags) in zip(datagrams, frames):
        text = common.decode(data.hex())
        expected = refused_by(text)
        counts.update(expected or ['nothing'])
        if 'hncp.malformed' in expected:
            # Wireshark shows the TLVs before the fault as well, and marks what is wrong with these.
            must('hncp.malformed' in flags, f'{data.hex()}: not marked, and decode says {text[0]}')
            must(any(each.startswith(text[0] + ':') for each in messages), f'{data.hex()}: {messages}, and not {text[0]}')
            continue
        must(flags == expected, f'{data.hex()}: marked {sorted(flags)}, and decode says {sorted(expected)}')
        must_be(texts, [re.sub(r'^ *\d+ \d+ \d+ ', '', line) for line in text[1:]], f'{data.hex()}: TLVs')
        must_be([each.split(':')[0] for each in messages if each.startswith('bad ')], bads(text), f'{data.hex()}: messages')
    must(min(counts[name] for name in ['hncp.malformed', 'hncp.bad', 'hncp.body', 'nothing']) >= 20, f'too few of a kind: {counts}')
    check_readable(os.path.join(folder, 'readable.pcap'))
    return f'{len(datagrams)} datagrams: {counts["hncp.malformed"]} malformed, {counts["hncp.bad"]} bad, {counts["hncp.body"]} body'


def check_readable(path):
    """Beside the text of TLVs: names of types, user agents, IPv4, and datagrams of which the frame has a part."""
    address, prefix = samples.packed('::ffff:192.0.2.1'), b'\x68' + samples.packed('::ffff:10.0.0.0')[:13]
    kinds = {10: 'Trust-Verdict', 37: 'DHCPv4-Data', 38: 'DHCPv6-Data', 39: 'DNS-Delegated-Zone', 40: 'Domain-Name', 41: 'Node-Name',
             42: 'Managed-PSK', 43: 'Prefix-Policy'}
    named = samples.tlv(32, b'\0\0\4\5a"\xc3\xbc\0') + samples.tlv(36, bytes(4) + address) + samples.tlv(35, bytes(5) + prefix)
    datagram = samples.udp(named + b''.join(samples.tlv(kind, b'x') for kind in kinds))
    whole = samples.ipv6(17, datagram)
    longer = samples.ipv6(17, datagram[:4] + struct.pack('>H', len(datagram) + 1) + datagram[6:])
    samples.write_capture(path, [whole, (whole[:-9], len(whole)), longer])
    found = fields_of(path, 'hncp.version.agent.text', 'hncp.prefix.ipv4', 'hncp.address.ipv4', 'hncp.cut')
    must_be(found, [['a\\x22\u00fc\\x00', '10.0.0.0/8', '192.0.2.1', ''], ['', '', '', '1'], ['', '', '', '1']], 'fields for readers')
    text = shown(path, '-V')
    for kind, name in kinds.items():
        must(any(line.strip() == f'Type: {name} ({kind})' for line in text), f'type {kind} is not named {name}')


# decode-capture

def check_capture(folder):
    """Held to: captures with fragments, a lost fragment, an ICMP error, two ports, a frame cut short, and none of
    HNCP."""
    need('tshark')
    pool = [data for data in samples.stored() if data]
    long = samples.tlv(33, b'') + samples.tlv(1000, bytes(range(256)) * 16) + samples.tlv(1001, bytes(59000))
    frames, expected = [], []

    def expect(payload, text=None):
        moment = len(frames) - 1
        expected.append(f'frame {len(frames)} at {moment:.6f} fe80::1 8231 > ff02::11 8231 {len(payload)} bytes')
        expected.extend(common.decode(payload.hex()) if text is None else [text])

    for place, payload in enumerate([b''] + pool[::9] + [long, pool[-1]]):
        datagram = samples.udp(payload)
        frames += samples.fragments(datagram, 1448, place) if len(datagram) > 1448 or place % 3 == 2 else [samples.ipv6(17, datagram)]
        expect(payload)
    frames += list(samples.fragments(samples.udp(pool[-1]), 64, 5000))[1:]         # the first fragment is missing
    frames += [samples.icmp_error(samples.ipv6(17, samples.udp(pool[-1]))), samples.ipv6(17, samples.udp(pool[-1], 8232))]
    whole = samples.ipv6(17, samples.udp(pool[-1]))
    frames.append((whole[:-10], len(whole)))
    expect(pool[-1][:-10], f'cut: the capture has {len(pool[-1]) - 10} of {len(pool[-1])} bytes')
    path = os.path.join(folder, 'frames.pcap')
    samples.write_capture(path, frames)
    must_be(lines_of('decode-capture', path), expected, 'decode-capture')
    both = lines_of('decode-capture', '-p', '8231', '-p', '8232', path)
    must(both[:len(expected) - 2] == expected[:-2] and len(both) > len(expected), 'two ports show no more than one')
    status, text, messages = run('decode-capture', '-p', '9', path)
    must(status == 1 and not text and 'has no HNCP' in messages, f'a capture without HNCP: status {status}, {messages}')
    return f'{len(frames)} frames, {len(expected)} lines'


# forge

def notes_on(text):
    """The kinds of notes that a router takes of a datagram: the last words of the lines."""
    script = ['hncp 2', 'router Z 7fffffff', 'link L', 'attach Z 1 L', f'inject Z 1 multi {text}']
    return {line.split()[-1] for line in common.play(script) if line.startswith('note ')}


def forged(texts):
    """What forge makes of the lines of each datagram."""
    made = lines_of('forge', data='\n'.join('\n'.join(lines) for lines in texts).encode())
    must(len(made) == len(texts), f'forge made {len(made)} datagrams, and not {len(texts)}')
    return made


def without_hashes(lines):
    return [re.sub(r'(node-state .*) hash=[0-9a-f]{16}', r'\1', line) for line in lines]


def check_forge(folder):
    """Held to: the datagrams of the repository's scripts come out byte for byte; with made hashes too, but where a
    router notes that the hash is wrong or asks for the data; text of mutants comes out as the same text."""
    stored = [(short(path), text) for path in samples.scripts() for text in dict.fromkeys(samples.injected(path))]
    decoded = [(name, text, common.decode('' if text == '-' else text)) for name, text in stored]
    whole = [each for each in decoded if not each[2][0].startswith('malformed')]
    raw = [text for _, text, lines in decoded if lines[0].startswith('malformed')]
    must_be(forged([lines for _, _, lines in whole]), [text for _, text, _ in whole], 'datagrams of scripts')
    must_be(forged([['tlvs', f'raw value={text}'] for text in raw]), raw, 'raw datagrams')
    # Without the hashes that decode tells, forge makes them itself. They are others where a router notes that the hash is not
    # that of the data, or that the data are not there.
    wrong = 0
    for (name, text, _), own in zip(whole, forged([without_hashes(lines) for _, _, lines in whole])):
        is_other = bool(notes_on(text) & {'badhash', 'ask'})
        must((own != text) == is_other, f'{name}: {text[:80]} comes out as {own[:80]} with made hashes')
        wrong += is_other
    names = {name for name, _, _ in whole if 'forged' in name}
    must(len(names) >= 3 and wrong >= 3 and len(whole) >= 50 and len(raw) >= 20, f'too few: {names}, {len(whole)}, {wrong}, {len(raw)}')
    changed = [text for text in (common.decode(data.hex()) for data in samples.mutants(SEED, 300)) if text[0].startswith('tlvs')]
    for text, made in zip(changed, forged(changed)):
        must_be(common.decode('' if made == '-' else made), text, f'{made[:80]}: decoded again')
    check_network_hash()
    return f'{len(whole)} datagrams of scripts, {wrong} of them with a wrong hash, {len(raw)} raw ones, {len(changed)} decoded again'


def check_network_hash():
    """The network state hash that the routers of a script come to, made from the node states that they send."""
    path = next(path for path in samples.scripts() if short(path) == 'two_routers_meet.script')
    expected = re.search(r'^hash A ([0-9a-f]{16})$', '\n'.join(samples.transcript_of(path)), re.M).group(1)
    words = [f'node-state node={node} number=2 hash={digest}' for node, digest in
             [('00000002', '31a808a6de7d5ba6'), ('00000001', 'b82e32953d515cba')]]
    text = common.decode(lines_of('forge', 'network-state', *words)[0])
    must(f'hash={expected}' in text[1], f'network state hash: {text[1]}, and not {expected}')

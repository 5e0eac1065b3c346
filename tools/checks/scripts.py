"""The checks of what reads scripts and transcripts: annotate, picture, seeds and explain."""
import collections
import itertools
import os
import random
import re
import struct
import subprocess

import common
from checks import samples
from checks.helpers import SEED, copy_tools, is_static, lines_of, looks_in, must, must_be, need, run, short
from rulercress.tools import items

MEETING = ['link lan', 'router A 00000001', 'router B 00000002', 'attach A 1 lan', 'attach B 1 lan', 'external A 2001:db8::/56 7200 3600']
REPORTS = ('show', 'hash', 'used', 'prefixes', 'elect', 'advert', 'audit', 'compare', 'mail', 'addresses', 'addressed', 'ulas')


# annotate

def growth(lines):
    """How many lines of the transcript each line of a script wrote, by playing each front of it."""
    counts, before = {}, 0
    for line in lines:
        transcript = common.play(each.text for each in lines[:line.number])
        counts[line.number], before = len(transcript) - before, len(transcript)
        if common.refusal(transcript):
            break
    return counts


def check_moment(lines, place, moment):
    """The moment after a line is this one: `time` to it is played, and `time` to the one before is refused."""
    front = [line.text for line in lines[:place]]
    must(not common.refusal(common.play(front + [f'time {moment}'])), f'the moment is above {moment}')
    if moment > 0:
        refused = common.refusal(common.play(front + [f'time {moment - 1}']))
        must(refused == (place + 1, 10), f'the moment is below {moment}')


def check_annotate(folder):
    """Held to: in scripts of at most 90 lines, each line of the script wrote as many lines as playing the script up to
    it shows; `time` is refused below the moment, and not at it. Of a log: so many copies as `mail` says, in the
    order of lines and moments."""
    written = 0
    for path in samples.scripts():
        transcript, lines = samples.transcript_of(path), common.read_script(path)
        columns = [line.split('\t', 3) for line in lines_of('annotate', path, os.path.splitext(path)[0] + '.transcript')]
        must_be([each[3] for each in columns], transcript, f'{short(path)}: transcript')
        for each in columns:
            line = lines[int(each[0]) - 1].text
            shown = ' '.join(line.split())
            must(each[2] == shown or each[2].endswith('..') and shown.startswith(each[2][:-2]), f'{short(path)}: line {each[0]} is not {each[2]}')
        if is_static(transcript) or len(lines) > 90:
            continue
        found = collections.Counter(int(each[0]) for each in columns)
        expected = {number: count for number, count in growth(lines).items() if count}
        must(found == expected, f'{short(path)}: lines {dict(found)}, and not {expected}')
        written += len(columns)
        for each in {each[0]: each for each in columns if not each[3].startswith(('refused ', 'ra '))}.values():
            check_moment(lines, int(each[0]), int(each[1]))
    path = os.path.join(folder, 'other.transcript')
    with open(path, 'w') as file:
        file.write('show A\n')
    lines_of('annotate', samples.scripts()[0], path, status=1)
    return f'{written} lines with their script lines and moments, {check_annotated_logs() if looks_in() else "no"} events'


def check_annotated_logs():
    """Without a transcript: the events that a line made are those of the line when it is played up to there. The answer: how
    many events."""
    total = 0
    for path in samples.scripts():
        transcript, lines = samples.transcript_of(path), common.read_script(path)
        refused = common.refusal(transcript)
        if is_static(transcript) or len(lines) > 60 or refused and refused[1] in (9, 16):
            continue
        columns = [line.split('\t', 3) for line in lines_of('annotate', path)]
        events = [each for each in columns if not each[3].startswith(('  ', 'refused '))]
        copies = sum(each[3].startswith('  copy ') for each in columns)
        said = common.play([line.text for line in lines[:refused[0] - 1 if refused else None]] + ['mail'])[-1]
        must(said.split()[1] == f'copies={copies}', f'{short(path)}: {copies} copies, and {said}')
        moments = [int(each[1]) for each in events]
        must(moments == sorted(moments) and [int(each[0]) for each in events] == sorted(int(each[0]) for each in events), f'{short(path)}: the order')
        for number, moment in {int(each[0]): int(each[1]) for each in events}.items():
            if lines[number - 1].word in ('run', 'time') and not (refused and number >= refused[0]):
                check_moment(lines, number, moment)
        total += len(events)
    return total


# picture

def expected_edges(path, transcript):
    """The attached endpoints less the detached ones, and the uplinks, after the lines that were played."""
    refused = common.refusal(transcript)
    end = 1 if is_static(transcript) else refused[0] - 1 if refused else None
    endpoints, uplinks = {}, set()
    for line in common.read_script(path)[1:end]:
        words = line.words
        if line.word == 'attach':
            endpoints[words[1], words[2]] = words[3]
        elif line.word == 'detach':
            del endpoints[words[1], words[2]]
        elif line.word == 'external':
            uplinks.add((words[1], f'{words[1]} {words[2]}'))
        elif line.word == 'withdraw':
            uplinks.discard((words[1], f'{words[1]} {words[2]}'))
    return sorted((name, link, endpoint) for (name, endpoint), link in endpoints.items()), sorted(uplinks)


def last_prefixes(path, transcript):
    """The assigned prefixes that the last `prefixes` tell, between which the script has other reports alone."""
    refused = common.refusal(transcript)
    texts = [line.word for line in common.read_script(path)[1:refused[0] - 1 if refused else None] if line.words]
    while texts and texts[-1] != 'prefixes':
        texts.pop()
    together = list(itertools.takewhile(REPORTS.__contains__, reversed(texts))).count('prefixes')
    blocks = []
    for line in transcript:
        words = line.split()
        if words[0] == 'prefixes':
            blocks.append((words[1], set()))
        elif words[0] == 'prefix':
            blocks[-1][1].add(words[4][3:])
    return set().union(*dict(blocks[len(blocks) - together:]).values())


def check_pictures(folder):
    """Reports of two moments are not mixed, a name that no script has does not leave its text, and large homes are no long line."""
    path, told = (os.path.join(folder, name) for name in ('home.script', 'home.transcript'))

    def pictured(texts, *form):
        for name, lines in ((path, texts), (told, common.play(texts))):
            with open(name, 'wb') as file:
                file.write(common.joined(lines))
        text = '\n'.join(lines_of('picture', path, told))
        return subprocess.run(['dot', *form], input=text.encode(), stdout=subprocess.PIPE, stderr=subprocess.PIPE).stdout.decode() if form else text

    before = ['hncp 1', *MEETING, 'run 20000 100', 'prefixes A']
    text = pictured([*before, 'withdraw A 2001:db8::/56', 'external A 2001:db9::/56 7200 3600', 'run 40000 100', 'prefixes B'])
    must('2001:db9' in text and '2001:db8' not in text.replace('"A 2001:db8', ''), f'prefixes of two moments: {text}')
    for name in ['x\\",URL="javascript:alert(1)', 'x"', 'x\\', 'x\x1b[31m', 'x<b>', '1x', 'x' * 17]:
        for line in (f'router {name} 00000001', f'link {name}', f'router x {name}', f'external A 2001:db8::%{name}/64 1 1'):
            shown = pictured(['hncp 1', *MEETING, line], '-Tsvg')
            must('javascript' not in shown and '\x1b' not in shown and shown.count('class="node"') <= 4, f'{line}: {shown[:300]}')
    star = [text for k in range(1, 61) for text in (f'router r{k} {k:08x}', f'attach r{k} 1 lan')]
    width, height = map(int, re.search(r'width="(\d+)pt" height="(\d+)pt"', pictured(['hncp 1', 'link lan', *star], '-Tsvg')).groups())
    must(max(width, height) < 3 * min(width, height), f'a drawing of 60 routers has {width} x {height} points')
    return 3


def edges_of(text):
    """The edges that graphviz reads: tail, head, and label or nothing."""
    done = subprocess.run(['dot', '-Tcanon'], input=text.encode(), stdout=subprocess.PIPE, stderr=subprocess.PIPE)
    must(done.returncode == 0 and not done.stderr, f'dot: {done.stderr.decode()[-200:].strip()}')
    word = r'("[^"]*"|[^\s";]+)'
    for line in done.stdout.decode().replace('\n\t\t', ' ').split('\n'):
        if ' -- ' in line:
            found = re.match(rf'\s*{word} -- {word}\s*\[(.*)\];$', line)
            must(found, f'an edge that cannot be read: {line}')
            label = re.search(r'label="?(\d+)"?', found.group(3))
            yield found.group(1).strip('"'), found.group(2).strip('"'), label and label.group(1)


def check_picture(folder):
    """Held to: its edges are the attached endpoints less the detached ones, and the uplinks; in scripts without
    `detach` each assigned prefix is shown."""
    need('dot')
    edges = pictured = 0
    for path in samples.scripts():
        transcript = samples.transcript_of(path)
        endpoints, uplinks = expected_edges(path, transcript)
        text = '\n'.join(lines_of('picture', path, os.path.splitext(path)[0] + '.transcript'))
        found = list(edges_of(text))
        must_be(sorted(each for each in found if each[2]), endpoints, f'{short(path)}: endpoints')
        must_be(sorted(each[:2] for each in found if not each[2]), uplinks, f'{short(path)}: uplinks')
        told = {each for each in last_prefixes(path, transcript) if f'{each}' in re.findall(r'\\n([0-9a-f:]+/\d+)', text)}
        if not any(line.word == 'detach' for line in common.read_script(path)):
            must(told == last_prefixes(path, transcript), f'{short(path)}: prefixes {last_prefixes(path, transcript) - told} are not shown')
            pictured += len(told)
        edges += len(found)
        must_be(list(edges_of('\n'.join(lines_of('picture', path)))) if not common.refusal(transcript) else found, found,
                f'{short(path)}: without the transcript')
    must(edges >= 100 and pictured >= 10, f'too few: {edges} edges, {pictured} prefixes')
    check_pictures(folder)
    return f'{len(samples.scripts())} scripts, {edges} edges, {pictured} prefixes'


# seeds

def check_seeds(folder):
    """Held to: plays of a script with each seed put in by the check."""
    path = next(path for path in samples.scripts() if short(path) == 'a_vanishing_router.script')
    texts, expected = common.read(path), []
    for seed in range(1, 101):
        transcript = common.play(re.sub('^seed .*', f'seed {seed}', text) for text in texts)
        expected += [f'seed {seed}: {line}' for line in transcript if re.search('kitchen .*number=4', line)][:1]
    must(0 < len(expected) < 100, f'{len(expected)} seeds tell nothing')
    must_be(lines_of('seeds', path, 'kitchen .*number=4'), expected + [f'{len(expected)} of 100 seeds'], 'seeds')
    # A script without a seed: the refused line keeps its number.
    plain = next(path for path in samples.scripts() if short(path) == 'taken_name.script')
    must_be(lines_of('seeds', '-n', '2', plain, '^refused 5 8$'), ['seed 1: refused 5 8', 'seed 2: refused 5 8', '2 of 2 seeds'], 'seeds')
    must_be(lines_of('seeds', '-n', '3', plain, 'no such text', status=1), ['0 of 3 seeds'], 'seeds')
    must_be(lines_of('seeds', '--from', '40', '-n', '20', path, 'kitchen .*number=4')[:-1],
            [line for line in expected if 40 <= int(line.split()[1][:-1]) < 60], 'seeds --from')
    parts = [lines_of('seeds', '-n', '40', '--shard', f'{part}/3', path, 'kitchen .*number=4') for part in (1, 2, 3)]
    must_be(sorted((line for part in parts for line in part[:-1]), key=lambda line: int(line.split()[1][:-1])),
            [line for line in expected if int(line.split()[1][:-1]) <= 40], 'seeds --shard')
    must_be([part[-1].split(' of ')[1] for part in parts], ['14 seeds', '13 seeds', '13 seeds'], 'seeds --shard')
    return f'100 seeds, of which {len(expected)} show the pattern, {check_moments(folder)} moments'


def check_moments(folder):
    """When a home is sound: as scripts say that ask after each round. Reports behind a run are asked in it; others are not."""
    path, expected = os.path.join(folder, 'home.script'), []
    with open(path, 'w') as file:
        file.write('\n'.join(['hncp 1', *MEETING, 'run 8000 100', '', '# the last report', 'audit A', 'show B', 'time 9000', 'audit B', '']))
    for seed in range(7, 12):
        asked = [text for moment in range(100, 8001, 100) for text in (f'run {moment} 100', 'audit A')]
        said = common.play(['hncp 1', f'seed {seed}', *MEETING, *asked])
        expected.append(next(100 * place for place, line in enumerate(said, 1) if 'sound=yes' in line))
    found = lines_of('seeds', '--from', '7', '-n', '5', '--every', '100', '--when', 'sound=yes', path)
    ends = f'least {min(expected)}, median {sorted(expected)[2]}, most {max(expected)} ms'
    must_be(found, [*(f'seed {seed}: {moment}' for seed, moment in enumerate(expected, 7)), f'5 of 5 seeds: {ends}'], 'seeds --when')
    must_be(lines_of('seeds', '-n', '1', '--when', 'audit B', path), ['seed 1: 9000', '1 of 1 seeds: least 9000, median 9000, most 9000 ms'], 'seeds --when')
    must_be(lines_of('seeds', '-n', '2', '--when', 'nothing', path, status=1), ['0 of 2 seeds'], 'seeds --when')
    return len(expected)


# how-often-settled

def check_how_often(folder):
    """Held to: counts of a home that the check plays itself; the texts of parts, joined, are the text of the whole."""
    whole = lines_of('how-often-settled', '-n', '3')
    paths = [os.path.join(folder, f'part{part}') for part in (1, 2)]
    for part, path in enumerate(paths, 1):
        with open(path, 'w', encoding='ascii') as file:
            file.write('\n'.join([*lines_of('how-often-settled', '-n', '3', '--shard', f'{part}/2'), '']))
    must_be(lines_of('how-often-settled', '--join', *reversed(paths)), whole, 'how-often-settled --join')
    for given, word in (([paths[0], paths[0]], 'as a file before it'), ([paths[0]], 'no file has loss 0 and seed 2')):
        status, text, messages = run('how-often-settled', '--join', *given)
        must(status == 1 and not text and word in messages, f'how-often-settled --join {given}: status {status}, {messages}')
    rows = {tuple(map(int, line.split()[:2])): line.split()[2:5] for line in whole if re.match(r' *\d+ +\d+ ', line)}
    for loss, seed in ((0, 1), (20, 2), (40, 3)):
        said = common.play(tree_looked_at(loss, seed))
        counted = [said.count(f'audit r1 {text}') for text in ('settled=yes quiet=yes sound=yes', 'settled=yes quiet=no', 'settled=no')]
        must_be(rows[loss, seed], list(map(str, counted)), f'how-often-settled with loss {loss} and seed {seed}')
    return f'{len(rows)} homes, of which 3 are played by the check, and two parts joined'


def tree_looked_at(loss, seed):
    """The script of a tree of twenty routers, as a soak has it, that is looked at from a minute on."""
    soak = ['hncp 1', f'seed {seed}', f'loss {loss}', *(f'link l{each}' for each in range(1, 21))]
    for each in range(1, 21):
        soak += [f'router r{each} {each:08x}', *([f'attach r{each} 1 l{each // 2}'] if each > 1 else []), f'attach r{each} 2 l{each}']
    soak.append('external r1 2001:db8::/56 7200 3600')
    return soak + [text for second in range(60, 160) for text in (f'run {second}000 100', 'audit r1')]


# explain

# What is given to the program, the form, and of what kinds the refusal is said to be; '' is a script.
KINDS = [
    (b'hncp 1\nlink L\nlink L\n', 'lab', ['']),
    (b'hncp 1\nlink 0\n', 'lab', ['', 'capture']),
    (b'hncp 3\n', 'lab', ['', 'node file']),
    (b'-\nx\n', 'watch', ['', 'capture']),
    (b'hncp 1\n', 'watch', ['capture']),
    (b'0g', 'decode', ['text for hncp decode']),
]
# Of refusals of line 0 the page has a sentence each, and no table.
OF_NO_LINE = {'refused 0 4': 'text for hncp decode', 'refused 0 7': 'hnlook NAME', 'refused 0 12': 'hnlook why NAME or hnlook calm NAME'}


def check_explain(folder):
    """Held to: the rows of the page, and another page beside a copy of the tool; the kind of each input that the
    program refuses; places within values against those of a datagram."""
    page = common.read(os.path.join(common.HERE, '..', 'docs', 'FORMATS.md'))
    explained = set()
    for path in samples.scripts() + samples.captures():
        refused, flags = common.refusal(samples.transcript_of(path)), ['--watch'] if path.endswith('.capture') else []
        if not refused:
            continue
        start = page.index('## Captures' if flags else '## Scripts')
        row = next(text for text in page[start:] if re.match(rf'\| {refused[1]} \| ', text))
        lines = lines_of('explain', *flags, *map(str, refused), path)
        meaning = row.split('|')[2].strip().replace('`', '').encode('latin-1').decode()
        shown = common.read_script(path)[refused[0] - 1].text if refused[0] else 'the whole'
        must(lines[0] == f'refused {refused[0]} {refused[1]}: {meaning}', f'{short(path)}: {lines[0]}')
        must(shown[:60] in lines[1] or not shown.isascii(), f'{short(path)}: {lines[1]} and not {shown[:60]}')
        kind = ', of a capture' if flags else ''
        written = [f'refused {refused[0]} {refused[1]}{kind}: {meaning}', *lines[1:]]
        must_be(lines_of('explain', f'refused {refused[0]} {refused[1]}', path), written, f'{short(path)}, as the program writes it')
        explained.add((refused[1], bool(flags)))
    must(len(explained) >= 10, f'too few codes: {explained}')
    check_words(folder, page)
    # The page is read each time: a copy of the tool beside another page says what that page says.
    os.mkdir(os.path.join(folder, 'docs'))
    copy_tools(folder, 'common.py', 'explain')
    with open(os.path.join(folder, 'docs', 'FORMATS.md'), 'w') as file:
        file.write(''.join(f'## {section}\n\n| Code | Refused if |\n|---|---|\n| 77 | the `{what}` is another |\n'
                           for section, what in [('Scripts', 'page'), ('Captures', 'capture')]))
    done = subprocess.run([os.path.join(folder, 'tools', 'explain'), '3', '77'], stdout=subprocess.PIPE, stderr=subprocess.PIPE)
    must(done.stdout == b'refused 3 77: the page is another\nof a capture: the capture is another\n', f'of another page: {done.stdout} {done.stderr}')
    lines_of('explain', '1', '99', status=1)
    return f'{len(explained)} codes, {check_kinds(folder, page)} kinds, {check_causes(page)} causes, {check_places()} places within values'


def check_words(folder, page):
    """Each code of the page has words, and each row on what people get wrong comes up with its code."""
    start, path = page.index('### What people get wrong in a script'), os.path.join(folder, 'wrong')
    for code in [text.split('|')[1].strip() for text in page[page.index('## Scripts'):start] if re.match(r'\| \d+ \| ', text)]:
        must(lines_of('explain', '3', code)[0].startswith(f'refused 3 {code}: '), f'code {code} has no words')
    with open(path, 'w') as file:
        file.write('hncp 1\nlink L\nlink L\n')
    end = next(place for place, text in enumerate(page) if place > start and text.startswith('## '))
    rows = [[cell.strip().replace('`', '') for cell in text.strip('|').split('|')] for text in page[start:end] if re.match(r'\|.*\| \d+ \|', text)]
    for wrong, code, right in rows:
        must(f'often: {wrong}; write {right}' in lines_of('explain', '3', code, path), f'code {code}: "{wrong}" does not come up')
    must(len(rows) >= 11, f'{len(rows)} rows on what people get wrong')


def kinds_told(lines):
    """Of what kinds the lines are."""
    found = [re.match(r'(?:refused \d+ \d+)?(?:,? ?of (?:an? |the )?([\w ]+))?: ', line) for line in lines]
    return [each.group(1) or '' for each in found if each]


def check_kinds(folder, page):
    """What the program refuses is told to be of its kind: by the line alone where no other kind has it, and by the file."""
    path = os.path.join(folder, 'refused')

    def told(refused, data):
        with open(path, 'wb') as file:
            file.write(data)
        return kinds_told(lines_of('explain', refused, path))[:1]

    for data, form, kinds in KINDS:
        refused = common.call(form, data)[0][-1]
        must_be(kinds_told(lines_of('explain', refused)), kinds, f'{form}, {refused}')
        must_be(told(refused, data), ['capture' if form == 'watch' else kinds[0]], f'{form}, {refused} of {data}')
    must_be(told('refused 1 1', b'hncp 2\n'), ['node file'], 'refused 1 1 of hncp 2, as which a script may begin')
    for refused, kind in OF_NO_LINE.items():
        must_be(kinds_told(lines_of('explain', refused)), [kind], refused)
        must(any(f'`{refused}`' in text for text in page), f'the page has no {refused}')
    return len(KINDS) + len(OF_NO_LINE)


def check_causes(page):
    """Each cause W of a datagram and of a TLV is explained in the words of the page."""
    heads = [place for place, text in enumerate(page) if text == '| W | Cause |']
    rows = [row.split('|')[1:3] for place in heads for row in page[place + 2:place + 6]]
    for place, (why, meaning) in enumerate(rows):
        word = 'bad' if place < 4 else 'malformed'
        first = lines_of('explain', f'{word} why={why.strip()}')[0]
        must(first == f'{word} why={why.strip()}: {meaning.strip()}', f'{word} {why}: {first}')
    must(len(rows) == 8, f'{len(rows)} causes and not 8')
    lines_of('explain', 'why=9', status=1)
    return len(rows)


def check_places():
    """Of a value that is bad by cause 2 the place of the fault is that of a datagram of the TLVs in the value."""
    chance, tried = random.Random(SEED), 0
    for kind, size in [(33, 0), (3, 8), (9, 8), (36, 20)]:
        for fault in [b'\2\x58\0\1x', b'\2\x58\0\1x\0\1\0', b'\2\x58\0\4x', b'\0']:
            front = samples.tlv(600, chance.randbytes(chance.randrange(9))) * chance.randrange(3)
            datagram = samples.tlv(1, b'') + struct.pack('>HH', kind, size + len(front + fault)) + bytes(size) + front + fault
            line = common.decode((datagram + bytes(-len(datagram) % 4)).hex())[-1]
            at, why = re.match(r'malformed place=(\d+) why=(\d)', common.decode((front + fault).hex())[0]).groups()
            text = lines_of('explain', line)
            said = f'place {size + int(at)} of the value, {8 + size + int(at)} of the datagram: {items.MALFORMED[int(why)]}'
            must(said in text, f'{line}: {text[2:3]}, and not {said}')
            tried += 1
    return tried

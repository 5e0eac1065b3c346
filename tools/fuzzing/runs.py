"""Runs of the programs, and what is asked of each: the statuses of `docs/FORMATS.md`, its lines, and memory within its input."""
import collections
import ctypes
import functools
import os
import random
import re
import signal
import socket
import time

import common
from fuzzing import texts

# A case: the form; the words, the program's name first; its standard input; what else is looked at ('twice', 'front', or nothing).
Case = collections.namedtuple('Case', 'form words data also')
Result = collections.namedtuple('Result', 'status text messages seconds memory slow')

HNCP, HNLOOK = ('lab', 'udp', 'soak', 'node', 'decode', 'watch', 'words'), ('log', 'why', 'calm', 'table')
# One case in so many, of each form; a round has as many cases as the numbers have together.
WEIGHTS = {'lab': 40, 'udp': 4, 'soak': 1, 'node': 4, 'decode': 60, 'watch': 40, 'words': 4, 'log': 12, 'why': 8, 'calm': 8, 'table': 8}
STATUSES = {form: {0, 2} for form in WEIGHTS} | {'soak': {0}, 'words': {1}}
REPORTS = set('show hash used use prefixes prefix elect advert ra audit addressed ulas addresses address ula compare mail note refused'.split())
TABLE = set('table peer node assigned backoff delegated used data tlvs refused'.split())
FIRST_WORDS = {'lab': REPORTS, 'udp': REPORTS, 'soak': REPORTS, 'node': {'node', 'refused'}, 'decode': {'tlvs', 'malformed', 'refused'},
               'watch': {'watch', 'node', 'refused'}, 'words': set(), 'log': {'copy', 'note', 'publish', 'refused'}, 'table': TABLE}
SCRIPT_CODES = set(range(1, 17)) | {18, 19}
CODES = {form: SCRIPT_CODES for form in WEIGHTS} | {'decode': {4, 15}, 'watch': {4, 5, 15}, 'node': {1, 2, 3, 4, 5, 6, 9, 15}, 'soak': set()}
# What the one line on standard error says, by status.
REASONS = {2: 'refused', 3: 'standard input failed', 4: 'standard output failed', 5: 'loopback socket failed', 6: 'out of memory'}

MB = 1000 * 1000
# A play of a few hundred rounds beside the bytes of its script, and one that comes to the limits of FORMATS (codes 9 and 16).
BESIDE, AT_LIMITS, PER_BYTE = 32 * MB, 1000 * MB, 24
MOST_TEXT = 4 * MB
MOST_TICKS = 100000                              # in a play that takes no more than BESIDE
SECONDS = 20
PORTS = 30000
SUBREAPER = 36      # PR_SET_CHILD_SUBREAPER of Linux: a child whose parent ended becomes ours


@functools.lru_cache(None)
def program(name):
    """The path of the program of this name."""
    return {'hncp': common.program, 'hnlook': common.looker}[name]()


def must_be_there(forms):
    """Each program that these forms ask has to be there, before anything runs."""
    if set(forms) & {*HNCP}:
        program('hncp')
    if set(forms) & {*HNLOOK, 'words'}:
        program('hnlook')


def made(seed, form, place, port):
    """The case of this number. It follows from the seed alone, but for its ports."""
    chance = random.Random(f'{seed}/{form}/{place}')
    also = {0: 'twice', 5: 'front'}.get(place % 10, '')
    if form == 'words':
        return Case(form, some_words(chance), texts.script(chance), '')
    if form == 'soak':
        return Case(form, ['hncp', 'soak', str(chance.randrange(2, 9)), str(texts.number(chance) % 2 ** 64)], b'', also)
    if form in ('decode', 'watch'):
        data = texts.hexadecimal(chance) if form == 'decode' else texts.capture(chance)
        return Case(form, ['hncp', form], data, also)
    if form == 'node':
        words = ['hncp', 'node', f'{chance.randrange(2 ** 32):08x}', str(port), str(chance.randrange(1, 4)), '1', str(port + 2)]
        return Case(form, words, texts.node_file(chance), '')
    data = texts.script(chance)
    if form in ('why', 'calm', 'table'):
        return Case(form, ['hnlook', form, texts.name(chance, data)], data, also)
    if form == 'log':
        return Case(form, ['hnlook', 'log'], data, also)
    return Case(form, ['hncp', 'udp', str(port)] if form == 'udp' else ['hncp', 'lab'], data, also if form == 'lab' else '')


def some_words(chance):
    """Words that ask for no form."""
    while True:
        program, words = chance.choice(['hncp', 'hnlook']), texts.any_words(chance)
        if not asks(program, words):
            return [program, *words]


def is_number(word, least, most):
    found = common.number(word)
    return found is not None and least <= found <= most


def asks(program, words):
    """Whether the words ask for a form. What stands after `node` is not looked at, if there is enough of it."""
    if program == 'hnlook':
        return words == ['log'] or len(words) == 2 and words[0] in ('why', 'calm', 'table') and texts.is_name(words[1])
    first, rest = words[:1], words[1:]
    if first == ['udp']:
        return len(rest) == 1 and is_number(rest[0], 1024, 65534)
    if first == ['soak']:
        return len(rest) == 2 and is_number(rest[0], 2, 32) and is_number(rest[1], 0, 2 ** 64 - 1)
    if first == ['node']:
        return len(rest) >= 5
    return len(words) == 1 and words[0] in ('lab', 'decode', 'watch')


# Running

def contents(path):
    """The bytes of a file; of a longer one its end."""
    file = os.open(path, os.O_RDONLY)
    size, parts = os.fstat(file).st_size, []
    os.lseek(file, max(size - MOST_TEXT, 0), os.SEEK_SET)
    while part := os.read(file, MOST_TEXT) if size else b'':
        parts.append(part)
    os.close(file)
    return b''.join(parts)


@functools.lru_cache(None)
def environment():
    return {os.fsencode(key): os.fsencode(value) for key, value in os.environ.items()}


def begun(words, actions):
    """The process of a program."""
    return os.posix_spawn(words[0], words, environment(), file_actions=actions, setsigdef=[signal.SIGPIPE, signal.SIGXFSZ])


def begun_alone(words, actions):
    """The same, but a shell starts the program, and ends: else the kernel counts what Python holds as the program's memory. The
    program waits for that end, since a shell takes the status of a child that ends before it."""
    if ctypes.CDLL(None).prctl(SUBREAPER, 1, 0, 0, 0):
        raise common.Problem('this system does not hand over the children of children, so memory cannot be measured')
    (heard, told), (awaited, go) = os.pipe(), os.pipe()
    text = 'exec 4<&0; { read word <&5; exec "$@" <&4 3>&- 4<&- 5<&-; } & echo $! >&3'
    more = [(os.POSIX_SPAWN_DUP2, told, 3), (os.POSIX_SPAWN_DUP2, awaited, 5)]
    os.waitpid(begun(['/bin/sh', '-c', text, 'sh', *words], actions + more), 0)
    child = int(os.read(heard, 99))
    for each in (heard, told, awaited, go):
        os.close(each)
    return child


def run(words, data, folder, seconds=SECONDS, begin=begun):
    """A program over files of this folder. It is ended after so many seconds."""
    paths = [os.path.join(folder, name) for name in ('in', 'out', 'err')]
    with open(paths[0], 'wb') as file:
        file.write(data)
    new = os.O_WRONLY | os.O_CREAT | os.O_TRUNC
    actions = [(os.POSIX_SPAWN_OPEN, place, path, new if place else os.O_RDONLY, 0o600) for place, path in enumerate(paths)]
    start, late = time.monotonic(), []
    child = begin([program(words[0]), *words[1:]], actions)

    def end(*_):
        late.append(True)
        os.kill(child, signal.SIGKILL)

    signal.signal(signal.SIGALRM, end)
    signal.setitimer(signal.ITIMER_REAL, seconds)
    _, status, usage = os.wait4(child, 0)
    signal.setitimer(signal.ITIMER_REAL, 0)
    return Result(os.waitstatus_to_exitcode(status), contents(paths[1]), contents(paths[2]), time.monotonic() - start,
                  usage.ru_maxrss * 1024, bool(late))


def flood(seed, port):
    """A process that sends datagrams to the two ports of `udp`, until it is ended."""
    child = os.fork()
    if child:
        return child
    chance = random.Random(seed)
    with socket.socket(socket.AF_INET, socket.SOCK_DGRAM) as sender:
        while os.getppid() != 1:
            sender.sendto(texts.datagram(chance), ('127.0.0.1', port + chance.randrange(2)))
            time.sleep(0.001)
    os._exit(0)


def end_flood(child):
    os.kill(child, signal.SIGKILL)
    os.waitpid(child, 0)


# What is asked of a run

def last_line(text):
    return text[text.rfind(b'\n', 0, -1) + 1:].decode('latin-1').rstrip('\n')


def refusal(text):
    """The line and code of a refusal at the end of a text, or None."""
    return common.refusal([last_line(text)]) if text else None


def said_wrong(program, status, messages):
    """What is wrong of standard error. The usage comes after the version, and may have more lines than one."""
    lines = messages.decode('utf-8', 'replace').splitlines()
    if status == 0:
        return [f'it said {lines[:2]} with status 0'] if lines else []
    if status == 1:
        has_usage = lines and lines[0].startswith(f'{program} ') and lines[1:2] and lines[1].startswith(f'usage: {program} ')
        return [] if has_usage else [f'no version and usage: {lines[:2]}']
    good = len(lines) == 1 and lines[0].startswith(program + ': ') and REASONS[status] in lines[0]
    return [] if good else [f'with status {status} it said {lines[:3]}']


def text_wrong(form, status, text):
    """What is wrong of standard output, beside the status."""
    wrong = [] if text or form in ('lab', 'udp', 'log') else ['it wrote nothing']
    if text and (not text.endswith(b'\n') or not text.isascii()):
        wrong.append('the text is no lines of ASCII')
    last = last_line(text)
    refused = refusal(text)
    ends = bool(refused) or form == 'decode' and last.startswith('malformed ')
    if ends != (status == 2):
        wrong.append(f'status {status} after the line "{last[:80]}"')
    codes = CODES[form] | ({7, 12} if form in ('why', 'calm', 'table') else set())
    if refused and refused[1] not in codes:
        wrong.append(f'code {refused[1]}')
    if form in ('why', 'calm'):
        return wrong + ([] if text.startswith((form.encode() + b' ', b'refused ')) else [f'no line {form}'])
    firsts = {line.split(None, 1)[:1] and line.split(None, 1)[0] for line in text.split(b'\n')[-2000:-1]}
    odd = [word for word in firsts if word and word.decode('latin-1') not in FIRST_WORDS[form]
           and not (form in ('decode', 'log', 'table') and word.isdigit())]
    return wrong + ([f'lines that begin with {odd[:3]}'] if odd else [])


def ticks(data):
    """About how many ticks the lines `run` of a script ask for: each is an event, and a world keeps its events."""
    lines = [line.split() for line in data.split(b'\n')]
    runs = [words[1:] for words in lines if words[:1] == [b'run'] and len(words) == 3]
    rounds = sum(int(end) // max(int(step), 1) for end, step in runs if all(re.fullmatch(rb'[0-9]{1,20}', word) for word in (end, step)))
    return rounds * sum(words[:1] == [b'router'] for words in lines)


def most_memory(data, text):
    """What a run may take: for the bytes of its input, and for a play beside."""
    refused = refusal(text)
    is_long = refused and refused[1] in (9, 16) or ticks(data) > MOST_TICKS
    return PER_BYTE * len(data) + (AT_LIMITS if is_long else BESIDE)


def wrong_of(case, result):
    """What is wrong of a run."""
    if result.slow:
        return []
    if result.status < 0:
        return [f'signal {-result.status}']
    if result.status not in STATUSES[case.form]:
        return [f'status {result.status}: {result.messages[:200]}']
    wrong = said_wrong(case.words[0], result.status, result.messages)
    if case.form == 'words':
        wrong += ['it wrote something'] if result.text else []
    else:
        wrong += text_wrong(case.form, result.status, result.text)
    if result.memory > most_memory(case.data, result.text):
        wrong.append(f'{result.memory / MB:.0f} MB for {len(case.data)} bytes')
    return wrong


def twice(case, result, folder):
    """The same input gives the same text."""
    again = run(case.words, case.data, folder)
    same = again.slow or (again.status, again.text) == (result.status, result.text)
    return [] if same else [f'another text the second time, with status {again.status}']


def front(case, result, folder):
    """What a script writes up to a line stays where the lines after it are cut."""
    refused = refusal(result.text)
    lines = case.data.split(b'\n')
    end = refused[0] if refused else len(lines)
    if case.form != 'lab' or len(result.text) >= MOST_TEXT or end < 2 or refused and refused[1] in common.CODES_BEFORE_PLAY:
        return []
    cut = random.Random(len(case.data)).randrange(1, end)
    part = run(case.words, b'\n'.join(lines[:cut]) + b'\n', folder)
    good = part.slow or part.status == 0 and result.text.startswith(part.text)
    return [] if good else [f'cut behind line {cut} it has status {part.status} and no front of the text']


def tried(case, folder, seconds=SECONDS, begin=begun):
    """A case is run and looked at: its result, and what is wrong."""
    result = run(case.words, case.data, folder, seconds, begin)
    if result.memory > most_memory(case.data, result.text) and not result.slow:
        result = run(case.words, case.data, folder, seconds, begun_alone)       # it may be what Python held
    wrong = wrong_of(case, result)
    if not wrong and not result.slow and case.also:
        wrong = {'twice': twice, 'front': front}[case.also](case, result, folder)
    return result, wrong

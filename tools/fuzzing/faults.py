"""What is made to fail under a run: each stream, each call of the system, a port, and memory; and what has to come of it."""
import collections
import functools
import os
import re
import resource
import shutil
import signal
import socket
import subprocess
import time

from fuzzing import runs
from fuzzing.runs import Result

# A fault: its kind, and a number or words that say which.
Fault = collections.namedtuple('Fault', 'kind which')
# A case with a fault: what the run writes without it, and its status.
Faulty = collections.namedtuple('Faulty', 'case fault text status')

# The status where a call fails. One that a signal interrupts is made again.
FAILS = {'read fails': 3, 'write fails': 4, 'sendto fails': 5, 'recvfrom fails': 5, 'socket fails': 5, 'bind fails': 5}
HERE = '127.0.0.1'
BLOCK = 1 << 16                 # more than a program keeps of its text before it writes
PAGE = 4096
# Limits of memory go up in so many steps, to so much above what the program needs to start; for a long input to more.
STEPS, SPAN, LONG_SPAN = 64, 1 << 20, 1 << 23
# Of each kind of call the first ones are refused one by one, and of all others as many, in even distances.
ONE_BY_ONE = 100
HOME = b'hncp 2\nseed 1\nlink L\n' + b''.join(b'router r%d %08x\nattach r%d 1 L\n' % (k, k, k) for k in (1, 2, 3)) + \
    b'external r1 2001:db8::/56 7200 3600\nradv r1 1\nrun 20000 200\nshow r1\nprefixes r1\nused r2\naudit r1\nmail\n'
LONG = b'hncp 2\n' + b'mail\n' * 40000
DATAGRAM = '0003000800000009000000010001000000050024000000090000000100000000f0f91d40654589650008000c000000010000000100000001'


def inputs():
    """Of each form a run that writes something, and one that writes much: words and standard input."""
    long = HOME + b'show r1\n' * 4000
    plain = b'hncp 1\nmail\n' + HOME[7:].replace(b'radv r1 1\n', b'')
    forms = [('lab', ['hncp', 'lab'], HOME), ('lab', ['hncp', 'lab'], long), ('udp', ['hncp', 'udp', 'BASE'], plain),
             ('soak', ['hncp', 'soak', '4', '1'], b''), ('node', ['hncp', 'node', '00000001', 'BASE', '3', '1', 'PEER'], b'hncp 1\n'),
             ('decode', ['hncp', 'decode'], DATAGRAM.encode()), ('decode', ['hncp', 'decode'], (DATAGRAM * 500).encode()),
             ('watch', ['hncp', 'watch'], (DATAGRAM + '\n').encode()), ('log', ['hnlook', 'log'], HOME)]
    forms += [(form, ['hnlook', form, 'r1'], HOME) for form in ('why', 'calm', 'table')]
    forms.append(('lab', ['hncp', 'lab'], LONG))
    forms.append(('watch', ['hncp', 'watch'], b''.join(b'00050014%08x0000000100000000f0f91d4065458965\n' % node for node in range(3000))))
    return forms


def cases(port, forms):
    """Each of these forms without a fault: what it writes."""
    for form, words, data in inputs():
        if form not in forms:
            continue
        words = [{'BASE': str(port), 'PEER': str(port + 2)}.get(word, word) for word in words]
        plain = ['hncp', 'lab'] if form == 'udp' else words
        done = subprocess.run([runs.program(plain[0]), *plain[1:]], input=data, stdout=subprocess.PIPE, stderr=subprocess.PIPE, check=False)
        yield runs.Case(form, words, data, ''), done.stdout, done.returncode


# Which faults

def streams(form, text):
    """Streams that are closed, that cannot be read or written, and that end early."""
    yield from (Fault('closed', place) for place in (0, 1, 2))
    yield from [Fault('folder as input', 0), Fault('full device', 0), Fault('few descriptors', 4)]
    for kept in sorted({0, 1, PAGE, len(text) // 2, len(text) - 1, len(text)}):
        if kept >= 0:
            yield from [Fault('limited file', kept), Fault('limited file, signal', kept), Fault('closed pipe', kept)]


def traced(case, calls, folder):
    """The calls that a run makes of these kinds, in order, as their names and first words."""
    log = os.path.join(folder, 'trace')
    words = ['strace', '-o', log, '-e', f'trace={calls}', runs.program(case.words[0]), *case.words[1:]]
    subprocess.run(words, input=case.data, stdout=subprocess.PIPE, stderr=subprocess.PIPE, check=False)
    with open(log, encoding='latin-1') as file:
        return [found.groups() for found in (re.match(r'(\w+)\((\w*)', line) for line in file) if found]


def some(places):
    """The first of these places, and some of the others."""
    return places[:ONE_BY_ONE] + places[ONE_BY_ONE::max(len(places) // ONE_BY_ONE, 1)]


def call_faults(case, folder):
    """Each read of standard input, each write, and each call on a socket, one at a time: it fails, or a signal interrupts it."""
    for call, wanted in [('read', '0'), ('write', '1'), ('sendto', None), ('recvfrom', None), ('socket', None), ('bind', None)]:
        found = traced(case, call, folder)
        for place in some([place for place, (_, first) in enumerate(found, 1) if wanted in (None, first)]):
            yield Fault(f'{call} fails', [[call, 'EIO', str(place)]])
            if call in ('read', 'write', 'sendto', 'recvfrom'):
                yield Fault(f'{call} is interrupted', [[call, 'EINTR', str(place)]])


def built(folder):
    """The library that refuses memory, or nothing where there is no compiler."""
    made, source = os.path.join(folder, 'refuse.so'), os.path.join(os.path.dirname(__file__), 'refuse.c')
    compiler = shutil.which('cc') or shutil.which('gcc')
    if not compiler or subprocess.run([compiler, '-shared', '-fPIC', '-O1', '-o', made, source], stderr=subprocess.PIPE, check=False).returncode:
        return None
    return made


def allocations(case, folder):
    """Each allocation is refused, alone or with all after it."""
    count, library = os.path.join(folder, 'count'), os.path.join(folder, 'refuse.so')
    words = [runs.program(case.words[0]), *case.words[1:]]
    subprocess.run(words, input=case.data, stdout=subprocess.PIPE, stderr=subprocess.PIPE, check=False,
                   env=dict(os.environ, LD_PRELOAD=library, COUNTED=count))
    with open(count, encoding='ascii') as file:
        places = list(range(1, int(file.read()) + 1))
    for place in some(places):
        yield from (Fault('allocation is refused', place), Fault('allocations end', -place))


@functools.lru_cache(None)
def least_memory(program):
    """The least limit of memory with which a program starts."""
    low, high = 0, 1 << 28
    while high - low > PAGE:
        middle = (low + high) // 2
        limits = {resource.RLIMIT_AS: middle}
        words = [runs.program(program), 'nothing']
        done = subprocess.run(words, stdout=subprocess.PIPE, stderr=subprocess.PIPE, preexec_fn=lambda: limit(limits), check=False)
        low, high = (low, middle) if done.returncode == 1 else (middle, high)
    return high


def memory_limits(case):
    least, span = least_memory(case.words[0]), LONG_SPAN if len(case.data) > 2 * BLOCK else SPAN
    for step in range(STEPS):
        yield Fault('limited memory', least + step * span // STEPS)


def may_trace():
    strace = shutil.which('strace')
    return bool(strace) and subprocess.run([strace, '-o', os.devnull, 'true'], stderr=subprocess.PIPE, check=False).returncode == 0


def all_faults(forms, port, folder):
    """Each of these forms with each fault."""
    refuses, traces = built(folder), may_trace()
    for case, text, status in cases(port, forms):
        found = list(streams(case.form, text)) + list(memory_limits(case))
        if case.form in ('udp', 'node'):
            found += [Fault('port in use', place) for place in (0, 1)]
        if refuses:
            found += list(allocations(case, folder))
        if traces:
            found += list(call_faults(case, folder))
        yield from (Faulty(case, fault, text, status) for fault in found)


# A run with a fault

def limit(limits):
    for kind, most in limits.items():
        resource.setrlimit(kind, (most, resource.getrlimit(kind)[1]))


def before(fault):
    """What the child does before it becomes the program."""
    if fault.kind == 'closed':
        os.close(fault.which)
    elif fault.kind.startswith('limited file'):
        limit({resource.RLIMIT_FSIZE: fault.which})
        signal.signal(signal.SIGXFSZ, signal.SIG_DFL if fault.kind.endswith('signal') else signal.SIG_IGN)
    elif fault.kind == 'few descriptors':
        limit({resource.RLIMIT_NOFILE: fault.which})
    elif fault.kind == 'limited memory':
        limit({resource.RLIMIT_AS: fault.which})


def started(faulty, source, sink, messages, folder):
    """The program, with its fault."""
    case, fault = faulty.case, faulty.fault
    words, more = [runs.program(case.words[0]), *case.words[1:]], {}
    if isinstance(fault.which, list):
        tells = [word for call, error, when in fault.which for word in ('-e', f'inject={call}:error={error}:when={when}')]
        words = ['strace', '-o', os.devnull, '-e', 'trace=' + ','.join(call for call, *_ in fault.which), *tells] + words
    elif fault.kind.startswith('allocation'):
        more = {'LD_PRELOAD': os.path.join(folder, 'refuse.so'), 'REFUSED': str(fault.which)}
    return subprocess.Popen(words, stdin=source, stdout=sink, stderr=messages, preexec_fn=lambda: before(fault), env=dict(os.environ, **more))


def held(fault, port):
    """The socket that holds a port, where that is the fault."""
    made = socket.socket(socket.AF_INET, socket.SOCK_DGRAM)
    if fault.kind == 'port in use':
        made.bind((HERE, port + fault.which))
    return made


def read_some(reading, count):
    """So many bytes of a pipe, fewer where it ends; then it is closed."""
    got = b''
    while len(got) < count:
        more = os.read(reading, count - len(got))
        if not more:
            break
        got += more
    os.close(reading)
    return got


def run(faulty, folder, port):
    """A case under its fault. What a full device took is not known: no text."""
    case, fault = faulty.case, faulty.fault
    paths = [os.path.join(folder, name) for name in ('in', 'out')]
    with open(paths[0], 'wb') as file:
        file.write(case.data)
    source = os.open('/' if fault.kind == 'folder as input' else paths[0], os.O_RDONLY)
    heard, messages = os.pipe()
    reading, sink = os.pipe() if fault.kind == 'closed pipe' else (None, None)
    if reading is None:
        sink = os.open('/dev/full', os.O_WRONLY) if fault.kind == 'full device' else os.open(paths[1], os.O_WRONLY | os.O_CREAT | os.O_TRUNC)
    began = time.monotonic()
    with held(fault, port):
        process = started(faulty, source, sink, messages, folder)
        for each in (source, sink, messages):
            os.close(each)
        got = None if reading is None else read_some(reading, fault.which)
        _, status, usage = os.wait4(process.pid, 0)
    said = read_some(heard, BLOCK)
    process.returncode = os.waitstatus_to_exitcode(status)
    text = got if reading is not None else b'' if fault.kind == 'full device' else runs.contents(paths[1])
    return Result(process.returncode, text, said, time.monotonic() - began, usage.ru_maxrss * 1024, False)


# What has to come of it

def sink_statuses(faulty, room):
    """Where standard output takes so many bytes: 4 if the text is longer, and else what the run has anyway."""
    return {4} if len(faulty.text) > room else {faulty.status}


def statuses(faulty):
    """The statuses that a fault may give."""
    (kind, which), case, whole = faulty.fault, faulty.case, {faulty.status}
    if kind == 'folder as input' or (kind, which) == ('closed', 0):
        return whole if case.form == 'soak' else {3}
    if kind == 'full device' or (kind, which) == ('closed', 1):
        return sink_statuses(faulty, 0)
    if kind == 'limited file':
        return sink_statuses(faulty, which)
    if kind == 'limited file, signal':
        return sink_statuses(faulty, which) | {-signal.SIGXFSZ}
    if kind == 'closed pipe':
        return {4} if len(faulty.text) > which + 2 * BLOCK else whole | {4}
    if kind == 'limited memory' or kind.startswith('allocation'):
        return whole | {6}      # where more room was asked for than is needed, a refusal is made up for
    if kind == 'port in use' or kind == 'few descriptors' and case.form in ('udp', 'node'):
        return {5}
    return {FAILS[kind]} if kind in FAILS else whole


def is_known(faulty):
    """Whether the whole text is the same each time, and standard output tells what it took."""
    return faulty.case.form != 'node' and faulty.fault.kind != 'full device' and tuple(faulty.fault) != ('closed', 1)


def wrong_of(faulty, result):
    """What is wrong of a run under a fault."""
    (kind, which), status = faulty.fault, result.status
    if status not in statuses(faulty):
        return [f'{kind} {which}: status {status} and not {sorted(statuses(faulty))}: {result.messages[:200]}']
    if status < 0:
        return []
    wrong = [] if (kind, which) == ('closed', 2) else runs.said_wrong(faulty.case.words[0], status, result.messages)
    if is_known(faulty) and faulty.case.form != 'udp' and not faulty.text.startswith(result.text):
        wrong.append('what it wrote is no front of the text')
    if is_known(faulty) and status == faulty.status and kind != 'closed pipe' and faulty.case.form != 'udp' and result.text != faulty.text:
        wrong.append('it did not write the whole text')
    if status in (3, 5) and faulty.case.form == 'node' and result.text:
        wrong.append('it wrote something')
    if status == 3 and result.text:
        wrong.append('it wrote something')
    return [f'{kind} {which}: {text}' for text in wrong]


def tried(faulty, folder, port):
    result = run(faulty, folder, port)
    return result, wrong_of(faulty, result)

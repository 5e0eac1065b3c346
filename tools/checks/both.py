"""The check of what plays: by the library and by the programs all comes to the same.

The library is that of HN_LAB, or the one that `make -C include NAME=hn_lab_c` builds. Without one the check is skipped.
"""
import contextlib
import os
import random
import shutil
import sys

import common
from checks import python, samples
from checks.helpers import SEED, Missing, lines_of, must, must_be, need_look, run
from rulercress import library, scripts
from rulercress.tools import captures

RANDOM = 150                                # random scripts
MUTANTS = 2000                              # datagrams with changes
DRIVEN = ['-m', 'tests.driven', '-n', '20', '--from', '2001']
FIRST_LINES = [b'', b'hncp 3', b' hncp 2', b'hncp 2 ', b'hncp 2\r', b'hncp 2\xff', b'x' * 16385, b'# hncp 2']
FAULTS = [b'nonsense', b'tick', b'tick r1 more', b'router 1x 00000001', b'x' * 16385, b'caf\xe9', b'#\t', b'# \xff', b'hncp 2', b'run 1 1\r', b'\0',
          b'external r1 2001:db8::1/64 1 1', b'# a comment', b'', b'   ', b' #', b'run 281474976710656 1', b'time 0', b'deliver 99999999', b'ula r9',
          b'address r1', b'sync r1 r1', b'  mail  ', b'run 999999999 1']
# Words of a tool: S is a script, C a capture, and F a file to write, which is compared too.
TOOLS = [
    ('capture', ['S', 'F']), ('capture', ['--link', 'L', 'S', 'F']), ('annotate', ['S']), ('annotate', ['S', 'T']), ('timeline', ['S']),
    ('timeline', ['--html', 'F', 'S']), ('timeline', ['--every', '5000', 'S']), ('seeds', ['-n', '20', 'S', 'net=differ']),
    ('seeds', ['-n', '6', '--when', 'sound=yes', 'S']), ('how-often-settled', ['-n', '1', '2']), ('how-soon-at-rest', ['-n', '2', '--only', 'start', 'late', '--each']),
    ('judge', ['C']), ('decode-capture', ['C']),
]
SCRIPTS = ['a_lossy_home.script', 'two_keep_alives_lost.script', 'a_forging_guest.script']
NEEDS_TSHARK = ('judge', 'decode-capture')


def the_library():
    """The library that is compared with the programs."""
    path = os.environ.get(library.VARIABLE) or library.BUILT
    if not os.path.isfile(path):
        raise Missing(f'there is no library {os.path.relpath(path, library.CLONE)}: build it by rt lib in crates/hn_lab_c and make -C include NAME=hn_lab_c')
    return library.loaded(path)


@contextlib.contextmanager
def playing(path):
    """The library of this path plays, or the programs where it is empty."""
    known = os.environ.get(library.VARIABLE)
    os.environ[library.VARIABLE] = path
    try:
        yield
    finally:
        del os.environ[library.VARIABLE]
        if known is not None:
            os.environ[library.VARIABLE] = known


# Whole scripts

def inputs():
    """Scripts by name: those of the repository, random ones, and such with faults of their text and lines that are refused."""
    for path in samples.scripts():
        yield os.path.basename(path), common.joined(common.read(path))
    chance = random.Random(SEED)
    for number in range(RANDOM):
        texts = common.joined(samples.RandomHome(chance, number % 2).texts).split(b'\n')[:-1]
        for _ in range(number % 3):
            texts.insert(chance.randrange(1, len(texts) + 1), chance.choice(FAULTS))
        yield f'random script {number}', b'\n'.join(texts) + b'\n' * chance.randrange(2)
    for line in FIRST_LINES:
        yield f'a script that begins with {line[:20]}', line + b'\nmail\nnonsense\n'
    yield 'no script', b''
    yield 'a script that is too large', b'hncp 2\n' + b'\n' * 2 ** 24


def looks_at(data):
    """The words of hnlook that are tried with a script."""
    names = [words[1].decode('latin-1') for words in map(bytes.split, data.split(b'\n')) if words[:1] == [b'router'] and len(words) == 3]
    names = [name for name in names if name.replace('-', '_').isidentifier() and len(name) < 17]
    return [['log'], *([form, name] for name in [*names[:1], *names[-1:], 'nobody'] for form in ('why', 'calm', 'table'))]


def check_scripts(found):
    """What hncp lab and hnlook write of a script, and their statuses. How many texts were compared."""
    count = 0
    for name, data in inputs():
        for program, words in [('hncp', ['lab']), *(('hnlook', words) for words in looks_at(data))]:
            text, status = scripts.run(found, program, words, data)
            with playing(''):
                path = common.program() if program == 'hncp' else common.looker()
                expected, ended = common.ask(program, [path, *words], data)
            must_be(text.splitlines(), expected, f'{name}: {program} {" ".join(words)} by the library')
            must(status == ended, f'{name}: {program} {" ".join(words)}: status {status} by the library, and {ended} by the program')
            count += 1
    return count


# Datagrams

def check_datagrams(found):
    """What hncp decode and hncp watch write. How many texts were compared."""
    payloads = list(dict.fromkeys(samples.mutants(SEED, MUTANTS)))
    with playing(''):
        told = captures.decode_all(payloads)
    for payload in payloads:
        must_be(found.decode(payload).splitlines(), told[payload].lines, f'{payload.hex()[:80]}: decoded by the library')
    files = [common.joined(common.read(path)) for path in samples.captures()]
    texts = [*files, b'', b'-\n', b'zz\n', b'\n', b'-', b'0' * 131016 + b'\n', b'0' * (2 ** 24 + 1)]
    for text in texts:
        must_be(found.watch(text).splitlines(), common.call('watch', text)[0], f'the capture {text[:40]}: watched by the library')
    return len(payloads) + len(texts)


# Tools

def ended(path, tool, words, kept):
    """What a tool comes to: its status, what it writes, and the file that it makes."""
    if os.path.exists(kept):
        os.remove(kept)
    with playing(path):
        status, text, messages = run(tool, *words)
    made = b''
    if os.path.exists(kept):
        with open(kept, 'rb') as file:
            made = file.read()
    return status, text, messages, made


def check_tools(found, folder):
    """What the tools write, and the files that they make. How many calls were compared."""
    count, kept, capture = 0, os.path.join(folder, 'made'), os.path.join(folder, 'home.pcap')
    for place, name in enumerate(SCRIPTS):
        script = os.path.join(samples.DATA, name)
        lines_of('capture', script, capture)
        named = {'S': script, 'T': os.path.splitext(script)[0] + '.transcript', 'F': kept, 'C': capture}
        for tool, words in TOOLS:
            if tool in NEEDS_TSHARK and not shutil.which('tshark') or place and not {'S', 'C'} & set(words):
                continue
            given = [named.get(word, word) for word in words]
            one, other = (ended(path, tool, given, kept) for path in (found.path, ''))
            must_be(one[1].splitlines(), other[1].splitlines(), f'{tool} {" ".join(words)} of {name} by the library')
            must(one == other, f'{tool} {" ".join(words)} of {name}: {one[0]}, {one[2][-90:]} by the library, and {other[0]}, {other[2][-90:]} by the programs')
            count += 1
    return count


def check_named(folder):
    """What is named and is no library is told in one line. How many calls were tried."""
    text = os.path.join(folder, 'text')
    with open(text, 'w', encoding='ascii') as file:
        file.write('no library\n')
    script, count = os.path.join(samples.DATA, SCRIPTS[0]), 0
    for path in (os.path.join(folder, 'nothing'), text, 'libc.so.6'):
        for tool, words in [('seeds', ['-n', '1', script, '']), ('timeline', [script]), ('how-often-settled', ['-n', '1']), ('judge', [script])]:
            with playing(path):
                status, written, messages = run(tool, *words)
            must(status == 1 and not written and messages.count('\n') == 1 and library.VARIABLE in messages,
                 f'{tool} with the library {path}: status {status}, {messages[-200:]}')
            count += 1
    return count


def check_installed(found, folder):
    """pip installs the library with the package. There the example passes without a program. How many Pythons did so."""
    able = [path for path in python.pythons().values() if python.has(path, 'ensurepip')]
    beside = os.path.join('include', 'out', library.NAME)
    for path in able:
        place, at = python.installed(path, os.path.realpath(folder), {beside: found.path})
        alone = {'HN_LAB': None, 'HNCP': None, 'HNLOOK': None, 'PATH': os.devnull}
        for asked, told in (('from rulercress import library; print(library.found().path)', os.path.join(os.path.dirname(at), library.NAME)),
                            (python.CALLS, '')):
            must_be([python.output([os.path.join(place, 'bin', 'python'), '-c', asked], folder, **alone)], [told], f'{path}: {asked}')
    return len(able)


def check_both(folder):
    """Held to: by the library and by the programs scripts, datagrams and tools come to the same texts, files and statuses; the tests
    of the package pass with it; pip installs it with the package, where the example passes without a program; and what is no library
    is told."""
    found = the_library()
    need_look()
    told = [f'{check_scripts(found)} texts of scripts', f'{check_datagrams(found)} of datagrams', f'{check_tools(found, folder)} calls of tools',
            f'{check_named(folder)} libraries that are none', f'{check_installed(found, folder)} Python(s) that install it']
    text = python.output([sys.executable, *python.UNITTEST], python.FOLDER, HN_LAB=found.path)
    driven = python.output([sys.executable, *DRIVEN], python.FOLDER, HN_LAB=found.path)
    must_be([driven], ['0 of 20 seeds'], ' '.join(DRIVEN))
    return f'{", ".join(told)}; 20 homes driven by hand both ways, and {text.split("Ran ", 1)[-1].split(" in ", 1)[0]} by the library'

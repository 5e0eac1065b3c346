"""The check of bench: scripts, tables, memory and time, programs that fail, and the page."""
import collections
import functools
import hashlib
import os
import resource
import shutil
import signal
import subprocess
import sys
import time

import common
from checks.helpers import copy_tools, must, must_be, run

NAMES = ['soak-32', 'soak-8', 'ring-8-idle', 'ring-8-prefix', 'ring-32-prefix', 'link-64', 'link-64-prefix', 'ring-16-prefixes',
         'ring-4-radv', 'link-128-loss']
# The SHA-256 of the scripts by which the figures of the page were taken before there was this tool.
SCRIPTS = {
    'ring-8-idle': 'd003688bec706a562b100901fbbc9d88f01d784b59f0c7d885d29c576f0b2cd3',
    'ring-8-prefix': '2f116856005f514fd38156ded47c5a90bd4b2684b3b898c73c6aa5aff2decff4',
    'ring-32-prefix': '753f642481232c853ef542ceb6cb6948a570082fcc451aa4e430e68f1944037b',
    'link-64': 'd8cefced6dcecfd029cd92e6ae8ce3e837b0e77e57f68c6614fe61be33907bde',
    'link-64-prefix': '491df92df897149982f19893de0f7eef6873b84de43592fa21bd732e5a66b155',
    'ring-16-prefixes': '5f326be0e00465da8db981a733eaafa01155743645750d179fc18208cdd98568',
}
ABC = '`ba7816bf8f01cfea`'       # SHA-256 of "abc" begins so (FIPS 180-4, its first example)
LIMIT = '[ "$second" = "seed 7" ] && { echo refused 262 9; exit 2; }'
SOUND = f'{LIMIT}\nprintf abc'
VALGRIND = """#!/bin/sh
[ "$1" = --version ] && { echo valgrind-0; exit; }
shift 2
"$@"
status=$?
case $1 in *other) count=1756600000;; *) count=98765432;; esac
echo "==1== Collected : $count" >&2
exit $status
"""
MARKS = ['<!-- tools/bench writes from here -->\n', '<!-- tools/bench writes up to here -->\n']
QUICK = ['--rounds', '1', '--no-instructions']
ONE = ['--only', 'soak-8', *QUICK]
FAILURES = [
    ('soak-8', 'echo bad luck >&2; exit 3', 'ended with status 3: bad luck'),
    ('soak-8', 'kill -9 $$', 'was ended by signal 9'),
    ('soak-8', 'echo refused 5 2; exit 2', 'refused line 5 by code 2'),
    ('soak-8', 'exit 0', 'wrote nothing'),
    ('soak-8', 'exit 2', 'ended with status 2'),
    ('soak-8', 'echo $$', 'wrote another transcript'),
    ('link-128-loss', 'printf abc', 'refused nothing, and not line 262'),
    ('link-128-loss', 'echo refused 262 7; exit 2', 'refused line 262 by code 7'),
    ('link-128-loss', 'echo refused 262 9; exit 0', 'ended with status 0'),
    ('link-128-loss', 'echo abc; exit 2', 'ended with status 2'),
    ('link-128-loss', 'echo refused 1 1; exit 2', 'refused line 1 by code 1'),
]


def put_program(folder, name, text):
    path = os.path.join(folder, name)
    with open(path, 'w') as file:
        file.write(text)
    os.chmod(path, 0o755)
    return path


def program(folder, name, body):
    """A program of the shell that has read the first two lines of its input."""
    return put_program(folder, name, f'#!/bin/sh\nread -r first\nread -r second\n{body}\n')


def python(folder, name, body):
    """A program of Python, which writes "abc" at last."""
    return put_program(folder, name, f'#!{sys.executable} -S\n{body}\nprint("abc", end="")\n')


def bench(*words, **settings):
    """The status, the text and the messages of the tool."""
    tool = os.path.join(settings.pop('top', os.path.join(common.HERE, '..')), 'tools', 'bench')
    done = subprocess.run([sys.executable, tool, *words], stdin=subprocess.DEVNULL, stdout=settings.pop('stdout', subprocess.PIPE),
                          stderr=subprocess.PIPE, **settings)
    return done.returncode, (done.stdout or b'').decode(), done.stderr.decode()


def rows(text):
    """The cells of each row of the table, by the name of the home."""
    found = [[cell.strip() for cell in line[1:-1].split(' | ')] for line in text.splitlines() if line.startswith('| ')]
    return {cells[1].strip('`'): cells for cells in found[1:]}


def table_of(*words, status=0, **settings):
    ended, text, messages = bench(*words, **settings)
    must(ended == status, f'bench {" ".join(words)[-90:]}: status {ended} and not {status}: {messages.strip()[-200:]}')
    return rows(text), text


def must_fail(said, *words, **settings):
    """One line that says why, and nothing else."""
    status, text, messages = bench(*words, **settings)
    must(status == 1 and not text and messages.count('\n') == 1 and messages.startswith('bench: ') and said in messages,
         f'bench {" ".join(words)[-90:]}: status {status}, {text[:90]}{messages[-200:]}, and not "{said}"')


def number(cell):
    """The first number of a cell, as 1.6 of "1.6 MB"."""
    return float(cell.split()[0].replace(',', ''))


# Parts of the check

def check_scripts():
    for name, digest in SCRIPTS.items():
        made = hashlib.sha256(run('bench', '--script', name)[1].encode()).hexdigest()
        must(made == digest, f'the script of {name} has the SHA-256 {made}')
    lines = run('bench', '--script', 'link-128-loss')[1].splitlines()
    must_be(lines[:5] + lines[131:133] + lines[-3:],
            ['hncp 2', 'seed 7', 'loss 5', 'link l', 'router r1 00000001', 'router r128 00000080', 'attach r1 1 l', 'attach r128 1 l',
             'external r1 2001:db8::/48 7200 3600', 'run 100000000 100'], 'the script of link-128-loss')
    count = collections.Counter(line.split()[0] for line in lines)
    must(count['router'] == count['attach'] == 128 and len(lines) == 262, f'the script of link-128-loss: {count}')
    return len(SCRIPTS) + 1


def check_tables(folder):
    """All homes, without valgrind and with one that is none."""
    sound, other = program(folder, 'sound', SOUND), program(folder, 'other', SOUND)
    bare = os.path.join(folder, 'bare')
    os.mkdir(bare)
    os.symlink(shutil.which('sh'), os.path.join(bare, 'sh'))
    made, text = table_of('--program', sound, '--rounds', '2', env={'PATH': bare})
    must_be(list(made), NAMES, 'the homes of the table')
    must('there is no valgrind' in text, 'nothing is said of no valgrind')
    for name, cells in made.items():
        must(cells[5] == '1' and (cells[6] == ABC) == (name != 'link-128-loss'), f'the row of {name}: {cells}')
    put_program(bare, 'valgrind', VALGRIND)
    made, text = table_of('--program', sound, '--baseline', other, '--rounds', '1', env={'PATH': bare})
    must_be([cells[2] for cells in made.values()], ['98.8 (0.06 of 1,757)'] * len(NAMES), 'the instructions')
    must_be([cells[-1] for cells in made.values()], ['the same'] * len(NAMES), 'the transcripts')
    must('valgrind-0' in text, 'nothing is said of the valgrind')
    program(bare, 'valgrind', 'echo no such tool >&2; exit 1')
    must_fail('counted nothing of', '--program', sound, '--only', 'soak-8', env={'PATH': bare})


def check_sizes(folder):
    """Memory and time are those of the program, and of nobody who started it."""
    sound = program(folder, 'sound', SOUND)
    made, _ = table_of('--program', sound, *ONE)
    must(0 < number(made['soak-8'][4]) < 6, f'a shell has {made["soak-8"][4]}')
    small, large = python(folder, 'small', ''), python(folder, 'large', 'held = b"x" * 2 ** 26')
    sizes = [number(table_of('--program', path, *ONE)[0]['soak-8'][4]) for path in (small, large)]
    must(abs(sizes[1] - sizes[0] - 67.1) < 1, f'a program that holds 67.1 MB more has {sizes[1]} MB, and not {sizes[0]} MB')
    made, _ = table_of('--program', program(folder, 'asleep', 'sleep 0.3; printf abc'), *ONE)
    must(number(made['soak-8'][2]) < 0.25 and number(made['soak-8'][3]) >= 0.3, f'a program that sleeps for 0.3 s: {made["soak-8"]}')
    made, _ = table_of('--program', python(folder, 'busy', 'import time\nwhile time.process_time() < 0.3: pass'), *ONE)
    must(0.3 <= number(made['soak-8'][2]) < 3 and number(made['soak-8'][3]) >= 0.3, f'a program that works for 0.3 s: {made["soak-8"]}')


def check_differences(folder):
    tried = 0
    for one, other, line, said in [
            ('a\\nb\\nc\\n', 'a\\nb\\nd\\n', 3, "`c`, and the baseline's `d`"),
            ('a\\n', 'a\\nb\\n', 2, "nothing more, and the baseline's `b`"),
            ('x\\nb\\n', 'y\\n', 1, "`x`, and the baseline's `y`")]:
        paths = [program(folder, name, f"printf '{text}'") for name, text in [('one', one), ('another', other)]]
        made, text = table_of('--program', paths[0], '--baseline', paths[1], *ONE, status=3)
        must(made['soak-8'][-1] == f'another from line {line} on', f'transcripts that differ: {made["soak-8"]}')
        must(f'The transcripts of `soak-8` differ first in line {line}: {said}.' in text, f'{said} is not told: {text[-120:]}')
        tried += 1
    return tried


def check_failures(folder):
    for home, body, said in FAILURES:
        words = ['--only', home, '--rounds', '2', '--no-instructions']
        must_fail(said, '--program', program(folder, 'bad', body), *words)
    sound = program(folder, 'sound', SOUND)
    must_fail(said, '--program', sound, '--baseline', os.path.join(folder, 'bad'), *words)
    plain = os.path.join(folder, 'plain')
    with open(plain, 'w'):
        pass
    for path in [os.path.join(folder, 'nothing'), folder, plain]:
        must_fail('there is no program', '--program', path, *ONE)
        must_fail('there is no program', '--program', '/bin/true', '--baseline', path, *ONE)
    with open('/dev/full', 'wb') as full:
        must_fail('the table could not be written: No space left', '--program', sound, *ONE, stdout=full)
    check_interrupt(folder)
    return len(FAILURES) + 9


def check_interrupt(folder):
    """Who interrupts the tool ends the program too."""
    told = os.path.join(folder, 'told')
    slow = program(folder, 'slow', f'echo $$ > {told}.new; mv {told}.new {told}; exec sleep 600')
    words = [sys.executable, os.path.join(common.HERE, 'bench'), '--program', slow, *ONE]
    heeded = functools.partial(signal.signal, signal.SIGINT, signal.SIG_DFL)  # a job in the background begins with it ignored
    process = subprocess.Popen(words, stdout=subprocess.PIPE, stderr=subprocess.PIPE, preexec_fn=heeded)
    while not os.path.exists(told) and process.poll() is None:
        time.sleep(0.01)
    process.send_signal(signal.SIGINT)
    process.communicate()
    must(process.returncode == 130, f'an interrupted run has the status {process.returncode}')
    child = f'/proc/{common.read(told)[0]}/stat'
    end = time.time() + 10
    while os.path.exists(child) and common.read(child)[0].split(') ')[-1][0] != 'Z' and time.time() < end:
        time.sleep(0.01)
    must(not os.path.exists(child) or common.read(child)[0].split(') ')[-1][0] == 'Z', 'the program of an interrupted run runs on')


def read_page(page):
    with open(page, encoding='utf-8', newline='') as file:
        return file.read()


def put_page(page, text):
    with open(page, 'w', encoding='utf-8', newline='') as file:
        file.write(text)


def check_page(folder):
    """A copy of the tool beside a page: the table stands between its marks, or the page stays as it was."""
    os.mkdir(os.path.join(folder, 'docs'))
    copy_tools(folder, 'bench', 'cases.py', 'common.py')
    begin, end = MARKS
    pages = check_pages_that_stay(folder, begin, end) + check_pages_that_are_written(folder, begin, end)
    own = read_page(os.path.join(common.HERE, '..', 'docs', 'BENCHMARKS.md'))
    must(own.count(begin) == own.count(end) == 1 and own.index(begin) < own.index(end), 'docs/BENCHMARKS.md has no place for the table')
    return pages


def check_pages_that_stay(folder, begin, end):
    """Without a place for the table nothing runs; where a run or the disk fails, no part of the table is written."""
    page, ran = os.path.join(folder, 'docs', 'BENCHMARKS.md'), os.path.join(folder, 'ran')
    sound, bad = program(folder, 'sound', f'echo > {ran}\n{SOUND}'), program(folder, 'bad', 'exit 3')
    full = {'preexec_fn': lambda: resource.setrlimit(resource.RLIMIT_FSIZE, (200, 200))}
    cases = [(text, 'no place for the table', sound, {}) for text in
             ['', 'text\n', begin, begin.strip() + ' ' + end, end + begin, begin + end + begin + end, begin + begin + end]]
    cases += [(begin + end, 'ended with status 3', bad, {}), (begin + 'old\n' + end, 'stays as it was', sound, full)]
    for text, said, path, settings in cases:
        put_page(page, text)
        must(said.startswith('stays') or not os.path.exists(ran), 'the program ran for a page without a place')
        must_fail(said, '--write', *QUICK, '--program', path, top=folder, **settings)
        must(read_page(page) == text and os.listdir(os.path.dirname(page)) == ['BENCHMARKS.md'], f'"{said}", and the page has changed')
    return len(cases)


def check_pages_that_are_written(folder, begin, end):
    """The table is there, the second time too, and all else is as it was."""
    page, sound = os.path.join(folder, 'docs', 'BENCHMARKS.md'), program(folder, 'sound', SOUND)
    before, after = '# Figures \u00e4\n\ntext\n' + begin, end + '\nmore text\r\n| a | b |\n'
    put_page(page, before + 'old\n' + after)
    os.chmod(page, 0o640)
    for _ in range(2):
        status, text, messages = bench('--write', *QUICK, '--program', sound, top=folder)
        must(status == 0 and text == f'docs/BENCHMARKS.md: {len(NAMES)} homes\n', f'--write: status {status}, {text}{messages}')
        text = read_page(page)
        must(text.startswith(before) and text.endswith(after), 'what is not between the marks has changed')
        table = text[len(before):-len(after)]
        must('old' not in table and not set(MARKS) & set(table.splitlines(True)), f'between the marks is {table[:90]}')
        must_be(list(rows(table)), NAMES, 'the homes of the page')
    must(os.stat(page).st_mode & 0o777 == 0o640 and os.listdir(os.path.dirname(page)) == ['BENCHMARKS.md'], 'the mode has changed')
    return 2


def check_program():
    """The program itself: its transcripts are those that it writes without the tool."""
    names = {'soak-8': (['soak', '8', '1'], b''), 'ring-8-prefix': (['lab'], run('bench', '--script', 'ring-8-prefix')[1].encode())}
    made, _ = table_of('--only', *names, *QUICK)
    for name, (words, data) in names.items():
        text = subprocess.run([common.program(), *words], input=data, stdout=subprocess.PIPE).stdout
        must_be(made[name][5:7], [str(text.count(b'\n')), f'`{hashlib.sha256(text).hexdigest()[:16]}`'], f'the transcript of {name}')


def check_bench(folder):
    """Held to: the SHA-256 of scripts; programs of the shell, some with a valgrind that is none: rows, ratios and
    hashes are those that follow by hand, and a program that sleeps, works or holds 67 MB is told as such. Programs
    that fail, an interrupt, pages with and without a place; two homes by the program itself."""
    scripts = check_scripts()
    check_tables(folder)
    check_sizes(folder)
    check_program()
    told = f'{scripts} scripts, {check_differences(folder)} pairs of transcripts that differ, {check_failures(folder)} failures'
    return f'{told}, {check_page(folder)} pages'

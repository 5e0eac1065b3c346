"""The check of bench --forms: inputs, rows, differences, programs that fail, and the page."""
import hashlib
import os
import shutil
import subprocess

import cases
import common
from checks.figures import (bench, must_fail, number, program, put_page, put_program, python, read_page, rows, table_of)
from checks.helpers import copy_tools, must, must_be, need_look, run

FORMS = {case.name: case for case in cases.FORMS}
# The SHA-256 of inputs, and before the shorter ones of differences a word.
INPUTS = """
decode 19095839cfd1b8e5f042201f02dc3846a92ba6734da01b123f142dfd2ce7a099
decode-half bf18b5fd6d473035044ec3b3a31d43965d09cae328ff591bf7a165a5ff22bd4a
watch-states 616c265a9e40148eb65e7bf8e62afd95a024ebbd21a5e76403336346545bb71a
watch-random 3a13edd16e6f796f3c73d42e62b021edb6cb51425c5109e321c75d2db24814d2
watch-ascending 5a78f0c50edbd8dea790b8514c4be243c43c7abc0cd2a11564b7530b9445017d
late-fault 66adfbac3301da73245ba869a846ca43bf1f8fe4c913be36600647d9342ca696
log-soak be2449567b600d63fb049358e4ca85fbac14b2d1c1b69b14bba94e1fa561d6ae
why-unsettled fc7c4f3f39d9d4b195a6a3f79a8c2b4ddf6c305df2d146794f8ade1d3576c0cb
why-settled b2c92e1e38018056bcaf3f4489308c451dc554e2e7cfcf28953965ff3db668b8
table-unsettled fc7c4f3f39d9d4b195a6a3f79a8c2b4ddf6c305df2d146794f8ade1d3576c0cb
table-settled b2c92e1e38018056bcaf3f4489308c451dc554e2e7cfcf28953965ff3db668b8
audit-ring-32 ef948778ff6ae41f356dc917de2f5f87fd08e403d83fed9b4dc9cc26a801b85b
shorter audit-ring-32 5833bc0e31e8abe1b765752fe61336e67cc40b44531f30e96701399d64458885
audit-ring-64 51a30a346288a409c0b6d950803f66a22bb4193e381b558be3bdd10dee583ed9
shorter audit-ring-64 1d5e1f55341bc7f9de0e5c4d425b97084764979bafe64fd46a8a8d4182a4ac33
audit-link-32 08aad014e9b98f7ec174b13ac4bdbe38927734dec79bfd41b1dce214a8c17e34
shorter audit-link-32 b1d597c1ad5e9f0fe547c0bf96101718c4be970c60edeb518f5df4a0ceaf11ca
tick-ring-8 f5d8ae955b3a71264a8f0efe2458c0ab77b26a3674023f12b394e8c8f9c16549
shorter tick-ring-8 22cdc676f508a9f8aad0c7ca688313e582be8f8d9db5a92c1ce5232afd18890b
tick-ring-64 e9944e10175227922504150f677b608bc1d32c831c006444fc60d403fb48e456
shorter tick-ring-64 13a1e6c405b0baf7e24b7166018b4c9305e25a1731b58c48a9bcdd472187da52
full-of-events 5ea310b61f12b3df04c24cd144fde14463ffdf11b03f0c9e66fd7dfed9d9e481
full-of-copies 0d65acc8d94cfff709e1f45bac80d2df58716d3bfe1544ac43a483e1c3a7f8f3
"""
SOUND_AUDIT = 'audit r1 settled=yes quiet=yes sound=yes'
# A program that refuses the last line of the inputs of which it has to be refused, told by form and number of lines.
STAND_IN = """import sys
lines = sys.stdin.buffer.read().count(b"\\n")
code = {3355000: 2, 36: 9, 16255: 16}.get(lines) if sys.argv[1] == "lab" else None
if code:
    print("refused", lines, code)
    sys.exit(2)
"""
# A valgrind that counts a million, 300,000 for each audit and 500 for each further tick of a ring of 8.
VALGRIND = """import subprocess, sys
if sys.argv[1] == "--version":
    sys.exit(print("valgrind-0"))
data = sys.stdin.buffer.read()
done = subprocess.run(sys.argv[3:], input=data)
count = 10 ** 6 + 300000 * data.count(b"audit r1\\n") + 500 * 7920 * data.count(b"run 61000 1\\n")
print("==1== Collected :", count, file=sys.stderr)
sys.exit(done.returncode)
"""
# A program that works for 1 ms for each line.
BUSY = """import sys, time
lines = sys.stdin.buffer.read().count(b"\\n")
while time.process_time() < 1e-3 * lines: pass
"""
MARKS = ['<!-- tools/bench --forms writes from here -->\n', '<!-- tools/bench --forms writes up to here -->\n']
HOMES = '<!-- tools/bench writes from here -->\nthe homes\n<!-- tools/bench writes up to here -->\n'
QUICK = ['--rounds', '1', '--no-instructions']
FAILURES = [
    ('watch-states', 'echo bad luck >&2; exit 3', 'ended with status 3: bad luck'),
    ('watch-states', 'echo refused 9 4; exit 2', 'refused line 9 by code 4'),
    ('watch-states', 'exit 0', 'wrote nothing'),
    ('log-soak', 'kill -9 $$', 'was ended by signal 9'),
    ('why-settled', 'echo refused 0 7; exit 2', 'refused line 0 by code 7'),
    ('table-settled', 'echo $$', 'wrote another transcript'),
    ('late-fault', 'printf abc', 'refused nothing, and not line 3355000'),
    ('late-fault', 'echo refused 7 2; exit 2', 'refused line 7 by code 2'),
    ('full-of-events', 'echo refused 36 16; exit 2', 'refused line 36 by code 16'),
    ('full-of-copies', 'echo refused 16254 16; exit 2', 'refused line 16254 by code 16'),
    ('audit-ring-32', '[ $(wc -l) -gt 300 ] || exit 3; echo abc', 'ended with status 3'),
]


# Parts of the check

def check_inputs():
    """The inputs are those of the digests, and are what the rows say, as their bytes show."""
    made = {}
    for line in INPUTS.strip().splitlines():
        *word, name, digest = line.split()
        made[' '.join([*word, name])] = data = (FORMS[name].shorter if word else FORMS[name].input)()
        must(hashlib.sha256(data).hexdigest() == digest, f'the input of {" ".join([*word, name])} is another')
    must_be(list(made), [name for case in FORMS.values() for name in [case.name, *([f'shorter {case.name}'] if case.shorter else [])]],
            'the inputs')
    must(max(map(len, made.values())) == 2 ** 24 and len(made['decode']) == 2 * len(made['decode-half']) == 2 ** 24, 'sizes of inputs')
    ascending, mixed = [[line[8:24] for line in made[name].splitlines()] for name in ('watch-ascending', 'watch-random')]
    must(len(set(ascending)) == len(ascending) == 342392, 'two numbers of watch are the same')
    must(ascending == sorted(mixed) != mixed and len(made['watch-random']) + 49 > 2 ** 24, 'the numbers of watch are others')
    states = made['watch-states'].splitlines()
    must(len(states) == 100000 and len({line[8:16] for line in states}) == 1000, 'the Node States of watch are others')
    check_differences_of_inputs(made)
    check_printed(made)
    return len(made)


def check_differences_of_inputs(made):
    """The longer of two scripts has so many things more as it says."""
    for name, case in FORMS.items():
        if case.shorter and name.startswith('audit'):
            must(made[name] == made[f'shorter {name}'] + b'audit r1\n' * case.more, f'{name} has other audits')
    for count in (8, 64):
        longer, shorter = made[f'tick-ring-{count}'], made[f'shorter tick-ring-{count}']
        must(longer == shorter.replace(b'run 61000 100\n', b'run 61000 1\n') and b'run 60000 100\n' in shorter, 'the ticks are others')
        must(FORMS[f'tick-ring-{count}'].more == count * (1000 // 1 - 1000 // 100), f'a ring of {count} has other ticks')


def check_printed(made):
    for name in ['decode-half', 'audit-link-32', 'log-soak']:
        must(run('bench', '--script', name)[1].encode() == made[name], f'--script {name} prints another input')


def wrote(name, path, data, status=0):
    """The lines that a program writes for an input."""
    done = subprocess.run([path, *FORMS[name].words], input=data, stdout=subprocess.PIPE, stderr=subprocess.DEVNULL)
    must(done.returncode == status, f'{name}: status {done.returncode} and not {status}')
    return done.stdout.decode().splitlines()


def check_programs():
    """The programs say of the inputs what the rows say."""
    hncp, hnlook = common.program(), common.looker()
    soak = subprocess.run([hncp, 'soak', '32', '1'], stdout=subprocess.PIPE).stdout.decode().splitlines()
    must_be(common.play(cases.soaked(32, 1)), soak, 'the script of the soak')
    for name, words in [('decode-half', ['tlvs 524288']), ('watch-states', ['watch datagrams=100000 malformed=0'])]:
        must_be(wrote(name, hncp, FORMS[name].input())[:1], words, name)
    for name, last in [('late-fault', 'refused 3355000 2'), ('full-of-events', 'refused 36 9'), ('full-of-copies', 'refused 16255 16')]:
        must_be(wrote(name, hncp, FORMS[name].input(), 2), [last], name)
    for name, words in [('why-unsettled', 'why r1 settled=no '), ('why-settled', 'why r1 settled=yes quiet=yes'),
                        ('table-unsettled', 'table r1 '), ('table-settled', 'table r1 ')]:
        must(wrote(name, hnlook, FORMS[name].input())[0].startswith(words), f'{name} does not begin with "{words}"')
    for name in ['audit-ring-32', 'audit-ring-64', 'audit-link-32']:
        must_be(wrote(name, hncp, FORMS[name].shorter()), [SOUND_AUDIT], name)
    for name in ['tick-ring-8', 'tick-ring-64']:
        must_be(*(wrote(name, hncp, make()) for make in (FORMS[name].input, FORMS[name].shorter)), f'the mail of {name}')


def check_rows(folder):
    """Figures that follow by hand, with a valgrind that is none, and differences of them."""
    stand_in, bare = python(folder, 'stand-in', STAND_IN), os.path.join(folder, 'bare')
    os.mkdir(bare)
    for name in ['sh', 'wc']:
        os.symlink(shutil.which(name), os.path.join(bare, name))
    python(bare, 'valgrind', VALGRIND)
    names = ['decode-half', 'log-soak', 'audit-link-32', 'tick-ring-8', 'full-of-events']
    words = ['--forms', '--rounds', '1', '--program', stand_in, '--look', stand_in, '--only', *names]
    made, text = table_of(*words, env={'PATH': bare})
    must_be([made[name][2] for name in names], ['1.0', '1.3', '0.3', '0.0005', '1.0'], 'the instructions')
    must('valgrind-0' in text and text.count('- Program: ') == 2, f'above the table is {text[:600]}')
    must_be([made[name][-1] == '-' for name in names], [False, False, True, True, False], 'rows without memory')
    busy, idle = python(folder, 'busy', BUSY), program(folder, 'idle', 'printf abc')
    for path, is_told in [(idle, False), (busy, True)]:
        cells = table_of('--forms', *QUICK, '--program', path, '--only', 'audit-ring-32')[0]['audit-ring-32']
        must(len(cells) == 4 and (cells[2] != '-') == is_told, f'the time of an audit is {cells[2:]}')
    must(cells[2].endswith(' ms') and 0.5 < number(cells[2]) < 10, f'an audit of 1 ms takes {cells[2]}')
    put_program(bare, 'valgrind', '#!/bin/sh\nexit 1\n')
    must_fail('counted nothing of', '--forms', '--program', stand_in, '--only', 'decode-half', env={'PATH': bare})
    return len(names)


def check_failures(folder):
    """A form whose program fails is told, with status 1 and no table."""
    for name, body, said in FAILURES:
        path = program(folder, 'bad', body)
        words = [path, '--look', path, '--rounds', '2', '--no-instructions']
        status, text, messages = bench('--forms', '--only', name, '--program', *words)
        must(status == 1 and not text and messages.count('\n') == 1 and messages.startswith(f'bench: {name}: ') and said in messages,
             f'a program that fails at {name}: status {status}, {text[:90]}{messages[-200:]}, and not "{said}"')
    missing = os.path.join(folder, 'nothing')
    must_fail('there is no program', '--forms', *QUICK, '--program', missing, '--look', '/bin/true')
    must_fail('there is no program', '--forms', *QUICK, '--program', '/bin/true', '--look', missing)
    must_fail('HNLOOK', '--forms', *QUICK, '--program', '/bin/true', env={**os.environ, 'HNLOOK': missing})
    return len(FAILURES) + 3


def check_page(folder):
    """Each of the two tables has its place, and a call writes one of them: here that of all forms, without valgrind."""
    os.mkdir(os.path.join(folder, 'docs'))
    copy_tools(folder, 'bench', 'cases.py', 'common.py')
    page, stand_in = os.path.join(folder, 'docs', 'BENCHMARKS.md'), python(folder, 'stand-in', STAND_IN)
    words = ['--forms', '--write', *QUICK, '--program', stand_in, '--look', stand_in]
    put_page(page, HOMES)
    must_fail('no place for the table', *words, top=folder)
    must(read_page(page) == HOMES, 'a page without a place for forms has changed')
    before, after = '# Figures\n' + HOMES + MARKS[0], MARKS[1] + 'more text\n'
    put_page(page, before + 'old\n' + after)
    status, text, messages = bench(*words, top=folder)
    must(status == 0 and text == f'docs/BENCHMARKS.md: {len(FORMS)} forms\n', f'--forms --write: status {status}, {text}{messages}')
    text = read_page(page)
    must(text.startswith(before) and text.endswith(after) and 'old\n' not in text, 'what is not between the marks has changed')
    table = text[len(before):-len(after)]
    must_be([name for name in rows(table)], list(FORMS), 'the forms of the page')
    must('Instructions are not counted' in table and '| What | Name | Processor time | Memory |' in table, f'the page has {table[:600]}')
    own = read_page(os.path.join(common.HERE, '..', 'docs', 'BENCHMARKS.md'))
    must(own.count(MARKS[0]) == own.count(MARKS[1]) == 1 and own.index(MARKS[0]) < own.index(MARKS[1]), 'the page has no place for forms')
    return 2


def check_forms(folder):
    """Held to: the SHA-256 of inputs, and their sizes, numbers and order; what both programs say of them, as that the
    audits are sound. Figures and differences that follow by hand; forms that fail; a page with both places. It
    needs hnlook."""
    need_look()
    inputs = check_inputs()
    check_programs()
    told = f'{inputs} inputs, {check_rows(folder)} rows by hand, {check_failures(folder)} failures'
    return f'{told}, {check_page(folder)} pages'

"""The check of fuzz: the program passes, and programs of the shell that are wrong in one way each are found."""
import os
import re

import common
from checks.helpers import must, need_look, run

# What is wrong of a program, the form that shows it, and the words of the finding. $1 is the form, $HNCP the right program.
WRONG = [
    ('ends by a signal', 'decode', 'kill -SEGV $$', 'signal 11'),
    ('says something with status 0', 'watch', '"$RIGHT" "$@"; status=$?; echo more >&2; exit $status', 'it said'),
    ('says nothing with status 2', 'lab', '"$RIGHT" "$@" 2> /dev/null', 'with status 2 it said'),
    ('is out of memory', 'lab', 'exit 6', 'status 6'),
    ('is done where it refused', 'lab', '"$RIGHT" "$@" 2> /dev/null; exit 0', 'status 0 after the line "refused'),
    ('writes other texts', 'watch', 'echo "watch datagrams=$$ malformed=0"', 'another text the second time'),
    ('writes a line of its own', 'decode', 'echo "$$ tlvs"; echo more', 'lines that begin with'),
    ('writes no line', 'decode', 'printf tlvs', 'no lines of ASCII'),
    ('takes 100 MB', 'decode', '"$RIGHT" "$@"; status=$?; exec python3 -c "import sys; one = bytes([1]) * 10 ** 8; sys.exit($status)" 2>/dev/null', 'MB for'),
    ('forgets what was before', 'lab', 'tail -n 1 | LC_ALL=C sed "s/[^ -~]//g; s/^/show /"', 'no front of the text'),
    ('does nothing', 'watch', 'true', 'it wrote nothing'),
    ('takes all words', 'words', 'exit 0', 'status 0'),
]
FAULTS = [
    ('is done on a full device', 'decode', '"$RIGHT" "$@" 2> /dev/null; true', 'full device'),
    ('blames no memory', 'watch', '"$RIGHT" "$@"; status=$?; test $status = 4 && exit 6; exit $status', 'status 6 and not [4]'),
]


def rows(text):
    """The table: of each form its columns."""
    table = text[text.index('form '):].splitlines()[1:]
    return {words[0]: words[1:] for words in (re.split(r'  +', line) for line in table)}


def check_right(folder):
    """The program passes, and one seed gives one table, but for times and memory."""
    tables = []
    for _ in range(2):
        status, text, messages = run('fuzz', '--runs', '400', '--seed', '1', '--keep', os.path.join(folder, 'none'))
        must(status == 0 and not messages, f'fuzz: status {status}: {text[-300:]} {messages[-200:]}')
        tables.append({form: columns[:2] for form, columns in rows(text).items()})
    must(tables[0] == tables[1], f'one seed, and two tables: {tables}')
    must(len(tables[0]) == 12 and not os.path.exists(os.path.join(folder, 'none')), f'the table has {list(tables[0])}')
    return int(tables[0]['all'][0])


def stand_in(folder, place, text):
    path = os.path.join(folder, f'wrong{place}')
    with open(path, 'w', encoding='ascii') as file:
        file.write(f'#!/bin/sh\nRIGHT={os.environ["HNCP"]}\n{text}\n')
    os.chmod(path, 0o755)
    return path


def check_wrong(folder, place, wrong, words):
    """A wrong program is found; what failed fails again, and not with the right program."""
    what, form, text, finding = wrong
    right, keep = os.environ['HNCP'], os.path.join(folder, f'keep{place}')
    os.environ['HNCP'] = stand_in(folder, place, text)
    try:
        status, said, messages = run('fuzz', *words, '--form', form, '--keep', keep)
        found = [line for line in said.splitlines() if line.startswith('FAILED: ') and finding in line]
        must(status == 1 and found and not messages, f'a program that {what}: status {status}: {said[-300:]} {messages[-200:]}')
        path = found[0].split()[3].rstrip(':')
        status, said, _ = run('fuzz', '--again', path)
        must(status == 1 and finding in said, f'a program that {what}, again: status {status}: {said[-300:]}')
    finally:
        os.environ['HNCP'] = right
    status, said, _ = run('fuzz', '--again', path)
    must(status == 0 and 'nothing is wrong' in said, f'the right program, again: status {status}: {said[-300:]}')


def check_datagrams():
    one, other = (run('fuzz', '--datagrams', '50', '--seed', seed)[1] for seed in '12')
    must(one == run('fuzz', '--datagrams', '50', '--seed', '1')[1] != other, 'datagrams do not follow from the seed')
    must(all(re.fullmatch('-|([0-9a-f]{2})+', line) for line in one.splitlines()) and one.count('\n') == 50, f'datagrams: {one[:200]}')


def check_fuzz(folder):
    """Held to: the program passes, and one seed gives one table. Programs of the shell that are wrong in one way each
    are found, what failed fails again, and the right program passes it."""
    need_look()
    count = check_right(folder)
    for place, wrong in enumerate(WRONG):
        check_wrong(folder, place, wrong, ['--runs', '60', '--seed', '1'])
    for place, wrong in enumerate(FAULTS, len(WRONG)):
        check_wrong(folder, place, wrong, ['--faults'])
    check_datagrams()
    return f'{count} runs, {len(WRONG)} wrong programs, {len(FAULTS)} under faults'

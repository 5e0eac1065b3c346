"""The check of how-soon-at-rest: what it says of a home is what the home does, and parts make the whole."""
import os
import re

import common
from checks.helpers import lines_of, must, must_be, need_look, run

PLAYED = ('start', 'restart', 'off', 'power-cut', 'move', 'loss', 'deaf', 'late', 'mixed', 'forged')
QUICK = ('start', 'power-cut', 'move')
SEED = '301'
LONG = 150


def rests_of(script):
    """The moments, in tenths of a second after the script, at which each running router is settled and quiet: by one play
    that asks after each round."""
    lines, names = script.splitlines(), []
    for line in lines:
        word, *rest = line.split()
        names += rest[:1] if word in ('router', 'start') and rest[0] not in names else []
        names = [name for name in names if word != 'stop' or name != rest[0]]
    moment = max([int(line.split()[1]) for line in lines if re.match(r'(time|run) ', line)], default=0)
    for round_ in range(10 * LONG + 1):
        lines += [f'run {moment + 100 * round_} 100', 'mail', *(f'audit {name}' for name in names)]
    said = [line.split() for line in common.play(lines) if re.match('audit |mail ', line)]
    starts = [place for place, words in enumerate(said) if words[0] == 'mail'][-10 * LONG - 1:]
    return [all(words[2:4] == ['settled=yes', 'quiet=yes'] for words in said[start + 1:start + 1 + len(names)]) for start in starts]


def check_home(history, seed, text):
    """A home is not at rest a tenth of a second before the time that is told, is so at the time, and each second after it."""
    rests = rests_of('\n'.join(lines_of('how-soon-at-rest', '--script', history, seed)))
    if text == 'never':
        must(not rests[-1], f'{history} {seed}: at rest after all')
        return
    at = round(10 * float(text))
    later = [place for place in range(0, len(rests), 10) if place > at]
    must(rests[at] and all(rests[place] for place in later), f'{history} {seed}: not at rest from {text} s on')
    must(at == 0 or not rests[at - 1], f'{history} {seed}: at rest before {text} s')


def check_at_rest(folder):
    """Held to: plays by the check that ask after each round, of a home with each kind of history; the texts of parts, joined,
    are the text of the whole; least, median and most are those of the lines of homes."""
    need_look()
    told = [line.split() for line in lines_of('how-soon-at-rest', '--from', SEED, '-n', '1', '--each', '--only', *PLAYED)]
    told = told[:told.index([])]
    must_be([words[:2] for words in told], [[history, SEED] for history in PLAYED], 'homes')
    for words in told:
        check_home(*words)
    return f'{len(told)} homes with {len(PLAYED)} histories, asked after each round; {check_parts(folder)} homes in parts'


def check_parts(folder):
    """Parts, joined, are the whole, and its rows are those of its homes. How many homes there are."""
    words = ['--from', SEED, '-n', '3', '--only', *QUICK]
    whole = lines_of('how-soon-at-rest', *words, '--each')
    each, table = [line.split() for line in whole[:whole.index('')]], whole[whole.index('') + 1:]
    paths = [os.path.join(folder, f'part{part}') for part in (1, 2)]
    for part, path in enumerate(paths, 1):
        with open(path, 'w', encoding='ascii') as file:
            file.write('\n'.join([*lines_of('how-soon-at-rest', '--shard', f'{part}/2', *words), '']))
    must_be(lines_of('how-soon-at-rest', '--join', *paths), table, 'how-soon-at-rest --join')
    status, _, messages = run('how-soon-at-rest', '--join', paths[0], paths[0])
    must(status == 1 and 'as a file before it' in messages, f'a part that is given twice: status {status}, {messages}')
    for history, line in zip(QUICK, table[-len(QUICK):]):
        texts = sorted((text for name, _, text in each if name == history), key=float)
        cells = line.split()
        must_be([cells[0], *cells[-7:]], [history, '3', texts[0], texts[1], *[texts[2]] * 3, '0'], f'row of {history}')
    return len(each)

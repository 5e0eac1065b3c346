"""When homes come to rest: what tools/how-soon-at-rest measures, and its text."""
import math
import re
import sys

from . import common, histories
from ..campaigns import many
from ..errors import Problem, SeedsFailed

LONG = 150               # seconds for which a home is looked at
SECOND, STEP = 1000, 100
NEVER = 'never'
AT_REST = ' settled=yes quiet=yes '
EACH = re.compile(r'([a-z0-9-]{1,16}) (\d{1,20}) (\d{1,6}\.\d|never)')
MOST = 10 ** 9


def looked_at(lines, names, moments):
    """At which of these moments the home is at rest: each running router is settled and quiet."""
    more = [text for moment in moments for text in (f'run {moment} {STEP}', *(f'audit {name}' for name in names))]
    said = common.play([*lines, *more])
    if common.refusal(said):
        raise Problem(f'the program refuses the home: {said[-1]}')
    said = [text for text in said if text.startswith('audit ')][-len(moments) * len(names):]
    if len(said) != len(moments) * len(names):
        raise Problem('the program did not answer each look')
    return [all(AT_REST in said[place] + ' ' for place in range(at, at + len(names))) for at in range(0, len(said), len(names))]


def last_unrest(lines, names, moments):
    """The place of the last of these moments at which the home is not at rest; None if it is so at each."""
    found = [place for place, rests in enumerate(looked_at(lines, names, moments)) if not rests]
    return found[-1] if found else None


def seconds_of(history, seed):
    """How many seconds after its history a home is at rest, as text."""
    home = histories.played(history, seed)
    lines, begin = list(home.play.lines), home.play.moment
    names = [router.name for router in home.routers if router.running]
    looks = range(begin, begin + (LONG + 1) * SECOND, SECOND)
    last = last_unrest(lines, names, looks)
    if last is None:
        return '0.0'
    if last == LONG:
        return NEVER
    finer = range(looks[last], looks[last + 1], STEP)
    return f'{(finer[last_unrest(lines, names, finer)] + STEP - begin) / SECOND:.1f}'


def played(history, seeds, processes):
    """What the homes of a history come to, by history and seed."""
    cases = [(history, seed) for seed in seeds]
    try:
        return dict(zip(cases, many(lambda place: seconds_of(*cases[place]), range(len(cases)), processes)))
    except SeedsFailed as failed:
        place, text = next(iter(failed.failures.items()))
        raise Problem('{} {}: {}'.format(*cases[place], text)) from None
    except Problem as problem:
        raise Problem('{} {}: {}'.format(*told_case(cases, str(problem)))) from None


def told_case(cases, text):
    """The history and the seed of the case whose place stands before a text, and the text."""
    found = re.fullmatch(r'seed (\d+): (.*)', text, re.DOTALL)
    return (*cases[int(found[1])], found[2]) if found else (cases[0][0], 'of each seed', text)


def told(found, is_each):
    """Writes a line for each home, if these are wanted, and gives what the homes come to."""
    for (history, seed), text in found.items() if is_each else ():
        print(history, seed, text, flush=True)
    return found


def script_of(history, seed):
    """The script of a home up to the end of its history."""
    return histories.played(history, seed).script


def percentile(values, percent):
    """The least value that so many of a hundred do not pass."""
    return values[max(0, math.ceil(percent * len(values) / 100) - 1)]


def row(words, cells):
    return f'{words:36}' + ''.join(f'{cell:>8}' for cell in cells)


def lines_of(found):
    """The table."""
    yield f'Homes of {histories.LEAST_ROUTERS} to {histories.MOST_ROUTERS} routers, or so many as are named, and their histories. Then nothing is lost, and nothing happens.'
    yield f'Seconds until each running router is settled and quiet, and stays so; never: not within {LONG} s.'
    yield from ['Made by tools/how-soon-at-rest.', '']
    yield row('history', ['homes', 'least', 'median', '90 %', '99 %', 'most', NEVER])
    for history, (about, _, _) in histories.HISTORIES.items():
        texts = [text for (name, _), text in found.items() if name == history]
        values = sorted(float(text) if text != NEVER else math.inf for text in texts)
        if values:
            told = [values[0], *(percentile(values, percent) for percent in (50, 90, 99)), values[-1]]
            yield row(f'{history:10} {about}', [len(values), *('-' if value == math.inf else f'{value:.1f}' for value in told), texts.count(NEVER)])


def joined(paths):
    """The cases of texts that this tool wrote, in order. None may be there twice."""
    found = {}
    for path in paths:
        rows = [each for each in map(EACH.fullmatch, common.read(path)) if each and each[1] in histories.HISTORIES]
        if not rows:
            raise Problem(f'{path} has no line HISTORY SEED SECONDS')
        for each in rows:
            case = each[1], int(each[2])
            if case in found:
                raise Problem(f'{path} has {each[1]} {each[2]}, as a file before it')
            found[case] = each[3]
    order = list(histories.HISTORIES)
    return {case: found[case] for case in sorted(found, key=lambda case: (order.index(case[0]), case[1]))}


def parser(about):
    return common.parser(about, [
        ('-n', {'metavar': 'COUNT', 'dest': 'count', 'default': 100, 'type': common.number_from(1, 10 ** 6), 'help': 'how many seeds (100)'}),
        ('--from', {'metavar': 'N', 'dest': 'first', 'default': 1, 'type': common.number_from(0, MOST), 'help': 'the first seed (1)'}),
        ('--shard', {'metavar': 'K/N', 'help': 'part K of N of these seeds, K from 1 on'}),
        ('--processes', {'metavar': 'P', 'type': common.number_from(1, 1024), 'help': 'how many at once (as many as there are processors)'}),
        ('--only', {'metavar': 'HISTORY', 'nargs': '+', 'help': 'these histories alone'}),
        ('--each', {'action': 'store_true', 'help': 'write a line for each home, too'}),
        ('--script', {'metavar': ('HISTORY', 'SEED'), 'nargs': 2, 'help': 'write the script of a home up to the end of its history'}),
        ('--join', {'metavar': 'FILE', 'nargs': '+', 'help': 'play nothing, and make the text of all homes in these files'}),
    ])


def main(about, words):
    """The command how-soon-at-rest with these words. `about` says what it does."""
    given = parser(about)
    words = given.parse_args(words)
    names = words.only or ([words.script[0]] if words.script else list(histories.HISTORIES))
    unknown = next((name for name in names if name not in histories.HISTORIES), None)
    if unknown:
        given.error(f'{unknown} is no history of {", ".join(histories.HISTORIES)}')
    if words.script:
        seed = common.number(words.script[1], MOST)
        if seed is None:
            given.error(f'{words.script[1]} is no seed')
        sys.stdout.write(script_of(words.script[0], seed))
        return
    if words.join:
        found = joined(words.join)
    else:
        found = {}
        for name in dict.fromkeys(names):
            seeds = histories.seeds_of(name, words.first, words.count)
            seeds = common.part_of(seeds, words.shard, given) if words.shard else seeds
            found.update(told(played(name, seeds, words.processes), words.each or words.shard))
    if words.each or words.shard:
        print()
    for text in lines_of(found):
        print(text)

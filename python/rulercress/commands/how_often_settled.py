"""How often a lossy home is found settled and quiet.

  tools/how-often-settled [PROGRAM] [START]    such as: tools/how-often-settled > docs/settled.txt
  tools/how-often-settled --shard K/N -n COUNT [PROGRAM] [START]
  tools/how-often-settled --join FILE ..

The home is the tree of a soak (docs/FORMATS.md) with 20 routers. From START simulated seconds on, 60 if it is left out, it
is looked at 100 times, a second apart: is the first router settled and quiet with those that it reaches? Then the same home
is played with no loss after START: how many seconds later is it settled and quiet, and so at each look of a minute? Ten
seeds for each loss. Written are the counts for each loss and seed, and a bar for each loss. The text is the same on each
machine. As many homes are played at once as there are processors. The program is that of HNCP, unless one is named. It is
written when all is counted; where the program does not answer, nothing is written but a line that says so, with status 1.

With -n so many seeds are played for each loss. With --shard K/N it plays part K of N of the seeds, each Nth one, and --join
makes the text of the whole from the texts of all parts.
"""
import re

from ..tools import common
from ..tools.common import Problem

ROUTERS = 20
LOOKS = 100
LOOKS_AFTER = 60
LOSSES = (0, 10, 20, 30, 40)
SEEDS = 10
MOST_SEEDS = 10 ** 6
BAR = 50
START = 60
MOST_START = 10 ** 6     # seconds; the program refuses a play that long, by its events
DONE = 'settled=yes quiet=yes sound=yes'
HEAD = re.compile(r'A tree of \d+ routers, looked at \d+ times, a second apart, from (\d{1,7}) simulated seconds on\.')
ROW = re.compile(r' *(\d{1,3}) +(\d{1,7}) +(\d{1,3}) +(\d{1,3}) +(\d{1,3}) +(\d{1,20}) +(\d{1,2}|-)')


def home(loss, seed):
    """The lines that build the home."""
    lines = ['hncp 1', f'seed {seed}', f'loss {loss}']
    lines += [f'link l{k}' for k in range(1, ROUTERS + 1)]
    for k in range(1, ROUTERS + 1):
        lines.append(f'router r{k} {k:08x}')
        if k > 1:
            lines.append(f'attach r{k} 1 l{k // 2}')
        lines.append(f'attach r{k} 2 l{k}')
    return lines + ['external r1 2001:db8::/56 7200 3600']


def play(program, lines):
    """The lines of the transcript: by the program that was named, if one was."""
    text = common.ask(program, [program, 'lab'], common.joined(lines))[0] if program else common.play(lines)
    refused = common.refusal(text)
    if refused:
        raise Problem(f'{program or "hncp"} refused line {refused[0]} of the home by code {refused[1]}; see tools/explain')
    return text


def audits(program, text, count):
    """What was said of the first router, look by look."""
    said = [line[len('audit r1 '):] for line in text if line.startswith('audit r1 settled=')]
    if len(said) != count:
        raise Problem(f'{program or "hncp"} did not answer each look')
    return said


def numbers(program, text):
    """The sequence numbers of all routers, look by look."""
    shown = re.findall(r'^show r\d+ id=\S+ number=(\d{1,20}) ', '\n'.join(text), re.MULTILINE)
    if len(shown) != LOOKS * ROUTERS:
        raise Problem(f'{program or "hncp"} did not answer each look')
    return [[int(each) for each in shown[at:at + ROUTERS]] for at in range(0, len(shown), ROUTERS)]


def looked(program, loss, seed, start):
    """Looks that found it settled and quiet, settled alone, and not settled; and how often somebody published between them."""
    lines = home(loss, seed)
    for look in range(LOOKS):
        lines += [f'run {1000 * (start + look)} 100', 'audit r1']
        lines += [f'show r{k}' for k in range(1, ROUTERS + 1)]
    text = play(program, lines)
    said, shown = audits(program, text, LOOKS), numbers(program, text)
    done = said.count(DONE)
    moving = said.count('settled=yes quiet=no')
    return done, moving, LOOKS - done - moving, sum(shown[-1]) - sum(shown[0])


def after(program, loss, seed, start):
    """How many seconds after the loss is taken away it is done for the rest of a minute; `-` if it is not."""
    lines = home(loss, seed) + [f'run {1000 * start} 100', 'loss 0']
    for look in range(LOOKS_AFTER + 1):
        lines += [f'run {1000 * (start + look)} 100', 'audit r1']
    said = audits(program, play(program, lines), LOOKS_AFTER + 1)
    missed = [look for look, text in enumerate(said) if text != DONE]
    first = missed[-1] + 1 if missed else 0
    return first if first <= LOOKS_AFTER else '-'


def counts(program, start, seeds):
    """For each loss and seed: what the looks found, how often somebody published, and when it is done without loss."""
    cases = [(loss, seed) for loss in LOSSES for seed in seeds]
    in_order = common.in_order if program else common.plays_in_order
    return dict(zip(cases, in_order(lambda case: (*looked(program, *case, start), after(program, *case, start)), cases)))


def read_part(path):
    """The start of a text that this tool wrote, and its counts."""
    text = common.read(path)
    head, rows = HEAD.fullmatch(text[0]) if text else None, [ROW.fullmatch(line) for line in text[5:]]
    if not head or not rows or not rows[0]:
        raise Problem(f'{path} is no text of how-often-settled')
    values = [[word if word == '-' else int(word) for word in row.groups()] for row in rows if row]
    return int(head[1]), {(loss, seed): tuple(rest) for loss, seed, *rest in values}


def joined(paths):
    """The counts of texts together, and their start. They have to be those of one campaign: each case once, none left out."""
    found, starts = {}, set()
    for path in paths:
        start, part = read_part(path)
        starts.add(start)
        twice = found.keys() & part.keys()
        if twice or len(starts) > 1:
            raise Problem(f'{path} has loss {min(twice)[0]} and seed {min(twice)[1]}, as a file before it' if twice else
                          f'{path} looks from {start} seconds on, and a file before it does not')
        found.update(part)
    whole, most = {}, max(seed for _, seed in found)
    for case in ((loss, seed) for loss in LOSSES for seed in range(1, most + 1)):
        if case not in found:
            raise Problem(f'no file has loss {case[0]} and seed {case[1]}')
        whole[case] = found[case]
    return whole, start


def lines_of(found, start):
    """The text."""
    seeds = sorted({seed for _, seed in found})
    yield f'A tree of {ROUTERS} routers, looked at {LOOKS} times, a second apart, from {start} simulated seconds on.'
    yield f'"no loss": so many seconds after {start} it is settled and quiet, if the loss is taken away then.'
    yield from ['Made by tools/how-often-settled.', '']
    yield 'loss seed  settled+quiet  settled  not settled  published  no loss'
    for (loss, seed), (done, moving, rest, published, later) in found.items():
        yield f'{loss:4} {seed:4}  {done:13}  {moving:7}  {rest:11}  {published:9}  {later:>7}'
    yield from ['', f'Looks of {LOOKS * len(seeds)} that found it settled and quiet, and the least and the most of one seed:', '']
    for loss in LOSSES:
        each = [found[loss, seed][0] for seed in seeds]
        bar = '#' * round(sum(each) * BAR / (LOOKS * len(seeds)))
        yield f'loss {loss:2} %  {sum(each):4}  {min(each):3} to {max(each):3}  |{bar:{BAR}}|'


def words_of(given, words):
    """The program, if one is named, and the second from which on the home is looked at. A number alone is the second."""
    *program, start = words if words and common.number(words[-1]) is not None else [*words, str(START)]
    start = common.number(start, MOST_START)
    if start is None or len(program) > 1:
        given.error(f'START is no number from 0 to {MOST_START}' if start is None else f'{words[1]} is no number from 0 to {MOST_START}')
    if not program:
        common.must_play('hncp')
    return common.found(program[0]) if program else None, start


def main(words=None):
    given = common.parser(__doc__, [
        ('-n', {'metavar': 'COUNT', 'dest': 'count', 'default': SEEDS, 'type': common.number_from(1, MOST_SEEDS), 'help': 'how many seeds for each loss (10)'}),
        ('--shard', {'metavar': 'K/N', 'help': 'part K of N of these seeds, K from 1 on'}),
        ('--join', {'metavar': 'FILE', 'nargs': '+', 'help': 'play nothing, and make one text of those of all parts'}),
        ('words', {'metavar': 'WORD', 'nargs': '*', 'help': 'the path of the program hncp, and from which simulated second on it is looked at (60)'}),
    ])
    words = given.parse_args(words)
    if len(words.words) > 2:
        given.error(f'{words.words[2]} is one word too many')
    if words.join and (words.words or words.shard):
        given.error('--join takes no word but files')
    if words.join:
        found, start = joined(words.join)
    else:
        seeds = range(1, words.count + 1)
        seeds = common.part_of(seeds, words.shard, given) if words.shard else seeds
        if not seeds:
            given.error(f'part {words.shard} of {words.count} seeds has none')
        program, start = words_of(given, words.words)
        found = counts(program, start, seeds)
    for text in lines_of(found, start):
        print(text)

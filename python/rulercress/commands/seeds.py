"""Plays a script with the seeds 1 to 100, and writes those whose transcript shows the pattern, with the first such line.

  tools/seeds home.script 'number=4'
  tools/seeds --when 'sound=yes' home.script

The pattern is a regular expression of Python, looked for in each line. Each `seed` line of the script gets the seed; a
script without one gets it before its second line. The last line says how many seeds show the pattern. As many plays run at
once as there are processors. The status is 0 where a seed shows the pattern, and 1 where none does.

With --when it says at which moment the pattern is shown first. Reports that stand behind a `run` are asked within it too, once
in a second or by --every; they change nothing. At the end come the least of these moments, the median and the most.

With --shard K/N it plays part K of N of the seeds, each Nth one. So a campaign is parted over machines:

  seq 20 | parallel --sshlogin one,two -j 1 tools/seeds -n 100000 --shard {}/20 home.script 'number=4'
"""
import re
import statistics

from ..tools import common, looks, marks

MOST = 2 ** 48


def with_seed(lines, seed):
    """The texts of the script with this seed, and how many lines were put in."""
    texts = [f'seed {seed}' if line.number > 1 and line.word == 'seed' else line.text for line in lines]
    if not any(line.word == 'seed' for line in lines[1:]):
        return texts[:1] + [f'seed {seed}'] + texts[1:], 1
    return texts, 0


def played(lines, seed):
    """The transcript with a seed. A refused line has its number in the script as it was given."""
    texts, added = with_seed(lines, seed)
    transcript = common.play(texts)
    refused = common.refusal(transcript)
    if refused and refused[0] > 1:
        transcript[-1] = f'refused {refused[0] - added} {refused[1]}'
    return transcript


def with_reports(lines, every):
    """The script whose runs are parted, each time with the reports that stand behind the run; and the moment after each line."""
    made, moments, moment = [], [], 0

    def put(text):
        made.append(common.Line(len(made) + 1, text))
        moments.append(moment)

    for place, line in enumerate(lines):
        if place and line.word == 'run' and int(line.words[1]) > moment:
            reports = reports_behind(lines[place + 1:])
            rounds = looks.rounds_of(moment, int(line.words[1]), int(line.words[2]), line.number)
            for last, now in zip([moment] + rounds, rounds[:-1]):
                if reports and now // every > last // every:
                    moment = now
                    for text in [f'run {now} {line.words[2]}', *reports]:
                        put(text)
            moment = rounds[-1]
        elif place and line.word == 'time':
            moment = max(moment, int(line.words[1]))
        put(line.text)
    return made, moments


def reports_behind(lines):
    """The texts of the reports that follow, up to a line that is none."""
    found = []
    for line in lines:
        if line.word and line.word not in looks.REPORTS:
            break
        found += [line.text] if line.word else []
    return found


def first_moment(lines, moments, pattern, seed):
    """When the pattern is shown first, or nothing where it is not."""
    texts, added = with_seed(lines, seed)
    moments = moments[:1] + [0] * added + moments[1:]
    return next((moments[number - 1] for number, text in marks.written(common.numbered(texts)) if pattern.search(text)), None)


def first_line(lines, pattern, seed):
    """The first line that shows the pattern, or nothing."""
    return next((text for text in played(lines, seed) if pattern.search(text)), None)


def tell_lines(lines, pattern, seeds):
    """Writes the seeds with their first lines, and gives how many there are."""
    shown = 0
    for seed, first in zip(seeds, common.plays_in_order(lambda seed: first_line(lines, pattern, seed), seeds)):
        if first is not None:
            shown += 1
            print(f'seed {seed}: {first}', flush=True)
    print(f'{shown} of {len(seeds)} seeds')
    return shown


def tell_moments(lines, pattern, seeds, every):
    """Writes the seeds with their first moments, and gives how many there are."""
    found, (parted, moments) = [], with_reports(lines, every)
    for seed, moment in zip(seeds, common.plays_in_order(lambda seed: first_moment(parted, moments, pattern, seed), seeds)):
        if moment is not None:
            found.append(moment)
            print(f'seed {seed}: {moment}', flush=True)
    more = f': least {min(found)}, median {statistics.median_low(found)}, most {max(found)} ms' if found else ''
    print(f'{len(found)} of {len(seeds)} seeds{more}')
    return len(found)


def main(words=None):
    given = common.parser(__doc__, [
        ('-n', {'metavar': 'COUNT', 'dest': 'count', 'default': 100, 'type': common.number_from(1, 1000000), 'help': 'how many seeds (100)'}),
        ('--from', {'metavar': 'N', 'dest': 'first', 'default': 1, 'type': common.number_from(0, 2 ** 63), 'help': 'the first seed (1)'}),
        ('--shard', {'metavar': 'K/N', 'help': 'part K of N of these seeds, K from 1 on'}),
        ('--when', {'metavar': 'PATTERN', 'help': 'say at which moment this pattern is shown first'}),
        ('--every', {'metavar': 'MS', 'default': 1000, 'type': common.number_from(1, MOST), 'help': 'with --when: ask once in so many milliseconds (1000)'}),
        ('script', {'metavar': 'SCRIPT', 'help': 'a script of hncp lab'}),
        ('pattern', {'metavar': 'PATTERN', 'nargs': '?', 'help': 'a regular expression'}),
    ])
    words = given.parse_args(words)
    if (words.when is None) == (words.pattern is None):
        given.error('give one PATTERN, behind the script or by --when')
    text = words.pattern if words.when is None else words.when
    try:
        pattern = re.compile(text)
    except re.error as error:
        given.error(f'{text} is no pattern: {error}')
    seeds = range(words.first, words.first + words.count)
    seeds = common.part_of(seeds, words.shard, given) if words.shard else seeds
    lines = common.read_script(words.script)
    common.must_be_played(common.play(line.text for line in lines))
    shown = tell_lines(lines, pattern, seeds) if words.when is None else tell_moments(lines, pattern, seeds, words.every)
    return 0 if shown else 1

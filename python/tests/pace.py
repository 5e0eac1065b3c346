"""How many homes a second: in one process by the library, and by a process of hncp each. Writes a table in Markdown.

    cd python && python3 -m tests.pace --processors 1 4

The library is that of HN_LAB, or what is found without it. On so many processors so many processes play, and no more processors
are used. Each rate is the most of some rounds: on a busy machine all of them are too small. The processor time of a home, that
of its program too, says more there. Both ways come to the same transcripts, which is looked at first.
"""
import argparse
import os
import resource
import sys
import time
from typing import Callable, Dict, List, Sequence

from rulercress import Home, Problem, library, many, scripts
from rulercress.programs import run
from rulercress.shards import processors

SECONDS, ROUNDS = 2.0, 3
SOME = 10                # homes of which the processor time is taken
DRIVEN = 'three routers, 30 s, each copy asked of'


def soak(seed: int) -> List[str]:
    """The script of `hncp soak 8 SEED` (docs/FORMATS.md, "The script of a soak")."""
    lines = ['hncp 1', f'seed {seed}', 'loss 10', *(f'link l{k}' for k in range(1, 9))]
    for k in range(1, 9):
        lines += [f'router r{k} {k:08x}', *([f'attach r{k} 1 l{k // 2}'] if k > 1 else []), f'attach r{k} 2 l{k}']
    return [*lines, 'external r1 2001:db8::/56 7200 3600', 'run 60000 100', 'compare r1 r8', 'audit r1', 'used r1', 'prefixes r1',
            'prefixes r8', 'mail', 'show r1', 'show r8']


def three(seed: int) -> List[str]:
    """The script of a gateway and two routers in a row, 30 seconds."""
    return ['hncp 1', f'seed {seed}', 'link lan', 'link garden', 'router gateway 00000001', 'router hall 00000002', 'router attic 00000003',
            'attach gateway 1 lan', 'attach hall 1 lan', 'attach hall 2 garden', 'attach attic 1 garden',
            'external gateway 2001:db8:0:100::/56 7200 3600', 'run 30000 100', 'audit gateway', 'prefixes attic', 'mail']


def of_script(lines_of: Callable[[int], List[str]]) -> Callable[[int], str]:
    """Plays a whole script, as the command `seeds` does."""
    def play(seed: int) -> str:
        found, data = library.found(), ('\n'.join([*lines_of(seed), '']).encode())
        return (scripts.run(found, 'hncp', ['lab'], data) if found else run('hncp', ['lab'], data))[0]
    return play


def built(seed: int) -> Home:
    """The home of `three`."""
    home = Home(seed=seed, version=1)
    gateway, hall, attic = home.router('gateway'), home.router('hall'), home.router('attic')
    home.link('lan', gateway, hall)
    home.link('garden', hall, attic)
    gateway.external('2001:db8:0:100::/56')
    return home


def asserted(seed: int) -> str:
    """A home of Python, of which something is asserted at its end."""
    home = built(seed)
    home.run(30)
    assert home.routers[0].sound and home.routers[2].prefixes
    return home.script


def driven(seed: int) -> str:
    """The same home. In its first 30 seconds each copy is asked of, and some are lost."""
    home = built(seed)
    attic = home.routers[2]
    home.run(30, drop=lambda copy: copy.sender is attic and copy.number % 3 == 0)
    return home.script


HOMES: Dict[str, Callable[[int], str]] = {
    '`soak 8`: a script, 60 s': of_script(soak),
    'three routers: a script, 30 s': of_script(three),
    'three routers: a `Home`, 30 s, asserted on': asserted,
    DRIVEN: driven,
}


def rate(function: Callable[[int], str], count: int, processes: int) -> float:
    """How many homes a second."""
    begun = time.perf_counter()
    many(function, range(count), processes)
    return count / (time.perf_counter() - begun)


def best_rate(function: Callable[[int], str], seconds: float, rounds: int, processes: int) -> float:
    """The most homes a second of some rounds, each of which takes about so many seconds."""
    count = max(processes, round(rate(function, 4 * processes, processes) * seconds / 4))
    count = max(processes, round(rate(function, count, processes) * seconds))
    return max(rate(function, count, processes) for _ in range(rounds))


def processor_time() -> float:
    """The seconds of processor time of this process and of those that it began."""
    used = [resource.getrusage(who) for who in (resource.RUSAGE_SELF, resource.RUSAGE_CHILDREN)]
    return sum(each.ru_utime + each.ru_stime for each in used)


def least_time(function: Callable[[int], str], rounds: int) -> float:
    """The processor time of a home, in milliseconds: the least of some rounds."""
    found = []
    for _ in range(rounds):
        begun = processor_time()
        many(function, range(SOME), 1)
        found.append((processor_time() - begun) / SOME * 1000)
    return min(found)


def rates(path: str, numbers: Sequence[int], seconds: float, rounds: int) -> Dict[str, List[float]]:
    """Of each home its processor time, and the rates on so many processors."""
    os.environ[library.VARIABLE] = path
    whole, found = sorted(os.sched_getaffinity(0)), {}
    for name, function in HOMES.items():
        found[name] = [least_time(function, rounds)]
        for number in numbers:
            os.sched_setaffinity(0, whole[:number])
            found[name].append(best_rate(function, seconds, rounds, number))
            os.sched_setaffinity(0, whole)
            if sys.stderr.isatty():
                print(f'{name}, {number}: {found[name][-1]:.0f}', file=sys.stderr)
    return found


def must_agree(path: str) -> None:
    """Both ways come to the same."""
    for name, function in HOMES.items():
        told = []
        for each in (path, ''):
            os.environ[library.VARIABLE] = each
            told.append([function(seed) for seed in range(3)])
        if told[0] != told[1]:
            raise Problem(f'{name}: the library and the programs come to other homes')


def table(numbers: Sequence[int], ours: Dict[str, List[float]], theirs: Dict[str, List[float]]) -> List[str]:
    ways = [f'a second on {number} processor{"s" if number > 1 else ""}' for number in numbers]
    heads = ['Homes: by the library, by a program each, and the ratio', 'processor time, in ms', *ways]
    lines = [f'| {" | ".join(heads)} |', '|' + '---|' * len(heads)]
    for name in HOMES:
        (mine, *rates), (other, *others) = ours[name], theirs[name]
        cells = [f'{mine:.2f}, {other:.2f}, {other / mine:.1f}', *(f'{one:,.0f}, {two:,.0f}, {one / two:.1f}' for one, two in zip(rates, others))]
        lines.append(f'| {name} | {" | ".join(cells)} |')
    return lines


def main() -> int:
    given = argparse.ArgumentParser(description=__doc__, formatter_class=argparse.RawDescriptionHelpFormatter)
    given.add_argument('--processors', metavar='N', type=int, nargs='+', default=[1, processors()], help='how many processors (1, and all)')
    given.add_argument('--seconds', metavar='S', type=float, default=SECONDS, help=f'how long a round takes ({SECONDS:g})')
    given.add_argument('--rounds', metavar='N', type=int, default=ROUNDS, help=f'how many rounds, of which the best is told ({ROUNDS})')
    words = given.parse_args()
    if not all(1 <= number <= processors() for number in words.processors) or words.seconds <= 0 or words.rounds < 1:
        given.error(f'N is from 1 to {processors()} processors, S above 0, and there is a round at least')
    try:
        found = library.found()
        if not found:
            raise Problem(f'there is no library to measure; set {library.VARIABLE} to the path of {library.NAME}')
        load = os.getloadavg()[0]
        must_agree(found.path)
        ours, theirs = (rates(path, words.processors, words.seconds, words.rounds) for path in (found.path, ''))
    except Problem as problem:
        print(problem, file=sys.stderr)
        return 1
    print('\n'.join([*table(words.processors, ours, theirs), '', f'The load was {load:.1f} when it began.']))
    return 0


if __name__ == '__main__':
    sys.exit(main())

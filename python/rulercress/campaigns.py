"""Many homes: a function of a seed, over a pool of processes."""
import argparse
import functools
import multiprocessing
import os
import sys
import traceback
from concurrent import futures
from concurrent.futures.process import BrokenProcessPool
from typing import Any, Callable, Dict, Iterator, List, Optional, Sequence, Tuple, TypeVar

from .errors import Problem, SeedsFailed
from .shards import processors, shard

Result = TypeVar('Result')
FINDINGS = 3              # the status of a campaign with findings
SHARES = 64               # into which the seeds of a process are parted, so that all processes end at about one time
# A seed, its result, what was raised as text, and whether that ends the campaign.
Outcome = Tuple[int, object, Optional[str], bool]

_function: Optional[Callable[[Any], object]] = None     # of the pool that is at work; processes that fork inherit it


def _begin(function: Callable[[Any], object]) -> None:
    global _function
    _function = function


def _call(value: object) -> Any:
    assert _function is not None
    return _function(value)


def in_processes(function: Callable[[Any], Any], values: Sequence[Any], processes: int) -> Iterator[Any]:
    """The function of each value, in order, by so many processes."""
    if processes == 1 or len(values) < 2:
        yield from map(function, values)
        return
    # A process that forks has the function, be it a lambda. Where none can fork the function is sent, and has to be of a module.
    way = 'fork' if 'fork' in multiprocessing.get_all_start_methods() else None
    pool = futures.ProcessPoolExecutor(min(processes, len(values)), multiprocessing.get_context(way), _begin, (function,))
    try:
        yield from pool.map(_call, values, chunksize=max(1, len(values) // (processes * SHARES)))
    except BrokenProcessPool:
        raise Problem('a process of the pool was ended') from None
    finally:
        pool.shutdown(cancel_futures=True)


def _outcome(function: Callable[[int], object], seed: int) -> Outcome:
    """What the function comes to with a seed. Whatever it raises is told, so that no process of the pool is lost."""
    try:
        return seed, function(seed), None, False
    except (Problem, MemoryError) as problem:
        return seed, None, str(problem), True
    except KeyboardInterrupt:
        raise
    except BaseException as raised:
        last = traceback.extract_tb(raised.__traceback__)[-1]
        text = ' '.join(str(raised).split()) or (last.line or '')
        return seed, None, f'{type(raised).__name__}: {text} ({os.path.basename(last.filename)}:{last.lineno})', False


def _progress(done: int, count: int, failed: int) -> None:
    if sys.stderr.isatty():
        words = f'{done} of {count} seeds' + (f', {failed} failed' if failed else '')
        print(f'\r{words}', end='\n' if done == count else '', file=sys.stderr, flush=True)


def _results(function: Callable[[int], Result], seeds: Sequence[int], processes: Optional[int]) -> Iterator[Tuple[int, Result, Optional[str]]]:
    """Seed, result and what was raised, in order of seeds, with a line of progress."""
    outcome, failed = functools.partial(_outcome, function), 0
    for done, (seed, result, raised, is_end) in enumerate(in_processes(outcome, seeds, processes or processors()), 1):
        if is_end:
            raise Problem(f'seed {seed}: {raised}')
        failed += raised is not None
        _progress(done, len(seeds), failed)
        yield seed, result, raised       # type: ignore[misc]


def many(function: Callable[[int], Result], seeds: Sequence[int], processes: Optional[int] = None, part: Optional[str] = None) -> List[Result]:
    """The function of each seed, in order of seeds, over so many processes: as many as there are processors, if none is given.

    All seeds are played. If the function raised with some, SeedsFailed tells which, what was raised, and the other results. A
    program that is missing ends it at once. `part` is `K/N`: part K of N of the seeds. On a terminal a line of progress
    is written to standard error. Where processes can fork, the function may be a lambda; results have to be such as pickle
    takes.
    """
    seeds = shard(seeds, part) if part else list(seeds)
    results: Dict[int, Result] = {}
    failures: Dict[int, str] = {}
    for seed, result, raised in _results(function, seeds, processes):
        if raised is None:
            results[seed] = result
        else:
            failures[seed] = raised
    if failures:
        raise SeedsFailed(failures, dict(results))
    return [results[seed] for seed in seeds]


def _words(about: Optional[str], arguments: Optional[Sequence[str]]) -> argparse.Namespace:
    parser = argparse.ArgumentParser(description=about, formatter_class=argparse.RawDescriptionHelpFormatter)
    parser.add_argument('--from', metavar='N', dest='first', type=int, default=1, help='the first seed (1)')
    parser.add_argument('-n', metavar='COUNT', dest='count', type=int, default=100, help='how many seeds (100)')
    parser.add_argument('--shard', metavar='K/N', default='1/1', help='part K of N of these seeds, K from 1 on')
    parser.add_argument('--processes', metavar='P', type=int, help='how many at once (as many as there are processors)')
    words = parser.parse_args(arguments)
    try:
        words.seeds = shard(range(words.first, words.first + words.count), words.shard)
    except ValueError as error:
        parser.error(str(error))
    if words.count < 1 or words.first < 0 or words.processes is not None and words.processes < 1:
        parser.error('COUNT and P are 1 or more, and N is 0 or more')
    return words


def campaign(function: Callable[[int], object], arguments: Optional[Sequence[str]] = None) -> int:
    """The main function of a campaign: reads `--from N`, `-n COUNT`, `--shard K/N` and `--processes P`, and plays the seeds.

    The function gives nothing, or what it found; a failed assertion is a finding, too. Each finding is a line `seed N: ..` on
    standard output, in order of seeds, and the last line counts them. Gives the status: 0 without a finding, 3 with some, 1
    if a program is missing.
    """
    words = _words(function.__doc__, arguments)
    found = 0
    try:
        for seed, result, raised in _results(function, words.seeds, words.processes):
            if raised is not None or result is not None:
                found += 1
                print(f'seed {seed}: {result if raised is None else raised}', flush=True)
    except Problem as problem:
        print(problem, file=sys.stderr)
        return 1
    print(f'{found} of {len(words.seeds)} seeds')
    return FINDINGS if found else 0

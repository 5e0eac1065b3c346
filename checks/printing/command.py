"""What the commands share: their words, their statuses, and their tests."""
import os
import signal
import sys
import unittest
from typing import Callable, Iterable, List, Set, Tuple

from sources.closure import NotFound
from sources.functions import NotUnderstood

ROOT = os.path.dirname(os.path.dirname(os.path.dirname(os.path.abspath(__file__))))
DONE, NOT_THERE, BAD_WORDS = 0, 1, 2
"""The statuses: done, what is asked for is not there, and the words are not those of the command."""


class BadWords(Exception):
    """The words of the command line are not those of the command."""


def run(usage: str, words: List[str], options: Iterable[str], tests: str,
        act: Callable[[List[str], Set[str]], int]) -> int:
    """Does what the words say: help, tests, or the command with its other words and its options. Answers the status."""
    sys.stdout.reconfigure(encoding='utf-8')
    if hasattr(signal, 'SIGPIPE'):
        signal.signal(signal.SIGPIPE, signal.SIG_DFL)
    if '-h' in words or '--help' in words:
        print(usage.strip())
        return DONE
    if words == ['--test']:
        return test(tests)
    try:
        return act(*apart(words, set(options)))
    except BadWords:
        print(usage.strip(), file=sys.stderr)
        return BAD_WORDS
    except (NotFound, NotUnderstood) as fault:
        print(fault, file=sys.stderr)
        return NOT_THERE


def apart(words: List[str], options: Set[str]) -> Tuple[List[str], Set[str]]:
    """The words of a command line that are no options, and the options."""
    given = {word for word in words if word.startswith('-')}
    if given - options:
        raise BadWords
    return [word for word in words if word not in given], given


def test(name: str) -> int:
    """Runs the tests of a command, on a small repository and on this one."""
    names = ['printing.tests.Of' + name, 'printing.here.%sHere' % name]
    tests = unittest.defaultTestLoader.loadTestsFromNames(names)
    return DONE if unittest.TextTestRunner().run(tests).wasSuccessful() else NOT_THERE


def lost(names: List[str], where: str) -> int:
    """Says on standard error which names are not there, and answers the status."""
    for name in names:
        print('not found: %s in %s' % (name, where), file=sys.stderr)
    return NOT_THERE if names else DONE


def crates(root: str) -> List[str]:
    """The crates of a repository, by name."""
    folder = os.path.join(root, 'crates')
    return sorted(name for name in os.listdir(folder) if os.path.isdir(os.path.join(folder, name)))


def the_crate(root: str, name: str) -> str:
    """The crate of a name. A path to its folder, as a shell completes it, is taken too."""
    last = name.rstrip('/').split('/')[-1]
    if last not in crates(root):
        raise NotFound('the crate %s' % name)
    return last


def read(root: str, path: str) -> str:
    """The text of a file of a repository."""
    with open(os.path.join(root, path), encoding='utf-8') as file:
        return file.read()


def table(head: List[str], rows: List[list]) -> List[str]:
    """Lines with the columns of a table, numbers to the right. The last column is not filled up with spaces."""
    shown = [head] + [['{:,}'.format(cell) if isinstance(cell, int) else cell for cell in row] for row in rows]
    widths = [max(len(row[column]) for row in shown) for column in range(len(head))]
    is_number = [all(isinstance(row[column], int) for row in rows) for column in range(len(head))]
    lines = []
    for row in shown:
        cells = [cell.rjust(width) if right else cell.ljust(width)
                 for cell, width, right in zip(row, widths, is_number)]
        lines.append('  '.join(cells).rstrip())
    return lines

"""Prints the public functions of a crate with their contracts, from its code."""
import os
import re
from typing import Iterator, List, NamedTuple, Set, Tuple

from printing.command import BadWords, DONE, ROOT, crates, lost, read, run, table, the_crate
from sources.closure import NotFound
from sources.functions import Function, declared, functions

COLUMNS = ['crate', 'functions', 'requires', 'ensures', 'laws', 'requires', 'ensures']
ROOTS = ('/src/lib.rt', '/src/main.rt')


class Found(NamedTuple):
    """A function, and its file."""

    file: str
    function: Function


def files_of(root: str, crate: str) -> Iterator[str]:
    """The files of the code of a crate: its root first, then the others by name."""
    found = []
    for folder, _, files in os.walk(os.path.join(root, 'crates', crate, 'src')):
        found += [os.path.relpath(os.path.join(folder, file), root) for file in files if file.endswith('.rt')]
    yield from sorted(found, key=lambda file: (not file.endswith(ROOTS), file[:-len('.rt')].split('/')))


def passed_on(text: str) -> Set[str]:
    """What the root of a crate passes on: paths as `forms::Thing`, their last names, and public modules."""
    found = set(re.findall(r'(?m)^ *pub mod (\w+)', text))
    for path, items in re.findall(r'(?m)^pub use ([\w:]+)::(\{[^}]*\}|\w+)', text):
        names = [item.split()[0] for item in items.strip('{}').split(',') if item.strip()]
        found.update(names)
        found.update('%s::%s' % (re.sub(r'^crate::', '', path), name) for name in names)
    return found


class Crate:
    """The functions of a crate."""

    def __init__(self, root: str, name: str) -> None:
        self.name = name
        self.all: List[Found] = []
        self._passed_on: Set[str] = set()
        known: List[Tuple[str, bool]] = []
        for file in files_of(root, name):
            text = read(root, file)
            known += declared(text)
            if file.endswith(ROOTS):
                self._passed_on |= passed_on(text)
            self.all += [Found(file, found) for found in functions(file[len('crates/'):], text)]
        self._private = {name for name, _ in known} - {name for name, is_public in known if is_public}

    def is_shown(self, function: Function) -> bool:
        """Whether it is public. A trait's method for a type is so if the trait and the type are, and it says more."""
        if function.owner.is_given:
            return bool(function.clauses) and not self._private & set(function.owner.names)
        return function.is_public

    def is_inner(self, function: Function) -> bool:
        """Whether the root of the crate passes on neither its path, nor its type or trait, nor all of its modules."""
        owner = function.owner
        name = owner.names[0] if owner.names else '::'.join(owner.path[1:] + [function.name])
        return name not in self._passed_on and not self._passed_on >= set(owner.path[1:])

    def mark(self, function: Function) -> str:
        """A word for what is a law or is inner."""
        return 'law' if function.is_law else 'inner' if self.is_inner(function) else ''

    def shown(self, names: List[str]) -> List[Found]:
        """The public functions, or those of some names: those that do something, and then the laws."""
        found = [each for each in self.all if self.is_shown(each.function)
                 and (not names or any(each.function.has_path(name) for name in names))]
        return sorted(found, key=lambda each: each.function.is_law)

    def missing(self, names: List[str]) -> List[str]:
        """The names that no function shown has, each with a word where a function has it that is not shown."""
        return [name + ' (it is not public)' * self._has(name) for name in names if not self.shown([name])]

    def _has(self, name: str) -> bool:
        return any(each.function.has_path(name) for each in self.all)


def printed(crate: Crate, found: List[Found]) -> List[str]:
    """Functions with their contracts, below a heading for each file, and laws below headings of their own."""
    lines: List[str] = []
    last = ''
    for file, function in found:
        heading = '# %s%s' % (file, ': laws' if function.is_law else '')
        if heading != last:
            lines += [''] * bool(lines) + [heading]
            last = heading
        mark = ' (inner)' if crate.is_inner(function) else ''
        lines += ['', '## ' + function.path + mark, ''] + function.docs + function.code
    return lines


def listed(crate: Crate, found: List[Found]) -> List[str]:
    """A line for each function, with the numbers of its clauses."""
    rows = [[function.count('requires'), function.count('ensures'), crate.mark(function), function.path]
            for _, function in found]
    return table(['requires', 'ensures', '', 'function'], rows)


def sums(found: List[Found]) -> List[int]:
    """How many functions do something, with their clauses, and how many are laws, with theirs."""
    numbers = []
    for is_law in (False, True):
        part = [function for _, function in found if function.is_law == is_law]
        numbers += [len(part)] + [sum(function.count(word) for function in part) for word in ('requires', 'ensures')]
    return numbers


def counted(root: str) -> List[str]:
    """A line for each crate, and one for all."""
    rows = [[crate] + sums(Crate(root, crate).shown([])) for crate in crates(root)]
    rows.append(['all'] + [sum(row[column] for row in rows) for column in range(1, len(COLUMNS))])
    return table(COLUMNS, rows)


def print_clauses(root: str, words: List[str], options: Set[str]) -> int:
    """Prints what the words and options ask for, and answers the status."""
    if not words:
        if not options:
            raise BadWords
        print('\n'.join(counted(root)))
        return DONE
    crate = Crate(root, the_crate(root, words[0]))
    names = words[1:]
    found = crate.shown(names)
    if not found and not names:
        raise NotFound('a public function in %s' % crate.name)
    if found and options:
        print('\n'.join(listed(crate, found) + [''] + table(COLUMNS, [[crate.name] + sums(found)])))
    elif found:
        print('\n'.join(printed(crate, found)))
    return lost(crate.missing(names), crate.name)


def main(usage: str, words: List[str], root: str = ROOT) -> int:
    """Does what the words of the command line say."""
    return run(usage, words, ['--count'], 'Clauses', lambda others, options: print_clauses(root, others, options))

"""Shows by a second way of reading that the commands print each thing of this repository once."""
import re
import unittest
from collections import Counter
from typing import List, Set

from printing.clauses import Crate, files_of, printed, sums
from printing.command import ROOT, crates, read
from printing.definitions import Specs, whole
from printing.touches import text_of, touched, tracked
from sources.closure import Sources
from sources.names import Word

HEAD = re.compile(r'(?:  )?(?:(?:abbrev|unfoldable)(?: pub)?|(?:pub )?(?:record|data)) (\S+)')
"""How a definition begins."""


def heads(lines: List[str]) -> List[str]:
    """The names of the definitions that begin on some lines."""
    return [match.group(1) for match in map(HEAD.match, lines) if match]


class DefinitionsHere(unittest.TestCase):
    """The definitions of this repository."""

    @classmethod
    def setUpClass(cls) -> None:
        """Reads them."""
        cls.sources = Sources(ROOT)
        cls.crates = [Specs(cls.sources, crate) for crate in crates(ROOT)]

    def test_each_is_shown_once(self) -> None:
        """Those that are printed, those that the closure follows, and those that lines begin, are the same."""
        for specs in self.crates:
            for file, spec in specs.files.items():
                shown = heads(whole(spec))
                self.assertEqual(shown, list(spec.definitions), file)
                self.assertEqual(shown, heads(read(ROOT, 'crates/' + file).split('\n')), file)
        files = [file for specs in self.crates for file in specs.files]
        self.assertEqual(sorted(files), sorted(self.sources.spec_files()))

    def test_no_line_is_lost(self) -> None:
        """What is printed of a file is what stands there but for its `use` lines; lines are counted in a second way."""
        for specs in self.crates:
            count = 0
            for file, spec in specs.files.items():
                lines = filter(None, read(ROOT, 'crates/' + file).split('\n'))
                kept = [line for line in lines if not re.match(r' *(pub )?use |pub mod ', line)]
                self.assertEqual([line for line in whole(spec) if line], kept, file)
                count += sum(not re.match(r' *--|module ', line) for line in kept)
            self.assertEqual(specs.lines(), count, specs.crate)


class ClausesHere(unittest.TestCase):
    """The functions of this repository."""

    @classmethod
    def setUpClass(cls) -> None:
        """Reads them."""
        cls.crates = [Crate(ROOT, crate) for crate in crates(ROOT)]

    def test_each_public_function_is_shown_once(self) -> None:
        """Each line that has `pub fn` is printed once, below the heading of its file."""
        for crate in self.crates:
            found: Counter = Counter()
            for file in files_of(ROOT, crate.name):
                found.update((file, _head(line)) for line in read(ROOT, file).split('\n') if _head(line))
            shown: Counter = Counter()
            heading = ''
            for line in printed(crate, crate.shown([])):
                if line.startswith('# '):
                    heading = line[2:].split(':')[0]
                elif _head(line):
                    shown[heading, _head(line)] += 1
            self.assertEqual(found, shown, crate.name)

    def test_each_clause_is_read(self) -> None:
        """As many as there are lines that begin as one, in each file."""
        for crate in self.crates:
            count: Counter = Counter()
            for file, function in crate.all:
                count[file] += len(function.clauses)
            for file in files_of(ROOT, crate.name):
                lines = re.findall(r'(?m)^ *(?:requires|ensures\*?) (?:\w+ )?\{', read(ROOT, file))
                self.assertEqual(count[file], len(lines), file)

    def test_no_two_functions_have_one_path(self) -> None:
        """So a path names one function."""
        for crate in self.crates:
            seen: Set[str] = set()
            for _, function in crate.all:
                self.assertNotIn(function.path, seen)
                seen.add(function.path)

    def test_public_clauses_are_counted_in_a_second_way(self) -> None:
        """Line by line: those from a line that begins a public function to the one that begins its body."""
        for crate in self.crates:
            numbers = sums(crate.shown([]))
            second = [0, 0, 0]
            for file in files_of(ROOT, crate.name):
                second = [old + new for old, new in zip(second, _by_lines(read(ROOT, file).split('\n')))]
            self.assertEqual([numbers[at] + numbers[at + 3] for at in range(3)], second, crate.name)


def _head(line: str) -> str:
    """A line that begins a public function, without the bracket that begins a body; else nothing."""
    return re.sub(r' \{\}?$', '', line.strip()) if re.match(r' *pub( \w+| "\w+")* fn ', line) else ''


def _by_lines(lines: List[str]) -> List[int]:
    """How many public functions lines have, and how many `requires` and `ensures`, by how lines begin and end."""
    numbers = [0, 0, 0]
    around, is_on, is_counted = '', False, False
    for line in lines:
        clause = re.match(r' +(requires|ensures)', line)
        begins = re.match(r' *(pub(?:\(.*\))? )?(?:const |unsafe |extern "C" )*fn ', line)
        if re.match(r'[a-z]', line):
            around = 'trait' if line.startswith('pub trait') else 'impl' if re.match('impl.* for ', line) else ''
        if begins:
            is_counted = begins.group(1) == 'pub ' or around == 'trait'
            is_on = is_counted or around == 'impl'
            numbers[0] += is_counted
        if clause and is_on:
            numbers[0] += not is_counted
            is_counted = True
            numbers[1 if clause.group(1) == 'requires' else 2] += 1
        if line.strip() in ('{', '{}') or (not clause and line.endswith(('{', '{}')) and not line.startswith(' ' * 8)):
            is_on = False
    return numbers


class TouchesHere(unittest.TestCase):
    """The files of this repository."""

    def test_files_are_found_in_a_second_way(self) -> None:
        """By an expression over the lines and the path of each file that git tracks, for some words."""
        texts = {path: text_of(ROOT, path) for path in tracked(ROOT)}
        for word in ('withdraw', 'private'):
            sign = re.compile(r'(?<![A-Za-z])%s(?![a-z])|%s(?![a-z])|(?<![A-Z])%s(?![a-z]|[A-Z](?![a-z]))'
                              % (word, word.capitalize(), word.upper()))
            second = {path: len([line for line in text.split('\n') if sign.search(line)])
                      for path, text in texts.items() if sign.search(text) or sign.search(_below(path))}
            self.assertEqual({file.path: file.lines for file in touched(ROOT, [Word(word)])}, second)


def _below(path: str) -> str:
    """The path of a file of a crate below the crate's folder; of another the whole."""
    return re.sub(r'^crates/[^/]*/', '', path)

"""Prints the files that name something."""
import os
import subprocess
import sys
from typing import Dict, Iterable, Iterator, List, NamedTuple, Set, Tuple

from printing.command import BadWords, DONE, NOT_THERE, ROOT, run, table
from sources.closure import NotFound
from sources.names import NAME, Word

OF_CRATES = {'src': 'src', 'specs': 'specs', 'proofs': 'proofs', 'must-fail': 'edits', 'further-edits': 'edits'}
"""The kinds of the files of a crate, by their folder. All others are data."""
OF_FOLDERS = {'tools': 'tools', 'checks': 'checks'}
SUMMED = ('src', 'specs', 'proofs')
KINDS = SUMMED + ('edits', 'data', 'pages', 'pictures', 'tools', 'checks', 'others')


class Touched(NamedTuple):
    """A file that names something: in how many lines, and which of the words. With no line, its path alone names it."""

    path: str
    lines: int
    words: Set[str]

    @property
    def group(self) -> str:
        """The crate that it is of, or `repository`."""
        parts = self.path.split('/')
        return parts[1] if parts[0] == 'crates' and len(parts) > 2 else 'repository'

    @property
    def kind(self) -> str:
        """Its kind."""
        return kind_of(self.path)


def kind_of(path: str) -> str:
    """The kind of a file of the repository."""
    parts = path.split('/')
    if parts[0] == 'crates' and len(parts) > 2:
        return OF_CRATES.get(parts[2], 'data') if len(parts) > 3 else 'data'
    if path.startswith('docs/pictures/'):
        return 'pictures'
    if parts[0] == 'docs' or path.endswith('.md'):
        return 'pages'
    return OF_FOLDERS.get(parts[0], 'others') if len(parts) > 1 else 'others'


def own_path(path: str) -> str:
    """The path of a file, for one of a crate that below the crate's folder."""
    parts = path.split('/')
    return '/'.join(parts[2:]) if parts[0] == 'crates' and len(parts) > 2 else path


def tracked(root: str) -> List[str]:
    """The files that git tracks and that are there."""
    ran = subprocess.run(['git', '-C', root, 'ls-files', '-z'], stdout=subprocess.PIPE, stderr=subprocess.PIPE)
    if ran.returncode != 0:
        raise NotFound('a repository of git at %s' % root)
    paths = ran.stdout.decode('utf-8').split('\0')
    return [path for path in paths if path and os.path.isfile(os.path.join(root, path))]


def text_of(root: str, path: str) -> str:
    """The text of a file; nothing, if it is no text."""
    with open(os.path.join(root, path), 'rb') as file:
        content = file.read()
    return '' if b'\0' in content else content.decode('utf-8', 'replace')


def touched(root: str, words: List[Word]) -> Iterator[Touched]:
    """The files that name one of some words, in the order of git."""
    for path in tracked(root):
        found = look(own_path(path), text_of(root, path), words)
        if found.words:
            yield found._replace(path=path)


def look(path: str, text: str, words: List[Word]) -> Touched:
    """What a file names of some words, in its lines and in its path."""
    lower = text.lower()
    likely = [word for word in words if word.may_be_in(lower)]
    found = {word.text for word in words if word.is_in(path)}
    lines = 0
    for line in text.split('\n') if likely else []:
        here = {word.text for word in likely if word.is_in(line)}
        lines += bool(here)
        found |= here
    return Touched(path, lines, found)


def grouped(found: List[Touched]) -> Dict[str, List[Touched]]:
    """The files by their crate, the crates by name and the repository last; in a crate by kind and path."""
    groups: Dict[str, List[Touched]] = {}
    for file in sorted(found, key=_place):
        groups.setdefault(file.group, []).append(file)
    return groups


def _place(file: Touched) -> Tuple[bool, str, int, str]:
    """By what files are ordered."""
    return file.group == 'repository', file.group, KINDS.index(file.kind), file.path


def printed(found: List[Touched]) -> List[str]:
    """A heading for each crate, and below it a line for each file: its kind, its number of lines, and its path."""
    lines: List[str] = []
    for group, files in grouped(found).items():
        lines += ['# ' + group]
        lines += ['%-8s %5d  %s' % (file.kind, file.lines, file.path) for file in files] + ['']
    return lines


def sums(found: List[Touched]) -> List[str]:
    """A line for each kind: how many files, how many lines, and how many files only by their path."""
    rows = [_sum(kind, found, (kind,)) for kind in KINDS]
    rows.insert(len(SUMMED), _sum('these', found, SUMMED))
    return table(['kind', 'files', 'lines', 'by path alone'], rows)


def _sum(name: str, found: List[Touched], kinds: Iterable[str]) -> list:
    files = [file for file in found if file.kind in kinds]
    return [name, len(files), sum(file.lines for file in files), sum(file.lines == 0 for file in files)]


def print_touched(root: str, texts: List[str], options: Set[str]) -> int:
    """Prints what the words and options ask for, and answers the status."""
    if not texts or not all(NAME.fullmatch(text) and Word(text).parts for text in texts):
        raise BadWords
    found = list(touched(root, [Word(text, '--begins' in options) for text in texts]))
    named = {text for file in found for text in file.words}
    shown = [file for file in found if file.words >= set(texts)] if '--each' in options else found
    lines = [] if '--count' in options else printed(shown)
    print('\n'.join(lines + sums(shown)))
    for text in texts:
        if text not in named:
            print('no file names %s' % text, file=sys.stderr)
    if named >= set(texts) and not shown:
        print('no file names each of %s' % ' '.join(texts), file=sys.stderr)
    return DONE if shown and named >= set(texts) else NOT_THERE


def main(usage: str, words: List[str], root: str = ROOT) -> int:
    """Does what the words of the command line say."""
    return run(usage, words, ('--count', '--begins', '--each'), 'Touches',
               lambda others, options: print_touched(root, others, options))

"""Prints the definitions of a crate, from its specs."""
import os
from typing import Dict, List, Set

from printing.command import BadWords, DONE, ROOT, crates, lost, run, table, the_crate
from sources.closure import NotFound, Sources
from sources.specs import Definition, SpecFile, Uses


class Specs:
    """The files of definitions of a crate, in the order of specs/Lib.antt."""

    def __init__(self, sources: Sources, crate: str) -> None:
        self.crate = crate
        self.files: Dict[str, SpecFile] = {}
        self._sources = sources
        if os.path.isdir(os.path.join(sources.crates, crate, 'specs')):
            self._add('%s/specs/Lib.antt' % crate, '%s/specs' % crate)
        left = [file for file in sources.spec_files() if file.split('/')[0] == crate and file not in self.files]
        if left:
            raise NotFound('the line of %s in %s/specs/Lib.antt' % (left[0], crate))

    def _add(self, file: str, folder: str) -> None:
        """Adds a file, and then those that it names. They stand in a folder."""
        spec = self._sources.spec(file)
        if spec is None:
            raise NotFound(file)
        self.files[file] = spec
        for line in spec.lines:
            if line.startswith('pub mod '):
                name = line.split()[2]
                self._add('%s/%s.antt' % (folder, name), '%s/%s' % (folder, name))

    def definitions(self) -> List[Definition]:
        """All definitions."""
        return [found for spec in self.files.values() for found in spec.definitions.values()]

    def lines(self) -> int:
        """How many lines they have that are neither empty nor a comment."""
        return sum(len(found.code) for found in self.definitions())


def comment_of(found: Definition) -> str:
    """The first line of the comment above a definition, or nothing."""
    first = found.text[0].strip()
    return first[2:].strip() if first.startswith('--') else ''


def whole(spec: SpecFile) -> List[str]:
    """The lines of a file without its `use` lines."""
    kept: List[str] = []
    for line in spec.lines:
        if Uses().read(line) or line.startswith('pub mod '):
            continue
        if line.strip() or (kept and kept[-1].strip()):
            kept.append(line)
    return kept[:-1] if kept and not kept[-1].strip() else kept


def some(spec: SpecFile, names: Set[str]) -> List[str]:
    """The lines of some definitions of a file, below the line `module` if it has one."""
    lines = [line for line in spec.lines if line.startswith('module ')]
    for found in spec.definitions.values():
        if found.name in names:
            lines += ([''] if lines else []) + spec.lines[found.first:found.last + 1]
    return lines


def printed(specs: Specs, names: List[str]) -> List[str]:
    """The definitions of a crate, or those of some names, below a heading for each file."""
    lines: List[str] = []
    for file, spec in specs.files.items():
        own = {spec.owners.get(name, name) for name in names} & set(spec.definitions)
        if own or (not names and spec.definitions):
            lines += [''] * bool(lines) + ['# crates/' + file, ''] + (some(spec, own) if names else whole(spec))
    return lines


def listed(specs: Specs, names: List[str]) -> List[str]:
    """A line for each definition: its name, its file, its number of lines, and the first line of its comment."""
    rows = []
    for file, spec in specs.files.items():
        own = {spec.owners.get(name, name) for name in names}
        rows += [[found.name, file, len(found.code), comment_of(found)]
                 for found in spec.definitions.values() if not names or found.name in own]
    return table(['definition', 'file', 'lines', 'comment'], rows) if rows else []


def counted(root: str, names: List[str]) -> List[str]:
    """A line for each of some crates that has definitions, or for each of all, and one for their sum."""
    sources = Sources(root)
    rows = []
    for crate in names or crates(root):
        specs = Specs(sources, crate)
        files = [spec for spec in specs.files.values() if spec.definitions]
        if files:
            rows.append([crate, len(specs.definitions()), specs.lines(), len(files)])
    if len(names) != 1:
        rows.append(['all'] + [sum(row[column] for row in rows) for column in (1, 2, 3)])
    return table(['crate', 'definitions', 'lines', 'files'], rows)


def print_definitions(root: str, words: List[str], options: Set[str]) -> int:
    """Prints what the words and options ask for, and answers the status."""
    if len(options) > 1 or (not words and options != {'--count'}):
        raise BadWords
    if options == {'--count'}:
        print('\n'.join(counted(root, [the_crate(root, word) for word in words])))
        return DONE
    specs = Specs(Sources(root), the_crate(root, words[0]))
    names = words[1:]
    lines = listed(specs, names) if options else printed(specs, names)
    if lines:
        print('\n'.join(lines))
    elif not names:
        raise NotFound('a definition in %s' % specs.crate)
    known = {name for spec in specs.files.values() for name in list(spec.definitions) + list(spec.owners)}
    return lost([name for name in names if name not in known], specs.crate)


def main(usage: str, words: List[str], root: str = ROOT) -> int:
    """Does what the words of the command line say."""
    return run(usage, words, ('--names', '--count'), 'Definitions',
               lambda others, options: print_definitions(root, others, options))

"""Reads a file of the program: its `use` lines, its types, and the contracts of its functions."""
import re
from typing import Dict, Iterator, List, NamedTuple, Optional

from sources.lexing import tokens
from sources.scopes import Cited, Scope, cited_in_term
from sources.specs import Uses

RUST_USE = re.compile(r'(?:pub(?:\(\w+\))? )?use ([\w:]+?)::(\{[^}]*\}|\w+)(?: as (\w+))?;', re.S)
TYPE = re.compile(r'(?:pub(?:\(\w+\))? )?(struct|enum|type) (\w+)\b')
MODEL = re.compile(r'impl(?:<.*?>)? Model for (\w+)')
SEEN = re.compile(r'\s*ghost (Value|view) = \{(.*)\};')
CLAUSE = re.compile(r'\s*(?:requires|ensures\*?) (?:(\w+) )?\{(.*)')


class RustUse(NamedTuple):
    """What a `use` line of the program brings in: the path to it, and its name there."""

    path: List[str]
    name: str


class RustType:
    """A type of the program: its lines, and the lines of its model that say what contracts see of it."""

    def __init__(self, name: str, lines: List[str]) -> None:
        self.name = name
        self.lines = [line for line in lines if line.strip() and not line.lstrip().startswith('//')]
        self.model: List[str] = []
        self.uses = Uses()

    @property
    def code(self) -> List[str]:
        """The lines that are counted."""
        return self.lines + self.model


class RustFile:
    """A file of the program."""

    def __init__(self, text: str) -> None:
        self.lines = text.split('\n')
        self.uses: Dict[str, RustUse] = {}
        self.ghosts = Uses()
        self.types: Dict[str, RustType] = {}
        for match in RUST_USE.finditer('\n'.join(line for line in self.lines if not line.startswith('ghost '))):
            self._add_use(*match.groups())
        for at, line in enumerate(self.lines):
            if line.startswith('ghost use '):
                self.ghosts.read(line)
            self._add_type(at, TYPE.match(line))
        for at, line in enumerate(self.lines):
            self._add_model(at, MODEL.match(line))

    def _add_use(self, path: str, items: str, renamed: Optional[str]) -> None:
        for item in items.strip('{}').split(','):
            name, _, other = item.strip().partition(' as ')
            if name:
                self.uses[renamed or other or name] = RustUse(path.split('::'), name)

    def _add_type(self, at: int, match: 'Optional[re.Match]') -> None:
        if match:
            self.types[match.group(2)] = RustType(match.group(2), self.lines[at:self._end(at) + 1])

    def _add_model(self, at: int, match: 'Optional[re.Match]') -> None:
        if not match or match.group(1) not in self.types:
            return
        found = self.types[match.group(1)]
        for line in self.lines[at:self._end(at) + 1]:
            found.uses.read(line)
            if SEEN.match(line):
                found.model.append(line)

    def _end(self, at: int) -> int:
        """The line on which an item ends that begins on a line."""
        depth = 0
        for place in range(at, len(self.lines)):
            line = self.lines[place]
            depth += sum(map(line.count, '{(')) - sum(map(line.count, '})'))
            if depth == 0 and line.rstrip().endswith(('}', ';')):
                return place
        raise ValueError('an item does not end: ' + self.lines[at])

    def cited_by_model(self, found: RustType) -> Iterator[Cited]:
        """The names that the model of a type cites."""
        for line in found.model:
            yield from cited_in_term(tokens(SEEN.match(line).group(2)), Scope(set()))

    def types_in(self, found: RustType) -> List[str]:
        """The names in the fields of a type that may be types."""
        return [name for name in re.findall(r'[A-Z]\w*', '\n'.join(found.lines)) if name != found.name]

    def _begins(self, function: str) -> List[int]:
        """The lines on which a public function of that name begins."""
        return [at for at, line in enumerate(self.lines) if re.match(r'pub fn %s\b' % function, line)]

    def has_function(self, function: str) -> bool:
        """Whether the file has a public function of that name."""
        return bool(self._begins(function))

    def contract(self, function: str) -> 'Contract':
        """The contract of a public function of the file."""
        begin = self._begins(function)[0]
        end = next(at for at in range(begin, len(self.lines)) if self.lines[at] == '{')
        return Contract(self.lines[begin:end])


class Contract:
    """The contract of a function: its clauses, in the paragraphs in which they stand."""

    def __init__(self, lines: List[str]) -> None:
        self.clauses: Dict[str, List[str]] = {}
        self.paragraphs: List[List[str]] = [[]]
        self._paragraph_of: Dict[str, int] = {}
        name = None
        for line in lines:
            match = CLAUSE.match(line)
            if match:
                name = match.group(1) or ''
                self._paragraph_of[name] = len(self.paragraphs) - 1
            name = self._add(line, name)

    def _add(self, line: str, name: Optional[str]) -> Optional[str]:
        """Adds a line to the clause that it belongs to, and answers whose the next line may be."""
        if not line.strip():
            self.paragraphs.append([])
            return None
        if line.lstrip().startswith('//'):
            name = None
        if name is not None:
            self.clauses.setdefault(name, []).append(line)
        if name is not None or line.lstrip().startswith('//'):
            self.paragraphs[-1].append(line)
        return name

    def paragraph(self, name: str) -> List[str]:
        """The paragraph that a clause stands in, with its comment and the clauses beside it."""
        return self.paragraphs[self._paragraph_of[name]]

    def cited(self, name: str) -> Iterator[Cited]:
        """The names that a clause cites."""
        text = '\n'.join(self.clauses[name]).split('{', 1)[1].rsplit('}', 1)[0]
        yield from cited_in_term(tokens(text), Scope(set()))

"""Reads a file of definitions: its `use` lines, and its definitions with their comments."""
import re
from typing import Dict, Iterator, List, NamedTuple, Optional

from sources.lexing import Token, depth, tokens
from sources.scopes import Cited, Scope, cited_in_clause, cited_in_term

USE = re.compile(r'\s*(pub )?(?:ghost )?use (\w+\.[\w.]+?)(?:\.\{(.*)\}| as (\w+))?;?\s*$')
HEAD = re.compile(r'\s*(?:(?:abbrev|unfoldable|pub) )*(?:(record|data) )?([^\s(){}.;,@"«»]+)')
MARKS = ('abbrev ', 'unfoldable ', 'pub ', 'record ', 'data ')
KIT_CONSTRUCTORS = {'[]', '◌∷◌', 'true', 'false', 'zero', 'suc', 'Some', 'None', 'Ok', 'Err'}


class Import(NamedTuple):
    """What a `use` line brings in: the module, the name there, and whether the file passes it on."""

    module: str
    name: str
    is_public: bool


class Uses:
    """What the `use` lines of a file bring in."""

    def __init__(self) -> None:
        self.names: Dict[str, Import] = {}
        self.modules: Dict[str, str] = {}
        self.parts: Dict[str, str] = {}

    def read(self, line: str) -> bool:
        """Reads a line, and answers whether it is a `use` line of definitions."""
        match = USE.match(line)
        if not match:
            return False
        public, module, items, alias = match.groups()
        if items is None:
            self.modules[alias or module.rsplit('.', 1)[-1]] = module
            return True
        for item in items.split(','):
            name, _, renamed = item.strip().partition(' as ')
            self._add(renamed or name, Import(module, name, bool(public)))
        return True

    def _add(self, name: str, found: Import) -> None:
        self.names[name] = found
        if '◌' in name:
            for part in filter(None, name.split('◌')):
                self.parts[part] = name

    def named(self, token: str) -> str:
        """The name that a token stands for: an operator's, if it is a part of one."""
        return self.parts.get(token, token)

    def is_constructor(self, token: str) -> bool:
        """Whether a token in a pattern is a constructor that a `use` line brings in."""
        name = self.named(token)
        return name in self.names and (name in KIT_CONSTRUCTORS or '.TheVariants' in self.names[name].module)


class Definition:
    """A definition: its comments, and its lines. In the file it stands from the line `first` to the line `last`."""

    def __init__(self, name: str, kind: str, indent: int, first: int) -> None:
        self.name = name
        self.kind = kind
        self.indent = indent
        self.first = self.last = first
        self.text: List[str] = []

    def add(self, line: str, at: int) -> None:
        """Adds the line of the file at a place."""
        self.text.append(line)
        self.last = at

    @property
    def code(self) -> List[str]:
        """Its lines without comments. These are the lines that are counted."""
        return [line for line in self.text if not line.lstrip().startswith('--')]

    @property
    def shown(self) -> List[str]:
        """Its lines with comments, as far to the left as they go."""
        return [line[self.indent:] for line in self.text]

    def keywords(self) -> List[str]:
        """The words before its name, and those before the names of its fields."""
        phrases = self.phrases()
        fields = [phrase[0].text for phrase in phrases[1:] if phrase[0].text == 'pub']
        return [token.text for token in phrases[0][:_place_of_name(phrases[0])]] + fields

    @property
    def constructors(self) -> List[str]:
        """The constructors, if it is a `data`."""
        if self.kind != 'data':
            return []
        return [phrase[0].text for phrase in self.phrases()[1:]]

    def phrases(self) -> List[List[Token]]:
        """Its parts as tokens: the head, then each clause, field or constructor."""
        deepest = self.indent + (2 if self.kind else 0)
        parts: List[List[Token]] = []
        open_brackets = 0
        for line in self.code:
            if open_brackets == 0 and len(line) - len(line.lstrip()) <= deepest:
                parts.append([])
            parts[-1] += tokens(line)
            open_brackets = depth(parts[-1])
        return parts


class SpecFile:
    """A file of definitions."""

    def __init__(self, text: str) -> None:
        self.uses = Uses()
        self.lines = text.split('\n')
        self.definitions: Dict[str, Definition] = {}
        self.unread: List[str] = []
        self._around: List[Token] = []
        self._read(self.lines)
        self.owners = {name: found.name for found in self.definitions.values() for name in found.constructors}

    def _read(self, lines: List[str]) -> None:
        """Reads each line into the definition that it belongs to."""
        base, comments, current = 0, [], None
        for at, line in enumerate(lines):
            indent = len(line) - len(line.lstrip())
            if not line.strip() or line.startswith('pub mod ') or self.uses.read(line):
                comments = []
            elif indent <= base and line.lstrip().startswith('--'):
                comments.append(line)
            elif line.startswith('module '):
                base, comments, self._around = 2, [], tokens(line)
            else:
                if indent == base and line.lstrip().startswith(MARKS):
                    current = self._begin(line, base, at - len(comments))
                self._extend(current, comments + [line], at)
                comments = []

    def _begin(self, line: str, base: int, first: int) -> Definition:
        kind, name = HEAD.match(line).groups()
        found = Definition(name, kind or '', base, first)
        self.definitions[name] = found
        return found

    def _extend(self, current: Optional[Definition], lines: List[str], at: int) -> None:
        """Adds lines, the last of which is at a place. Where there is no definition yet, they are not understood."""
        if current is None:
            self.unread.append(lines[-1])
            return
        for line in lines:
            current.add(line, at)

    def is_constructor(self, token: str) -> bool:
        """Whether a token in a pattern is a constructor, and binds nothing."""
        return token in self.owners or self.uses.is_constructor(token)

    def cited(self, found: Definition) -> Iterator[Cited]:
        """The names that a definition cites, in the order of its text."""
        phrases = found.phrases()
        scope = Scope({found.name})
        if self._around:
            start = next(at for at, token in enumerate(self._around) if token.text == '{')
            yield from cited_in_term(self._around[start:-1], scope)
        if found.kind:
            yield from self._in_fields(phrases, scope)
        else:
            yield from self._in_clauses(phrases, scope)

    def _in_clauses(self, phrases: List[List[Token]], scope: Scope) -> Iterator[Cited]:
        bound = scope.frames[0].copy()
        yield from cited_in_term(_after_name(phrases[0]), scope)
        for phrase in phrases[1:]:
            yield from cited_in_clause(phrase, bound, self.is_constructor)

    def _in_fields(self, phrases: List[List[Token]], scope: Scope) -> Iterator[Cited]:
        yield from cited_in_term(_after_name(phrases[0]), scope)
        for phrase in phrases[1:]:
            start = 1 if phrase[0].text == 'pub' else 0
            scope.frames.append(set())
            yield from cited_in_term(phrase[start + 1:], scope)
            scope.frames.pop()
            scope.bind([phrase[start].text])


def _place_of_name(head: List[Token]) -> int:
    """The place of the name of a definition in its first part."""
    at = 0
    while head[at].text + ' ' in MARKS:
        at += 1
    return at


def _after_name(head: List[Token]) -> List[Token]:
    """What stands after the name of a definition in its first part."""
    return head[_place_of_name(head) + 1:]

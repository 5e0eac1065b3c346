"""Reads the functions of a file of the program: where each stands, its doc comment, its signature and its clauses."""
import re
from typing import Iterator, List, NamedTuple, Tuple

QUOTED = r'b?r(?P<marks>#*)".*?"(?P=marks)|b?"(?:\\.|[^"\\])*"|b?\'(?:\\\'|\\[^\']+|[^\'\\\n])\'|\'\w+'
"""A string, a character or a lifetime."""
COMMENT = r'//[^\n]*|/\*.*?\*/'
SPACE = re.compile(r'(?:\s|' + COMMENT + ')*', re.S)
TOKEN = re.compile(QUOTED + r'|\w+|->|::|\S', re.S)
BRACKET = re.compile(COMMENT + r'|[(){}\[\]]|' + QUOTED, re.S)
OPENING = ('(', '[', '{')
CLOSING = (')', ']', '}')
CLAUSES = ('requires', 'ensures')
CONTAINERS = ('impl', 'trait', 'mod')
WITH_BODY = ('struct', 'enum', 'union')
WITH_SEMICOLON = ('use', 'type', 'const', 'static', 'ghost')
BEFORE = ('const', 'unsafe', 'async', 'default')
"""Words that may stand before `fn`, `impl`, `trait` or `mod`."""


class NotUnderstood(Exception):
    """A place of a file that this reader does not understand."""

    def __str__(self) -> str:
        """Where it is."""
        return 'not understood: %s, line %d, "%s"' % self.args


class Clause(NamedTuple):
    """A clause: `requires`, `ensures` or `ensures*`, its name if it has one, and its text as it stands."""

    keyword: str
    name: str
    text: str


class Owner(NamedTuple):
    """What functions stand in: modules, and perhaps a type, a trait, or a trait and the type that it is given to."""

    path: List[str]
    trait: str = ''
    subject: str = ''
    is_public_trait: bool = False

    @property
    def is_given(self) -> bool:
        """Whether it is an `impl` that gives a trait to a type."""
        return bool(self.trait and self.subject)

    @property
    def names(self) -> List[str]:
        """The names of the type and of the trait, as far as there are such."""
        return [re.sub(r'<.*>', '', text).split('::')[-1] for text in (self.subject, self.trait) if text]


class Function(NamedTuple):
    """A function, with its doc comment and its contract, as far to the left as they go."""

    owner: Owner
    name: str
    is_public: bool
    line: int
    docs: List[str]
    code: List[str]
    clauses: List[Clause]
    signature: str

    @property
    def path(self) -> str:
        """Where it stands: modules, then the type or the trait, then its name."""
        owner = self.owner
        within = '<%s as %s>' % (owner.subject, owner.trait) if owner.is_given else ''.join(owner.names)
        return '::'.join(owner.path + [within] * bool(within) + [self.name])

    @property
    def is_law(self) -> bool:
        """Whether it is public and can do nothing: it answers nothing, and changes none of its arguments."""
        return self.is_public and not re.search(r"->|& *('\w+ +)?mut\b", self.signature)

    def count(self, keyword: str) -> int:
        """How many clauses it has of a keyword. `ensures*` is counted with `ensures`."""
        return sum(clause.keyword.rstrip('*') == keyword for clause in self.clauses)

    def has_path(self, name: str) -> bool:
        """Whether its path ends with these names. That of a trait's method for a type ends with the type's."""
        wanted = name.split('::')
        return name == self.path or (self.owner.path + self.owner.names[:1] + [self.name])[-len(wanted):] == wanted


def module_of(file: str) -> List[str]:
    """The crate and the modules of a file `CRATE/src/..`."""
    parts = file[:-len('.rt')].split('/')
    return [parts[0]] + [part for part in parts[2:] if part not in ('lib', 'main')]


def functions(file: str, text: str) -> List[Function]:
    """The functions of a file of a crate, in the order of its text. Those inside the body of another are not read."""
    reader = _Reader(file, text)
    found = list(reader.items(Owner(module_of(file))))
    if reader.word:
        raise reader.fail()
    return found


def declared(text: str) -> Iterator[Tuple[str, bool]]:
    """The types and traits of a file, and whether each is public."""
    for public, name in re.findall(r'(?m)^ *(pub(?:\([^)]*\))? )?(?:struct|enum|union|trait) (\w+)', text):
        yield name, public == 'pub '


class _Reader:
    """Walks over the items of a file. Of the token at the place it knows the text, the beginning and the end."""

    def __init__(self, file: str, text: str) -> None:
        self.file = file
        self.text = text
        self.lines = text.split('\n')
        self.word, self.start, self.end, self.last_end = '', 0, 0, 0
        self.go_to(0)

    def go_to(self, place: int) -> None:
        """Goes to the first token from a place of the text on."""
        self.last_end = place
        self.start = _after_space(self.text, place)
        self.word = _token(self.text, self.start)
        self.end = self.start + len(self.word)

    def next_word(self) -> str:
        """The text of the token after the one at the place."""
        return _token(self.text, _after_space(self.text, self.end))

    def fail(self) -> NotUnderstood:
        """The fault of the place."""
        line = self.line_of(self.start)
        return NotUnderstood('crates/' + self.file, line + 1, self.lines[line].strip())

    def line_of(self, place: int) -> int:
        """The line, from 0, of a place of the text."""
        return self.text.count('\n', 0, place)

    def advance(self) -> str:
        """Goes past the token at the place, and answers it."""
        word = self.word
        self.go_to(self.end)
        return word

    def skip(self) -> None:
        """Goes past the token at the place or, if it is a bracket, past all that it encloses."""
        if self.word not in OPENING:
            self.advance()
            return
        depth = 0
        for match in BRACKET.finditer(self.text, self.start):
            depth += (match.group() in OPENING) - (match.group() in CLOSING)
            if depth == 0:
                self.go_to(match.end())
                return
        raise self.fail()

    def skip_to(self, ends: Tuple[str, ...]) -> None:
        """Goes to the first of some tokens that stands in no bracket."""
        while self.word not in ends:
            if not self.word or self.word in CLOSING:
                raise self.fail()
            self.skip()

    def items(self, owner: Owner) -> Iterator[Function]:
        """The functions of the items from the place on, up to a bracket that closes or the end."""
        while self.word not in ('', '}'):
            start = self.start
            while self.word == '#':
                self.advance()
                if self.word == '!':
                    self.advance()
                self.skip()
            if self.word:
                yield from self.item(owner, start)

    def item(self, owner: Owner, start: int) -> Iterator[Function]:
        """The functions of an item. Its attributes begin at `start`."""
        begins = self.start
        is_public = self.word == 'pub' and self.next_word() != '('
        if self.word == 'pub':
            self.advance()
            if self.word == '(':
                self.skip()
        if self.word == 'extern' and self.next_word().startswith('"'):
            self.advance()
            self.advance()
        while self.word in BEFORE and self.next_word() in BEFORE + CONTAINERS + ('fn',):
            self.advance()
        if self.word == 'fn':
            yield self.function(owner, start, begins, is_public)
        elif self.word in CONTAINERS:
            yield from self.container(owner, is_public)
        elif self.word in WITH_BODY or self.word in WITH_SEMICOLON:
            self.skip_to((';', '{') if self.word in WITH_BODY else (';',))
            self.skip()
        else:
            raise self.fail()

    def container(self, owner: Owner, is_public: bool) -> Iterator[Function]:
        """The functions of an `impl`, a trait or a module."""
        keyword, first = self.advance(), self.start
        self.skip_to((';', '{'))
        inside = _inside(owner, keyword, self.text[first:self.last_end], is_public)
        if self.advance() == '{':
            yield from self.items(inside)
            if self.advance() != '}':
                raise self.fail()

    def function(self, owner: Owner, start: int, begins: int, is_public: bool) -> Function:
        """The function at the place. Its attributes begin at `start`, and its first word at `begins`."""
        name = self.next_word()
        self.skip_to(CLAUSES + ('{', ';'))
        signature = self.text[begins:self.last_end]
        clauses = []
        while self.word in CLAUSES:
            clauses.append(self.clause())
        indent = begins - (self.text.rfind('\n', 0, begins) + 1)
        code = (' ' * indent + self.text[begins:self.last_end]).split('\n')
        if self.word not in ('{', ';'):
            raise self.fail()
        self.skip()
        return Function(owner, name, is_public or owner.is_public_trait, self.line_of(begins) + 1,
                        self.docs(start, begins, indent), _to_the_left(code, indent), clauses, signature)

    def clause(self) -> Clause:
        """The clause at the place."""
        first, keyword, name = self.start, self.advance(), ''
        if self.word == '*':
            keyword += self.advance()
        if self.word.isidentifier():
            name = self.advance()
        if self.word != '{':
            raise self.fail()
        self.skip()
        return Clause(keyword, name, self.text[first:self.last_end])

    def docs(self, start: int, begins: int, indent: int) -> List[str]:
        """The doc comment above an item. Attributes, which begin at `start`, are left out."""
        first, last = self.line_of(start), self.line_of(begins)
        while first > 0 and self.lines[first - 1].lstrip().startswith('///'):
            first -= 1
        return [line[indent:] for line in self.lines[first:last] if line.lstrip().startswith('///')]


def _after_space(text: str, place: int) -> int:
    """Where the first token begins from a place on."""
    match = SPACE.match(text, place)
    return match.end() if match else place


def _token(text: str, place: int) -> str:
    """The token that begins at a place; nothing at the end."""
    match = TOKEN.match(text, place)
    return match.group() if match else ''


def _inside(owner: Owner, keyword: str, head: str, is_public: bool) -> Owner:
    """What the functions of a container stand in. Its head is what stands before its bracket."""
    if keyword == 'mod':
        return Owner(owner.path + [head.strip()])
    if keyword == 'trait':
        return Owner(owner.path, trait=_token(head, 0), is_public_trait=is_public)
    parts = _of_impl(head)
    return Owner(owner.path, parts[0] if len(parts) > 1 else '', parts[-1])


def _of_impl(head: str) -> List[str]:
    """The trait, if there is one, and the type of an `impl`: without its own parameters and without `where`."""
    parts, begins, depth = [], 0, 0
    for match in TOKEN.finditer(head):
        word = match.group()
        depth += (word == '<') - (word == '>')
        if depth == 0 and word == '>' and head.startswith('<') and begins == 0:
            begins = match.end()
        elif depth == 0 and word in ('for', 'where'):
            parts.append(head[begins:match.start()])
            begins = match.end()
            if word == 'where':
                break
    else:
        parts.append(head[begins:])
    return [' '.join(part.split()) for part in parts]


def _to_the_left(lines: List[str], indent: int) -> List[str]:
    """The lines without the indent that all of them share with the first one."""
    return [line[indent:] if not line[:indent].strip() else line for line in lines]

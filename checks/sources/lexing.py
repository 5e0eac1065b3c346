"""Cuts the text of definitions and clauses into tokens."""
import re
from typing import Iterator, List, NamedTuple

TOKEN = re.compile(
    r'(?P<space>\s+)'
    r'|(?P<comment>--[^\n]*|//[^\n]*)'
    r'|(?P<text>"(?:\\.|[^"\\])*")'
    r'|(?P<name>[^\s(){}.;,@"«»]+)'
    r'|(?P<bracket>[^\s])')


class Token(NamedTuple):
    """A token, and whether it follows the one before it without a space."""

    kind: str
    text: str
    glued: bool


def tokens(text: str) -> List[Token]:
    """The tokens of a text, without its comments."""
    return list(_walk(text))


def _walk(text: str) -> Iterator[Token]:
    glued = False
    for match in TOKEN.finditer(text):
        kind = match.lastgroup
        if kind in ('space', 'comment'):
            glued = False
        else:
            yield Token(kind, match.group(), glued)
            glued = True


def is_field(stream: List[Token], at: int) -> bool:
    """Whether the token is a field or a member: right before it stands a dot, with no space on either side."""
    return at >= 2 and stream[at].glued and stream[at - 1].text == '.' and stream[at - 1].glued


def member(stream: List[Token], at: int) -> str:
    """What stands after a token and a dot, or nothing."""
    return stream[at + 2].text if at + 2 < len(stream) and is_field(stream, at + 2) else ''


def depth(stream: List[Token]) -> int:
    """How many brackets a text opens and does not close."""
    return sum((token.text in ('(', '{')) - (token.text in (')', '}')) for token in stream)


def closing(stream: List[Token], at: int) -> int:
    """The place of the bracket that closes the one at a place."""
    depth = 0
    for place in range(at, len(stream)):
        if stream[place].text in ('(', '{'):
            depth += 1
        elif stream[place].text in (')', '}'):
            depth -= 1
        if depth == 0:
            return place
    raise ValueError('a bracket is not closed: ' + ' '.join(token.text for token in stream[at:at + 12]))


def is_binder(stream: List[Token], at: int) -> bool:
    """Whether a bracket opens a binder, as `(x y : T)` does."""
    place = at + 1
    while place < len(stream) and stream[place].kind == 'name' and stream[place].text not in (':', '='):
        place += 1
    return place > at + 1 and place < len(stream) and stream[place].text == ':'


def equals(stream: List[Token]) -> int:
    """The place of the first `=` that stands in no bracket, or -1."""
    depth = 0
    for place, token in enumerate(stream):
        depth += (token.text in ('(', '{')) - (token.text in (')', '}'))
        if depth == 0 and token.text == '=':
            return place
    return -1

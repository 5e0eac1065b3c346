"""Finds the names that a text cites: those that no binder, no pattern and no field of the same text brings in."""
from typing import Callable, Iterator, List, Set, Tuple

from sources.lexing import Token, closing, equals, is_binder, is_field, member

Cited = Tuple[str, str]
"""A name, and what stands after it and a dot."""


class Scope:
    """The names that are bound at a place of a text, by the brackets around the place."""

    def __init__(self, bound: Set[str]) -> None:
        self.frames = [set(bound)]

    def bind(self, names: List[str]) -> None:
        """Binds names up to the end of the bracket that the place is in."""
        self.frames[-1].update(names)

    def has(self, name: str) -> bool:
        """Whether a name is bound here."""
        return any(name in frame for frame in self.frames)


def cited_in_term(stream: List[Token], scope: Scope) -> Iterator[Cited]:
    """The names that a term or a type cites, in the order of the text."""
    at = 0
    while at < len(stream):
        text = stream[at].text
        if text in ('(', '{'):
            end = closing(stream, at)
            yield from _in_bracket(stream, at, end, scope)
            at = end
        elif text == 'λ':
            end = _end_of_binders(stream, at)
            scope.bind(_names(stream[at + 1:end]))
            at = end
        elif text == 'let':
            scope.bind([stream[at + 1].text])
            at += 1
        elif stream[at].kind == 'name' and not is_field(stream, at) and not scope.has(text):
            yield text, member(stream, at)
        at += 1


def _in_bracket(stream: List[Token], at: int, end: int, scope: Scope) -> Iterator[Cited]:
    """What stands in a bracket. A binder binds its names in what follows the bracket."""
    inside = stream[at + 1:end]
    of_record = at > 0 and stream[at - 1].text == 'record'
    scope.frames.append(set())
    if of_record or (stream[at].text == '{' and equals(inside) >= 0):
        yield from _in_record(inside, scope)
    elif is_binder(stream, at):
        colon = [token.text for token in inside].index(':')
        yield from cited_in_term(inside[colon + 1:], scope)
    else:
        yield from cited_in_term(inside, scope)
    scope.frames.pop()
    if not of_record and is_binder(stream, at):
        scope.bind([token.text for token in inside[:inside.index(_colon(inside))]])


def _colon(inside: List[Token]) -> Token:
    return next(token for token in inside if token.text == ':')


def _in_record(inside: List[Token], scope: Scope) -> Iterator[Cited]:
    """The fields of a record that is written down, or of a type of records. Their labels cite nothing."""
    for field in _split(inside, ';'):
        if len(field) > 1 and field[1].text in ('=', ':'):
            yield from _apart(field[2:], scope)
            if field[1].text == ':':
                scope.bind([field[0].text])
        else:
            yield from _apart(field, scope)


def _apart(stream: List[Token], scope: Scope) -> Iterator[Cited]:
    """A part of a text, whose binders bind nothing after it."""
    scope.frames.append(set())
    yield from cited_in_term(stream, scope)
    scope.frames.pop()


def _split(stream: List[Token], mark: str) -> List[List[Token]]:
    """The parts of a text between marks that stand in no bracket."""
    parts, depth = [[]], 0
    for token in stream:
        depth += (token.text in ('(', '{')) - (token.text in (')', '}'))
        if depth == 0 and token.text == mark:
            parts.append([])
        else:
            parts[-1].append(token)
    return parts


def _end_of_binders(stream: List[Token], at: int) -> int:
    """The place of the dot that ends the binders of a λ."""
    while stream[at].text != '.':
        at = closing(stream, at) + 1 if stream[at].text in ('(', '{') else at + 1
    return at


def _names(stream: List[Token]) -> List[str]:
    """The names that the binders of a λ bring in."""
    return [token.text for token in stream if token.kind == 'name' and token.text not in ('=', ':', 'record')]


def cited_in_clause(
        stream: List[Token], bound: Set[str], is_constructor: Callable[[str], bool]) -> Iterator[Cited]:
    """The names that a clause `f PATTERN .. = TERM` cites: constructors in its patterns, and what its term cites."""
    sign = equals(stream)
    scope = Scope(bound)
    for at in range(1, sign):
        token = stream[at]
        if token.kind != 'name' or is_field(stream, at):
            continue
        if is_constructor(token.text) or member(stream, at):
            yield token.text, member(stream, at)
        else:
            scope.bind([token.text])
    yield from cited_in_term(stream[sign + 1:], scope)

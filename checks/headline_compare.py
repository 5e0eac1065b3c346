"""Finds the first difference between two forms of a page with clauses and definitions."""
import re
from typing import Dict, Iterator, List, Optional, Tuple

PLACE = re.compile(r'`(\S+\.(?:rt|antt)): ([^`]+)`$')
FILE = re.compile(r'=== (\S+\.antt)$')
HEAD = re.compile(r'(?:abbrev pub|unfoldable pub|abbrev|pub record|pub data|record|data|pub) ([^\s:]+)')
NAMED = re.compile(r'\.\.\. (\S+): .*?(?: \((\S+\.antt)\))?$')
CLAUSE = re.compile(r'ensures (\w+) ')


def items(page: str) -> Dict[str, str]:
    """What a page has: each clause, definition and section, by what it is called."""
    found: Dict[str, str] = {}
    for name, text in _items(page.split('\n')):
        found[name] = found.get(name, '') + text + '\n'
    return found


def _items(lines: List[str]) -> Iterator[Tuple[str, str]]:
    section, at = 'the beginning', 0
    while at < len(lines):
        line, place = lines[at], PLACE.match(lines[at])
        if line.startswith('## '):
            section = 'the section "%s"' % line[3:]
        if place and lines[at + 1:at + 2] == ['```text']:
            end = lines.index('```', at + 2) if '```' in lines[at + 2:] else len(lines)
            yield from _in_block(place.group(1), place.group(2), lines[at + 2:end])
            at = end
        elif line == '```text' and FILE.match(lines[at + 1] if at + 1 < len(lines) else ''):
            end = lines.index('```', at + 1) if '```' in lines[at + 1:] else len(lines)
            yield from _definitions(lines[at + 1:end])
            at = end
        else:
            yield section, line
        at += 1


def _definitions(lines: List[str]) -> Iterator[Tuple[str, str]]:
    """The definitions of the block, each by its file and its name."""
    file = ''
    for text in '\n'.join(lines).split('\n\n'):
        begins = FILE.match(text)
        heads = [HEAD.match(line) for line in text.split('\n') if not line.startswith('--')]
        if begins:
            file = begins.group(1)
        elif NAMED.match(text.split('\n')[0]):
            yield from _named(text.split('\n'))
        elif heads and heads[0]:
            yield '%s: %s' % (file, heads[0].group(1)), text
        else:
            yield '%s: what is no definition' % file, text


def _named(lines: List[str]) -> Iterator[Tuple[str, str]]:
    """The sentences for definitions that are named and not shown, each by the file and the name of its definition."""
    for line in lines:
        named = NAMED.match(line)
        where = named and named.group(2) or 'the first part'
        yield ('%s: the sentence for %s' % (where, named.group(1)) if named else 'what is no sentence'), line


def _in_block(file: str, names: str, lines: List[str]) -> Iterator[Tuple[str, str]]:
    """The clauses and comments of a contract."""
    clause: Optional[str] = None
    for line in lines:
        match = CLAUSE.match(line)
        if match:
            clause = match.group(1)
        elif not line or line.startswith('//'):
            clause = None
        what = '%s: the comments of %s' % (file, names) if clause is None else '%s: %s (%s)' % (file, names, clause)
        yield what, line


def difference(old: str, new: str) -> Optional[str]:
    """The first difference of the page that is there from the one that the sources make, if there is one."""
    if old == new:
        return None
    before, after = items(old), items(new)
    for name in sorted(after, key=_is_of_text):
        if name not in before:
            return '%s appeared' % name
        if before[name] != after[name]:
            return '%s changed' % name + _first_line(before[name], after[name], name)
    for name in before:
        if name not in after:
            return '%s went' % name
    return 'the order of the page changed'


def _is_of_text(name: str) -> bool:
    """Whether an item is a section: these are compared last."""
    return name.startswith('the ')


def _first_line(before: str, after: str, name: str) -> str:
    """The first line of a section that differs."""
    if not _is_of_text(name):
        return ''
    known = set(before.split('\n'))
    lines = [line for line in after.split('\n') if line not in known]
    return ': ' + lines[0][:120] if lines else ''

"""Says what a refusal `refused LINE CODE` means, in the words of docs/FORMATS.md, and which line of the input it names.

  explain LINE CODE [FILE]
  explain 'refused 5 2' [FILE]
  explain why=2
  explain 0 33 19 bad why=2 value=0022000f..

FILE is what was refused: a script, a node file or a capture. Its first line mostly tells which of them it is. Its refused line is
shown, and of a script what people often get wrong with this code. Without FILE the first line that is written says what the
refusal means of a script, and further ones what it means of a capture or of a node file, where it can be one of these. With
--watch a capture is meant.

Words with `why=` are a line of `hncp decode`, or a note of a transcript: what is meant by W is said, and for `bad why=2` with its
value at which place within the value the fault is, or how to find it.
"""
import os
import re

from .. import programs
from ..tools import common, items
from ..tools.common import Problem

INSTALLED = os.path.join(os.path.dirname(os.path.realpath(__file__)), 'FORMATS.md')     # with the package
PAGE = INSTALLED if os.path.exists(INSTALLED) else os.path.join(programs.CLONE, 'docs', 'FORMATS.md')
MOST_SHOWN = 200  # characters of a line
VERSIONS = ('hncp 1', 'hncp 2')
OTHER_VERSION = 'hncp 2'          # with which a script may begin, and a node file may not
# Refusals of line 0 that no script and no capture has: of what they are, and what they mean.
OF_NO_LINE = {4: ('the text for hncp decode', 'another byte than hexadecimal digits, spaces and LF, or an odd number of digits'),
              7: ('hnlook NAME', 'no router of the script has this name'), 12: ('hnlook why NAME or hnlook calm NAME', 'the router is stopped')}
NODE_FILE = 'the first line is not hncp 1'


def tables(section, head):
    """The tables of a section of the page whose first cell is this: of each a number -> what it means."""
    found, here, rows = [], False, False
    for text in common.read(PAGE):
        if text.startswith('## '):
            here = text == f'## {section}'
        cells = [cell.strip() for cell in text.strip().strip('|').split('|')]
        if here and text.startswith(f'| {head} |'):
            found.append({})
        rows = here and (text.startswith(f'| {head} |') or rows and text.startswith('|'))
        if rows and len(cells) == 2 and cells[0].isdigit():
            found[-1][int(cells[0])] = plain(cells[1])
    if not any(found):
        raise Problem(f'{PAGE} has no table "{head}" in its section "{section}"')
    return found


def mistakes(code):
    """What people get wrong in a script that is refused by this code, and what to write."""
    rows = False
    for text in common.read(PAGE):
        cells = [plain(cell.strip()) for cell in text.strip().strip('|').split('|')]
        if rows and text.startswith('|') and len(cells) == 3 and cells[1] == str(code):
            yield f'often: {cells[0]}; write {cells[2]}'
        rows = text.startswith('| In the script | Code |') or rows and text.startswith('|')


def plain(cell):
    return re.sub('`', '', cell.encode('latin-1').decode('utf-8'))


def table(section):
    """All codes of a section."""
    return {code: meaning for each in tables(section, 'Code') for code, meaning in each.items()}


def note_on(why):
    """What the page says of a note `ignored .. why=W`."""
    for text in common.read(PAGE):
        if text.startswith('| `note N ignored'):
            return f'ignored why={why}: {plain(text.strip().strip("|").split("|")[1].strip())}'
    raise Problem(f'{PAGE} has no note "ignored"')


def explain_why(text):
    """The lines on a line of `hncp decode`, or on a note."""
    why = int(re.search(r'\bwhy=(\d{1,9})', text + ' ').group(1))
    bad, malformed = tables('The text of a datagram', 'W')[:2]
    word = next((word for word in ('malformed', 'ignored') if word in text.split()), 'bad')
    meanings = malformed if word == 'malformed' else bad
    if word == 'ignored' and why not in bad:
        yield note_on(why)
        return
    if why not in meanings:
        raise Problem(f'docs/FORMATS.md, "The text of a datagram", has no cause {why}')
    yield f'{word} why={why}: {meanings[why]}'
    if word == 'bad' and why == 2:
        found = re.search(r'(\d{1,9}) (\d{1,9}) \d{1,9} bad why=2 value=((?:[0-9a-f]{2})+)', text)
        yield from find_place(*found.groups(), malformed) if found else how_to_find()


def find_place(place, kind, value, malformed):
    """At which place of a value the fault is."""
    value = bytes.fromhex(value)
    fault = items.inner_fault(int(kind), value)
    if not fault:
        raise Problem('the value has no such fault')
    at, cause = fault
    end = items.fields_end(int(kind), value)
    yield f'type {kind}: its fields end at place {end} of the value, and what follows begins at {end + -end % 4}'
    yield f'place {at} of the value, {int(place) + 4 + at} of the datagram: {re.sub("; P is.*", "", malformed[cause])}'
    if cause == 3:
        yield (f'the length of a TLV counts the padding of its last sub-TLV (RFC 7787, section 7): '
               f'here it is {len(value)}, and {len(value) + -len(value) % 4} with the padding')


def how_to_find():
    yield 'to find the place: give the whole line of hncp decode to this tool, or by hand:'
    yield '1. take from the value what stands after its fields and their padding to a multiple of 4;'
    yield '2. decode that as a datagram: it says malformed place=P why=W, with the causes W of a datagram;'
    yield '3. the place within the value is P and what was taken away; within the datagram 4 and the place of the TLV come on top'
    sizes = ', '.join(f'{kind}: {size}{" and the prefix" if kind in items.PREFIXED else ""}' for kind, size in items.FIXED.items())
    yield f'bytes that the fields of a type take: {sizes}'


def meaning_of(section, code):
    """What a code of a section means."""
    found = table(section).get(code)
    if not found:
        raise Problem(f'docs/FORMATS.md, "{section}", has no code {code}')
    return found


def meanings(line, code, first):
    """What a refusal can mean, each with the kind of input, of which '' is a script. `first` is the first line of the input, or
    nothing where that is not given. Lines are looked at in order, and the first one of a script is never refused by code 4."""
    if line == 0 and code in OF_NO_LINE:
        return [OF_NO_LINE[code]]
    script = meaning_of('Scripts', code)
    begins = first in (None, *VERSIONS)
    is_node_file = code == 1 and first == OTHER_VERSION
    found = [('', script)] if (code != 4 and not is_node_file if line == 1 else line == 0 or begins) else []
    if code in table('Captures') and (line == 1 or first not in VERSIONS):
        found.append(('a capture', meaning_of('Captures', code)))
    if is_node_file or code == 1 and first is None:
        found.append(('a node file', NODE_FILE))
    return found or [('', script)]


def explain(line, code, watch, path):
    """The lines to write."""
    texts = (common.read(path) or ['']) if path else [None]
    found = [('', meaning_of('Captures', code))] if watch else meanings(line, code, texts[0])
    kind, meaning = found[0]
    yield f'refused {line} {code}' + (f', of {kind}: ' if kind else ': ') + meaning
    yield from (f'of {kind}: {meaning}' for kind, meaning in found[1:])
    if path:
        if line == 0:
            yield 'line 0: ' + ('the NAME is meant' if code in (7, 12) else 'the whole of it is meant')
        elif line > len(texts):
            raise Problem(f'{path} has {len(texts)} lines, and no line {line}')
        else:
            text = texts[line - 1]
            shown = ''.join(c if ' ' <= c <= '~' else f'\\x{ord(c):02x}' for c in text[:MOST_SHOWN])
            yield f'line {line}: {shown}' + (f'.. ({len(text)} bytes)' if len(text) > MOST_SHOWN else '')
        if not kind and not watch:
            yield from mistakes(code)


def main(words=None):
    given = common.parser(__doc__, [
        ('--watch', {'action': 'store_true', 'help': 'a refusal by hncp watch'}),
        ('words', {'metavar': 'WORD', 'nargs': '+', 'help': 'LINE CODE [FILE], a line refused LINE CODE [FILE], or a line with why=W'}),
    ])
    parsed = given.parse_args(words)
    words = ' '.join(parsed.words).split() if any('why=' in word for word in parsed.words) else parsed.words
    if words[0].split()[:1] == ['refused']:
        words = words[0].split()[1:] + words[1:]
    if any(re.fullmatch(r'why=\d+', word) for word in words):
        lines = explain_why(' '.join(words))
    elif len(words) not in (2, 3) or None in map(common.number, words[:2]):
        given.error('LINE and CODE are numbers, a file may follow; or give a line with why=W')
    else:
        lines = explain(*map(common.number, words[:2]), parsed.watch, words[2] if len(words) == 3 else None)
    for text in lines:
        print(text)

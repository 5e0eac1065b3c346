"""Makes the page with the headline, whose first part is read in one go, and the page with the clauses beside it."""
import os
from itertools import groupby
from typing import Dict, Iterable, List, Tuple

import headline_beside as beside
import headline_rest as rest
import headline_text as text
from headline_found import ALONE, BESIDE, FUNCTION, HALVES, Headline, NoSuchSign, taken
from sources.closure import Node, NotFound, Sources

DATA = os.path.join('transcripts', 'data')
"""Where the script with its transcript is, below `crates`."""


def pages(sources: Sources) -> Dict[str, str]:
    """The two pages by their names, from the sources."""
    found = Headline(sources)
    check_choices(found)
    texts = {'HEADLINE.md': _headline(found), 'CLAUSES.md': _beside(found)}
    return {name: '\n'.join(lines).rstrip('\n') + '\n' for name, lines in texts.items()}


def _headline(found: Headline) -> List[str]:
    """The page with the headline."""
    key, further = keys(found)[:2]
    lines = [text.BEGINNING, ''] + _two_clauses(found) + [text.CLAIMED, ''] + _sample(found) + [text.SAMPLE_SAYS, '']
    lines += ['## The signs', '', text.SIGNS, ''] + key
    lines += ['## The fields', '', text.FIELDS_SAY, ''] + _fields(found)
    lines += ['## The definitions', '', text.DEFINITIONS, ''] + _first_part(found) + [text.AFTER]
    lines += [rest.BEGINNING] + further + [rest.TYPES_SAY] + _types(found)
    lines += [rest.DEFINITIONS] + _definitions(found, found.behind, found.named_behind(), rest.SENTENCES, rest.GLOSSES)
    return lines + ['## The counts', '', rest.COUNTS, ''] + _counts(found)


def _beside(found: Headline) -> List[str]:
    """The page with the other clauses."""
    cited, named = found.named_beside()
    lines = [beside.BEGINNING, beside.CLAUSES, ''] + _clauses(found, cited) + [beside.SIGNS] + keys(found)[2]
    lines += [beside.DEFINITIONS] + _definitions(found, found.beside, named, beside.SENTENCES, beside.GLOSSES)
    return lines + [beside.TLVS] + _definitions(found, found.tlvs, dict.fromkeys(found.tlvs, []), {}, {})


def check_choices(found: Headline) -> None:
    """Each sentence is for a definition that its page shows, or for one that the page names and does not show."""
    behind = [node for nodes in found.named_behind().values() for node in nodes]
    cited, named = found.named_beside()
    choices: Tuple[Tuple[Dict[str, str], Iterable[Node], str], ...] = (
        (text.GLOSSES, found.named_first(), 'of those that the first part names'),
        (rest.SENTENCES, found.behind, 'of those shown behind the first part'),
        (rest.GLOSSES, behind, 'of those named behind the first part'),
        (beside.SENTENCES, found.beside, 'of those shown beside'),
        (beside.GLOSSES, cited + [node for nodes in named.values() for node in nodes], 'of those named beside'),
    )
    for sentences, nodes, what in choices:
        for place in sorted(set(sentences) - {node.place for node in nodes}):
            raise NotFound('%s, which a text of checks/ names, %s' % (place, what))
    for node in found.of_one_world:
        if not node.is_type and node not in found.shown:
            raise NotFound('%s, on which the halves rest, of those shown' % node.place)


def keys(found: Headline) -> Tuple[List[str], List[str], List[str]]:
    """The keys of the first part, of the definitions behind it, and of the other page. Each sign has a row in its own key or in
    one before it."""
    return (_key(found, HALVES, found.first, (), text.KEY), _key(found, (), found.behind, text.KEY, rest.KEY),
            _key(found, BESIDE + ALONE, found.beside + found.tlvs, text.KEY + rest.KEY, beside.KEY))


def _key(found: Headline, clauses: Iterable[str], definitions: Iterable[Node], before: Tuple[text.Row, ...],
         rows: Tuple[text.Row, ...]) -> List[str]:
    """The rows of a key that the signs of clauses and definitions need, after the keys before."""
    used = dict((sign, place) for sign, place in reversed(list(found.signs(clauses, definitions))) if not sign.isdigit())
    known = {sign for row in before + rows for sign in row.signs.split()}
    for sign, place in used.items():
        if sign not in known:
            raise NoSuchSign('%s uses `%s`, which the keys in checks/ have not' % (place, sign))
    shown = ['| %s | %s |' % (row.shown, row.says) for row in rows if set(row.signs.split()) & set(used)]
    return ['| Sign | Says |', '|---|---|'] + shown + ['']


# ---- the first part

def _two_clauses(found: Headline) -> List[str]:
    """The two clauses that the page is about, without the comment of their paragraph."""
    lines = [line[4:] for half in HALVES for line in found.contract.clauses[half]]
    return ['`%s: %s`' % (found.file, FUNCTION), '```text'] + lines + ['```', '']


def _sample(found: Headline) -> List[str]:
    """The script with its transcript."""
    lines: List[str] = []
    for kind in ('script', 'transcript'):
        path = os.path.join(found.sources.crates, DATA, '%s.%s' % (text.SAMPLE, kind))
        if not os.path.isfile(path):
            raise NotFound(path)
        with open(path, encoding='utf-8') as file:
            lines += ['```text', file.read().rstrip('\n'), '```', '']
    return lines


def _fields(found: Headline) -> List[str]:
    """The table of fields. Each is one of its type."""
    lines = ['| Of | Fields | What they are |', '|---|---|---|']
    for row in text.FIELDS:
        code = '\n'.join(found.sources.entity(Node(*row.place.split(': '))).code)
        for name in row.fields.split():
            if 'pub %s:' % name not in code:
                raise NotFound('%s of %s, which a text of checks/ names' % (name, row.place))
        shown = ', '.join('`%s`' % name for name in row.fields.split())
        lines.append('| %s, type `%s` | %s | %s |' % (row.of, row.place.split(': ')[1], shown, row.says))
    return lines + ['']


def _first_part(found: Headline) -> List[str]:
    """The definitions of the first part, each after its sentences; and in words what it is the first to name."""
    left = dict.fromkeys(found.named_first())
    lines: List[str] = []
    for part in text.FIRST:
        nodes = [Node(*place.split(': ')) for place in part.places]
        lines += [part.before, '', '```text']
        for file, of_file in groupby(nodes, lambda node: node.file):
            lines += ['=== %s' % file, '']
            for node in of_file:
                lines += found.sources.entity(node).shown[len(found.comment(node)):] + ['']
        named = taken(left, [other for node in nodes for other in found.sources.cites(node)])
        lines += ['... %s: %s' % (other.name, found.gloss(other, text.GLOSSES)) for other in named] + ([''] if named else [])
        lines = lines[:-1] + ['```', '']
    return lines


# ---- what stands behind it, and beside it

def _clauses(found: Headline, cited: List[Node]) -> List[str]:
    """The paragraphs of the contract that the other clauses stand in, and of those of some clauses the clause."""
    paragraphs: List[List[str]] = []
    for name in BESIDE:
        if found.contract.paragraph(name) not in paragraphs:
            paragraphs.append(found.contract.paragraph(name))
    paragraphs += [found.contract.clauses[name] for name in ALONE]
    lines = ['`%s: %s`' % (found.file, FUNCTION), '```text']
    for paragraph in paragraphs:
        lines += [line[4:] for line in paragraph] + ['']
    named = ['- `%s`: %s (`%s`).' % (node.name, found.gloss(node, beside.GLOSSES), node.file) for node in cited]
    return lines[:-1] + ['```', '', beside.NAMED, ''] + named + ['']


def _definitions(found: Headline, shown: List[Node], named: Dict[Node, List[Node]], sentences: Dict[str, str],
                 glosses: Dict[str, str]) -> List[str]:
    """Definitions in blocks. A block begins with the sentences for its first definition."""
    blocks: List[List[Node]] = [[]]
    for node in shown:
        if node.place in sentences:
            blocks.append([])
        blocks[-1].append(node)
    lines: List[str] = []
    for nodes in filter(None, blocks):
        lines += [sentences[nodes[0].place], ''] if nodes[0].place in sentences else []
        lines += _block(found, nodes, named, glosses)
    return lines


def _block(found: Headline, shown: List[Node], named: Dict[Node, List[Node]], glosses: Dict[str, str]) -> List[str]:
    """A block of definitions. Before those of one file that follow each other their file is named. After each stand those
    that it is the first to name and that are not shown, with a sentence and their file."""
    lines: List[str] = ['```text']
    for file, nodes in groupby(shown, lambda node: node.file):
        lines += ['=== %s' % file, '']
        for node in nodes:
            lines += found.sources.entity(node).shown + ['']
            lines += ['... %s: %s (%s)' % (other.name, found.gloss(other, glosses), other.file) for other in named[node]]
            lines += [''] if named[node] else []
    return lines[:-1] + ['```', '']


def _types(found: Headline) -> List[str]:
    """The types that are shown, each with its fields and what contracts see of it."""
    lines: List[str] = ['```text']
    for file, names in rest.TYPES:
        lines += ['=== %s' % file, '']
        for name in names.split():
            node = Node(file, name)
            if node not in found.of_one_world:
                raise NotFound('%s, which a text of checks/ names, of the types' % node.place)
            lines += found.sources.entity(node).code + ['']
    return lines[:-1] + ['```', '']


def _counts(found: Headline) -> List[str]:
    table = ['| What | Definitions | Lines | Files | Types | Lines | Mark |', '|---|---|---|---|---|---|---|']
    for what, nodes in found.counted():
        numbers = ['{:,}'.format(number) for number in found.count(nodes)]
        table.append('| %s |' % ' | '.join([what] + numbers + [found.mark(nodes)]))
    return table + ['']

"""What the page with the headline says, as found in the sources: its clauses, its definitions and their counts."""
import hashlib
import itertools
from typing import Dict, Iterable, Iterator, List, Set, Tuple

import headline_beside
import headline_rest as rest
import headline_text as text
from sources.closure import Node, NotFound, Sources
from sources.lexing import tokens
from sources.rust import Contract

FILE = 'hn_run/src/program.rt'
"""Where the contract is, below `crates`."""
FUNCTION = 'run'
HALVES = ('headline', 'settled')
"""The clauses that the page is about: their definitions are shown and counted."""
BESIDE = ('replayed', 'elected', 'told', 'stays', 'turns', 'within_limits', 'authentic')
"""The clauses that are shown beside them."""
ALONE = ('lab', 'only')
"""The clauses that are shown beside them, without the others and the comment of their paragraph."""
CLAUSES = HALVES + BESIDE + ALONE
OVER_TIME = ('hn_world/specs/Replay.antt: Always', 'hn_world/specs/Replay.antt: Throughout')
"""The definitions that say of which worlds a half is said. What is said of one world does not rest on them."""
NEAR_BESIDE = 1
"""How many steps from the clauses beside them a definition is shown. Those on which the halves rest are shown all."""
MARK = 4
"""How many digits the mark of a definition has."""


class NoSuchSign(Exception):
    """A text that the page shows uses a sign that the key has not."""


class Headline:
    """What the page says, as found in the sources."""

    def __init__(self, sources: Sources) -> None:
        self.sources = sources
        self.file = FILE
        rust = sources.rust(FILE)
        if rust is None or not rust.has_function(FUNCTION):
            raise NotFound('%s in %s' % (FUNCTION, FILE))
        self.contract: Contract = rust.contract(FUNCTION)
        for clause in CLAUSES:
            if clause not in self.contract.clauses:
                raise NotFound('the clause %s of %s in %s' % (clause, FUNCTION, self.file))
        self.of_one_world = sources.steps(self.seeds(HALVES, OVER_TIME))
        self.with_worlds = sources.steps(self.seeds(HALVES))
        self.first = self._first()
        self.shown = self._shown()

    def seeds(self, clauses: Iterable[str], without: Tuple[str, ...] = ()) -> List[Node]:
        found = self.sources.cited_by_clauses(self.file, FUNCTION, clauses)
        return [node for node in found if node.place not in without]

    def _first(self) -> List[Node]:
        """The definitions of the first part, in its order."""
        found = [Node(*place.split(': ')) for part in text.FIRST for place in part.places]
        for node in found:
            if node not in self.with_worlds:
                raise NotFound('%s, which a text of checks/ names, of the halves' % node.place)
        return found

    def named_first(self) -> List[Node]:
        """The definitions that the first part names and does not show, in the order in which it names them."""
        found = dict.fromkeys(node for shown in self.first for node in self.sources.cites(shown))
        return [node for node in found if not node.is_type and node not in self.first]

    def _shown(self) -> List[Node]:
        """The definitions that are shown, each after the clause or definition that first names it."""
        beside = self.sources.steps(self.seeds(BESIDE))
        near = {*self.of_one_world, *self.first, *self.named_first()}
        near |= {node for node, steps in beside.items() if steps <= NEAR_BESIDE}
        near -= _chosen(rest.IN_WORDS, near, 'of those near the clauses')
        near |= _chosen(headline_beside.ALONE, set(self.sources.steps(self.seeds(ALONE))), 'of ' + ', '.join(ALONE))
        order: Dict[Node, None] = {}
        self._read_from(self.seeds(CLAUSES), near, order)
        return [node for node in order if not node.is_type]

    def _read_from(self, nodes: List[Node], near: Set[Node], order: Dict[Node, None]) -> None:
        for node in nodes:
            if node in near and node not in order:
                order[node] = None
                self._read_from(self.sources.cites(node), near, order)

    def mark(self, found: Iterable[Node]) -> str:
        """A mark that changes with each of some definitions and types."""
        return mark(line for node in sorted(found) for line in self.sources.entity(node).code)

    def count(self, found: Iterable[Node]) -> Tuple[int, int, int, int, int]:
        """How many definitions, their lines and files; how many types, and their lines."""
        found = list(found)
        definitions = [node for node in found if not node.is_type]
        types = [node for node in found if node.is_type]
        return (len(definitions), self._lines(definitions), len({node.file for node in definitions}),
                len(types), self._lines(types))

    def _lines(self, nodes: List[Node]) -> int:
        return sum(len(self.sources.entity(node).code) for node in nodes)

    def counted(self) -> List[Tuple[str, List[Node]]]:
        """The rows of the table of counts: what each counts."""
        steps = self.sources.steps
        return [
            ('`headline`, of one world', list(steps(self.seeds(HALVES[:1], OVER_TIME)))),
            ('`settled`, of one world', list(steps(self.seeds(HALVES[1:], OVER_TIME)))),
            ('both, of one world', list(self.of_one_world)),
            ('both, with how a world comes about', list(self.with_worlds)),
            ('these eleven clauses', list(steps(self.seeds(CLAUSES)))),
            ('all clauses of `run`', list(steps(self.seeds(self.contract.clauses)))),
        ]

    @property
    def behind(self) -> List[Node]:
        """The definitions that are shown behind the first part: the halves rest on them."""
        return [node for node in self.shown if node in self.with_worlds and node not in self.first and not _is_of_tlvs(node)]

    @property
    def tlvs(self) -> List[Node]:
        """The definitions on which the halves rest and that say how bytes are read. The page of the other clauses shows them."""
        return [node for node in self.shown if node in self.with_worlds and _is_of_tlvs(node)]

    @property
    def beside(self) -> List[Node]:
        """The definitions that are shown beside them, on the page of the other clauses."""
        return [node for node in self.shown if node not in self.with_worlds]

    def named_behind(self) -> Dict[Node, List[Node]]:
        """What the definitions behind the first part name and the page does not show: each with those that it first names."""
        return self._named_by(self.behind, self._not_shown(self.behind, (), self.first + self.behind))

    def named_beside(self) -> Tuple[List[Node], Dict[Node, List[Node]]]:
        """The same of the other clauses, and of the definitions beside."""
        cited = self.seeds(BESIDE + ALONE)
        left = self._not_shown(self.beside, cited, self.shown)
        for node in itertools.chain(*self.named_behind().values()):
            left.pop(node, None)
        return taken(left, cited), self._named_by(self.beside, left)

    def _not_shown(self, nodes: List[Node], cited: Iterable[Node], shown: List[Node]) -> Dict[Node, None]:
        """The definitions that some definitions name, and these besides, that are not shown."""
        found = set(cited).union(*map(self.sources.cites, nodes))
        return dict.fromkeys(sorted(node for node in found if not node.is_type and node not in shown))

    def _named_by(self, nodes: List[Node], left: Dict[Node, None]) -> Dict[Node, List[Node]]:
        return {node: taken(left, self.sources.cites(node)) for node in nodes}

    def gloss(self, node: Node, sentences: Dict[str, str]) -> str:
        """What a definition says, in one sentence: one of these, or its comment."""
        said = sentences.get(node.place) or ' '.join(line[2:].strip() for line in self.comment(node)).rstrip('.')
        if not said:
            raise NotFound('a comment of %s, or a sentence for it in a text of checks/' % node.place)
        return said[:1].lower() + said[1:]

    def comment(self, node: Node) -> List[str]:
        """The lines of the comment that stands before a definition."""
        return list(itertools.takewhile(lambda line: line.startswith('--'), self.sources.entity(node).shown))

    def signs(self, clauses: Iterable[str], definitions: Iterable[Node]) -> Iterator[Tuple[str, str]]:
        """Each sign and each word of the kit that clauses and definitions use, with the place at which it stands."""
        for name in clauses:
            for sign in self._signs_of_clause(name):
                yield sign, '%s: %s (%s)' % (self.file, FUNCTION, name)
        for node in definitions:
            for sign in self._signs_of_definition(node):
                yield sign, node.place

    def _signs_of_clause(self, name: str) -> Iterator[str]:
        uses = self.sources.rust(self.file).ghosts
        yield from _plain_signs('\n'.join(self.contract.clauses[name]))
        for cited in self.contract.cited(name):
            if self.sources.by_uses(uses, cited) is None:
                yield cited[0]

    def _signs_of_definition(self, node: Node) -> Iterator[str]:
        spec = self.sources.spec(node.file)
        found = spec.definitions[node.name]
        yield from _plain_signs('\n'.join(found.code))
        yield from found.keywords()
        for cited in spec.cited(found):
            if self.sources.of_spec(node.file, cited) is None:
                yield cited[0]


def _is_of_tlvs(node: Node) -> bool:
    return node.file.startswith(rest.TLVS)


def taken(left: Dict[Node, None], named: List[Node]) -> List[Node]:
    """Those of some definitions that are left. They are left no more."""
    found = [node for node in dict.fromkeys(named) if node in left]
    for node in found:
        del left[node]
    return found


def _chosen(places: Dict[str, str], known: Set[Node], what: str) -> Set[Node]:
    """The definitions of a choice, by files and names. Each is one of those that are known."""
    found = {Node(file, name) for file, names in places.items() for name in names.split()}
    for node in sorted(found - known):
        raise NotFound('%s, which a text of checks/ names, %s' % (node.place, what))
    return found


def _plain_signs(shown: str) -> Iterator[str]:
    """The tokens of a text that have no letter of a name and no digit."""
    for token in tokens(shown):
        if token.kind != 'text' and not any(sign.isascii() and sign.isalnum() for sign in token.text):
            yield token.text


def mark(lines: Iterable[str]) -> str:
    """A mark that changes with the text of definitions, their comments aside."""
    return hashlib.sha256('\n'.join(lines).encode('utf-8')).hexdigest()[:MARK]


def told(sources: Sources) -> str:
    """What the README says of both halves of one world."""
    found = Headline(sources)
    return '{:,} definitions with {:,} lines in {:,} files'.format(*found.count(found.of_one_world)[:3])


def others(sources: Sources) -> Iterator[str]:
    """A line for each definition that the clauses rest on and that is not shown: its place, its lines and its mark."""
    found = Headline(sources)
    of_clauses = sources.steps(found.seeds(CLAUSES))
    for node in sorted(node for node in of_clauses if not node.is_type and node not in found.shown):
        code = found.sources.entity(node).code
        yield '%s %d %s' % (node.place, len(code), mark(code))

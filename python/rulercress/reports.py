"""What reports say, as objects. docs/FORMATS.md has each line ("Reports", "why", "table", "The text of a datagram")."""
import functools
from typing import Dict, List, NamedTuple, Optional, Sequence

from . import players
from .errors import Malformed


def fields_of(words: Sequence[str]) -> Dict[str, str]:
    """The words `name=value` of a line."""
    return dict(word.split('=', 1) for word in words if '=' in word)


class Audit(NamedTuple):
    """What `audit` says of a router and those that it reaches. `sound` holds where both others do, which is proved."""
    settled: bool
    quiet: bool
    sound: bool


def audit_of(line: str) -> Audit:
    said = fields_of(line.split())
    return Audit(*(said.get(name) == 'yes' for name in Audit._fields))


class State(NamedTuple):
    """What `show` says: identifier, sequence number, how many nodes it reaches, how many others it holds, whether it runs."""
    id: int
    number: int
    reach: int
    held: int
    running: bool


def state_of(line: str) -> State:
    said = fields_of(line.split())
    return State(int(said['id'], 16), int(said['number']), int(said['reach']), int(said['held']), said['running'] == 'yes')


class Assigned(NamedTuple):
    """A line `prefix`: at an endpoint a prefix inside a delegated one. `published` is the priority with which the router
    publishes it, or None; `applied` comes 10 seconds after it was made or adopted, and then hosts are told."""
    endpoint: int
    inside: str
    prefix: str
    published: Optional[int]
    applied: bool


def assigned_of(line: str) -> Assigned:
    said = fields_of(line.split())
    published = None if said['published'] == 'no' else int(said['published'])
    return Assigned(int(said['ep']), said['in'], said['is'], published, said['applied'] == 'yes')


class Used(NamedTuple):
    """A line `use`: a delegated prefix that a router uses, with what is left of its lifetimes in seconds."""
    prefix: str
    valid: int
    preferred: int


def used_of(line: str) -> Used:
    said = fields_of(line.split())
    return Used(line.split()[2], int(said['valid']), int(said['preferred']))


class Why(NamedTuple):
    """What `hnlook why` says of a router: whether it is settled and quiet, and else the first cause, such as `stranger`, with
    its facts by name, and a sentence in English."""
    settled: bool
    quiet: bool
    cause: Optional[str]
    facts: Dict[str, str]
    sentence: str

    @property
    def case(self) -> Optional[str]:
        """The cause, by the shorter name."""
        return self.cause

    def __str__(self) -> str:
        return self.sentence


def why_of(lines: Sequence[str]) -> Why:
    said = fields_of(lines[0].split())
    settled, quiet, cause = said.pop('settled') == 'yes', said.pop('quiet', 'no') == 'yes', said.pop('cause', None)
    return Why(settled, quiet, cause, said, lines[1] if len(lines) > 1 else '')


class Item(NamedTuple):
    """A TLV, as `hncp decode` tells it: how deep it stands, its place in bytes, type and length, its name as `node-state`,
    its fields by name, and the line itself."""
    level: int
    place: int
    kind: int
    length: int
    name: str
    fields: Dict[str, str]
    text: str


def item_of(line: str) -> Item:
    words = line.split()
    level = (len(line) - len(line.lstrip(' '))) // 2
    return Item(level, *map(int, words[:3]), words[3], fields_of(words[4:]), ' '.join(words))


@functools.lru_cache(maxsize=4096)
def _decoded(data: bytes) -> 'tuple[Item, ...]':
    lines = players.decode(data).splitlines()
    if lines[0].startswith('malformed '):
        said = fields_of(lines[0].split())
        raise Malformed(int(said['place']), int(said['why']))
    return tuple(map(item_of, lines[1:]))


def decode(data: bytes) -> List[Item]:
    """The TLVs of a datagram, as `hncp decode` tells them. Without the library it is a process for each datagram that was not
    decoded before. Bytes that are no list of TLVs raise Malformed."""
    return list(_decoded(bytes(data)))

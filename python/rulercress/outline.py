"""What stands at the end of a script, as far as its lines alone tell it: names, endpoints, the moment.

It also knows lines that are surely not refused. The program decides on all others.
"""
import ipaddress
import re
from typing import Callable, Dict, List, Sequence, Set

MOST_MOMENT = 2 ** 48
MOST_LIFETIME = 2 ** 32 - 1
MOST_ENDPOINT = 2 ** 32 - 1
MOST_SEED = 2 ** 64 - 1
MOST_ROUTERS = 64             # of either version; a home of version 2 may have more, and the program says so
MOST_LINKS = 64
MOST_ENDPOINTS = 16
MOST_PREFIXES = 8
FEW_EVENTS = 300_000          # with more, the limit of 1,000,000 may be near, so each line is played at once
FEW_BYTES = 2 ** 23           # so with a script of more bytes

NAME = re.compile(r'[A-Za-z][A-Za-z0-9_-]{0,15}')
IDENTIFIER = re.compile(r'[0-9A-Fa-f]{8}')
PREFIX = re.compile(r'[0-9A-Fa-f:]{2,39}/[0-9]{1,3}')


def _is_number(text: str, least: int, most: int) -> bool:
    return text.isascii() and text.isdigit() and len(text) <= 20 and least <= int(text) <= most


def _is_prefix(text: str) -> bool:
    """Whether the language takes it, too: Python's reader takes fewer forms."""
    if not PREFIX.fullmatch(text):
        return False
    try:
        ipaddress.IPv6Network(text)
    except ValueError:
        return False
    return True


class Place:
    """A router: whether it runs, and the links of its endpoints."""

    def __init__(self) -> None:
        self.running = True
        self.attached: Dict[int, str] = {}
        self.endpoints: Set[int] = set()      # all that ever were
        self.prefixes: Set[str] = set()       # so


class Outline:
    """What the lines of a script come to."""

    def __init__(self) -> None:
        self.routers: Dict[str, Place] = {}   # in order of definition
        self.links: List[str] = []
        self.moment = 0                       # in milliseconds
        self.loss = 0
        self.events = 0                       # at least so many, copies not counted
        self.bytes = 0

    def running(self) -> List[str]:
        """The names of the routers that run, in order of definition."""
        return [name for name, place in self.routers.items() if place.running]

    def takes(self, name: str, endpoint: int) -> bool:
        """Whether a copy for this endpoint can be delivered."""
        place = self.routers.get(name)
        return place is not None and place.running and endpoint in place.attached

    def is_sure(self, words: Sequence[str]) -> bool:
        """Whether the line of these words is surely played, and writes nothing."""
        rule = RULES.get(words[0])
        return (rule is not None and len(words) == 1 + rule[0] and self.events < FEW_EVENTS and self.bytes < FEW_BYTES
                and rule[1](self, *words[1:]))

    def _runs(self, name: str) -> bool:
        return name in self.routers and self.routers[name].running

    def _may_define(self, name: str) -> bool:
        return bool(NAME.fullmatch(name)) and name not in self.routers and name not in self.links

    def may_router(self, name: str, identifier: str) -> bool:
        return self._may_define(name) and len(self.routers) < MOST_ROUTERS and bool(IDENTIFIER.fullmatch(identifier))

    def may_link(self, name: str) -> bool:
        return self._may_define(name) and len(self.links) < MOST_LINKS

    def may_attach(self, name: str, endpoint: str, link: str) -> bool:
        if not self._runs(name) or link not in self.links or not _is_number(endpoint, 1, MOST_ENDPOINT):
            return False
        place = self.routers[name]
        return (int(endpoint) not in place.attached and link not in place.attached.values()
                and len(place.endpoints | {int(endpoint)}) <= MOST_ENDPOINTS)

    def may_detach(self, name: str, endpoint: str) -> bool:
        return self._runs(name) and _is_number(endpoint, 1, MOST_ENDPOINT) and int(endpoint) in self.routers[name].attached

    def may_external(self, name: str, prefix: str, valid: str, preferred: str) -> bool:
        return (self._runs(name) and _is_prefix(prefix) and _is_number(valid, 0, MOST_LIFETIME)
                and _is_number(preferred, 0, int(valid)) and len(self.routers[name].prefixes | {prefix}) <= MOST_PREFIXES)

    def may_withdraw(self, name: str, prefix: str) -> bool:
        return self._runs(name) and _is_prefix(prefix)

    def may_caps(self, name: str, *values: str) -> bool:
        return self._runs(name) and all(_is_number(value, 0, 7) for value in values)

    def may_start(self, name: str) -> bool:
        return name in self.routers

    def may_stop(self, name: str) -> bool:
        return self._runs(name)

    def may_seed(self, number: str) -> bool:
        return _is_number(number, 0, MOST_SEED)

    def may_loss(self, percent: str) -> bool:
        return _is_number(percent, 0, 100)

    def may_time(self, moment: str) -> bool:
        return _is_number(moment, self.moment, MOST_MOMENT)

    def may_run(self, moment: str, step: str) -> bool:
        return (_is_number(moment, self.moment, MOST_MOMENT) and _is_number(step, 1, MOST_MOMENT)
                and self.events + self._events_of_run(int(moment), int(step)) < FEW_EVENTS)

    def _events_of_run(self, moment: int, step: int) -> int:
        return -(-max(0, moment - self.moment) // step) * (1 + len(self.running()))

    def take(self, words: Sequence[str]) -> None:
        """A line of these words was played."""
        self.events += 1
        self.bytes += 1 + sum(len(word) + 1 for word in words)
        act = getattr(self, 'on_' + words[0], None)
        if act:
            act(*words[1:])

    def on_router(self, name: str, identifier: str) -> None:
        self.routers[name] = Place()

    def on_link(self, name: str) -> None:
        self.links.append(name)

    def on_attach(self, name: str, endpoint: str, link: str) -> None:
        place = self.routers[name]
        place.attached[int(endpoint)] = link
        place.endpoints.add(int(endpoint))

    def on_detach(self, name: str, endpoint: str) -> None:
        del self.routers[name].attached[int(endpoint)]

    def on_external(self, name: str, prefix: str, valid: str, preferred: str) -> None:
        self.routers[name].prefixes.add(prefix)

    def on_ula(self, name: str) -> None:
        self.routers[name].prefixes.add('a prefix of its own making')

    def on_start(self, name: str) -> None:
        self.routers[name].running = True

    def on_stop(self, name: str) -> None:
        self.routers[name].running = False

    def on_loss(self, percent: str) -> None:
        self.loss = int(percent)

    def on_time(self, moment: str) -> None:
        self.moment = int(moment)

    def on_run(self, moment: str, step: str) -> None:
        self.events += self._events_of_run(int(moment), int(step))
        self.moment = int(moment)


# Of the lines that can be sure: how many words follow the first one, and what has to hold.
RULES: Dict[str, 'tuple[int, Callable[..., bool]]'] = {
    'router': (2, Outline.may_router),
    'link': (1, Outline.may_link),
    'attach': (3, Outline.may_attach),
    'detach': (2, Outline.may_detach),
    'external': (4, Outline.may_external),
    'withdraw': (2, Outline.may_withdraw),
    'caps': (5, Outline.may_caps),
    'start': (1, Outline.may_start),
    'stop': (1, Outline.may_stop),
    'seed': (1, Outline.may_seed),
    'loss': (1, Outline.may_loss),
    'time': (1, Outline.may_time),
    'run': (2, Outline.may_run),
    'tick': (1, Outline.may_stop),
    'flow': (0, lambda outline: True),
}

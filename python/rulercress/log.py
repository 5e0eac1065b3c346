"""What `hnlook log` says of a script, read on from where it was read to: copies, and which of them wait."""
from typing import Dict, Iterator, List, NamedTuple, Optional, Tuple

from .errors import Problem

TREATING = ('deliver', 'drop')


class Sent(NamedTuple):
    """A copy, as the log has it. Routers are names; `moment` is in milliseconds, when the copy was made."""
    number: int
    moment: int
    sender: str
    sender_endpoint: int
    receiver: str
    endpoint: int
    is_multicast: bool
    data: bytes
    link: str


class Event:
    """An event of the log: its whole text with what it made, its moment and its words."""

    def __init__(self, lines: List[str]) -> None:
        self.size = sum(len(line) + 1 for line in lines)
        moment, text = lines[0].split(' ', 1)
        self.moment = int(moment)
        self.words = text.split(' ')
        self.copies = [line[7:] for line in lines[1:] if line.startswith('  copy ')]

    @property
    def number(self) -> Optional[int]:
        """The number of the copy that is delivered or dropped."""
        return int(self.words[1]) if self.words[0] in TREATING else None


def _endpoint_of(text: str) -> Tuple[str, int]:
    name, endpoint = text.split(':')
    return name, int(endpoint)


def events_of(text: str) -> Iterator[Event]:
    """The events of a piece of a log. A line `refused` is none."""
    lines: List[str] = []
    for line in text.split('\n'):
        if line.startswith('  '):
            lines.append(line)
            continue
        if lines:
            yield Event(lines)
        lines = [line] if line and not line.startswith('refused ') else []
    if lines:
        yield Event(lines)


class CutShort(Exception):
    """The log ended where a line was refused. `code` is that of the refusal."""

    def __init__(self, code: int) -> None:
        self.code = code
        super().__init__(code)


class Events:
    """The events of a piece of a log, one after the other."""

    def __init__(self, text: str) -> None:
        self._events = events_of(text)
        self._next = next(self._events, None)
        last = text[text.rfind('\n', 0, -1) + 1:].split()
        self.code = int(last[2]) if last[:1] == ['refused'] else None

    def peek(self) -> Optional[Event]:
        """The next event, or nothing where the log ends with what was played."""
        if self._next is None and self.code is not None:
            raise CutShort(self.code)
        return self._next

    def next(self) -> Event:
        event = self.peek()
        if event is None:
            raise Problem('what hnlook writes is no log of this home')
        self._next = next(self._events, None)
        return event


class Log:
    """The log of the lines that were read so far."""

    def __init__(self) -> None:
        self.size = 0                         # how many characters of the log were read
        self.copies: List[Sent] = []          # by number, from 1 on
        self.waiting: Dict[int, None] = {}    # the numbers of copies that wait, in order
        self.attached: Dict[Tuple[str, int], str] = {}

    def take(self, event: Event) -> None:
        """An event is read on."""
        self.size += event.size
        words = event.words
        if words[0] in TREATING:
            self.waiting.pop(int(words[1]), None)
        elif words[0] == 'attach':
            self.attached[words[1], int(words[2])] = words[3]
        elif words[0] == 'detach':
            self.attached.pop((words[1], int(words[2])), None)
        for text in event.copies:
            self._take_copy(event, text)

    def _take_copy(self, event: Event, text: str) -> None:
        number, sender, _, receiver, way, data = text.split(' ')
        source, target = _endpoint_of(sender), _endpoint_of(receiver)
        link = self.attached.get(source, '')
        octets = b'' if data == '-' else bytes.fromhex(data)
        self.copies.append(Sent(int(number), event.moment, *source, *target, way == 'multi', octets, link))
        self.waiting[int(number)] = None

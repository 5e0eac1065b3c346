"""A run in which each copy is asked of, played by the programs: rounds are tried ahead, and kept as far as they hold.

The programs play a whole script, and no line after another. So a run is tried ahead with lines `flow`, which deliver each
copy. `hnlook log` tells which copies those were. Up to the first one that is not to be delivered at once, what was tried is
what happens, and is kept as lines `time`, `tick`, `deliver` and `drop`. From there on it is tried anew. So a play is needed
for each time at which copies are dropped or delayed, and not for each copy.
"""
import enum
from typing import Callable, Dict, Iterator, List, Tuple

from .log import Event, Events, Log
from .outline import Outline
from .play import DROP, Judge, line_of

FEW_ROUNDS = 16         # are tried ahead at first, and after a try of which little held
MOST_ROUNDS = 4096


class Kind(enum.Enum):
    """What a line of a try is."""
    LINE = 1            # a line of the home: one event
    HIDING = 2          # a copy that is under way is hidden from `flow`: one event, of this try alone
    SETTING = 3         # no event, of this try alone
    FLOW = 4            # any number of events, each a line of the home if it holds


Tried = List[Tuple[str, Kind]]


class Course:
    """A run until a moment. Each line that is sure is handed to `keep`, so that what was kept holds whenever the run is left.

    `late` has the moment at which a delayed copy is due, by its number.
    """

    def __init__(self, outline: Outline, log: Log, late: Dict[int, int], keep: Callable[[str], None]) -> None:
        self.outline = outline
        self.log = log
        self.late = late
        self.keep = keep
        self.ahead = FEW_ROUNDS
        self.in_round = False         # whether time has moved, and the mail has not flowed to its end yet
        self.unread = 0               # how many lines were kept whose events were not read yet

    def go(self, end: int, step: int, judge: Judge, play: Callable[[List[str]], str]) -> None:
        """Runs. `play` gives the log of the home and of further lines, from where it was read to."""
        while self.outline.moment < end or self.in_round:
            if self.in_round:
                self.treat(judge)
            tried = list(self.tried(end, step))
            events = Events(play([text for text, _ in tried]))
            self.read_on(events)
            begun = self.outline.moment
            holds = self.walk(tried, events, judge)
            rounds = (self.outline.moment - begun) // step
            self.ahead = min(2 * self.ahead, MOST_ROUNDS) if holds else max(FEW_ROUNDS, 2 * rounds)

    def read_on(self, events: Events) -> None:
        """Reads the events of the lines that were kept before."""
        while self.unread:
            self.log.take(events.next())
            self.unread -= 1

    def keep_unread(self, number: int, text: str) -> None:
        """A line on a copy is kept, and its event is read later. A copy that is delayed has no line yet."""
        if text:
            self.keep(text)
            self.log.waiting.pop(number, None)
            self.unread += 1

    def treat(self, judge: Judge) -> None:
        """Decides on the copies that are known to wait."""
        for number in [number for number in self.log.waiting if number not in self.late]:
            self.keep_unread(number, self.fate(number, judge))

    def fate(self, number: int, judge: Judge) -> str:
        """Asks of a copy, unless it cannot be delivered. The line for it; a copy that is delayed has none yet."""
        copy = self.log.copies[number - 1]
        fate = judge(copy) if self.outline.takes(copy.receiver, copy.endpoint) else DROP
        text = line_of(number, fate, self.outline.moment)
        if not text:
            self.late[number] = fate
        return text

    def tried(self, end: int, step: int) -> Iterator[Tuple[str, Kind]]:
        """The lines of a try."""
        moment, due = self.outline.moment, sorted((at, number) for number, at in self.late.items())
        if self.outline.loss:
            yield 'loss 0', Kind.SETTING
        yield from ((f'drop {number}', Kind.HIDING) for _, number in due)
        if self.in_round:
            yield 'flow', Kind.FLOW
        for _ in range(self.ahead):
            if moment >= end:
                break
            moment = min(moment + step, end)
            yield f'time {moment}', Kind.LINE
            yield from ((f'tick {name}', Kind.LINE) for name in self.outline.running())
            while due and due[0][0] <= moment:
                yield self.delayed(due.pop(0)[1]), Kind.LINE
            yield 'flow', Kind.FLOW

    def delayed(self, number: int) -> str:
        """The line for a delayed copy that is due."""
        copy = self.log.copies[number - 1]
        return f'{"deliver" if self.outline.takes(copy.receiver, copy.endpoint) else "drop"} {number}'

    def walk(self, tried: Tried, events: Events, judge: Judge) -> bool:
        """Keeps what holds of a try. Whether all of it does."""
        for text, kind in tried:
            if kind is Kind.HIDING:
                events.next()
            elif kind is Kind.LINE:
                self.happened(text, events.next())
            elif kind is Kind.FLOW and not self.flows(events, judge):
                return False
        return True

    def happened(self, text: str, event: Event) -> None:
        """A line of a try is what happens."""
        self.log.take(event)
        self.keep(text)
        if event.number is not None:
            self.late.pop(event.number, None)
        self.in_round = self.in_round or event.words[0] == 'time'

    def flows(self, events: Events, judge: Judge) -> bool:
        """The mail flows. Whether each copy is treated as in the try."""
        while True:
            event = events.peek()
            if event is None or event.number is None:
                self.in_round = False
                return True
            number = event.number
            text = self.fate(number, judge) if event.words[0] == 'deliver' else f'drop {number}'
            if text != f'{event.words[0]} {number}':
                self.keep_unread(number, text)
                return False
            self.happened(text, events.next())

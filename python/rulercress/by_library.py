"""A home that is played by the library: each line at once, in this process.

Reports that are asked are lines of the play, too, since they change nothing. They are no lines of the home. So when its
transcript is wanted, and a report was asked, the home's own lines are played beside it.
"""
import bisect
from typing import Dict, Iterator, List, Optional, Sequence, Tuple

from .calls import OVER, REFUSED, Lab, Library
from .errors import Problem, Refused
from .library import loaded
from .log import CutShort, Events, Log, Sent
from .outline import Outline
from .play import DROP, REPORTS, Judge, Play, deliver, line_of, words_of

LARGE = 15                                              # the code of a script that has too many bytes
UNKNOWN, STOPPED = 7, 12                                # the codes of looks at a router that is not there, or does not run
LOOKS = ('log', 'why', 'calm', 'table')
MOVING = frozenset(['time', 'run'])                     # lines by which the moment grows
WIRING = frozenset(['attach', 'detach'])                # lines by which links change
MARKING = MOVING | WIRING | {'flow', 'sync'}            # before these it has to be known how many copies there are
TOLD = WIRING | {'router', 'link', 'start', 'stop'}     # lines of which the outline has to know


def encoded(text: str) -> bytes:
    """A line as the library reads it. What is no ASCII it refuses."""
    return text.encode('utf-8', 'replace')


class Origins:
    """When copies were made, and over which link, as far as the lines that were played tell it.

    A copy is known by its number. Within a line `run` moments pass, so of the copies that it made they are not known.
    """

    def __init__(self) -> None:
        self._firsts: List[int] = [1]                   # from which number on a moment holds
        self._moments: List[Optional[int]] = [0]
        self._links: Dict[Tuple[str, int], List[Tuple[int, str]]] = {}     # of each endpoint: from which number on, which link

    def begin(self, first: int, moment: Optional[int]) -> None:
        """The copies from a number on are made at this moment."""
        if self._firsts[-1] == first:
            self._moments[-1] = moment
        else:
            self._firsts.append(first)
            self._moments.append(moment)

    def wire(self, first: int, endpoint: Tuple[str, int], link: str) -> None:
        """The copies from a number on go from this endpoint over that link."""
        self._links.setdefault(endpoint, []).append((first, link))

    def moment(self, number: int) -> Optional[int]:
        """When a copy was made, if that is known."""
        return self._moments[bisect.bisect_right(self._firsts, number) - 1]

    def are_told(self, first: int, last: int) -> bool:
        """Whether the moments are known of all copies from a number to another."""
        begin = bisect.bisect_right(self._firsts, first) - 1
        pairs = zip(self._firsts[begin:], self._moments[begin:])
        return first > last or None not in (moment for number, moment in pairs if number <= last)

    def link(self, number: int, endpoint: Tuple[str, int]) -> str:
        """Over which link an endpoint sent a copy."""
        return next((link for first, link in reversed(self._links.get(endpoint, ())) if first <= number), '')


class LibraryPlay(Play):
    """A home of the laboratory."""

    def __init__(self, library: Library, version: int) -> None:
        self._library = library
        self._version = version
        self._lines = [f'hncp {version}']
        try:
            self._lab = Lab(library, version)
        except ValueError:
            raise Refused(1, 1, self._lines[0], True) from None
        self._has_asked = False                         # whether a report was asked, which is a line of the play and none of the home
        self._clean: Optional[Lab] = None               # the lines of the home alone,
        self._cleaned = 1                               # and how many of them were played there
        self._outline = Outline()
        self._origins = Origins()
        self._late: Dict[int, int] = {}
        self._log = Log()                               # as far as it was read
        self._looked: Dict[int, Sent] = {}              # copies that were looked at alone, by number
        self._waiting: List[int] = []                   # the copies that waited,
        self._seen = 0                                  # when there were so many
        self._over: Optional[Refused] = None

    def __reduce__(self) -> Tuple[object, ...]:
        """A copy is played anew."""
        return played, (self._library.path, self._version, self._lines, self._late)

    @property
    def moment(self) -> int:
        return self._lab.moment()

    @property
    def lines(self) -> Sequence[str]:
        return self._lines

    # Lines

    def add(self, text: str) -> None:
        words = self._may_go_on(text)
        made = self._lab.copies() if words[0] in MARKING else 0
        status = self._added(text)
        if status == OVER:
            self._lines.append(text)
            self._origins.begin(made + 1, None)
            self._over = Refused(self._lab.code, len(self._lines), text, True)
            raise self._over
        if status:
            raise Refused(self._lab.code, len(self._lines) + 1, text)
        self._lines.append(text)
        self._keep(words, made)

    def tell(self, text: str) -> List[str]:
        start = self._lab.size()
        self.add(text)
        return self._lab.text(start).splitlines()

    def _may_go_on(self, text: str) -> List[str]:
        """The words of a line that may be played."""
        if self._over:
            raise self._over
        return words_of(text)

    def _added(self, text: str) -> int:
        """A line is added to the play. One that has no room beside the reports that were asked may have some without them."""
        status = self._lab.line(encoded(text))
        if status == REFUSED and self._lab.code == LARGE and self._has_asked:
            self._lab, self._has_asked, self._clean = self._alone(), False, None
            status = self._lab.line(encoded(text))
        return status

    def _keep(self, words: Sequence[str], made: int) -> None:
        """What is known after a line. Before it so many copies were made."""
        word = words[0]
        if word in ('deliver', 'drop'):
            self._late.pop(int(words[1]), None)
        elif word in ('flow', 'run'):
            self._late.clear()
        if word in TOLD:
            getattr(self._outline, 'on_' + word)(*words[1:])
        if word in WIRING:
            self._origins.wire(made + 1, (words[1], int(words[2])), words[3] if word == 'attach' else '')
        if word == 'run':
            self._origins.begin(made + 1, None)
        if word in MOVING:
            self._origins.begin(self._lab.copies() + 1, self._lab.moment())

    # Reports

    def ask(self, report: str) -> List[str]:
        if self._may_go_on(report)[0] not in REPORTS:
            raise ValueError(f'{report!r} is no report')
        start = self._lab.size()
        if self._added(report):
            raise Refused(self._lab.code, len(self._lines) + 1, report)
        self._has_asked = True
        return self._lab.text(start).splitlines()

    def _alone(self) -> Lab:
        """A play of the lines of the home alone."""
        if not self._clean:
            self._clean, self._cleaned = Lab(self._library, self._version), 1
        for text in self._lines[self._cleaned:]:
            self._clean.line(encoded(text))
        self._cleaned = len(self._lines)
        return self._clean

    def transcript(self) -> List[str]:
        own = self._alone() if self._has_asked else self._lab
        if own.script() != encoded('\n'.join([*self._lines, ''])):
            raise Problem(f'{self._library.path} tells of another script than was played')
        return own.text().splitlines()

    def look(self, form: str, *names: str) -> List[str]:
        if form not in LOOKS or len(names) != (form != 'log'):
            raise Problem(f'{" ".join([form, *names])} is no look at a home')
        text = self._lab.look(form, *names)
        if text is None:
            code = STOPPED if names[0] in self._outline.routers else UNKNOWN
            raise Refused(code, len(self._lines) + 1, f'{form} {" ".join(names)}')
        return text.splitlines() + ([f'refused {self._over.number} {self._over.code}'] if self._over else [])

    # Copies

    def copies(self) -> Sequence[Sent]:
        count, read = self._lab.copies(), len(self._log.copies)
        if self._origins.are_told(read + 1, count):
            return [*self._log.copies, *map(self._sent, range(read + 1, count + 1))]
        self._read_log()
        return list(self._log.copies)

    def waiting(self) -> List[int]:
        count = self._lab.copies()
        first = max(self._seen, (self._lab.next() or count + 1) - 1) + 1
        self._waiting = [number for number in [*self._waiting, *range(first, count + 1)] if self._lab.copy(number).waits]
        self._seen = count
        return list(self._waiting)

    def _read_log(self) -> None:
        """Reads the log of what happened since it was read."""
        events = Events((self._lab.look('log') or '')[self._log.size:])
        try:
            while events.peek():
                self._log.take(events.next())
        except CutShort:
            pass        # the home ended there
        self._looked.clear()

    def _sent(self, number: int) -> Sent:
        """A copy that was made."""
        if number <= len(self._log.copies):
            return self._log.copies[number - 1]
        sent = self._looked.get(number)
        if sent is None:
            copy, moment = self._lab.copy(number), self._origins.moment(number)
            if moment is None:
                self._read_log()
                return self._log.copies[number - 1]
            link = self._origins.link(number, (copy.sender, copy.sender_endpoint))
            sent = Sent(number, moment, copy.sender, copy.sender_endpoint, copy.receiver, copy.endpoint, copy.is_multicast, copy.data, link)
            self._looked[number] = sent
        return sent

    # Time

    def run(self, end: int, step: int, judge: Optional[Judge]) -> None:
        if judge is None and not self._late or end < self.moment:
            self.add(f'run {end} {step}')
            return
        self._may_go_on('flow')
        try:
            self._rounds(end, step, judge or deliver)
        except CutShort as cut:
            raise Refused(cut.code, len(self._lines) + 1, f'run {end} {step}') from None

    def _rounds(self, end: int, step: int, judge: Judge) -> None:
        """Rounds, in each of which copies come in order of number."""
        treated = None                                  # how many copies were treated, or are under way
        moment = self.moment
        while moment < end:
            moment = min(moment + step, end)
            self._pass(moment)
            if treated is None:
                waiting, treated = self.waiting(), self._lab.copies()
                for number in [number for number in waiting if number not in self._late]:
                    self._treat(number, moment, judge)
            while treated < self._lab.copies():
                treated += 1
                self._treat(treated, moment, judge)

    def _pass(self, moment: int) -> None:
        """Time passes, each running router ticks, and the delayed copies come that are due."""
        made = self._lab.copies()
        self._put(f'time {moment}')
        self._origins.begin(made + 1, moment)
        for name in self._outline.running():
            self._put(f'tick {name}')
        for _, number in sorted((due, number) for number, due in self._late.items() if due <= moment):
            copy = self._sent(number)
            del self._late[number]
            self._put(f'deliver {number}' if self._outline.takes(copy.receiver, copy.endpoint) else f'drop {number}')

    def _treat(self, number: int, moment: int, judge: Judge) -> None:
        """Asks of a copy, unless it cannot be delivered, and does so."""
        copy = self._sent(number)
        fate = judge(copy) if self._outline.takes(copy.receiver, copy.endpoint) else DROP
        text = line_of(number, fate, moment)
        if text:
            self._put(text)
        else:
            self._late[number] = fate

    def _put(self, text: str) -> None:
        """A line of a run is played."""
        if self._added(text):
            raise CutShort(self._lab.code)
        self._lines.append(text)

    def looks(self, ends: Sequence[int], step: int) -> Iterator[None]:
        for end in ends:
            self.run(end, step, None)
            yield


def played(path: str, version: int, lines: Sequence[str], late: Dict[int, int]) -> LibraryPlay:
    """A play of these lines, by the library of a path."""
    play = LibraryPlay(loaded(path), version)
    try:
        for text in lines[1:]:
            play.add(text)
    except Refused:
        pass        # the home ended there
    play._late.update(late)
    return play

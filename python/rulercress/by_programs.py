"""A home that is played by the programs hncp and hnlook.

A program plays a whole script. So a line that is surely not refused is left until something is asked, and then one play is
made for all of them. Reports are put behind the script of a play of their own, with those that were asked before beside
them, so that a condition on four routers costs one play. All plays are from the beginning: in a home of N lines a play takes
time as N lines do.
"""
from typing import Dict, Iterator, List, Optional, Sequence, Tuple

from . import programs
from .courses import Course
from .errors import Refused
from .log import CutShort, Events, Log, Sent
from .outline import Outline
from .play import REPORTS, Judge, Play, deliver, words_of

BEFORE_PLAY = (1, 2, 3, 4, 5, 6, 15)                   # codes that are looked for before anything happens
PARTLY = ('run', 'flow', 'sync', 'address', 'ula')     # lines that can be refused when a part has happened
LATER = (9, 16, 19)                                    # and the codes with which that may be so
LISTS = ('used', 'prefixes', 'addresses')              # reports with a count, and a line for each
MARK = 'mail'                                          # a report that parts what was written before from what is asked
FEW_ROUTERS = 16                                       # in a home of so many all routers are asked for a report at once
FEW_LOOKS = 4
MOST_LOOKS = 64


def refusal(texts: Sequence[str]) -> Optional[Tuple[int, int]]:
    """The line and the code of the refusal that ends a transcript or a log."""
    words = texts[-1].split() if texts else []
    return (int(words[1]), int(words[2])) if words[:1] == ['refused'] else None


def answers_of(reports: Sequence[str], texts: Sequence[str]) -> Dict[str, List[str]]:
    """The lines of each report, from those of all."""
    found, at = {}, 0
    for report in reports:
        is_list = report.split(' ')[0] in LISTS
        end = at + 1 + (int(texts[at].split()[2]) if is_list else 0)
        found[report] = list(texts[at:end])
        at = end
    return found


class ProgramPlay(Play):
    """A home of `hncp lab`."""

    def __init__(self, version: int) -> None:
        self._lines = [f'hncp {version}']
        self._outline = Outline()
        self._log = Log()
        self._late: Dict[int, int] = {}
        self._read = 1                                    # how many lines the log was read of
        self._answers: Dict[str, List[str]] = {}          # of reports at the end of the script
        self._wanted: Dict[str, None] = {}                # reports that were asked of late
        self._text: Optional[Tuple[int, List[str]]] = None    # the transcript of so many lines
        self._over: Optional[Refused] = None
        self._course: Optional[Course] = None             # the run that is going on

    @property
    def moment(self) -> int:
        return self._outline.moment

    @property
    def lines(self) -> Sequence[str]:
        return self._lines

    # Lines

    def add(self, text: str) -> None:
        words = self._may_go_on(text)
        if words[0] in ('deliver', 'drop'):
            self.copies()
        if self._is_sure(words):
            self._keep(text)
        else:
            self.tell(text)

    def tell(self, text: str) -> List[str]:
        words = self._may_go_on(text)
        if text not in self._answers:
            wrote = self._written([MARK, text], 1)
            told = wrote[-1:] if words[0] == MARK else wrote[self._last_mark(wrote) + 1:]
            self._keep(text)
            return told
        told = self._answers[text]
        self._keep(text)
        return told

    def _may_go_on(self, text: str) -> List[str]:
        """The words of a line that may be played."""
        if self._over:
            raise self._over
        return words_of(text)

    def _is_sure(self, words: Sequence[str]) -> bool:
        if words[0] not in ('deliver', 'drop'):
            return self._outline.is_sure(words)
        number = int(words[1]) if len(words) == 2 and words[1].isdigit() else 0
        if not 1 <= number <= len(self._log.copies):
            return False
        copy = self._log.copies[number - 1]
        return words[0] == 'drop' or self._outline.takes(copy.receiver, copy.endpoint)

    def _keep(self, text: str) -> None:
        """A line is one of the script."""
        words = text.split()
        self._lines.append(text)
        self._outline.take(words)
        self._answers = {}
        if words[0] in ('deliver', 'drop'):
            self._late.pop(int(words[1]), None)
        elif words[0] in ('flow', 'run'):
            self._late.clear()

    # Plays

    def _written(self, more: Sequence[str], marks: int) -> List[str]:
        """The transcript of the script and further lines, of which the first `marks` are no lines of the home."""
        text, status = programs.run('hncp', ['lab'], self._bytes(more))
        texts = text.splitlines()
        refused = refusal(texts) if status else None
        if refused:
            self._refuse(*refused, more, marks)
        return texts

    def _bytes(self, more: Sequence[str]) -> bytes:
        return ('\n'.join([*self._lines, *more]) + '\n').encode('utf-8', 'replace')

    def _refuse(self, number: int, code: int, more: Sequence[str], marks: int) -> None:
        """A line was refused: a further one, or one that had been left until now."""
        count = len(self._lines)
        if number > count or number == 0:
            line = more[number - count - 1] if number else (list(more) or self._lines)[-1]
            is_over = line.split()[0] in PARTLY and code in LATER
            refused = Refused(code, max(count + 1, number - marks), line, is_over)
            if is_over:
                self._lines.append(line)
                self._over = refused
            raise refused
        del self._lines[number:]
        self._answers = {}
        self._over = Refused(code, number, self._lines[-1], True)
        raise self._over

    @staticmethod
    def _last_mark(texts: Sequence[str]) -> int:
        return max(place for place, text in enumerate(texts) if text.startswith(MARK + ' '))

    # Reports

    def ask(self, report: str) -> List[str]:
        words = self._may_go_on(report)
        if words[0] not in REPORTS:
            raise ValueError(f'{report!r} is no report')
        if words[0] == MARK:
            return self._written([report], 0)[-1:]
        report = ' '.join(words)
        if report not in self._answers:
            self._want(report)
            others = [each for each in self._may_be_asked() if each != report]
            self._answers.update(self._asked([*others, report]))
        return self._answers[report]

    def _may_be_asked(self) -> List[str]:
        """Reports that are asked in one go with others: those that were asked of late, of routers that run."""
        running = set(self._outline.running())
        return [report for report in self._wanted if running.issuperset(report.split(' ')[1:2]) and report not in self._answers]

    def _want(self, report: str) -> None:
        """A report is asked. In a small home it is soon asked of each router, so it is asked of each at once."""
        words, running = report.split(' '), self._outline.running()
        if len(words) == 2 and len(running) <= FEW_ROUTERS:
            self._wanted.update((f'{words[0]} {name}', None) for name in running)
        self._wanted[report] = None

    def _asked(self, reports: List[str]) -> Dict[str, List[str]]:
        if len(reports) > 1:
            try:
                return self._asked_at_once(reports)
            except Refused as refused:
                if refused.is_over:
                    raise
                self._wanted = {}
        return self._asked_at_once(reports[-1:])

    def _asked_at_once(self, reports: List[str]) -> Dict[str, List[str]]:
        wrote = self._written([MARK, *reports], 1)
        return answers_of(reports, wrote[self._last_mark(wrote) + 1:])

    def transcript(self) -> List[str]:
        if self._over and self._over.is_over:
            return programs.run('hncp', ['lab'], self._bytes([]))[0].splitlines()
        if not self._text or self._text[0] != len(self._lines):
            self._text = len(self._lines), self._written([], 0)
        return self._text[1]

    def look(self, form: str, *names: str) -> List[str]:
        texts = programs.run('hnlook', [form, *names], self._bytes([]))[0].splitlines()
        refused = refusal(texts)
        if refused and refused[0] == 0:
            raise Refused(refused[1], len(self._lines) + 1, f'{form} {" ".join(names)}')
        if refused and not self._over:
            self._refuse(*refused, [], 0)
        return texts

    # Copies

    def copies(self) -> Sequence[Sent]:
        self._read_log()
        return self._log.copies

    def waiting(self) -> List[int]:
        self._read_log()
        return list(self._log.waiting)

    def _read_log(self) -> None:
        """Reads the log of all lines."""
        if self._read == len(self._lines):
            return
        events = Events(self._logged([]))
        try:
            while events.peek():
                self._log.take(events.next())
        except CutShort:
            if not self._over:
                self.transcript()
        self._read = len(self._lines)
        if self._course:
            self._course.unread = 0

    def _logged(self, more: List[str]) -> str:
        """The log of the home and of further lines, from where it was read to."""
        return programs.run('hnlook', ['log'], self._bytes(more))[0][self._log.size:]

    # Time

    def run(self, end: int, step: int, judge: Optional[Judge]) -> None:
        if judge is None and not self._late or end < self.moment:
            self.add(f'run {end} {step}')
            return
        self._may_go_on('flow')
        self._read_log()
        self._course = Course(self._outline, self._log, self._late, self._keep)
        try:
            self._course.go(end, step, judge or deliver, self._logged)
        except CutShort as cut:
            raise Refused(cut.code, len(self._lines) + 1, f'run {end} {step}') from None
        finally:
            self._read = 0 if self._course.unread else len(self._lines)
            self._course = None

    def looks(self, ends: Sequence[int], step: int) -> Iterator[None]:
        at, ahead = 0, FEW_LOOKS
        while at < len(ends):
            part = ends[at:at + ahead]
            for end, answers in zip(part, self._foreseen(part, step)):
                self.run(end, step, None)
                self._answers = answers
                yield
            at, ahead = at + len(part), min(2 * ahead, MOST_LOOKS)

    def _foreseen(self, ends: Sequence[int], step: int) -> List[Dict[str, List[str]]]:
        """What the reports that were asked of late will write at these moments, if the home runs to them: one play for all."""
        nothing: List[Dict[str, List[str]]] = [{} for _ in ends]
        reports = self._may_be_asked() + list(self._answers)
        if self._late or not reports:
            return nothing
        more = [text for end in ends for text in (f'run {end} {step}', MARK, *reports)]
        texts, status = programs.run('hncp', ['lab'], self._bytes(more))
        if status:
            return nothing      # the home plays on to the line that is refused
        wrote = texts.splitlines()
        marks = [place for place, text in enumerate(wrote) if text.startswith(MARK + ' ')][-len(ends):]
        return [answers_of(reports, wrote[mark + 1:]) for mark in marks]

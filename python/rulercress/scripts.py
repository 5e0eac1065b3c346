"""Whole scripts, played by the library: what `hncp lab` and `hnlook` write of them, and their statuses."""
from typing import List, Optional, Sequence, Tuple

from .calls import OVER, Lab, Library

DONE, REFUSED = 0, 2
MOST_BYTES, MOST_IN_A_LINE = 2 ** 24, 16384
BEFORE_PLAY = (2, 3, 4, 5, 6)           # the codes of lines that are looked for before anything happens
VERSIONS = {b'hncp 1': 1, b'hncp 2': 2}
NO_VERSION, LONG, BYTE, LARGE = 1, 5, 6, 15
UNKNOWN, STOPPED = 7, 12
Refusal = Tuple[int, int]               # the number of a line, and the code


def _fault_of_first(line: bytes) -> int:
    """The code by which a first line is refused, or 0."""
    if len(line) > MOST_IN_A_LINE:
        return LONG
    if any(not 0x20 <= octet <= 0x7e for octet in line):
        return BYTE
    return 0 if line in VERSIONS else NO_VERSION


class Script:
    """A script that was played to its end, or to the line that was refused. Nothing was played where the text has a fault."""

    def __init__(self, library: Library, data: bytes) -> None:
        self._library = library
        self._lines = data.split(b'\n')
        if not self._lines[-1]:
            self._lines.pop()
        self.lab: Optional[Lab] = None
        self.refused = (0, LARGE) if len(data) > MOST_BYTES else self._play()

    def _play(self) -> Optional[Refusal]:
        code = _fault_of_first(self._lines[0]) if self._lines else NO_VERSION
        if code:
            return 1, code
        lab = Lab(self._library, VERSIONS[self._lines[0]])
        for number, line in enumerate(self._lines[1:], 2):
            status = lab.line(line)
            if status:
                return self._refuse(lab, number, status)
        self.lab = lab
        return None

    def _refuse(self, lab: Lab, number: int, status: int) -> Refusal:
        """A line was refused. A fault of the text is told first, wherever it is."""
        if status != OVER and lab.code in BEFORE_PLAY:
            return number, lab.code
        fault = self._fault_after(number)
        if fault:
            return fault
        self.lab = lab
        return number, lab.code

    def _fault_after(self, number: int) -> Optional[Refusal]:
        """The first fault of a line after this one. What the others do in an empty home is of no account."""
        lab = None
        for place, line in enumerate(self._lines[number:], number + 1):
            lab = lab or Lab(self._library, VERSIONS[self._lines[0]])
            status = lab.line(line)
            if status and status != OVER and lab.code in BEFORE_PLAY:
                return place, lab.code
            if status == OVER:
                lab = None
        return None

    def ended(self, text: str) -> Tuple[str, int]:
        """A text with the line of the refusal, and the status."""
        return (text, DONE) if self.refused is None else (text + 'refused {} {}\n'.format(*self.refused), REFUSED)

    def transcript(self) -> Tuple[str, int]:
        """What `hncp lab` writes, and its status."""
        text = self.lab.text() if self.lab else ''
        if self.lab and self.lab.is_over():
            text = text[:text.rfind('\n', 0, -1) + 1]       # it has the refusal, by the number of lines that do something
        return self.ended(text)

    def look(self, form: str, names: Sequence[str]) -> Tuple[str, int]:
        """What `hnlook` writes by a form, and its status."""
        if self.lab is None:
            return self.ended('')
        text = self.lab.look(form, *names)
        if text is None:
            code = UNKNOWN if self.lab.runs(names[0]) is None else STOPPED
            return self.ended(f'refused 0 {code}\n')[0], REFUSED
        return self.ended(text)


def run(library: Library, name: str, words: Sequence[str], data: bytes) -> Tuple[str, int]:
    """What hncp or hnlook with these words writes for these bytes, and its status."""
    script = Script(library, data)
    return script.transcript() if name == 'hncp' else script.look(words[0], words[1:])

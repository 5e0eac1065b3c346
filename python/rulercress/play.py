"""What plays a home: an interface, so that another player can take the place of the programs."""
import abc
from typing import Callable, Iterator, List, Optional, Sequence, Union

from .log import Sent


class Drop:
    """The fate of a copy that is lost."""


DROP = Drop()
# What becomes of a copy: nothing is delivery at once, a number the moment of its delivery in milliseconds.
Fate = Union[None, int, Drop]
Judge = Callable[[Sent], Fate]
REPORTS = frozenset('show hash used prefixes elect advert audit compare mail addresses addressed ulas'.split())


def deliver(copy: Sent) -> None:
    """The fate of a copy that nothing delays."""


def line_of(number: int, fate: Fate, moment: int) -> str:
    """The line for a copy of a fate. A copy that is delayed has none yet."""
    if isinstance(fate, Drop):
        return f'drop {number}'
    return f'deliver {number}' if fate is None or fate <= moment else ''


def words_of(text: str) -> List[str]:
    """The words of a line that does something. Another text is an error of the caller."""
    words = [word for word in text.split(' ') if word]
    if not words or words[0].startswith('#') or '\n' in text:
        raise ValueError(f'{text!r} is no line of a script that does something')
    return words


class Play(abc.ABC):
    """A home that is played, to whose script lines are added. Moments are in milliseconds.

    Each line that is refused raises Refused. Texts are lines without their LF.
    """

    @property
    @abc.abstractmethod
    def moment(self) -> int:
        """The moment of the home."""

    @property
    @abc.abstractmethod
    def lines(self) -> Sequence[str]:
        """The lines of the script that was played so far, its first line among them."""

    @abc.abstractmethod
    def add(self, text: str) -> None:
        """Plays a line. A player may leave it until something is asked, if it is surely not refused."""

    @abc.abstractmethod
    def tell(self, text: str) -> List[str]:
        """Plays a line, and gives the lines of the transcript that it wrote."""

    @abc.abstractmethod
    def ask(self, report: str) -> List[str]:
        """What a report would write now. The script stays as it is."""

    @abc.abstractmethod
    def transcript(self) -> List[str]:
        """All lines that were written."""

    @abc.abstractmethod
    def look(self, form: str, *names: str) -> List[str]:
        """What `hnlook` with this form says of the home now: `log`, `why NAME` or `table NAME`."""

    @abc.abstractmethod
    def copies(self) -> Sequence[Sent]:
        """All copies that were made, by number from 1 on."""

    @abc.abstractmethod
    def waiting(self) -> List[int]:
        """The numbers of the copies that wait, in order."""

    @abc.abstractmethod
    def run(self, end: int, step: int, judge: Optional[Judge]) -> None:
        """Time passes until `end` in rounds, in each of which all running routers tick, and then the mail flows.

        With `judge` each copy that can be delivered is asked of once, in order of number. What it decides is written as lines
        `deliver` and `drop`. Without it a line `run` is played, unless a copy is still under way that was delayed before.
        """

    @abc.abstractmethod
    def looks(self, ends: Sequence[int], step: int) -> Iterator[None]:
        """Runs to one moment after the other, as far as the caller goes on."""

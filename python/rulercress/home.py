"""A home of HNCP routers that is driven by hand."""
import contextlib
import os
import sys
from typing import Callable, Dict, Iterator, List, NamedTuple, Optional, Union

from . import players
from .errors import NotReached, Problem
from .log import Sent
from .parts import Copy, Link, Place, Router
from .play import DROP, Fate, Judge, Play
from .reports import Audit, audit_of

MILLISECONDS = 1000
SECOND = 1.0
STEP = 0.1               # of a round, in seconds


def milliseconds(seconds: float) -> int:
    """A time in milliseconds, from seconds."""
    return round(seconds * MILLISECONDS)


class Change(NamedTuple):
    """A line of the command timeline: the moment in seconds, of whom, and what changed."""
    moment: float
    whom: str
    what: str


class Home:
    """Routers, links, and a moment that stands still until `run` or `time` moves it.

    Each method plays lines of the language of `hncp lab`, and the lines played are the home's script: `repr(home)` is it,
    and `hncp lab` plays it to `home.transcript`, byte for byte. Times are in seconds, and a step of time is a millisecond at
    the least. `seed` begins the stream of random words; without it each word is 0.
    """

    def __init__(self, seed: Optional[int] = None, loss: int = 0, version: int = 2, play: Optional[Play] = None) -> None:
        self.play: Play = play or players.home(version)
        self.named: Dict[str, Router] = {}
        self.links: Dict[str, Link] = {}
        self._last: List[str] = []              # what was told last
        if seed is not None or loss:
            self.set(seed=seed, loss=loss or None)

    # What was played

    @property
    def script(self) -> str:
        """The script of the lines that were played."""
        return ''.join(line + '\n' for line in self.play.lines)

    @property
    def transcript(self) -> str:
        """What `hncp lab` writes for the script: a play."""
        return ''.join(line + '\n' for line in self.play.transcript())

    def __repr__(self) -> str:
        return self.script

    def save(self, path: Union[str, 'os.PathLike[str]']) -> None:
        """Writes the script to a file."""
        with open(path, 'w', encoding='ascii') as file:
            file.write(self.script)

    def timeline(self, path: Union[str, 'os.PathLike[str]']) -> List[Change]:
        """Writes the page of the command timeline to a file, and gives what changed when. It plays the home some times."""
        from .commands import timeline      # it takes a while to load, and few homes need it
        told = timeline.told_of(self.play.lines)
        timeline.write_page(told, path, 'home.script')
        return [Change(moment / MILLISECONDS, whom, what) for moment, whom, what in timeline.rows(told)]

    @contextlib.contextmanager
    def saved_if_failing(self, stem: Union[str, 'os.PathLike[str]']) -> Iterator['Home']:
        """If what is done in it raises, writes STEM.script and, where hnlook is there, STEM.html, and says so on standard
        error with what was told last: pytest shows that beside a failed assertion."""
        try:
            yield self
        except BaseException:
            saved = [f'{os.fspath(stem)}.script', f'{os.fspath(stem)}.html']
            self.save(saved[0])
            try:
                self.timeline(saved[1])
            except Problem as problem:
                saved[1:] = [f'no page: {problem}']
            print(f'told last: {"; ".join(self._last[:3]) or "nothing"}\nsaved: {", ".join(saved)}', file=sys.stderr)
            raise

    @property
    def log(self) -> List[str]:
        """What happened, as the lines of `hnlook log`: a play."""
        return self.look('log')

    @property
    def moment(self) -> float:
        """The moment, in seconds."""
        return self.play.moment / MILLISECONDS

    # What it is made of

    @property
    def routers(self) -> List[Router]:
        """The routers, in order of definition."""
        return list(self.named.values())

    def router(self, name: str, identifier: Optional[int] = None) -> Router:
        """A new running router. Its identifier is the next number that no router has, if none is given."""
        taken = {router.identifier for router in self.named.values()}
        if identifier is None:
            identifier = next(number for number in range(1, len(taken) + 2) if number not in taken)
        self.play.add(f'router {name} {identifier:08x}')
        self.named[name] = Router(self, name, identifier)
        return self.named[name]

    def link(self, name: str, *routers: Router) -> Link:
        """A new link. Each of the routers is attached by its next free endpoint."""
        self.play.add(f'link {name}')
        self.links[name] = Link(name)
        for router in routers:
            self.attach(router, self.links[name])
        return self.links[name]

    def attach(self, router: Router, link: Link, endpoint: Optional[int] = None) -> int:
        """An endpoint of the router, the next free one if none is given, is attached to the link. Gives its number."""
        if endpoint is None:
            endpoint = next(number for number in range(1, len(router.endpoints) + 2) if number not in router.endpoints)
        self.play.add(f'attach {router.name} {endpoint} {link.name}')
        router.endpoints[endpoint] = link
        return endpoint

    def detach(self, router: Router, place: Place) -> int:
        """The router's endpoint of this number, or on this link, is detached. Gives its number."""
        endpoint = self.endpoint(router, place)
        self.play.add(f'detach {router.name} {endpoint}')
        router.endpoints.pop(endpoint, None)
        return endpoint

    def endpoint(self, router: Router, place: Place) -> int:
        """The number of the router's endpoint on a link."""
        if isinstance(place, int):
            return place
        found = next((number for number, link in router.endpoints.items() if link is place), None)
        if found is None:
            raise ValueError(f'{router.name} has no endpoint on {place.name}')
        return found

    # What happens to routers

    def external(self, router: Router, prefix: str, valid: int = 7200, preferred: int = 3600) -> None:
        """The router gets a delegated prefix, or the same one with lifetimes that begin now. Lifetimes are in seconds;
        4294967295 never ends."""
        self.play.add(f'external {router.name} {prefix} {valid} {preferred}')

    def withdraw(self, router: Router, prefix: str) -> None:
        """The router no longer has this delegated prefix."""
        self.play.add(f'withdraw {router.name} {prefix}')

    def caps(self, router: Router, mdns: int = 0, delegation: int = 0, hosts: int = 0, ipv4: int = 0) -> None:
        """The router's capabilities, M, P, H and L, each from 0 to 7 (RFC 7788, section 10.1)."""
        self.play.add(f'caps {router.name} {mdns} {delegation} {hosts} {ipv4}')

    def start(self, *routers: Router) -> None:
        """The routers restart, whether they run or not; without a name all do."""
        for router in routers or self.routers:
            self.play.add(f'start {router.name}')
            router.running = True

    def stop(self, *routers: Router) -> None:
        """The routers stop; without a name all that run do."""
        for router in routers or [router for router in self.routers if router.running]:
            self.play.add(f'stop {router.name}')
            router.running = False

    def set(self, seed: Optional[int] = None, loss: Optional[int] = None) -> None:
        """Begins the stream of random words anew, and says how many of a hundred copies are lost from now on."""
        if seed is not None:
            self.play.add(f'seed {seed}')
        if loss is not None:
            self.play.add(f'loss {loss}')

    def inject(self, router: Router, place: Place, data: bytes, way: str = 'multi') -> List[str]:
        """A datagram of these bytes, from outside of the home, comes to an endpoint: by `multi` or `uni`, or from `far`.
        Gives the notes that the router took."""
        return self.line(f'inject {router.name} {self.endpoint(router, place)} {way} {data.hex() or "-"}')

    def sync(self, asked: Router, asking: Router) -> None:
        """The second router asks the first for the network state, and no copy of that is lost."""
        self.play.add(f'sync {asked.name} {asking.name}')

    def line(self, text: str) -> List[str]:
        """Plays any line of the language, and gives the lines that it writes. Lines that make a router or a link, or
        start, stop, attach or detach one, are for the methods."""
        if text.split()[:1] and text.split()[0] in ('router', 'link', 'attach', 'detach', 'start', 'stop'):
            raise ValueError(f'{text!r}: there is a method for it')
        return self._told(self.play.tell(text))

    # Reports

    def ask(self, report: str) -> List[str]:
        """What a report would write now. It leaves no line in the script."""
        return self._told(self.play.ask(report))

    def look(self, form: str, *names: str) -> List[str]:
        """What `hnlook log`, `why NAME` or `table NAME` says now: a play."""
        return self._told(self.play.look(form, *names))

    def audit(self, router: Router) -> Audit:
        """Whether the router and those that it reaches are settled, quiet and sound. It leaves a line `audit` in the script."""
        return audit_of(self.line(f'audit {router.name}')[0])

    def _told(self, lines: List[str]) -> List[str]:
        self._last = lines
        return lines

    # Copies

    @property
    def copies(self) -> List[Copy]:
        """All copies that were made, by number."""
        return [Copy(self, sent) for sent in self.play.copies()]

    @property
    def waiting(self) -> List[Copy]:
        """The copies that wait, in order of number. So does one that is delayed."""
        numbers = self.play.waiting()
        return [Copy(self, self.play.copies()[number - 1]) for number in numbers]

    def deliver(self, copy: Copy) -> None:
        """The copy is delivered, whether it waits or not. So it may be delivered more than once."""
        self.play.add(f'deliver {copy.number}')

    def drop(self, copy: Copy) -> None:
        """The copy waits no longer."""
        self.play.add(f'drop {copy.number}')

    def flow(self) -> None:
        """All waiting copies are treated in order of number, new ones included, until none waits."""
        self.play.add('flow')

    # Time

    def time(self, seconds: float) -> None:
        """So many seconds pass, and nobody looks at a clock."""
        self.play.add(f'time {self.play.moment + milliseconds(seconds)}')

    def tick(self, *routers: Router) -> None:
        """The routers look at their clocks and do what is due; without a name all that run do."""
        for router in routers or [router for router in self.routers if router.running]:
            self.play.add(f'tick {router.name}')

    def run(self, seconds: float, step: float = STEP, drop: Optional[Callable[[Copy], object]] = None,
            delay: Optional[Callable[[Copy], float]] = None) -> None:
        """So many seconds pass in rounds of `step` seconds. In each all running routers tick, and then the mail flows.

        With `drop` or `delay` each copy that can be delivered is asked of once, in order of number: a copy of which `drop`
        says something true is lost, and one of which `delay` says seconds comes in the first round so much later. This is
        played by lines `time`, `tick`, `deliver` and `drop`; the home's own `loss` takes no copy of these. Without them a
        line `run` is played. By the programs they cost a play for each time at which copies are dropped or delayed.

        Notes of routers are written by `deliver` lines and not by `run`, so a home with `drop` has a longer transcript.
        """
        self.play.run(self.play.moment + milliseconds(seconds), max(1, milliseconds(step)), self._judge(drop, delay))

    def _judge(self, drop: Optional[Callable[[Copy], object]], delay: Optional[Callable[[Copy], float]]) -> Optional[Judge]:
        if drop is None and delay is None:
            return None

        def judge(sent: Sent) -> Fate:
            copy = Copy(self, sent)
            if drop is not None and drop(copy):
                return DROP
            late = milliseconds(delay(copy)) if delay is not None else 0
            return self.play.moment + late if late > 0 else None
        return judge

    def until(self, condition: Callable[[], object], within: float, step: float = STEP, every: float = SECOND,
              drop: Optional[Callable[[Copy], object]] = None, delay: Optional[Callable[[Copy], float]] = None) -> float:
        """Runs until the condition holds, and gives how many seconds that took.

        The condition is asked at once, and then each `every` seconds. If it does not hold `within` so many seconds, NotReached
        is raised, a failed assertion. By the programs, without `drop` and `delay`, the reports of the condition are played ahead, so
        some looks cost one play; `why`, `table` and `copies` cost a play each time.
        """
        begin, span = self.play.moment, milliseconds(within)
        pace = max(1, milliseconds(every))
        ends = [begin + min(past, span) for past in range(pace, span + pace, pace)]
        if condition():
            return 0.0
        for _ in self._looks(ends, max(1, milliseconds(step)), self._judge(drop, delay)):
            if condition():
                return (self.play.moment - begin) / MILLISECONDS
        raise NotReached(f'not within {within:g} seconds; the last that was told: {"; ".join(self._last[:3]) or "nothing"}')

    def _looks(self, ends: List[int], step: int, judge: Optional[Judge]) -> Iterator[None]:
        """Runs to one moment after the other."""
        if judge is None:
            yield from self.play.looks(ends, step)
            return
        for end in ends:
            self.play.run(end, step, judge)
            yield

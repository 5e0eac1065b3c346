"""Random homes that are driven by hand: loss by direction, delays, cuts, restarts and steps of many lengths."""
import random
import subprocess
from typing import Dict, List, Optional, Tuple

from rulercress import Copy, Home, Router
from rulercress import programs
from rulercress.play import Play

WAYS = ('judged', 'judged', 'judged', 'plain', 'cut', 'mend', 'stop', 'start', 'inject', 'uplink', 'loss', 'flow')


def played(script: str) -> str:
    """What `hncp lab` writes for a script, asked without the package."""
    done = subprocess.run([programs.path_of('hncp'), 'lab'], input=script.encode(), stdout=subprocess.PIPE, stderr=subprocess.DEVNULL)
    return done.stdout.decode()


class Driver:
    """Plays the choices of a seed. `run` is how time passes while copies are judged; `play` is what plays, if it is given."""

    def __init__(self, seed: int, play: Optional[Play] = None) -> None:
        self.seed = seed
        self.chance = random.Random(seed)
        self.home = Home(seed=seed, play=play)
        self.asked: List[int] = []                       # the numbers of the copies that were judged, in order
        self.dropped: List[int] = []                     # of those, the ones that were lost
        self.delayed: List[int] = []                     # and the ones that came late
        self.cuts = 0                                    # how many cables were cut
        self.told: List[str] = []                        # what was told at the end
        self.lost: Dict[Tuple[str, str], int] = {}       # of each direction, how many copies of a hundred are lost
        self.slow: Dict[Tuple[str, str], float] = {}     # of each direction, how many seconds a copy takes at the most
        routers = [self.home.router(f'r{number}') for number in range(self.chance.randint(2, 4))]
        links = [self.home.link(f'l{number}') for number in range(self.chance.randint(1, 3))]
        for router in routers:
            for link in self.chance.sample(links, self.chance.randint(1, len(links))):
                self.home.attach(router, link)
        for sender in routers:
            for receiver in routers:
                self.lost[sender.name, receiver.name] = self.chance.choice((0, 0, 10, 50, 100))
                self.slow[sender.name, receiver.name] = self.chance.choice((0, 0, 0, 0.3, 2))

    def of(self, copy: Copy, what: str) -> float:
        """A number from 0 to 1 that the copy and the seed alone decide."""
        return random.Random(f'{self.seed} {what} {copy.number}').random()

    def drop(self, copy: Copy) -> bool:
        self.asked.append(copy.number)
        is_lost = 100 * self.of(copy, 'drop') < self.lost[copy.sender.name, copy.receiver.name]
        if is_lost:
            self.dropped.append(copy.number)
        return is_lost

    def delay(self, copy: Copy) -> float:
        seconds = round(self.of(copy, 'delay') * self.slow[copy.sender.name, copy.receiver.name], 3)
        if seconds:
            self.delayed.append(copy.number)
        return seconds

    def run(self, seconds: float, step: float) -> None:
        self.home.run(seconds, step, drop=self.drop, delay=self.delay)

    def go(self, count: int) -> 'Driver':
        """So many things happen."""
        self.home.external(self.home.routers[0], '2001:db8::/56')
        for _ in range(count):
            getattr(self, 'do_' + self.chance.choice(WAYS))(self.chance.choice(self.home.routers))
            self.look()
        self.do_judged(self.home.routers[0])
        for router in self.home.routers:
            if router.running:
                self.told += self.home.line(f'audit {router.name}') + self.home.line(f'prefixes {router.name}')
        return self

    def look(self) -> None:
        """Something has happened."""

    def do_judged(self, router: Router) -> None:
        self.run(self.chance.choice((0.25, 1, 2)), self.chance.choice((0.1, 0.1, 0.2, 0.37)))

    def do_plain(self, router: Router) -> None:
        self.home.run(self.chance.choice((1, 5)))

    def do_cut(self, router: Router) -> None:
        if router.endpoints and router.running:
            self.home.detach(router, self.chance.choice(sorted(router.endpoints)))
            self.cuts += 1

    def do_mend(self, router: Router) -> None:
        free = [link for link in self.home.links.values() if link not in router.endpoints.values()]
        if free and router.running:
            self.home.attach(router, self.chance.choice(free))

    def do_stop(self, router: Router) -> None:
        if router.running:
            self.home.stop(router)

    def do_start(self, router: Router) -> None:
        self.home.start(router)

    def do_uplink(self, router: Router) -> None:
        if router.running:
            self.home.external(router, f'2001:db8:{self.chance.randint(1, 3)}::/56', 100, 50)

    def do_loss(self, router: Router) -> None:
        self.home.set(loss=self.chance.choice((0, 30)))

    def do_flow(self, router: Router) -> None:
        self.home.flow()

    def do_inject(self, router: Router) -> None:
        if router.endpoints and router.running:
            data = self.chance.choice((b'', bytes.fromhex('00030008000000090000000100010000'), bytes(3)))
            self.home.inject(router, self.chance.choice(sorted(router.endpoints)), data)


class Witness(Driver):
    """The same choices. After each it asks reports, which leave no line, and remembers the transcript until then."""

    def __init__(self, seed: int, play: Optional[Play] = None) -> None:
        super().__init__(seed, play)
        self.seen: List[Tuple[int, str, List[str], List[str]]] = []    # how many lines, their transcript, reports, answers

    def look(self) -> None:
        reports = [f'{word} {router.name}' for router in self.home.routers for word in ('show', 'audit', 'prefixes')
                   if router.running or word == 'show']
        answers = [line + '\n' for report in reports for line in self.home.ask(report)]
        self.seen.append((len(self.home.play.lines), self.home.transcript, reports, answers))

    def witnessed(self) -> Tuple[str, str]:
        """The script with the reports as lines where they were asked; and what has to be written for it."""
        lines, text, script, at, written = list(self.home.play.lines), self.home.transcript, '', 0, 0
        expected = ''
        for count, front, reports, answers in self.seen:
            assert text.startswith(front) and len(front) >= written, 'an earlier transcript is no front of the last'
            script += '\n'.join([*lines[at:count], *reports, ''])
            expected += front[written:] + ''.join(answers)
            at, written = count, len(front)
        return script + '\n'.join([*lines[at:], '']), expected + text[written:]


class SlowDriver(Driver):
    """The same choices. Time passes line by line: after each it is asked which copies wait, as the language has it."""

    def __init__(self, seed: int, play: Optional[Play] = None) -> None:
        super().__init__(seed, play)
        self.late: Dict[int, int] = {}           # the moment at which a delayed copy is due, in milliseconds

    def run(self, seconds: float, step: float, judged: bool = True) -> None:
        home = self.home
        end = home.play.moment + round(1000 * seconds)
        while home.play.moment < end:
            home.time(min(step, (end - home.play.moment) / 1000))
            home.tick()
            for moment, number in sorted((moment, number) for number, moment in self.late.items()):
                if moment <= home.play.moment:
                    self.late.pop(number)
                    self.treat(home.copies[number - 1])
            while True:
                copy = next((copy for copy in home.waiting if copy.number not in self.late), None)
                if copy is None:
                    break
                self.judge(copy) if judged else self.treat(copy)

    def treat(self, copy: Copy) -> None:
        (self.home.deliver if self.arrives(copy) else self.home.drop)(copy)

    @staticmethod
    def arrives(copy: Copy) -> bool:
        return copy.receiver.running and copy.endpoint in copy.receiver.endpoints

    def judge(self, copy: Copy) -> None:
        if not self.arrives(copy) or self.drop(copy):
            self.home.drop(copy)
        elif self.delay(copy) > 0:
            self.late[copy.number] = self.home.play.moment + round(1000 * self.delay(copy))
        else:
            self.home.deliver(copy)

    def do_plain(self, router: Router) -> None:
        seconds = self.chance.choice((1, 5))
        if self.late:
            self.run(seconds, 0.1, judged=False)     # what is under way stays so
        else:
            self.home.run(seconds)

    def do_flow(self, router: Router) -> None:
        super().do_flow(router)
        self.late.clear()

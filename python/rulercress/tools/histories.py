"""Random homes with a history, for tools/how-soon-at-rest: they are driven by the Python package.

A history is a function of a home. What it does, it does by random words of the seed, so a home comes again.
"""
import functools
import random

from ..home import Home
from .spelling import spelled

LEAST_ROUTERS, MOST_ROUTERS = 2, 12
SETTLING = 60                 # seconds that a home has before something happens to it
DARK = 10                     # seconds of a power cut
LOST = 30                     # of a hundred copies
DEAF = 50                     # seconds for which a router is not heard: longer than the 42 after which a peer is dropped
LATE = 20                     # seconds by which a copy is late at the most
STRANGER = 0xF0000000         # identifiers from here on are those of nodes that nobody runs


class Story:
    """A home, and the random words that decide what happens to it."""

    def __init__(self, history, seed):
        self.chance = random.Random(f'{history} {seed}')
        self.home = Home(seed=self.chance.getrandbits(63))
        self.prefixes = {}

    # What homes are like

    def build(self):
        """Two to twelve routers on a tree of links, with some more cables, and one to three uplinks."""
        routers = [self.home.router(f'r{number}') for number in range(1, self.chance.randint(LEAST_ROUTERS, MOST_ROUTERS) + 1)]
        links = [self.home.link('l0')]
        for number, router in enumerate(routers, 1):
            self.home.attach(router, self.chance.choice(links))
            if self.chance.random() < 0.6:
                links.append(self.home.link(f'l{number}', router))
        for _ in range(self.chance.randint(0, len(routers) // 3)):
            self.plug(self.chance.choice(routers))
        for router in self.chance.sample(routers, min(len(routers), self.chance.randint(1, 3))):
            self.delegate(router)

    def build_link(self, count):
        """So many routers on one link, with one uplink."""
        self.home.link('lan', *(self.home.router(f'r{number}') for number in range(1, count + 1)))
        self.delegate(self.home.routers[0])

    def delegate(self, router):
        """A router gets a delegated prefix that no other one has."""
        prefix = f'2001:db8:{len(self.prefixes) + 1:x}00::/56'
        self.prefixes[prefix] = router
        router.external(prefix, valid=2 ** 32 - 1, preferred=2 ** 32 - 1)

    def plug(self, router):
        """A router gets a cable to a link on which it is not, if there is one."""
        free = [link for link in self.home.links.values() if link not in router.endpoints.values()]
        if free and router.running:
            self.home.attach(router, self.chance.choice(free))

    def runner(self):
        """A router that runs; one is started, if none does."""
        running = [router for router in self.home.routers if router.running]
        if not running:
            self.home.start(self.home.routers[0])
        return self.chance.choice(running or self.home.routers[:1])

    # What happens

    def settle(self):
        self.home.run(SETTLING)

    def restart(self):
        self.home.start(self.runner())

    def off(self):
        self.home.stop(self.runner())

    def power_cut(self):
        self.home.stop()
        self.home.run(DARK)
        self.home.start()

    def cut(self):
        router = self.runner()
        if router.endpoints:
            self.home.detach(router, self.chance.choice(sorted(router.endpoints)))

    def plug_in(self):
        self.plug(self.runner())

    def move(self):
        """A cable is cut, and plugged in elsewhere two seconds later."""
        router = self.runner()
        if router.endpoints:
            self.home.detach(router, self.chance.choice(sorted(router.endpoints)))
            self.home.run(2)
        self.plug(router)

    def uplink(self):
        """A provider takes a delegated prefix away, or gives one more."""
        prefix = self.chance.choice(sorted(self.prefixes))
        if self.prefixes[prefix].running and self.chance.random() < 0.5:
            self.home.withdraw(self.prefixes[prefix], prefix)
        elif len(self.prefixes) < 8:
            self.delegate(self.runner())

    def loss(self, seconds=60):
        self.home.set(loss=LOST)
        self.home.run(seconds)
        self.home.set(loss=0)

    def deaf(self, seconds=DEAF):
        """A router is not heard by the others."""
        router = self.runner()
        self.home.run(seconds, drop=lambda copy: copy.sender is router)

    def late(self, seconds=30):
        """One copy of five is late, so that copies change places; then old copies come once more."""
        self.home.run(seconds, delay=lambda copy: self.chance.uniform(0, LATE) if self.chance.random() < 0.2 else 0)
        self.home.flow()
        self.again()

    def again(self):
        """Some old copies come once more."""
        copies = self.home.copies
        for copy in self.chance.sample(copies, min(len(copies), self.chance.randint(1, 5))):
            if copy.receiver.running and copy.endpoint in copy.receiver.endpoints:
                self.home.deliver(copy)
        self.home.flow()

    def wait(self):
        self.home.run(self.chance.choice((1, 5, 20, 45)))

    def mixed(self):
        """Ten things at random. One router runs at the end."""
        for _ in range(10):
            self.chance.choice((self.restart, self.off, self.on, self.cut, self.plug_in, self.move, self.uplink, self.again, self.wait, self.wait,
                                functools.partial(self.loss, 10), functools.partial(self.deaf, 10), functools.partial(self.late, 5)))()
        self.runner()

    def on(self):
        self.home.start(self.chance.choice(self.home.routers))

    # What a stranger can do

    def forged(self):
        """Some things at random, and datagrams of a stranger on a link."""
        for _ in range(4):
            self.chance.choice((self.wait, self.restart, self.move))()
            self.chance.choice((self.forge_node, self.forge_claim, self.replay))()

    def target(self):
        """A router that runs, and one of its endpoints; none if no router is on a link."""
        found = [(router, endpoint) for router in self.home.routers if router.running for endpoint in sorted(router.endpoints)]
        return self.chance.choice(found) if found else None

    def forge_node(self):
        """A node that nobody runs names a router as its peer, and an uplink of its own."""
        target, node = self.target(), STRANGER + self.chance.randrange(4)
        if target:
            router, endpoint = target
            self.home.inject(router, endpoint, made(
                f'node-endpoint node={node:08x} endpoint=1', f'node-state node={node:08x} number={self.chance.randint(1, 9)}',
                f'  peer node={router.state.id:08x} endpoint={endpoint} own=1', '  version agent=78',
                '  external', f'    delegated valid=7200 preferred=3600 prefix=2001:db8:f{node & 15:x}00::/56'), 'uni')

    def forge_claim(self):
        """Data in the name of another router, newer than its own."""
        target, claimed = self.target(), self.chance.choice(self.home.routers).state
        if target:
            router, endpoint = target
            self.home.inject(router, endpoint, made(
                f'node-endpoint node={STRANGER:08x} endpoint=1',
                f'node-state node={claimed.id:08x} number={(claimed.number + self.chance.randint(1, 900)) % 2 ** 32}', '  version agent=78'))

    def replay(self):
        """What was sent once comes to another router."""
        target, copies = self.target(), self.home.copies
        if target and copies:
            self.home.inject(*target, self.chance.choice(copies).bytes)


@functools.lru_cache(maxsize=4096)
def made(*lines):
    """The bytes of a datagram of these lines."""
    return spelled(enumerate(lines, 1))


# Of each history: what happens, what it is made of, and of how many seeds one is played, since some take long.
HISTORIES = {
    'start': ('all routers begin', (), 1),
    'restart': ('one router restarts', (Story.settle, Story.restart), 1),
    'off': ('one router stops', (Story.settle, Story.off), 1),
    'power-cut': ('all are off for 10 s', (Story.settle, Story.power_cut), 1),
    'cut': ('a cable is cut', (Story.settle, Story.cut), 1),
    'plug': ('a cable comes', (Story.settle, Story.plug_in), 1),
    'move': ('a cable is moved', (Story.settle, Story.move), 1),
    'uplink': ('a prefix comes or goes', (Story.settle, Story.uplink), 1),
    'loss': ('30 % of copies lost, 60 s', (Story.loss,), 1),
    'deaf': ('one is not heard, 50 s', (Story.settle, Story.deaf), 5),
    'late': ('copies up to 20 s late', (Story.late,), 5),
    'mixed': ('ten of these at random', (Story.settle, Story.mixed), 5),
    'forged': ('a stranger forges', (Story.settle, Story.forged), 5),
    'link-4': ('4 begin on one link', 4, 1),
    'link-16': ('16 begin on one link', 16, 20),
    'link-32': ('32 begin on one link', 32, 50),
    'link-48': ('48 begin on one link', 48, 100),
}


def played(history, seed):
    """The home of a history and a seed, at the moment from which on nothing happens."""
    _, acts, _ = HISTORIES[history]
    story = Story(history, seed)
    if isinstance(acts, int):
        story.build_link(acts)
        return story.home
    story.build()
    for act in acts:
        act(story)
    if len(acts):
        story.home.flow()
    return story.home


def seeds_of(history, first, count):
    """Of so many seeds those with which a history is played: the first ones."""
    return range(first, first + max(1, count // HISTORIES[history][2]))

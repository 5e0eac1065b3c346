"""Homes of the daemon hnd with -U, to which nobody delegates a prefix: hosts have addresses in a ULA prefix of the routers' making.

A line and a star of routers between network namespaces, as of homes_on_links.py. The prefix is that of the router with the greatest
identifier, and the same after restarts. A part of the home that is cut off makes one of its own, and gives it up when it is back.
Where a prefix is delegated the own one goes, and it comes back after that. What hosts hold is asked of the hosts.
"""
import concurrent.futures
import ipaddress
import json
import os
import signal
import tempfile
import time

from checks import homes_on_links as on_links
from checks.helpers import Wrong, must

HOMES = ('line', 3), ('star', 4)
LOCAL, LENGTH = ipaddress.ip_network('fd00::/8'), 48      # RFC 4193, section 3.1
CHANGES = 500       # seconds within which a home has another prefix, on a machine however busy; a silent peer is lost after 42 s


class Home(on_links.Home):
    """A home whose routers make a prefix."""

    def __init__(self, tools, shape, size):
        super().__init__(tools, shape, size, f'{shape}-{size}-ula')
        self.last, self.delegated = size, []
        self.apart = None             # the prefix of what is cut off
        for router in self.routers.values():
            router.options = ['-U', '-k', os.path.join(tools.folder, 'kept', f'{self.name}-{router.number}')]

    def fault_of_host(self, seen, link, is_connected):
        """What is cut off has its own prefix."""
        if is_connected or self.apart is None:
            return super().fault_of_host(seen, link, is_connected)
        preferred = seen[f'h{link}'].preferred(link)
        if len(preferred) == 1 and preferred[0] in self.apart:
            return None
        return f'the host of link {link} prefers {preferred}, and its part of the home has {self.apart}'

    def made(self, *others):
        """The prefix of the routers' making that the first host comes to have, which is none of some others."""
        until = time.monotonic() + CHANGES
        while True:
            preferred = on_links.Seen(self.space('h0')).preferred(0)
            found = {ipaddress.ip_network((address, LENGTH), strict=False) for address in preferred}
            if len(preferred) == 1 and preferred[0] in LOCAL and not found & set(others):
                return found.pop()
            must(time.monotonic() < until, f'{self.name}: the first host prefers {preferred}, and no ULA prefix but {others}{self.last_words()}')
            time.sleep(0.5)

    def givers(self):
        """The routers that give a prefix, of those that run."""
        return {number: [each['prefix'] for each in json.loads(router.tell('show json')[0])['delegated']]
                for number, router in self.routers.items() if router.lives()}

    def must_be_given_by(self, wanted, prefix):
        """One router gives the prefix, and it is among those that are wanted."""
        given = {number: each for number, each in self.givers().items() if each}
        must(list(given.values()) == [[str(prefix)]] and set(given) <= set(wanted), f'{self.name}: {prefix} is wanted of one of {wanted}, and given are {given}')

    def play(self):
        """What happens to a home, one after the other."""
        try:
            self.make()
            for router in self.routers.values():
                router.start()
            begun = time.monotonic()
            self.delegated = [self.made()]
            self.must_rest('made', begun)
            self.must_be_given_by({self.last}, self.delegated[0])
            self.play_restarts()
            self.play_cut()
            self.play_uplink()
            self.play_off()
        finally:
            self.remove()
        return self.moments

    def play_restarts(self):
        """The router that gives the prefix is killed, and then all are at once. The prefix is the same."""
        for name, numbers in (('killed', [self.last]), ('power cut', list(self.routers)), ('ended', [self.last])):
            for number in numbers:
                self.routers[number].end(signal.SIGTERM if name == 'ended' else signal.SIGKILL)
            for number in numbers:
                self.routers[number].start()
            time.sleep(on_links.LEFT)
            self.must_rest(name)
            self.must_be_given_by({self.last}, self.delegated[0])

    def play_cut(self):
        """The router that gives the prefix is cut off. The others make one, and give it up when the link is healed."""
        link = max(link for link, members in enumerate(self.members) if self.last in members and len(members) > 1)
        self.apart = self.delegated[0]
        begun = time.monotonic()
        self.cut.add((self.last, link))
        on_links.ip('-n', self.space('w'), 'link', 'set', f'r{self.last}l{link}', 'nomaster')
        self.delegated = [self.made(self.apart)]
        self.must_rest('cut', begun)
        on_links.ip('-n', self.space('w'), 'link', 'set', f'r{self.last}l{link}', 'master', f'b{link}')
        self.cut.clear()
        self.delegated, self.apart = [self.apart], None
        self.must_rest('healed')
        self.must_be_given_by({self.last}, self.delegated[0])

    def play_uplink(self):
        """A prefix is delegated, and withdrawn."""
        made, self.delegated = self.delegated, [on_links.FIRST]
        self.routers[1].tell(f'delegate {on_links.FIRST} 7200 3600')
        self.must_rest('delegated')
        self.must_be_given_by({1}, on_links.FIRST)
        self.routers[1].tell(f'withdraw {on_links.FIRST}')
        self.delegated = made
        self.must_rest('withdrawn')
        self.must_be_given_by({self.last}, made[0])

    def play_off(self):
        """A router makes none any more, so another one does; then none does."""
        try:
            self.routers[1].tell('ula maybe')
            raise Wrong(f'{self.name}: router 1 takes "ula maybe"')
        except Wrong as wrong:
            must('error ula takes on or off' in str(wrong), str(wrong))
        begun = time.monotonic()
        self.routers[self.last].tell('ula off')
        self.delegated = [self.made(*self.delegated)]
        self.must_rest('off', begun)
        self.must_be_given_by(set(self.routers) - {self.last}, self.delegated[0])
        for router in self.routers.values():
            router.tell('ula off')
        until = time.monotonic() + CHANGES
        while any(self.look()[f'h{link}'].preferred(link) for link in range(len(self.members))):
            must(time.monotonic() < until, f'{self.name}: hosts prefer an address, and no router makes a prefix{self.last_words()}')
            time.sleep(0.5)
        for router in self.routers.values():
            router.end(signal.SIGTERM)


def check_homes(folder):
    """Each home is played; they run at the same time."""
    on_links.must_have_namespaces()
    with tempfile.TemporaryDirectory(dir=folder) as inner:
        os.chmod(inner, 0o755)
        os.chmod(folder, 0o755)
        os.mkdir(os.path.join(inner, 'kept'))
        os.chmod(os.path.join(inner, 'kept'), 0o777)
        tools = on_links.Tools(inner)
        homes = [Home(tools, shape, size) for shape, size in HOMES]
        with concurrent.futures.ThreadPoolExecutor(len(homes)) as pool:
            playing = [pool.submit(home.play) for home in homes]
            moments = [moment for each in playing for moment in each.result()]
    return f'{len(homes)} homes; hosts were right after at most {on_links.slowest(moments)}'

"""The check of judge beside daemons: homes of six of them between network namespaces, captured, and judged.

Each home has two captures: of all ports of all bridges, where each frame stands many times, and of the first bridge alone. Nothing
is found in homes where nothing goes wrong, nor in all of a home whose link falls in two parts. Where a router is killed, or two of
them do not hear each other, that alone is found.

The moments of a capture are those at which a daemon came to send. A busy machine lets it send late, so moments count for little;
DAEMONS_SLACK of the environment says how much, in milliseconds.
"""
import concurrent.futures
import os
import signal
import subprocess
import tempfile
import time

from checks.helpers import Missing, lines_of, must, need
from checks.homes_on_links import FIRST, SECOND, Home, Tools, ip, must_have_namespaces

SIZE = 6
SLACK = os.environ.get('DAEMONS_SLACK', '5000')
BEGINS, LASTS = 30, 110     # seconds until something happens, and from then on: a minute after a silent peer is gone
FILTER = 'udp port 8231 or ip6 proto 44'
FIRST_PORT, OTHER_LINK = 'b0', 'b9'


def pairs(count):
    return count * (count - 1) // 2


class Captured(Home):
    """A home of six on one link, to which another prefix is delegated. Judge finds nothing."""

    shape = 'link'
    found, found_first = (), None   # what judge finds in both captures: of each finding its rule, and which nodes it may name
    mutual = pairs(SIZE)            # how many pairs of peers there are at the end

    def __init__(self, tools):
        super().__init__(tools, self.shape, SIZE, type(self).__name__.lower())
        self.ears = []

    def happen(self):
        self.routers[1].tell(f'delegate {SECOND} 7200 3600')
        time.sleep(5)
        self.routers[1].tell(f'withdraw {FIRST}')

    # Its captures

    def ear(self, interface):
        path = os.path.join(self.folder, f'{self.name}-{interface}.pcap')
        words = ['ip', 'netns', 'exec', self.space('w'), 'tcpdump', '-Z', 'root', '-i', interface, '-B', '16384', '-U', '-w', path, FILTER]
        made = subprocess.Popen(words, stdin=subprocess.DEVNULL, stdout=subprocess.DEVNULL, stderr=subprocess.PIPE)
        self.ears.append(made)
        while b'listening on' not in (line := made.stderr.readline()):
            if not line:
                raise Missing('tcpdump does not listen in a namespace')
        return path

    def start(self):
        for router in self.routers.values():
            router.start()
        self.routers[1].tell_first(f'delegate {FIRST} 7200 3600')

    def captured(self):
        """Plays the home, and gives the paths of both captures."""
        try:
            self.make()
            paths = self.ear('any'), self.ear(FIRST_PORT)
            self.start()
            time.sleep(BEGINS)
            self.happen()
            time.sleep(LASTS)
            return paths
        finally:
            for each in self.ears:
                each.terminate()
                each.communicate()
            self.remove()

    def judged(self):
        """What judge says of both captures, and how many datagrams they have."""
        for path, found in zip(self.captured(), (self.found, self.found if self.found_first is None else self.found_first)):
            name = os.path.basename(path)
            text = lines_of('judge', '--all', '--slack', SLACK, path, status=3 if found else 0)
            shown = sorted(line.split(': ')[0].split()[3:] for line in text if line.startswith('  frame '))
            must(len(shown) == len(found), f'{name}: {len(shown)} findings, and not {len(found)}: {shown[:3]}')
            for words, (rule, nodes) in zip(shown, found):
                must(words in [[f'node={number:08x}', rule] for number in nodes], f'{name}: {" ".join(words)}, and not {rule} of one of {nodes}')
            yield int(text[0].split()[1][10:])
            if path.endswith('any.pcap'):
                mutual = sum(' mutual=yes' in line for line in text)
                must(mutual == self.mutual, f'{name}: judge shows {mutual} pairs of peers, and not {self.mutual}')
                must('frames stand twice' in text[1], f'{name}: {text[1]}')


class Link(Captured):
    """Six on one link."""


class Star(Captured):
    """One in the middle of five."""

    shape, mutual = 'star', SIZE - 1


class Parted(Captured):
    """A link that falls in two parts. Who hears one of them alone hears no more of the other."""

    mutual = 2 * pairs(SIZE // 2)
    found_first = [('silent', [number]) for number in range(SIZE // 2 + 1, SIZE + 1)]

    def happen(self):
        space = self.space('w')
        ip('-n', space, 'link', 'add', 'name', OTHER_LINK, 'type', 'bridge', 'mcast_snooping', '0')
        ip('-n', space, 'link', 'set', OTHER_LINK, 'up')
        for number in range(SIZE // 2 + 1, SIZE + 1):
            ip('-n', space, 'link', 'set', f'r{number}l0', 'master', OTHER_LINK)


class Killed(Captured):
    """One of six is killed."""

    mutual, found = pairs(SIZE - 1), [('silent', [SIZE])]

    def happen(self):
        self.routers[SIZE].end(signal.SIGKILL)


class Isolated(Captured):
    """Two ports of the bridge hand on nothing to each other, as those of some access points do."""

    mutual, found = pairs(SIZE) - 1, [('apart', [SIZE - 1, SIZE])]

    def make(self):
        super().make()
        for number in (SIZE - 1, SIZE):
            words = ['bridge', '-n', self.space('w'), 'link', 'set', 'dev', f'r{number}l0', 'isolated', 'on']
            done = subprocess.run(words, stderr=subprocess.PIPE)
            must(done.returncode == 0, f'{" ".join(words)}: {done.stderr.decode("utf-8", "replace").strip()}')


HOMES = [Link, Star, Parted, Killed, Isolated]


def check_daemons(folder):
    """Each home is played; they run at the same time."""
    must_have_namespaces()
    need('tcpdump', 'tshark', 'bridge')
    with tempfile.TemporaryDirectory(dir=folder) as inner:
        os.chmod(inner, 0o755)
        os.chmod(folder, 0o755)
        tools = Tools(inner)
        tools.babel = None
        homes = [each(tools) for each in HOMES]
        with concurrent.futures.ThreadPoolExecutor(len(homes)) as pool:
            judging = [pool.submit(lambda home: list(home.judged()), home) for home in homes]
            counts = [count for each in judging for count in each.result()]
    return f'{len(homes)} homes of {SIZE} daemons, {len(counts)} captures of {sum(counts)} datagrams'

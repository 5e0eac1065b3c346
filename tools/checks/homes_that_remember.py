"""Homes of the daemon hnd with -k: each router keeps its prefixes over a restart.

A line, a ring and a star of routers between network namespaces, as of homes_on_links.py. Each router is killed five times, and
all at once four times, as by a power cut. Then each link has the prefix again that it had before, unless another link took it
meanwhile. Files that are torn, foreign or of another version, and folders that cannot be written, stop no router.
"""
import concurrent.futures
import os
import signal
import subprocess
import tempfile
import time

from checks import homes_on_links as on_links
from checks.helpers import must

HOMES = ('line', 3), ('ring', 3), ('star', 4)
KILLS, CUTS = 5, 4
FIRST_START = 400                 # seconds within which a router alone has a prefix, on a machine however busy
PREFIX = '2001:db8:c:300::/56'


class Home(on_links.Home):
    """A home whose routers have a file each."""

    def __init__(self, tools, shape, size):
        super().__init__(tools, shape, size)
        self.kept = self.changed = 0
        for router in self.routers.values():
            router.options = ['-k', os.path.join(tools.folder, 'kept', f'{self.name}-{router.number}')]

    def play(self):
        """What happens to a home, one after the other. How often a link kept its prefix, and how often it did not."""
        try:
            self.make()
            self.start(self.routers)
            self.must_rest('start')
            for number in self.routers:
                for _ in range(KILLS):
                    self.play_restart([number], f'router {number} killed')
            for _ in range(CUTS):
                self.play_restart(list(self.routers), 'power cut')
        finally:
            self.remove()
        return self.kept, self.changed

    def start(self, numbers):
        """Starts routers. The first one of a home is told its delegated prefix again, as a client of DHCPv6 does."""
        for number in numbers:
            self.routers[number].start()
        if 1 in numbers:
            self.routers[1].tell_first(f'delegate {on_links.FIRST} 7200 3600')

    def prefixes(self):
        """The prefix that the host of each link prefers."""
        seen = self.look()
        return [on_links.prefixes_of(seen[f'h{link}'].preferred(link)) for link in range(len(self.members))]

    def play_restart(self, numbers, name):
        """Routers are killed at once, and start again."""
        before = self.prefixes()
        for number in numbers:
            self.routers[number].daemon.kill()
        for number in numbers:
            self.routers[number].daemon.wait()
        self.start(numbers)
        time.sleep(on_links.LEFT)
        self.must_rest(name)
        after = self.prefixes()
        for link, (old, new) in enumerate(zip(before, after)):
            others = set().union(*(each for other, each in enumerate(after) if other != link))
            must(old == new or old & others, f'{self.name}, {name}: link {link} had {old}, and has {new}; elsewhere are {others}')
            self.kept += old == new
            self.changed += old != new


def lines_of_life(tools, space, path, wanted):
    """Starts a router alone with a file, waits until its log has the wanted words, and ends it. Its log."""
    log = os.path.join(tools.folder, 'alone.log')
    words = ['ip', 'netns', 'exec', space, tools.daemon, '-r', '-k', path, '-p', f'{PREFIX}:7200:3600', *tools.options, 'l0']
    with open(log, 'wb') as file, subprocess.Popen(words, stdin=subprocess.DEVNULL, stdout=file, stderr=file) as daemon:
        until, text = time.monotonic() + FIRST_START, ''
        while not all(word in text for word in wanted) and time.monotonic() < until and daemon.poll() is None:
            time.sleep(0.2)
            with open(log, encoding='utf-8') as file_read:
                text = file_read.read()
        daemon.send_signal(signal.SIGTERM)
        status = daemon.wait(timeout=on_links.PATIENCE)
    must(status == 0, f'a router with the file {path} ends with status {status}: {text[-300:]}')
    must(all(word in text for word in wanted), f'a router with the file {path} does not say {wanted}: {text[-600:]}')
    return text


def with_line(sound, line):
    """A sound file with one more line, and with the sum (FNV-1a) of what it has then."""
    text, total = sound[:sound.rindex(b'end ')] + line, 0xcbf29ce484222325
    for octet in text:
        total = (total ^ octet) * 0x100000001b3 % 2 ** 64
    return text + f'end {total:016x}\n'.encode()


def check_files(tools):
    """Each bad file is told in a line, and the router does without. How many there are."""
    space, path = f'{tools.prefix}alone', os.path.join(tools.folder, 'kept', 'alone')
    applied = f'in={PREFIX} applied=yes'
    on_links.ip('netns', 'add', space)
    try:
        on_links.set_number(space, 'default/accept_dad', 0)
        on_links.ip('-n', space, 'link', 'add', 'l0', 'type', 'veth', 'peer', 'name', 'm0')
        for name in ('l0', 'm0'):
            on_links.ip('-n', space, 'link', 'set', name, 'up')
        lines_of_life(tools, space, path, [f'unused {path} why="No such file or directory"', applied, f'kept {path}'])
        with open(path, 'rb') as file:
            sound = file.read()
        for content in (sound, with_line(sound, b''), with_line(sound, b'ula fd12:3456:789a::/48 0\n')):
            with open(path, 'wb') as file:
                file.write(content)
            lines_of_life(tools, space, path, [f'used {path} prefixes=1', applied])
        bad = {'torn': sound[:-20], 'changed': sound.replace(b'prefix l0', b'prefix l1'), 'with a zero': sound[:30] + b'\0' + sound[30:],
               'empty': b'', 'foreign': b'nothing of the kind\n' * 9, 'of another version': sound.replace(b'hnd-state 1', b'hnd-state 0'),
               'with a ULA prefix that is none': with_line(sound, b'ula 2001:db8::/48 1\n')}
        for name, content in bad.items():
            with open(path, 'wb') as file:
                file.write(content)
            why = {'empty': 'foreign', 'foreign': 'foreign', 'of another version': 'of another version',
                   'with a ULA prefix that is none': 'foreign'}.get(name, 'torn')
            lines_of_life(tools, space, path, [f'unused {path} why="it is {why}"', f'kept {path}'])
        for nowhere in ('/proc/hnd', os.path.join(tools.folder, 'no', 'folder'), '/dev/full/file'):
            lines_of_life(tools, space, nowhere, [f'unkept {nowhere} why=', applied])
    finally:
        on_links.ip('netns', 'del', space)
    return len(bad)


def check_homes(folder):
    """Homes whose routers restart; they run at the same time."""
    on_links.must_have_namespaces()
    with tempfile.TemporaryDirectory(dir=folder) as inner:
        os.chmod(inner, 0o755)
        os.chmod(folder, 0o755)
        os.mkdir(os.path.join(inner, 'kept'))
        os.chmod(os.path.join(inner, 'kept'), 0o777)
        tools = on_links.Tools(inner)
        homes = [Home(tools, shape, size) for shape, size in HOMES]
        with concurrent.futures.ThreadPoolExecutor(len(homes) + 1) as pool:
            playing, files = [pool.submit(home.play) for home in homes], pool.submit(check_files, tools)
            counts = [each.result() for each in playing]
        bad = files.result()
    kept, changed = (sum(each) for each in zip(*counts))
    return (f'{len(homes)} homes, each router killed {KILLS} times and all of them {CUTS} times at once: '
            f'{kept} times a link kept its prefix, {changed} times another link had it; {bad} bad files are told')

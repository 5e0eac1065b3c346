"""Homes of the daemon hnd between network namespaces: a line, a ring and a star of routers, with a host on each link.

A link is a bridge in a namespace of its own, with a port for each router and for the host. Whatever happens to a home, each
host prefers exactly one address of its link for each prefix that is delegated, and reaches each other host. That is asked of
the hosts, and of the routers' systems: no word of the daemon counts for it.

These of the environment change what is tried: HOMES names homes, such as line-3,star-6. HND is the path of another build of
the daemon, and HND_OPTIONS has more options for it: one with sanitizers takes -u root. With HND_LOGS each step is told when it
is done, and a failure comes with what hosts hold and routers say.
"""
import collections
import concurrent.futures
import ipaddress
import json
import os
import platform
import shutil
import signal
import socket
import subprocess
import sys
import tempfile
import threading
import time

import common
from checks.helpers import Missing, Wrong, must, need

TOP = os.path.dirname(common.HERE)
LIBRARY = os.path.join(TOP, 'crates', 'hn_router_c', 'out', 'libhn_router_c.a')
HERE = os.path.dirname(os.path.abspath(__file__))
FIRST, SECOND = ipaddress.ip_network('2001:db8:a:100::/56'), ipaddress.ip_network('2001:db8:b:200::/56')
PROTOCOL = '44'                   # of the daemon's routes
SETTLES = 400                     # seconds within which a home comes to rest, on a machine however busy
PATIENCE = 120                    # seconds within which a daemon answers, or ends
LEFT = 16                         # seconds for which a daemon keeps what an earlier one left
REACHES = 5                       # seconds for which a host asks for echoes before all is looked at again
SILENT = 45                       # seconds after which a router that is silent is lost
AT_REST, FLOODED = 3000, 50000    # kB of memory at most: at rest, and whatever strangers do
TABLE, CROWDED = 256, 900         # other nodes that a router knows at most, and seconds in which a crowd comes to all routers
FLOOD, SENDERS = (50000, 5), 2    # datagrams a second, and seconds; processes that send them together
SHOWN = 1500                      # commands that write to the log that nobody reads: 200 kB or more
STRANGER = 20                     # seconds for which each set of prefixes is told
SEVERAL, MOST_ADVERT = 500, 1272  # bytes, with the header of IPv6: of an advertisement of more prefixes than a link has; of any
SIZES = 3, 4, 5, 6
ONE_FLOOD = threading.Lock()      # floods take a processor each, so they come one by one

Moment = collections.namedtuple('Moment', 'name seconds')


def line(size):
    """A row of routers: links between neighbours, and one at each end."""
    return [[1], *([router, router + 1] for router in range(1, size)), [size]]


def ring(size):
    return [[router, router % size + 1] for router in range(1, size + 1)]


def star(size):
    """One router in the middle; each other one has a link of its own, too."""
    return [[1, router] for router in range(2, size + 1)] + [[router] for router in range(2, size + 1)]


def link(size):
    """All routers on one link."""
    return [list(range(1, size + 1))]


SHAPES = {'line': line, 'ring': ring, 'star': star, 'link': link}
PLAYED = 'line', 'ring', 'star'


def ip(*words):
    """What ip writes."""
    done = subprocess.run(['ip', *words], stdin=subprocess.DEVNULL, stdout=subprocess.PIPE, stderr=subprocess.PIPE)
    must(done.returncode == 0, f'ip {" ".join(words)}: {done.stderr.decode("utf-8", "replace").strip()}')
    return done.stdout.decode('utf-8', 'replace')


def ip_list(*words):
    """What ip lists, as JSON."""
    return json.loads(ip('-j', *words) or '[]')


def prefixes_of(addresses):
    return {ipaddress.ip_network((address, 64), strict=False) for address in addresses}


def set_number(space, path, number):
    done = subprocess.run(['ip', 'netns', 'exec', space, 'sh', '-c', 'echo "$1" > "/proc/sys/net/ipv6/conf/$0"', path, str(number)],
                          stderr=subprocess.PIPE)
    must(done.returncode == 0, f'{path} of {space}: {done.stderr.decode("utf-8", "replace").strip()}')


def memory(process, name):
    """The kilobytes of a process: VmRSS now, VmHWM at most."""
    with open(f'/proc/{process.pid}/status', encoding='utf-8') as file:
        return next(int(text.split()[1]) for text in file if text.startswith(name + ':'))


class Seen:
    """What the system of a namespace has now: addresses and routes."""

    def __init__(self, space):
        self.held = [(of['ifname'], each) for of in ip_list('-n', space, '-6', 'addr') for each in of.get('addr_info', []) if 'local' in each]
        self.all_routes = ip_list('-n', space, '-6', 'route')

    def wide(self, link):
        """The addresses on a link that are not link-local, preferred or not."""
        return [ipaddress.ip_address(each['local']) for name, each in self.held if name == f'l{link}' and each['scope'] == 'global']

    def preferred(self, link):
        return [ipaddress.ip_address(each['local']) for name, each in self.held
                if name == f'l{link}' and each['scope'] == 'global' and not each.get('deprecated')]

    def near(self, link):
        return {each['local'] for name, each in self.held if name == f'l{link}' and each['scope'] == 'link'}

    def routes(self, link):
        """The routes on a link that the daemon set."""
        return {ipaddress.ip_network(each['dst']) for each in self.all_routes if each.get('protocol') == PROTOCOL and each.get('dev') == f'l{link}'}

    def gateways(self):
        """The default routers."""
        found = [each for each in self.all_routes if each['dst'] == 'default']
        return {hop['gateway'] for each in found for hop in [each, *each.get('nexthops', [])] if 'gateway' in hop}


class Router:
    """A router: its number, its links, and the processes that run on it."""

    def __init__(self, home, number):
        self.home, self.number, self.space = home, number, home.space(f'r{number}')
        self.links = [link for link, members in enumerate(home.members) if number in members]
        self.socket = os.path.join(home.folder, f'{home.name}-{number}.sock')
        self.log = os.path.join(home.folder, f'{home.name}-{number}.log')
        self.options = []
        self.daemon = self.babel = None

    def start(self, output=None, commands=None):
        words = ['ip', 'netns', 'exec', self.space, self.home.tools.daemon, '-arf', '-c', self.socket, '-i', f'{self.number:08x}',
                 *self.options, *self.home.tools.options, *(f'l{link}' for link in self.links)]
        with open(self.log, 'ab') as log:
            self.daemon = subprocess.Popen(words, stdin=commands or subprocess.DEVNULL, stdout=output or log, stderr=log)
        if self.home.tools.babel and self.babel is None:
            self.start_babel()

    def start_babel(self):
        at = os.path.join(self.home.folder, f'{self.home.name}-{self.number}.babel')
        words = ['ip', 'netns', 'exec', self.space, self.home.tools.babel, '-H', '1', '-I', f'{at}-pid', '-S', f'{at}-state',
                 '-C', f'redistribute proto {PROTOCOL} allow', '-C', 'redistribute local deny', *(f'l{link}' for link in self.links)]
        with open(f'{at}-log', 'ab') as log:
            self.babel = subprocess.Popen(words, stdin=subprocess.DEVNULL, stdout=log, stderr=log)

    def lives(self):
        return self.daemon is not None and self.daemon.poll() is None

    def tell(self, command):
        """Hands a command to the daemon, and gives the lines of the reply. The last one has to be `ok`."""
        with socket.socket(socket.AF_UNIX) as to:
            to.settimeout(PATIENCE)
            to.connect(self.socket)
            to.sendall(f'{command}\n'.encode())
            text = b''.join(iter(lambda: to.recv(65536), b'')).decode()
        lines = text.splitlines()
        must(lines and lines[-1] == 'ok', f'{self.home.name}: router {self.number} answers "{command}" with "{text.strip()[-90:]}"')
        return lines[:-1]

    def tell_first(self, command):
        """Hands a command to a daemon that was just started, once it listens."""
        until = time.monotonic() + SETTLES
        while True:
            try:
                return self.tell(command)
            except OSError as error:
                must(time.monotonic() < until, f'{self.home.name}: router {self.number} does not listen: {error}')
                time.sleep(0.1)

    def end(self, how):
        self.daemon.send_signal(how)
        status = self.daemon.wait(timeout=PATIENCE)
        must(status == (0 if how == signal.SIGTERM else -how), f'{self.home.name}: router {self.number} ends with status {status}')
        if how == signal.SIGTERM:
            left = ip('-n', self.space, '-6', 'route', 'show', 'proto', PROTOCOL) + ip('-n', self.space, '-o', '-6', 'addr', 'show', 'scope', 'global')
            must(not left, f'{self.home.name}: router {self.number} leaves {left.strip()}')


class Home:
    """A home of one shape and size. The first router has the uplink."""

    def __init__(self, tools, shape, size, name=None):
        self.tools, self.folder, self.name = tools, tools.folder, name or f'{shape}-{size}'
        self.members = SHAPES[shape](size)
        self.routers = {number: Router(self, number) for number in range(1, size + 1)}
        self.cut = set()              # (router, link) whose port is off its bridge
        self.moments = []
        self.delegated = [FIRST]

    def space(self, name):
        return f'{self.tools.prefix}{self.name}-{name}'

    def make(self):
        """Makes the namespaces and the links."""
        spaces = ['w', *(f'r{number}' for number in self.routers), *(f'h{link}' for link in range(len(self.members)))]
        for name in spaces:
            ip('netns', 'add', self.space(name))
            ip('-n', self.space(name), 'link', 'set', 'lo', 'up')
            set_number(self.space(name), 'default/accept_dad', 0)
            set_number(self.space(name), 'default/max_addresses', 0)      # else a host takes 16, and not one of a 17th prefix
        set_number(self.space('w'), 'default/disable_ipv6', 1)
        for link, members in enumerate(self.members):
            ip('-n', self.space('w'), 'link', 'add', 'name', f'b{link}', 'type', 'bridge', 'mcast_snooping', '0')
            ip('-n', self.space('w'), 'link', 'set', f'b{link}', 'up')
            for name in [f'h{link}', *(f'r{number}' for number in members)]:
                self.join(name, link)

    def join(self, name, link):
        """Puts a router or a host on a link."""
        port = f'{name}l{link}'
        ip('link', 'add', f'l{link}', 'netns', self.space(name), 'type', 'veth', 'peer', 'name', port, 'netns', self.space('w'))
        ip('-n', self.space('w'), 'link', 'set', port, 'master', f'b{link}')
        ip('-n', self.space('w'), 'link', 'set', port, 'up')
        ip('-n', self.space(name), 'link', 'set', f'l{link}', 'up')

    def remove(self):
        for router in self.routers.values():
            for process in (router.daemon, router.babel):
                if process is not None and process.poll() is None:
                    process.kill()
                    process.wait()
        for name in ['w', *(f'r{number}' for number in self.routers), *(f'h{link}' for link in range(len(self.members)))]:
            subprocess.run(['ip', 'netns', 'del', self.space(name)], stderr=subprocess.DEVNULL)

    def present(self, link):
        """The routers that run and are on the bridge of a link."""
        return [number for number in self.members[link] if (number, link) not in self.cut and self.routers[number].lives()]

    def connected(self):
        """The links from which the first router can be reached."""
        known, found = {1} if self.routers[1].lives() else set(), set()
        while True:
            more = {link for link in range(len(self.members)) if known & set(self.present(link))} - found
            if not more:
                return found
            found |= more
            known |= {number for link in more for number in self.present(link)}

    def look(self):
        """What each router and each host has now."""
        return {name: Seen(self.space(name)) for name in [*(f'r{number}' for number in self.routers), *(f'h{link}' for link in range(len(self.members)))]}

    def fault_of_host(self, seen, link, is_connected):
        """What is wrong with a host, or nothing."""
        preferred = seen[f'h{link}'].preferred(link)
        found = [next((of for of in self.delegated if address in of), None) for address in preferred]
        if not is_connected:
            return f'the host of link {link} prefers {preferred}, and no router has a prefix' if preferred else None
        if sorted(map(str, found)) != sorted(map(str, self.delegated)):
            return f'the host of link {link} prefers {preferred}, and delegated are {self.delegated}'
        near = {address for number in self.present(link) for address in seen[f'r{number}'].near(link)}
        gateways = seen[f'h{link}'].gateways()
        return None if gateways & near else f'the host of link {link} has the default routers {gateways}, and on the link are {near}'

    def fault_of_routers(self, seen, link, prefixes):
        """What is wrong with the routers of a link, or nothing."""
        for number in self.present(link):
            routes, addresses = seen[f'r{number}'].routes(link), seen[f'r{number}'].wide(link)
            if routes != prefixes:
                return f'router {number} has the routes {routes} on link {link}, and hosts prefer {prefixes}'
            if prefixes_of(addresses) != prefixes:
                return f'router {number} has the addresses {addresses} on link {link}, and hosts prefer {prefixes}'
        return None

    def fault(self, seen):
        """The first thing that is not as it has to be, or nothing."""
        connected, all_prefixes = self.connected(), []
        for link in range(len(self.members)):
            prefixes = prefixes_of(seen[f'h{link}'].preferred(link))
            fault = self.fault_of_host(seen, link, link in connected) or self.fault_of_routers(seen, link, prefixes)
            if fault:
                return fault
            all_prefixes += prefixes
        return f'links share a prefix: {sorted(all_prefixes)}' if len(set(all_prefixes)) != len(all_prefixes) else None

    def unreached(self, seen):
        """The first host that another one does not reach, or nothing."""
        connected, asking = sorted(self.connected()), []
        for link in connected:
            others = [str(address) for other in connected if other != link for address in seen[f'h{other}'].preferred(other)]
            words = ['ip', 'netns', 'exec', self.space(f'h{link}'), 'python3', os.path.join(HERE, 'echoes.py'), str(REACHES), *others]
            asking.append((link, others, subprocess.Popen(words, stdout=subprocess.PIPE)))
        missing = []
        for link, others, process in asking:
            heard = set(process.communicate()[0].decode().split())
            missing += [f'the host of link {link} does not reach {address}' for address in others if address not in heard]
        return missing[0] if missing else None

    def must_rest(self, name, begun=None):
        """The home comes to rest, and each host reaches each other."""
        begun, until, told = begun or time.monotonic(), time.monotonic() + SETTLES, None
        while True:
            seen = self.look()
            fault = self.fault(seen) or (self.tools.babel and self.unreached(seen))
            if not fault:
                break
            if fault != told and os.environ.get('HND_LOGS'):
                print(f'{self.name}: {name}, {time.monotonic() - begun:.1f} s: {fault}', file=sys.stderr, flush=True)
            told = fault
            must(time.monotonic() < until, f'{self.name}, {name}: {fault}{self.last_words()}')
            time.sleep(0.5)
        self.moments.append(Moment(name, time.monotonic() - begun))
        if os.environ.get('HND_LOGS'):
            print(f'{self.name}: {name} after {self.moments[-1].seconds:.1f} s', file=sys.stderr, flush=True)

    def last_words(self):
        """Where one asks for it, what hosts hold and routers say."""
        if not os.environ.get('HND_LOGS'):
            return ''
        text = ''.join(f'\nlink {link}:\n{ip("-n", self.space(f"h{link}"), "-6", "addr")}' for link in range(len(self.members)))
        for router in self.routers.values():
            with open(router.log, encoding='utf-8', errors='replace') as file:
                text += f'\nrouter {router.number}:\n' + ''.join(file.readlines()[-60:])
            text += '\n'.join(router.tell('show')) if router.lives() else 'ended'
        return text

    def must_hold(self, kilobytes, name):
        for router in self.routers.values():
            held = memory(router.daemon, name)
            self.tools.most[name] = max(held, self.tools.most[name])
            must(self.tools.is_given or held <= kilobytes, f'{self.name}: router {router.number} has {held} kB of memory')

    def play(self):
        """What happens to a home, one after the other."""
        try:
            self.make()
            self.begin()
            self.play_cut()
            self.play_uplink()
            self.play_kill()
            self.play_end()
            self.play_interface()
            self.play_stranger()
            self.play_flood()
            self.play_crowd()
            self.play_quit()
        finally:
            self.remove()
        return self.moments

    def begin(self):
        """All routers start. Nobody ever reads what the second one writes, and that is more than has place anywhere."""
        self.unread, into = os.pipe()
        commands, given = os.pipe()
        begun = time.monotonic()
        for number, router in self.routers.items():
            router.start(*((into, commands) if number == 2 else ()))
        os.write(given, b'show\n' * SHOWN)
        for end in (into, commands, given):
            os.close(end)
        self.routers[1].tell_first(f'delegate {FIRST} 7200 3600')
        self.must_rest('start', begun)
        self.must_hold(AT_REST, 'VmRSS')

    def play_cut(self):
        """The port of a router leaves its link, and comes back."""
        link = max(link for link, members in enumerate(self.members) if len(members) > 1)
        number = max(self.members[link])
        begun = time.monotonic()
        self.cut.add((number, link))
        ip('-n', self.space('w'), 'link', 'set', f'r{number}l{link}', 'nomaster')
        time.sleep(SILENT)
        self.must_rest('cut', begun)
        ip('-n', self.space('w'), 'link', 'set', f'r{number}l{link}', 'master', f'b{link}')
        self.cut.clear()
        self.must_rest('healed')

    def play_uplink(self):
        """The uplink delegates another prefix, with the words of a DHCPv6 client. A host of the first link listens how it is told."""
        words = ['ip', 'netns', 'exec', self.space('h0'), 'python3', os.path.join(HERE, 'stranger.py'), 'listen', 'l0', str(2 * SETTLES)]
        self.delegated = [SECOND]
        with subprocess.Popen(words, stdout=subprocess.PIPE) as listening:
            try:
                self.change_uplink()
                heard = listening.communicate()[0].decode().split()
            finally:
                listening.kill()
        must(heard, f'{self.name}: no short advertisement follows one of a departed prefix')
        self.tools.short.append(float(heard[0]))

    def change_uplink(self):
        given = dict(os.environ, HND=self.tools.daemon, SOCKET=self.routers[1].socket, PREFIXES=f'{SECOND},3600,7200')
        done = subprocess.run([os.path.join(TOP, 'daemon', 'system', 'odhcp6c.sh'), 'wan', 'updated'], env=given, stderr=subprocess.PIPE)
        must(done.returncode == 0, f'{self.name}: odhcp6c.sh ends with status {done.returncode}: {done.stderr.decode("utf-8", "replace")}')
        self.must_rest('another prefix')

    def play_kill(self):
        """A router is killed, and starts again."""
        router = self.routers[len(self.routers)]
        router.end(signal.SIGKILL)
        begun = time.monotonic()
        router.start()
        time.sleep(LEFT)
        self.must_rest('killed', begun)

    def play_end(self):
        """A router is ended, and starts again."""
        router = self.routers[len(self.routers)]
        router.end(signal.SIGTERM)
        self.must_rest('ended')
        router.start()
        self.must_rest('started again')

    def play_interface(self):
        """An interface of a router is taken away, and made again."""
        router = self.routers[len(self.routers)]
        link = router.links[0]
        ip('-n', router.space, 'link', 'del', f'l{link}')
        time.sleep(2)
        self.join(f'r{router.number}', link)
        self.must_rest('interface made again')

    def stranger(self, form, seconds, *more):
        """The words that start a stranger on the first link, who is a peer of the first router."""
        link, router = self.routers[1].links[0], self.routers[1]
        return ['ip', 'netns', 'exec', self.space(f'h{link}'), 'python3', os.path.join(HERE, 'stranger.py'), form, f'l{link}',
                min(Seen(router.space).near(link)), f'{router.number:08x}', '1', str(seconds), *map(str, more)]

    def play_stranger(self):
        """A stranger comes with 32 prefixes that never end, then with 32 others, and goes."""
        done = subprocess.run(self.stranger('prefixes', STRANGER), stdout=subprocess.PIPE, stderr=subprocess.PIPE)
        must(done.returncode == 0, f'{self.name}: stranger.py: {done.stderr.decode("utf-8", "replace").strip()[-200:]}')
        longest, fragments, disordered, departed = map(int, done.stdout.split())
        must(not disordered and departed, f'{self.name}: {disordered} advertisements have a departed prefix behind others; told are {departed}')
        must(longest > SEVERAL, f'{self.name}: no prefix of the stranger is advertised')
        must(longest <= MOST_ADVERT and not fragments, f'{self.name}: an advertisement of {longest} bytes, {fragments} fragments')
        self.tools.longest.append(longest)
        self.must_rest('stranger gone')

    def play_flood(self):
        """A host sends garbage to the group."""
        if not self.tools.flood:
            return
        link = len(self.members) - 1
        rate, seconds = FLOOD
        words = ['ip', 'netns', 'exec', self.space(f'h{link}'), self.tools.flood, f'l{link}', str(rate // SENDERS), str(seconds)]
        with ONE_FLOOD:
            sending = [subprocess.Popen(words, stdout=subprocess.PIPE) for _ in range(SENDERS)]
            said = [each.communicate()[0].decode().split() for each in sending]
        must(all(each.returncode == 0 for each in sending), f'{self.name}: the flood ends with status {[each.returncode for each in sending]}')
        self.tools.flooded.append(sum(int(count) for count, _ in said) / max(float(took) for _, took in said))
        self.must_rest('flooded')

    def is_full(self, number):
        """Whether the table of a router is full. A router that is busy may be slow to say."""
        try:
            return len(json.loads(self.routers[number].tell('show json')[0])['nodes']) > TABLE
        except socket.timeout:
            return False

    def play_crowd(self):
        """A stranger fills the table of each router with nodes, each of which has as many data as may be."""
        begun, unfilled = time.monotonic(), set(self.routers)
        with subprocess.Popen(self.stranger('crowd', CROWDED, TABLE - len(self.routers))) as process:
            while unfilled and process.poll() is None:
                time.sleep(1)
                unfilled = {number for number in unfilled if not self.is_full(number)}
            process.kill()
        must(not unfilled, f'{self.name}: the tables of routers {sorted(unfilled)} are not full')
        self.moments.append(Moment('tables full', time.monotonic() - begun))
        self.must_rest('crowd gone')
        self.must_hold(FLOODED, 'VmHWM')

    def play_quit(self):
        """The log that nobody read is full by now, and the others end as they have to."""
        routers = list(self.routers.values())
        lost = json.loads(self.routers[2].tell('show json')[0])['lost_lines']
        must(lost > 0, f'{self.name}: router 2 lost no line of a log that nobody read')
        self.tools.lost.append(lost)
        for router in routers[1:]:
            router.end(signal.SIGTERM)
        routers[0].tell('quit')
        status = routers[0].daemon.wait(timeout=PATIENCE)
        must(status == 0, f'{self.name}: router 1 ends with status {status}')
        os.close(self.unread)


class Tools:
    """What the homes are made with, and what was measured."""

    def __init__(self, folder):
        self.folder, self.prefix = folder, f'hnd{os.getpid()}-'
        self.is_given = bool(os.environ.get('HND'))      # another build of the daemon, such as one with sanitizers
        self.daemon, self.options = os.environ.get('HND') or built(folder), os.environ.get('HND_OPTIONS', '').split()
        self.babel, self.flood = shutil.which('babeld'), flood(folder)
        self.most = collections.Counter()
        self.flooded, self.lost, self.longest, self.short = [], [], [], []


def built(folder):
    """The daemon, made of this repository. In a folder that each user may enter."""
    need('make', 'cc')
    if not os.path.exists(LIBRARY):
        raise Missing(f'there is no {os.path.relpath(LIBRARY, TOP)}: checks/embed makes it')
    done = subprocess.run(['make', '-C', os.path.join(TOP, 'daemon'), f'O={folder}/out'], stdout=subprocess.PIPE, stderr=subprocess.PIPE)
    text = done.stderr.decode('utf-8', 'replace')
    if 'libmnl' in text and done.returncode:
        raise Missing(text.splitlines()[0])
    must(done.returncode == 0 and 'warning' not in text, f'make in daemon: {text.strip()[-300:]}')
    return os.path.join(folder, 'out', 'hnd')


def flood(folder):
    """The sender of garbage, or nothing where there is no compiler."""
    path = os.path.join(folder, 'flood')
    if not shutil.which('cc'):
        return None
    done = subprocess.run(['cc', '-std=c11', '-O2', '-o', path, os.path.join(HERE, 'flood.c')], stderr=subprocess.PIPE)
    must(done.returncode == 0, f'cc flood.c: {done.stderr.decode("utf-8", "replace")[-300:]}')
    return path


def must_have_namespaces():
    if os.getuid() != 0:
        raise Missing('network namespaces take root')
    need('ip')
    name = f'hnd{os.getpid()}-try'
    done = subprocess.run(['ip', 'netns', 'add', name], stderr=subprocess.PIPE)
    if done.returncode:
        raise Missing(f'there are no network namespaces: {done.stderr.decode("utf-8", "replace").strip()}')
    tried = subprocess.run(['ip', '-n', name, 'link', 'add', 'name', 'b0', 'type', 'bridge'], stderr=subprocess.PIPE)
    subprocess.run(['ip', 'netns', 'del', name])
    if tried.returncode:
        raise Missing(f'there are no bridges: {tried.stderr.decode("utf-8", "replace").strip()}')


def chosen():
    """The homes that are tried: all, or those that HOMES names, such as line-3,star-6."""
    names = [f'{shape}-{size}' for size in SIZES for shape in PLAYED]
    wanted = os.environ.get('HOMES', '').split(',') if os.environ.get('HOMES') else names
    return [name.split('-') for name in names if name in wanted]


def slowest(moments):
    """The longest time of each step, of all homes, as text."""
    longest = {}
    for name, seconds in moments:
        longest[name] = max(seconds, longest.get(name, 0))
    return ', '.join(f'{seconds:.0f} s ({name})' for name, seconds in longest.items())


def check_homes(folder):
    """Each home is played; they run at the same time."""
    must_have_namespaces()
    if platform.system() != 'Linux':
        raise Missing('this is no Linux')
    with tempfile.TemporaryDirectory(dir=folder) as inner:
        os.chmod(inner, 0o755)
        os.chmod(folder, 0o755)
        tools = Tools(inner)
        homes = [Home(tools, shape, int(size)) for shape, size in chosen()]
        with concurrent.futures.ThreadPoolExecutor(len(homes)) as pool:
            playing = [pool.submit(home.play) for home in homes]
            moments = [moment for each in playing for moment in each.result()]
    text = f'{len(homes)} homes; hosts were right after at most {slowest(moments)}'
    text += f'; {tools.most["VmRSS"]} kB at rest, {tools.most["VmHWM"]} kB at most'
    text += f'; {min(tools.flooded):.0f} datagrams a second of garbage' if tools.flooded else '; no garbage: there is no cc'
    text += f'; advertisements of at most {max(tools.longest)} bytes, a short one within {max(tools.short):.0f} s; {max(tools.lost)} lines lost of a log that nobody read'
    return text + ('' if tools.babel else '; no host was asked for an echo: there is no babeld')

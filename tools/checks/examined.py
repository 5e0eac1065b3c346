"""The check of examine: sound devices pass, each faulty one is found by the examination that is meant, and trouble is told."""
import collections
import glob
import json
import os
import random
import re
import shutil
import signal
import socket
import subprocess
import sys
import threading
import time
import xml.etree.ElementTree as tree
from concurrent import futures

import common
from checks import faulty
from checks.helpers import SEED, Missing, Wrong, must, need
from checks.namespaces import Namespaces
from rulercress.tools.examining import running  # noqa: F401: it puts the examinations down
from rulercress.tools.examining.catalogue import ALL, LONG, MUST

ROOT = os.path.join(common.HERE, '..')
LIBRARY = os.path.join(ROOT, 'crates', 'hn_router_c', 'out', 'libhn_router_c.a')
TOGETHER = 24            # devices that are examined at once: each waits for most of its time
TRIES = 4                # how often a faulty device is examined until it is found: on a busy machine it may not come to answer
BESIDE = 5               # other examinations of the same subject that a faulty device is put to
WHOLE = 'EXAMINE_WHOLE'  # in the environment: a faulty device is put to all examinations of its subject
SLACK = '20000'          # milliseconds that moments may be off for judge: on a busy machine datagrams were seconds late
PATIENCE = 1200          # seconds after which an examination is given up
MIDDLE = '7fff0001'      # an identifier that others can be below and above
# What a row of docs/RFC.md may say `no` of, by its words, and the examination that fails then.
ROWS = {
    'delays_replies_to_multicasts': 'replies to multicasts',
    'heeds_dhcp_options_that_it_does_not_know': 'DHCP data or a prefix policy',
}
SUBJECT = {each.name: each.subject for each in ALL}
FOUND = 3
# A device that answers each datagram with garbage.
GARBAGE = '''
import os, socket, struct, sys
index = socket.if_nametoindex(sys.argv[1])
made = socket.socket(socket.AF_INET6, socket.SOCK_DGRAM)
made.bind(('::', 8231))
made.setsockopt(socket.IPPROTO_IPV6, socket.IPV6_JOIN_GROUP, socket.inet_pton(socket.AF_INET6, 'ff02::11') + struct.pack('@I', index))
while True:
    octets, source = made.recvfrom(65536)
    made.sendto(b'\\0\\7' + os.urandom(9), source)
'''


class Place(Namespaces):
    """A device in a namespace, perhaps a filter in another one, and the examiner in a third one."""

    def __init__(self, mark, links=1, fault=None):
        self.links, self.fault = links, fault
        super().__init__('dfx' if fault else 'dx', f'-{mark}')

    def begin(self):
        for place in range(self.links):
            if self.fault:
                self.join('d', f'wire{place}', 'f', f'in{place}')
                self.join('f', f'out{place}', 'x', f'wire{place}')
            else:
                self.join('d', f'wire{place}', 'x', f'wire{place}')
        if self.fault:
            for place in range(self.links):
                for interface in (f'in{place}', f'out{place}'):
                    quiet = f'echo 1 > /proc/sys/net/ipv6/conf/{interface}/disable_ipv6'
                    self.inside('f', 'sh', '-c', quiet).communicate()
            self.start_filter()

    def start_filter(self):
        pairs = [f'in{place}:out{place}' for place in range(self.links)]
        path = os.path.join(common.HERE, 'checks', 'filtering.py')
        made = self.inside('f', sys.executable, path, self.fault, *pairs)
        if made.stdout.readline() != b'ready\n':
            raise Missing(f'the filter does not start: {made.communicate()[1].decode()[-200:]}')

    def relay(self, identifier=MIDDLE, letter='d', wire='wire0'):
        """A node behind relay as the device."""
        return self.inside(letter, os.path.join(common.HERE, 'relay'), wire, '--id', identifier, '--turns', '100000', output=subprocess.DEVNULL)

    def daemon(self, path):
        """The daemon as the device."""
        return self.inside('d', path, '-a', '-i', MIDDLE, *[f'wire{place}' for place in range(self.links)], output=subprocess.DEVNULL)

    def examine(self, *words, count=None, when=None, act=None):
        """Examines the device: status, output, messages. Once a line has some words, something is done to the tool or the device."""
        wires = [f'wire{place}' for place in range(self.links if count is None else count)]
        made = self.inside('x', os.path.join(common.HERE, 'examine'), *wires, *words)
        patience, text = threading.Timer(PATIENCE, made.kill), ''
        patience.start()
        for line in made.stdout:
            text += line.decode()
            if when and when in text:
                when = None
                act(made)
        messages = made.stderr.read().decode()
        patience.cancel()
        return made.wait(), text, messages


def left_out():
    """The examinations of what docs/RFC.md says `no` of."""
    rows = [row.strip(' |').split(' | ') for row in common.read(os.path.join(ROOT, 'docs', 'RFC.md')) if row.startswith('|')]
    return [name for name, words in ROWS.items() if any(words in ' '.join(row) and re.search(r'\bno\b', row[-1]) for row in rows)]


def daemon_of(folder):
    """The daemon, built over the library, or None where one of them or the compiler is not there."""
    sources = glob.glob(os.path.join(ROOT, 'examples', 'hnd', '*.c')) or glob.glob(os.path.join(ROOT, 'daemon', '*.c'))
    compiler = shutil.which('cc') or shutil.which('gcc')
    if not (sources and compiler and os.path.exists(LIBRARY)):
        return None
    path = os.path.join(folder, 'hnd')
    words = [compiler, '-std=c11', '-O2', '-I', os.path.join(ROOT, 'include'), '-o', path, *sources, os.path.join(ROOT, 'include', 'hn_heap.c'), LIBRARY]
    done = subprocess.run([*words, '-lmnl'] if any('daemon' in each for each in sources) else words, stdout=subprocess.PIPE, stderr=subprocess.STDOUT)
    return path if done.returncode == 0 else None


def verdicts(path):
    with open(path) as file:
        return {each['name']: each for each in json.load(file)['examinations']}


def told(results, verdict):
    return sorted(name for name, each in results.items() if each['verdict'] == verdict)


class Runs:
    """The runs, many at once, each in namespaces of its own."""

    def __init__(self, folder, daemon):
        self.folder, self.daemon = folder, daemon
        self.pool = futures.ThreadPoolExecutor(TOGETHER)

    def report(self, mark):
        return os.path.join(self.folder, f'{mark}.json')

    def one(self, mark, words, fault=None, links=1, by_daemon=False):
        """Examines a device, and gives the verdicts. A tool that ends otherwise than by its statuses is wrong. On a busy machine a
        device may be heard too late, so that there is no report; then it is examined again."""
        for _ in range(TRIES):
            with Place(mark, links, fault) as place:
                place.daemon(self.daemon) if by_daemon else place.relay()
                status, text, messages = place.examine('--slack', SLACK, '--json', self.report(mark), *words)
            must(status in (0, 1, FOUND) and 'Traceback' not in messages, f'{mark}: status {status}: {messages[-300:]}')
            if not messages and os.path.exists(self.report(mark)):
                return verdicts(self.report(mark))
        raise Wrong(f'{mark}: status {status}: {messages[-300:]} {text[-200:]}')

    # Faulty devices

    def beside(self, fault, draw):
        """The examinations that a faulty device is put to: the one that is meant, and others of its subject, by their order."""
        meant = fault.examination
        others = [each.name for each in ALL if each.subject == SUBJECT[meant] and each.name != meant and each.seconds < LONG and
                  each.links <= fault.links and meant != 'judge_finds_nothing']
        if not os.environ.get(WHOLE):
            others = draw.sample(others, min(BESIDE, len(others)))
        return [each.name for each in ALL if each.name in (meant, *others)]

    def faulty(self, name, place):
        """What is wrong with the verdicts on a faulty device, or None."""
        fault = faulty.FAULTS[name]
        wanted = self.beside(fault, random.Random(SEED + place))
        for _ in range(TRIES):
            results = self.one(f'f{place}', ['--only', ','.join(wanted)], name, fault.links, fault.hosts or fault.links > 1)
            failed = told(results, 'fail')
            if fault.examination in failed and set(failed) <= {fault.examination, *fault.also}:
                return None
        return f'{name}: {fault.examination} says {results[fault.examination]["verdict"]}, ' \
               f'"{results[fault.examination]["why"][:120]}"; failed: {", ".join(failed) or "nothing"}'

    def all_faulty(self):
        names = [name for name, fault in faulty.FAULTS.items() if fault.examination and (self.daemon or not fault.hosts and fault.links < 2)]
        must({faulty.FAULTS[name].examination for name in names} >= {each.name for each in ALL if each.links < 2 and each.subject != 'hosts'},
             'not each examination has a faulty device')
        longest = sorted(names, key=lambda name: -next(each.seconds for each in ALL if each.name == faulty.FAULTS[name].examination))
        waiting = [self.pool.submit(self.faulty, name, place) for place, name in enumerate(longest)]

        def found():
            wrong = [each for each in (each.result() for each in waiting) if each]
            must(not wrong, f'{len(wrong)} of {len(names)} faulty devices: ' + ' | '.join(wrong[:6]))
            return len(names)
        return found

    # Sound devices

    def sound(self, mark, words, allowed=(), must_pass=(), **more):
        """A sound device: nothing fails but what is allowed to, and some must be seen to pass. What could not be seen is looked at
        again."""
        results, missing = {}, words
        for _ in range(TRIES):
            results.update(self.one(mark, missing, **more))
            failed = [name for name in told(results, 'fail') if name not in allowed]
            must(not failed, f'a sound device, {mark}: ' + ' | '.join(f'{name}: {results[name]["why"][:160]}' for name in failed))
            unseen = [name for name in must_pass if results[name]['verdict'] == 'cannot-tell']
            if not unseen:
                return results
            missing = ['--only', ','.join(unseen)]
        raise Wrong(f'a sound device, {mark}: ' + ' | '.join(f'{name}: {results[name]["why"][:160]}' for name in unseen))

    def all_sound(self):
        allowed = left_out()
        seen = [each.name for each in ALL if each.level == MUST and each.links < 2 and each.subject != 'hosts' and
                each.name not in ('ignores_a_destination_that_is_not_link_local', *allowed)]
        runs = [self.pool.submit(self.sound, 'node', [], allowed, seen),
                self.pool.submit(self.sound, 'filter', [], (), fault='sound'),
                self.pool.submit(self.sound, 'address', ['--only', 'ignores_a_destination_that_is_not_link_local'],
                                 (), ['ignores_a_destination_that_is_not_link_local'], fault='addressed')]
        if self.daemon:
            seen = [each.name for each in ALL if each.level == MUST and
                    each.name not in ('ignores_a_destination_that_is_not_link_local', *allowed)]
            runs.append(self.pool.submit(self.sound, 'daemon', [], allowed, seen, links=2, by_daemon=True))
        return lambda: [each.result() for each in runs]


# Trouble

def trouble_alone(folder):
    """What goes wrong where no device is needed: status and a word of the message."""
    with Place('t0') as place:
        report = os.path.join(folder, 'nobody.xml')
        cases = [('nobody', 1, 'no node is heard', place.examine('--only', 'answers', '--junit', report)),
                 ('no such interface', 1, 'there is no interface', place.examine(count=0, *['nothing']))]
        must(not os.path.exists(report), 'without a device a report is left behind')
        place.ip('-n', place.names['x'], 'link', 'set', 'wire0', 'down')
        cases.append(('an interface that is down', 1, 'is down', place.examine('--only', 'answers')))
        place.ip('-n', place.names['x'], 'link', 'set', 'wire0', 'up')
        path = os.path.join(folder, 'no', 'report')
        cases.append(('a report that cannot be written', 1, path, place.examine('--junit', path)))
        drop = shutil.which('setpriv')
        if drop:
            made = place.inside('x', drop, '--bounding-set=-all', '--inh-caps=-all', '--reuid=65534', '--clear-groups', sys.executable,
                                os.path.join(common.HERE, 'examine'), 'wire0')
            text, messages = (each.decode() for each in made.communicate(timeout=60))
            if 'ermission denied' not in messages or 'packet socket' in messages:
                cases.append(('no right to open sockets', 1, 'CAP_NET_RAW', (made.returncode, text, messages)))
    return cases


def trouble_of_two(_):
    """Two devices are told, and one of them can be named."""
    with Place('t1') as place:
        place.relay()
        place.ip('-n', place.names['d'], 'link', 'add', 'link', 'wire0', 'name', 'second', 'type', 'macvlan', 'mode', 'bridge')
        place.ip('-n', place.names['d'], 'link', 'set', 'second', 'up')
        place.inside('d', os.path.join(common.HERE, 'relay'), 'second', '--id', '00000abc', '--port', '24000', '--turns', '100000',
                     output=subprocess.DEVNULL)
        time.sleep(2)
        return [('two devices', 1, '2 nodes are on wire0: 00000abc at ', place.examine('--only', 'answers_whoever_asks')),
                ('one of two devices', 0, '', place.examine('--only', 'answers_whoever_asks', '--device', '00000abc')),
                ('a device that is not there', 1, 'node 00000def is not heard', place.examine('--only', 'answers', '--device', '00000def'))]


def trouble_in_the_middle(_):
    """A device that is stopped, and then one whose interface is taken from the examiner; what was seen before is in the report."""
    cases = []
    for number, (what, said) in enumerate([('a device that stops', 'has sent nothing since'), ('an interface that goes down', 'is down')]):
        with Place(f't2{number}') as place:
            device = place.relay()

            def act(_, place=place, device=device, number=number):
                if number:
                    place.ip('-n', place.names['x'], 'link', 'set', 'wire0', 'down')
                else:
                    device.terminate()
            cases.append((what, 1, said, place.examine('--only', 'states', when='pass        takes_the_data_of_a_peer', act=act)))
    return cases


def trouble_of_garbage(folder):
    """A device that answers garbage alone."""
    path = os.path.join(folder, 'garbage.py')
    with open(path, 'w') as file:
        file.write(GARBAGE)
    with Place('t3') as place:
        place.inside('d', sys.executable, path, 'wire0', output=subprocess.DEVNULL)
        return [('a device that answers garbage', 1, 'it is no list of TLVs', place.examine('--only', 'answers'))]


def trouble_of_the_user(_):
    """The tool is ended by a signal: the reports have what was seen, and the status is that of an interrupt."""
    with Place('t4') as place:
        place.relay()
        ended = place.examine('--only', 'states', when='device ', act=lambda made: made.send_signal(signal.SIGTERM))
        return [('an interrupt', 130, '', ended)]


def fault_of(what, status, said, outcome):
    """What is wrong with how a kind of trouble is told, or None: it has its status and its line, and no traceback."""
    ended, text, messages = outcome
    if ended != status:
        return f'{what}: status {ended} and not {status}: {text[-200:]} {messages[-300:]}'
    if said not in text + messages:
        return f'{what}: "{said}" is not said: {text[-200:]} {messages[-300:]}'
    if 'Traceback' in messages or messages and messages.count('\n') != 1:
        return f'{what}: {messages[-400:]}'
    return None


def all_trouble(folder):
    """Each kind of trouble is told. On a busy machine a device may be heard too late, so what is told otherwise is tried again."""
    count = 0
    for kind in (trouble_alone, trouble_of_two, trouble_in_the_middle, trouble_of_garbage, trouble_of_the_user):
        for _ in range(TRIES):
            cases = kind(folder)
            wrong = [each for each in (fault_of(*case) for case in cases) if each]
            if not wrong:
                break
        must(not wrong, ' | '.join(wrong))
        count += len(cases)
    return count


def check_reports(folder):
    """The reports of one run say the same: the lines, JUnit and JSON; the capture has the frames that they name."""
    junit, capture = (os.path.join(folder, name) for name in ('report.xml', 'report.pcap'))
    path = os.path.join(folder, 'report.json')
    with Place('r', fault='hash-of-other-data') as place:
        place.relay()
        status, text, messages = place.examine('--only', 'answers,identifier', '--junit', junit, '--json', path, '--pcap', capture)
    must(status == FOUND, f'status {status}: {messages[-200:]}')
    results, suite = verdicts(path), tree.parse(junit).getroot().find('testsuite')
    cases = {each.get('name'): each for each in suite.findall('testcase')}
    must(list(cases) == list(results), 'JUnit and JSON have other examinations')
    counts = collections.Counter(each['verdict'] for each in results.values())
    for name, verdict in (('failures', 'fail'), ('skipped', 'cannot-tell')):
        must(int(suite.get(name)) == counts[verdict], f'JUnit counts {suite.get(name)} {name}, and JSON {counts[verdict]}')
    must(int(suite.get('tests')) == len(results), f'JUnit counts {suite.get("tests")} tests')
    for name, each in results.items():
        must(f'{each["verdict"]:11} {name} ' in text, f'the lines do not say {each["verdict"]} of {name}')
        must((cases[name].find('failure') is not None) == (each['verdict'] == 'fail'), f'JUnit says otherwise of {name}')
    frames = results['gives_the_data_of_a_node']['frames']
    with open(capture, 'rb') as file:
        octets, at, found = file.read(), 24, []
    while at < len(octets):
        size = int.from_bytes(octets[at + 8:at + 12], 'little')
        found.append(octets[at + 16:at + 16 + size])
        at += 16 + size
    must(len(frames) == 1 and bytes(12) in found[frames[0] - 1] or bytes(8) in found[frames[0] - 1], f'frame {frames} does not show the fault')


def is_root_on_linux():
    if not hasattr(socket, 'AF_PACKET') or os.geteuid():
        raise Missing('it takes Linux and root')


def left_behind():
    found = subprocess.run(['ip', 'netns', 'list'], stdout=subprocess.PIPE).stdout.decode().split()
    return [name for name in found if name.startswith(f'hncp-{os.getpid()}-')]


def all_of(parts):
    """What each part gives. All of them are waited for, and all that is wrong is told."""
    found, wrong = [], []
    for part in parts:
        try:
            found.append(part())
        except Wrong as one:
            wrong.append(str(one))
    must(not wrong, ' || '.join(wrong))
    return found


def check_examine(folder):
    """Sound devices pass, each faulty one is found, and trouble is told."""
    need('ip')
    is_root_on_linux()
    with Place('try'):
        pass
    daemon = daemon_of(folder)
    runs = Runs(folder, daemon)
    trouble = runs.pool.submit(all_trouble, folder).result
    parts = [runs.all_sound(), runs.all_faulty(), lambda: check_reports(folder), trouble]
    results, count, _, kinds = all_of(parts)
    must(not left_behind(), f'left behind: {left_behind()}')
    passed = sum(each['verdict'] == 'pass' for each in results[0].values())
    more = '' if daemon else '; no daemon: it is not built, as there is no libhn_router_c.a, or no compiler'
    return f'{passed} of {len(results[0])} examinations pass of a node behind relay, {count} faulty devices found, {kinds} kinds of trouble{more}'

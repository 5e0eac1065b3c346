"""The check of relay: nodes in network namespaces on one link, what is captured there, and a host that takes many ports."""
import os
import subprocess
import time

import common
from checks.helpers import Missing, lines_of, must, need, run

TURNS = 4000           # of a node behind a relay: half a minute; a turn without a datagram takes some 8 ms
STAR, LONGER = 6, 8000
PATIENCE = 300         # seconds until such a node has to have ended
UPLINK = 'hncp 1\nexternal 2001:db8::/56 7200 3600\n'
# What a host does that asks from 80 ports, once from each.
FLOOD = """import socket, sys, time
index = socket.if_nametoindex('wire')
for port in range(24000, 24080):
    sender = socket.socket(socket.AF_INET6, socket.SOCK_DGRAM)
    sender.bind(('::', port))
    sender.sendto(bytes([0, 1, 0, 0]), (sys.argv[1], 8231, 0, index))
    time.sleep(0.002)
"""


class Link:
    """Network namespaces with an interface `wire` each, joined by a bridge in one more; all of it is gone at the end."""

    def __init__(self, count):
        self.hub, *self.names = [f'hncp-{os.getpid()}-{place}' for place in range(count + 1)]
        self.running = []

    def __enter__(self):
        try:
            for name in (self.hub, *self.names):
                self.ip('netns', 'add', name)
                self.inside(name, 'sh', '-c', 'echo 0 > /proc/sys/net/ipv6/conf/default/accept_dad').communicate()
                self.ip('-n', name, 'link', 'set', 'lo', 'up')
            self.ip('-n', self.hub, 'link', 'add', 'bridge', 'type', 'bridge', 'mcast_snooping', '0')
            for place, name in enumerate(self.names):
                self.ip('link', 'add', 'wire', 'netns', name, 'type', 'veth', 'peer', 'name', f'port{place}', 'netns', self.hub)
                self.ip('-n', self.hub, 'link', 'set', f'port{place}', 'master', 'bridge', 'up')
                self.ip('-n', name, 'link', 'set', 'wire', 'up')
            self.ip('-n', self.hub, 'link', 'set', 'bridge', 'up')
        except BaseException:
            self.__exit__()
            raise
        return self

    @staticmethod
    def ip(*words):
        done = subprocess.run(['ip', *words], stdout=subprocess.PIPE, stderr=subprocess.PIPE)
        if done.returncode != 0:
            raise Missing(f'ip {" ".join(words)}: {done.stderr.decode("utf-8", "replace").strip()}')

    def inside(self, name, *words):
        """A program in one of the namespaces."""
        made = subprocess.Popen(['ip', 'netns', 'exec', name, *words], stdin=subprocess.DEVNULL, stdout=subprocess.PIPE, stderr=subprocess.PIPE)
        self.running.append(made)
        return made

    def ear(self, interface, path):
        """A capture on an interface of the bridge's namespace."""
        made = self.inside(self.hub, 'tcpdump', '-Z', 'root', '-i', interface, '-U', '-w', path, 'udp port 8231 or ip6 proto 44')
        while b'listening on' not in (line := made.stderr.readline()):
            if not line:
                raise Missing('tcpdump does not listen in a namespace')
        return made

    def relay(self, place, turns, *more):
        """A node with the identifier of its place."""
        words = ['wire', '--id', f'{place + 1:08x}', '--seed', str(place + 1), '--turns', str(turns), *more]
        return self.inside(self.names[place], os.path.join(common.HERE, 'relay'), *words)

    def address(self, place):
        """The link-local address of a namespace."""
        words = ['ip', '-n', self.names[place], '-6', '-o', 'address', 'show', 'dev', 'wire', 'scope', 'link']
        return subprocess.run(words, stdout=subprocess.PIPE).stdout.decode().split()[3].partition('/')[0]

    def __exit__(self, *_):
        for each in self.running:
            if each.poll() is None:
                each.terminate()
            each.communicate()
        for name in (self.hub, *self.names):
            subprocess.run(['ip', 'netns', 'del', name], stdout=subprocess.PIPE, stderr=subprocess.PIPE)


def ended(relays, reach):
    """The lines of relays that came to their end and reached so many nodes."""
    texts = []
    for each in relays:
        text, messages = each.communicate(timeout=PATIENCE)
        must(each.returncode == 0 and b' failed=0' in text, f'relay: status {each.returncode}, {text.decode()} {messages.decode()[-200:]}')
        must(f' reach={reach} '.encode() in text, f'relay: a node does not reach {reach} nodes: {text.decode()}')
        texts.append(text.decode())
    return texts


def check_two(folder, uplink):
    """Two nodes by two relays on one link reach each other, and what is captured on it is sound."""
    path = os.path.join(folder, 'wire.pcap')
    with Link(2) as link:
        ear = link.ear('bridge', path)
        texts = ended([link.relay(0, TURNS, '--file', uplink), link.relay(1, TURNS)], 2)
        ear.terminate()
        ear.communicate()
        must(all('neighbours=1 ' in text for text in texts), f'relay: {texts}')
    left = [name for name in link.names if name in subprocess.run(['ip', 'netns', 'list'], stdout=subprocess.PIPE).stdout.decode()]
    must(not left, f'left behind: {left}')
    # A busy machine may delay what a relay hands on, so moments count for little here.
    text = lines_of('judge', '--slack', '5000', path)
    must(any('peer 00000001/1 - 00000002/1 mutual=yes' in line for line in text), f'judge shows no peers: {text}')
    return text[0].split()[1][10:]


def check_crowd(uplink):
    """A host that asks from many ports does not keep others away: its silent ports give way."""
    with Link(3) as link:
        first = link.relay(0, TURNS, '--file', uplink)
        time.sleep(1)
        link.inside(link.names[2], 'python3', '-c', FLOOD, link.address(0)).communicate()
        text = ended([first, link.relay(1, TURNS)], 2)[0]
        must('neighbours=64 ' in text and ' crowd=0 ' not in text, f'relay beside a host of 80 ports: {text}')


def check_star(folder, uplink):
    """Six nodes on one link. A capture of all ports of the bridge has each frame many times; judge finds nothing in it, nor in one
    of the bridge alone."""
    paths = [os.path.join(folder, f'{name}.pcap') for name in ('any', 'bridge')]
    with Link(STAR) as link:
        ears = [link.ear(interface, path) for interface, path in zip(('any', 'bridge'), paths)]
        ended([link.relay(place, LONGER, *(['--file', uplink] if place == 0 else [])) for place in range(STAR)], STAR)
        for each in ears:
            each.terminate()
            each.communicate()
    counts = []
    for path in paths:
        text = lines_of('judge', '--slack', '5000', path)
        counts.append(int(text[0].split()[1][10:]))
        mutual = sum(' mutual=yes' in line for line in text)
        must(mutual == STAR * (STAR - 1) // 2, f'judge shows {mutual} pairs of peers in a star of {STAR}')
        must(('frames stand twice' in text[1]) == path.endswith('any.pcap'), f'{os.path.basename(path)}: {text[1]}')
    must(counts[0] == counts[1], f'judge takes {counts[0]} datagrams of all ports, and {counts[1]} of the bridge')
    return counts[0]


def check_relay(folder):
    need('ip', 'tcpdump', 'tshark')
    status, _, messages = run('relay', 'no-such-interface')
    must(status == 1 and 'there is no interface' in messages, f'without an interface: status {status}, {messages}')
    uplink = os.path.join(folder, 'uplink.node')
    with open(uplink, 'w') as file:
        file.write(UPLINK)
    two = check_two(folder, uplink)
    check_crowd(uplink)
    return (f'two nodes reach each other over {two} datagrams, and {STAR} over {check_star(folder, uplink)}, in which judge finds nothing; '
            'a host of 80 ports keeps nobody away')

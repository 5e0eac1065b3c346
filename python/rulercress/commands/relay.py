"""Puts a `hncp node` on a real link, beside gateways, until its turns are over.

  tools/relay eth0 --file uplink.node

It joins ff02::11 on the interface (RFC 7788, section 3). Each neighbour that sends from a link-local address gets a port of its
own on the loopback, from which the node hears it, and what the node sends there goes to that neighbour. A 65th neighbour takes
the place of another one: of the address with the most ports the port that was silent for longest. So a host that asks from many
ports keeps nobody away. What the node sends by multicast goes to ff02::11. The node is endpoint 1 of itself, and its ports are PORT to PORT + 3 of 127.0.0.1.

The node ends after its turns; a turn where nothing comes takes some milliseconds. Then the line of the node is
written, and one that counts what went over the link. Nothing is left behind, also where it is ended by Ctrl-C or by SIGTERM.
It needs Linux, an interface with a link-local address, and no other program on UDP port 8231 of this address. The status is 1 if
the interface or the program is not as it has to be, and 2 on bad arguments.
"""
import argparse
import collections
import os
import select
import signal
import socket
import subprocess
import time

from ..tools import common, links
from ..tools.common import Problem, number_from

LOOPBACK = '127.0.0.1'
MOST_BYTES = 65536
MOST_NEIGHBOURS = 64         # as many peers as an endpoint has; with one more, one gives way
FIRST_PORT, LAST_PORT = 1024, 65534 - 3


class Neighbour:
    """A neighbour on the link: its address there, its socket on the loopback, and when it was heard last."""

    def __init__(self, address):
        self.address = address
        self.socket = loopback(0)
        self.heard = time.monotonic()


def loopback(port):
    made = socket.socket(socket.AF_INET, socket.SOCK_DGRAM)
    try:
        made.bind((LOOPBACK, port))
    except OSError as error:
        made.close()
        raise Problem(f'port {port} of {LOOPBACK}: {error.strerror}; --port takes another')
    return made


class Relay:
    """Hands datagrams between a link and a node on the loopback."""

    def __init__(self, name, port, link_port):
        self.index = links.index_of(name)
        self.name, self.port, self.link_port = name, port, link_port
        self.address = links.link_local(name)
        self.unicasts = links.on_link(self.address, link_port, self.index)
        self.multicasts = links.in_group(link_port, self.index)
        self.peer = loopback(port + 2)         # the node's one peer, from which nothing comes
        self.to_group = loopback(port + 3)     # where the node sends multicasts
        self.neighbours = {}                   # address and port -> Neighbour
        self.owners = {}                       # socket on the loopback -> Neighbour
        self.counts = dict.fromkeys(['in_unicast', 'in_multicast', 'out_unicast', 'out_multicast', 'far', 'crowd', 'failed'], 0)

    def sockets(self):
        return [self.unicasts, self.multicasts, self.peer, self.to_group, *self.owners]

    def close(self):
        for each in self.sockets():
            each.close()

    def send(self, way, sender, octets, address):
        try:
            sender.sendto(octets, address)
            self.counts[way] += 1
        except OSError:
            self.counts['failed'] += 1

    def take(self, ready):
        """Hands on what waits at a socket."""
        octets, source = ready.recvfrom(MOST_BYTES)
        if ready in (self.unicasts, self.multicasts):
            self.take_from_link(ready, octets, source)
        elif source != (LOOPBACK, self.port) or ready is self.peer:
            self.counts['far'] += 1
        elif ready is self.to_group:
            self.send('out_multicast', self.unicasts, octets, (links.GROUP, self.link_port, 0, self.index))
        else:
            self.send('out_unicast', self.unicasts, octets, self.owners[ready].address)

    def take_from_link(self, ready, octets, source):
        first = socket.inet_pton(socket.AF_INET6, source[0].partition('%')[0])
        if first[0] != 0xfe or first[1] & 0xc0 != 0x80 or source[3] != self.index:
            self.counts['far'] += 1
            return
        neighbour = self.neighbours.get(source[:2])
        if neighbour is None:
            if len(self.neighbours) >= MOST_NEIGHBOURS:
                self.make_room()
            neighbour = self.neighbours[source[:2]] = Neighbour(source)
            self.owners[neighbour.socket] = neighbour
        neighbour.heard = time.monotonic()
        if ready is self.multicasts:
            self.send('in_multicast', neighbour.socket, octets, (LOOPBACK, self.port + 1))
        else:
            self.send('in_unicast', neighbour.socket, octets, (LOOPBACK, self.port))

    def make_room(self):
        """One neighbour gives way: of the address with the most ports the one that is silent for the longest time."""
        ports = collections.Counter(address for address, _ in self.neighbours)
        key = min(self.neighbours, key=lambda key: (-ports[key[0]], self.neighbours[key].heard))
        gone = self.neighbours.pop(key)
        del self.owners[gone.socket]
        gone.socket.close()
        self.counts['crowd'] += 1

    def serve(self, node):
        """Until the node ended."""
        while node.poll() is None:
            for ready in select.select(self.sockets(), [], [], 0.1)[0]:
                if ready.fileno() >= 0:     # it is closed if it gave way since
                    self.take(ready)

    def line(self):
        counts = ' '.join(f'{name}={count}' for name, count in self.counts.items())
        return f'relay {self.name} {self.address} neighbours={len(self.neighbours)} {counts}'


def run_node(relay, words, file):
    """Starts the node, serves it, and gives its line. Whatever happens, it is ended."""
    command = [common.program(), 'node', words.id, str(relay.port), str(words.turns), str(words.seed), str(relay.port + 2)]
    node = subprocess.Popen(command, stdin=subprocess.PIPE, stdout=subprocess.PIPE, stderr=subprocess.PIPE)
    try:
        node.stdin.write(file)
        node.stdin.close()
        relay.serve(node)
    except BrokenPipeError:
        pass
    finally:
        if node.poll() is None:
            node.terminate()
        node.wait()
    text, errors = (each.read().decode('ascii', 'replace').strip() for each in (node.stdout, node.stderr))
    if node.returncode != 0 or not text.startswith('node id='):
        raise Problem(f'hncp node ended with status {node.returncode}: {(text + " " + errors).strip()}')
    return text


def identifier(text):
    if len(text) != 8 or not set(text) <= set('0123456789abcdefABCDEF'):
        raise argparse.ArgumentTypeError(f'{text} has not 8 hexadecimal digits')
    return text


def stop(*_):
    raise KeyboardInterrupt


def main(words=None):
    given = common.parser(__doc__, [
        ('--id', {'type': identifier, 'default': f'{int.from_bytes(os.urandom(4), "big") or 1:08x}', 'help': "the node's identifier (random)"}),
        ('--file', {'metavar': 'FILE', 'help': 'a node file, with capabilities and delegated prefixes'}),
        ('--turns', {'type': number_from(1, 100000), 'default': 20000, 'metavar': 'N', 'help': 'how many turns (20000)'}),
        ('--seed', {'type': number_from(0, 2 ** 64 - 1), 'default': int.from_bytes(os.urandom(8), 'big'), 'metavar': 'N', 'help': 'the seed (random)'}),
        ('--port', {'type': number_from(FIRST_PORT, LAST_PORT), 'default': 23000, 'help': 'the first of four ports on the loopback (23000)'}),
        ('-p', {'type': number_from(1, 65535), 'default': 8231, 'dest': 'link_port', 'metavar': 'PORT', 'help': 'another port than 8231'}),
        ('interface', {'metavar': 'INTERFACE', 'help': 'the interface on the link of the gateways'}),
    ])
    words = given.parse_args(words)
    common.program()
    file = b'hncp 1\n'
    if words.file:
        with open(words.file, 'rb') as given_file:
            file = given_file.read()
    signal.signal(signal.SIGTERM, stop)
    relay = Relay(words.interface, words.port, words.link_port)
    try:
        print(run_node(relay, words, file))
    finally:
        relay.close()
        print(relay.line())
    return 0

"""What one datagram costs a node whose table strangers have filled, in processor time: for `attack --costs`."""
import random
import socket
import time

import common
import crowd
from common import Problem

# So many Node States of one node are in a datagram of several; so many are in one that fills it.
SEVERAL, MANY = 20, 200
# The seconds in which a node does what is due after a datagram.
PAUSE = 0.1
# The longest that an answer is waited for, in seconds.
PATIENCE = 600


def spent(process):
    """The processor time of a process so far, in seconds."""
    try:
        with open(f"/proc/{process.pid}/schedstat") as text:
            return int(text.read().split()[0]) / 1e9
    except OSError:
        raise Problem("--costs needs /proc/PID/schedstat of Linux") from None


# The Peer by which the changing node is reachable.
LINKED = crowd.peer(crowd.FIRST, 9, 9)


def state(number, *items):
    """A state of the changing node."""
    return crowd.CHANGING, number, crowd.data(items)


def datagrams(kind):
    """Of each kind of datagram its name and its states, in the order in which they are sent. Numbers only rise."""
    several, many = range(10, 10 + SEVERAL), range(100, 100 + MANY)
    yield "a request for the network state", []
    yield "a Node State with new data, of a new node", [state(1, LINKED)]
    yield f"{SEVERAL} Node States of it, with the same Peers", [state(number, LINKED, crowd.assigned(2 ** 31 + number)) for number in several]
    yield f"{MANY} Node States of it, by turns without its mutual Peer and with", [state(number, *[LINKED][:number % 2]) for number in many]
    if kind == "prefixes":
        yield "a delegated prefix of 32 bits, whose first places are all taken", [state(1000, LINKED, crowd.external(32))]
        yield "a Node State with another assigned prefix, beside it", [state(1001, LINKED, crowd.external(32), crowd.assigned(2 ** 31))]
        yield "the delegated prefix is gone", [state(1002, LINKED)]


class Asker:
    """The peer, which sends a datagram and waits for the answer to a request after it."""

    def __init__(self, peer, process):
        self.socket, self.node, self.process = peer.sockets[0], peer.node, process
        self.socket.setsockopt(socket.SOL_SOCKET, socket.SO_RCVBUF, 1 << 22)

    def answered(self, datagrams, answer):
        """Sends datagrams, the last of which is a request. The time by the clock until its answer."""
        self.socket.setblocking(False)
        try:
            while True:
                self.socket.recv(65536)
        except (BlockingIOError, ConnectionRefusedError):
            pass
        begun = time.time()
        for each in datagrams:
            self.socket.sendto(each, ("127.0.0.1", self.node))
        self.socket.settimeout(PATIENCE)
        try:
            while not answer(self.socket.recv(65536)):
                pass
        except (socket.timeout, ConnectionRefusedError):
            raise Problem("the node answers no longer") from None
        finally:
            self.socket.setblocking(False)
        return time.time() - begun

    def take(self, data, request, answer):
        """Sends it and a request, and some turns of the node later, in which it does what is due, another request. The processor
        time until the second answer, and the time by the clock that the two answers took."""
        before = spent(self.process)
        waited = self.answered([data, request] if data else [request], answer)
        time.sleep(PAUSE)
        waited += self.answered([request], answer)
        return spent(self.process) - before, waited


def table(peer, process, kind, nodes, request, answer):
    """The lines of the table for a crowd of a kind: of each datagram its bytes, the processor time, and the time by the clock."""
    asker = Asker(peer, process)
    total = 0.0
    for data in crowd.crowd(kind, nodes, random.Random(nodes)):
        total += asker.take(data, request, answer)[0]
    yield f"| {kind} | the {nodes} nodes, a datagram each | | {total:.3f} s | |"
    for name, states in datagrams(kind):
        data = crowd.states(crowd.FIRST, states) if states else b""
        took, waited = asker.take(data, request, answer)
        yield f"| {kind} | {name} | {len(data) or len(request)} | {took * 1000:.1f} ms | {waited * 1000:.1f} ms |"

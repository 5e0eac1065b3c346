"""An examination session: the device, the links, the neighbours that are played, and what becomes of each examination."""
import os
import struct
import time

from .. import links
from ..common import Problem
from . import wire
from .catalogue import CANNOT_TELL, FAIL, PASS, CannotTell, Fail
from .link import hear
from .neighbour import Neighbour
from .watch import Watch
from .wire import NETWORK_STATE, NODE_ENDPOINT, REQUEST_NETWORK, REQUEST_NODE, four, tlv

SLACK = 1.0              # seconds that moments may be off for judge, on a busy machine
PATIENCE = 27.0          # seconds until somebody is heard: the keep-alive interval, and some
ASKED = (0.0, 0.5, 1.0, 2.0, 4.0, 8.0, 16.0)      # moments at which everybody is asked
MORE = 1.5               # seconds to hear who else is there
ALIVE = 6.0              # seconds without any datagram after which the device is gone, while it is asked
DRAINED = 0.3            # seconds until late answers have come
FORGOTTEN = 3.0          # seconds to wait until the device has forgotten a neighbour that left


class Device:
    """The device on a link: identifier, endpoint, address."""

    def __init__(self, link, heard):
        self.link, self.address, self.mac = link, heard.source, heard.mac
        self.id, self.endpoint = heard.endpoint

    def __str__(self):
        return f'{self.id.hex()} endpoint {self.endpoint} at {self.address}'


class Result:
    """How an examination went."""

    def __init__(self, examination, verdict, why='', frames=(), heard=()):
        self.examination, self.verdict, self.why = examination, verdict, why
        self.frames, self.heard, self.seconds, self.span = list(frames), list(heard), 0.0, None

    @property
    def where(self):
        """The frames, as text."""
        if self.frames:
            return f'frame{"s" if len(self.frames) > 1 else ""} {", ".join(map(str, self.frames))}'
        return f'frames {self.span[0]} to {self.span[1]}' if self.span else ''


class Session:
    """All that is heard and sent while a device is examined."""

    def __init__(self, ends, record, slack=SLACK):
        self.ends, self.record, self.slack = ends, record, slack
        self.neighbours = []
        self.devices = []           # the device on each link
        self.nodes = {}             # (link, address) -> the last Node Endpoint that was heard from there
        self.garbage = {}           # (link, address) -> why what came from there is no list of TLVs
        self.has_advertised = None  # whether the device sends Router Advertisements; None: nobody looked yet
        self.last_advert = None
        self.former = set()         # the identifiers that the device had
        self.left_at = None         # the frame from which on it has another identifier than at first
        self.watch = Watch()
        self.facts = {}             # what several examinations look at, and is tried once, or twice
        self.sure = set()           # which of it was tried twice, or will be

    # Hearing

    def hear(self, seconds, until=lambda each: False):
        return hear(self.ends, seconds, self.take, until)

    def take(self, each):
        if isinstance(each, wire.Advert):
            if self.is_of_device(each):
                self.has_advertised, self.last_advert = True, each
            return
        if not isinstance(each, wire.Heard):
            return
        if each.fault is not None:
            self.garbage[each.link, each.source] = f'it is no list of TLVs: {each.fault} (frame {each.frame})'
        elif each.endpoint and not each.source.startswith('fe8'):
            self.garbage[each.link, each.source] = f'its address is not link-local (frame {each.frame})'
        elif each.endpoint:
            self.nodes[each.link, each.source] = each
            for device in self.devices:
                if each.link is device.link and each.source == device.address:
                    self.follow(device, each)
        self.answer(each)

    def follow(self, device, each):
        """The device may send under another identifier now."""
        if each.endpoint[0] != device.id and self.left_at is None:
            self.left_at = each.frame
        self.former.add(device.id)
        device.id, device.endpoint = each.endpoint
        self.watch.take(each, device.id)

    def is_of_device(self, each):
        return any(each.link is device.link and each.source == device.address for device in self.devices)

    def answer(self, each):
        """A neighbour that is played answers who asks for its data."""
        wanted = each.all(REQUEST_NODE, 4)
        if each.multicast or not (wanted or each.all(REQUEST_NETWORK)):
            return
        for neighbour in self.neighbours:
            if neighbour.answers and neighbour.link is each.link and neighbour.greeted and self.is_of_device(each):
                if neighbour.id in wanted:
                    neighbour.send(neighbour.state())
                elif not wanted:
                    neighbour.send(neighbour.state(with_data=False))

    # The device

    def find(self, wanted):
        """Finds the device: the one node on each link, or the one that is wanted."""
        for link in self.ends:
            heard = self.heard_first(link)
            nodes = {each.endpoint[0]: each for (on, _), each in heard.items() if on is link}
            if not nodes:
                raise Problem(self.nobody(link))
            if wanted is not None and wanted not in nodes:
                raise Problem(f'node {wanted.hex()} is not heard on {link.name}; heard: {self.told(nodes)}')
            if wanted is None and len(nodes) > 1:
                raise Problem(f'{len(nodes)} nodes are on {link.name}: {self.told(nodes)}; --device takes the identifier of one')
            self.devices.append(Device(link, nodes[wanted or next(iter(nodes))]))
        if len({device.id for device in self.devices}) > 1:
            raise Problem('the links lead to two nodes: ' + ', '.join(f'{each} on {each.link.name}' for each in self.devices))

    @staticmethod
    def told(nodes):
        return ', '.join(f'{node.hex()} at {each.source}' for node, each in sorted(nodes.items()))

    def nobody(self, link):
        for (on, source), why in self.garbage.items():
            if on is link:
                return f'no node is heard on {link.name}; {source} sends from port {wire.PORT}, but {why}'
        return f'no node is heard on {link.name} within {PATIENCE:g} s'

    def heard_first(self, link):
        """Asks everybody on a link until somebody is heard, and some time more."""
        begin, asked = time.monotonic(), 0
        while time.monotonic() < begin + PATIENCE and not any(on is link for on, _ in self.nodes):
            if asked < len(ASKED) and time.monotonic() >= begin + ASKED[asked]:
                link.send(tlv(REQUEST_NETWORK), links.GROUP)
                asked += 1
            self.hear(0.25, lambda each: isinstance(each, wire.Heard) and each.endpoint)
        if self.nodes:
            link.send(tlv(REQUEST_NETWORK), links.GROUP)
            self.hear(MORE)
        return self.nodes

    def others(self):
        """Who else is on the links of the device."""
        known = {(device.link, device.address) for device in self.devices}
        return [each for key, each in self.nodes.items() if key not in known]

    def is_alive(self):
        """Whether the device sends anything while it is asked."""
        end = time.monotonic() + ALIVE
        while time.monotonic() < end:
            for device in self.devices:
                device.link.send(tlv(REQUEST_NETWORK) + tlv(REQUEST_NODE, device.id), device.address)
                digest = tlv(NODE_ENDPOINT, os.urandom(4) + four(1)) + tlv(NETWORK_STATE, os.urandom(8))
                device.link.send(digest, links.GROUP)
            heard = self.hear(1.0, self.is_of_device)
            if any(self.is_of_device(each) for each in heard):
                self.hear(DRAINED)
                return True
        return False

    # Examinations

    def neighbour(self, place=0, **more):
        """A fresh neighbour on a link of the device."""
        return Neighbour(self, self.devices[place], **more)

    def fact(self, kind, x):
        """What a neighbour finds out for several examinations, by the first of them."""
        if kind not in self.facts:
            self.facts[kind] = kind(x)
        return self.facts[kind]

    def look_again(self):
        """What was found out for several examinations is found out once more, and then no more."""
        for kind in set(self.facts) - self.sure:
            del self.facts[kind]
            self.sure.add(kind)

    def examine(self, examination):
        """Holds an examination. Whatever happens, the neighbours leave."""
        first, begin = self.record.count + 1, time.monotonic()
        result = Result(examination, PASS)
        try:
            examination.run(self.neighbour())
        except Fail as fail:
            result = Result(examination, FAIL, str(fail), fail.frames, fail.heard)
        except CannotTell as cannot:
            result = Result(examination, CANNOT_TELL, str(cannot))
        except (ArithmeticError, LookupError, TypeError, ValueError, struct.error) as error:
            result = Result(examination, CANNOT_TELL, f'what the device sent cannot be read: {type(error).__name__}: {error}')
        finally:
            self.leave()
        result.seconds = time.monotonic() - begin
        result.span = first, max(first, self.record.count)
        return result

    def leave(self):
        """All neighbours leave, and the device is given time to forget them."""
        gone = [each for each in self.neighbours if each.greeted]
        for each in self.neighbours:
            each.leave()
        self.hear(0.35 if gone else 0.0)
        end = time.monotonic() + FORGOTTEN
        while gone and time.monotonic() < end and self.is_remembered(gone):
            self.hear(0.3)
        self.neighbours = []

    def is_remembered(self, gone):
        """Whether the device still publishes one of the neighbours as its peer. It is asked by nobody in particular."""
        for neighbour in gone[:1]:
            state = neighbour.node(self.devices[0].id, named=False, tries=1)
            peers = {value[:4] for value in wire.values(state.data, wire.PEER)} if state else set()
            return any(each.id in peers for each in gone)
        return False

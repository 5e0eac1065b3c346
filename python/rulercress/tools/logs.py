"""What `hnlook log` writes of a script: its events, and below each of them what it made (docs/FORMATS.md, "hnlook")."""
import heapq
import ipaddress

from . import common, looks
from .common import Problem

# Lines of a script that are one event. `address` and `ula` are at most one, `flow`, `run` and `sync` are any number.
ONE_EVENT = set('router link attach detach external withdraw caps private stop start time tick deliver drop inject'.split())
TREATING = ('deliver', 'drop')
OUTSIDE = ('fe80::', '2001:db8::1')    # sources of the lines `inject`


class Copy:
    """A copy of a datagram: who sent it and when, who gets it, what it says, and what became of it."""

    def __init__(self, words, moment):
        _, number, sender, _, receiver, way, text = words
        self.number = int(number)
        self.moment = moment              # when it was made
        self.sender = endpoint_of(sender)
        self.receiver = endpoint_of(receiver)
        self.multicast = way == 'multi'
        self.data = bytes_of(text)
        self.datagram = self.number       # the number of the first copy of its datagram
        self.link = None                  # the link that it goes over
        self.fates = []                   # (moment, deliver or drop, why it is dropped)


class Injected:
    """A datagram from outside of the home, or the question of a `sync`, whose sender is an endpoint of the home."""

    def __init__(self, words, moment, after, home):
        _, name, endpoint, self.way, self.source, _, text = words
        self.moment = moment
        self.after = after                # how many copies were made before
        self.receiver = name, int(endpoint)
        self.sender = None if self.source in OUTSIDE else owner_of(self.source, home)
        self.link = home.attached.get(self.receiver)
        self.data = bytes_of(text)


class Event:
    """An event: its moment, its text, and what it made."""

    def __init__(self, line):
        moment, self.text = line.split(' ', 1)
        self.moment = int(moment)
        self.words = self.text.split(' ')
        self.lines = []                   # the lines below it, without their indent
        self.copies = []
        self.notes = []                   # as hncp writes them
        self.published = []               # (router, sequence number)

    @property
    def word(self):
        return self.words[0]

    def add(self, line):
        """A line below the event."""
        self.lines.append(line)
        if line.startswith('copy '):
            self.copies.append(Copy(line.split(' '), self.moment))
        elif line.startswith('note '):
            self.notes.append(line)
        else:
            _, name, number = line.split(' ')
            self.published.append((name, int(number.split('=')[1])))


class Log:
    """The events of a script, its copies and its injected datagrams."""

    def __init__(self, text):
        """Reads the lines that `hnlook log` wrote."""
        self.refused = common.refusal(text)
        self.home = looks.Home()
        self.events = []
        self.copies = []                  # by number, from 1 on
        self.injected = []
        for line in text[:-1] if self.refused else text:
            if line.startswith('  '):
                self.events[-1].add(line[2:])
            else:
                self.events.append(Event(line))
        for event in self.events:
            self.go_over(event)

    def go_over(self, event):
        """What an event does to the home and to its copies."""
        words = event.words
        if event.word == 'inject':
            self.injected.append(Injected(words, event.moment, len(self.copies), self.home))
        elif event.word in TREATING:
            copy = self.copies[int(words[1]) - 1]
            copy.fates.append((event.moment, event.word, self.absence(copy.receiver)))
        self.home.play(words)
        for copy in event.copies:
            copy.link = self.home.attached.get(copy.sender)
            self.copies.append(copy)
        group(event.copies)

    def absence(self, endpoint):
        """Why a copy for an endpoint cannot be delivered, or nothing."""
        if not self.home.running[endpoint[0]]:
            return f'{endpoint[0]} is stopped'
        return None if endpoint in self.home.attached else f'{endpoint[0]} {endpoint[1]} is detached'


def endpoint_of(text):
    """A router and its endpoint, from NAME:EP."""
    name, endpoint = text.split(':')
    return name, int(endpoint)


def owner_of(address, home):
    """The endpoint with an address: fe80::, the router's place in order of definition, and the endpoint (docs/FORMATS.md)."""
    packed = ipaddress.IPv6Address(address).packed
    return list(home.routers)[int.from_bytes(packed[8:12], 'big') - 1], int.from_bytes(packed[12:], 'big')


def bytes_of(text):
    return b'' if text == '-' else bytes.fromhex(text)


def group(copies):
    """Copies of one multicast follow one another, and go to one endpoint each."""
    last, receivers = None, set()
    for copy in copies:
        if not (last and copy.multicast and last.multicast and (copy.sender, copy.data) == (last.sender, last.data)
                and copy.receiver not in receivers):
            last, receivers = copy, set()
        copy.datagram = last.number
        receivers.add(copy.receiver)


def of_script(lines):
    """The log of a script. One that is refused before anything happens is a problem."""
    text = common.look(['log'], (line.text for line in lines))
    common.must_be_played(text)
    try:
        log = Log(text)
    except (ValueError, IndexError, KeyError):
        raise Problem('what hnlook writes is no log') from None
    happened = looks.played_lines(lines, log.refused)
    if list(log.home.routers) != [line.words[1] for line in happened if line.word == 'router']:
        raise Problem('what hnlook writes is no log of this script')
    return log


class Owners:
    """Goes over a script and its log together: which line each event is of."""

    def __init__(self, lines, log, transcript):
        self.log = log
        self.home = looks.Home()
        self.waiting = set()
        self.queue = []                   # their numbers, and some that wait no more
        self.made = 0
        self.numbers = []                 # of each event the number of its line
        self.decided = (text.split(' ')[2] for text in transcript if text.startswith('ula '))
        for line in lines[1:]:
            if line.words and self.next() is not None:
                self.take_all(line)
        if self.next() is not None:
            raise Problem(f'the log has an event that no line of the script is: {self.next().text[:60]}')

    def next(self):
        """The next event, or None."""
        place = len(self.numbers)
        return self.log.events[place] if place < len(self.log.events) else None

    def take(self, line, *start):
        """The next event is of this line, and begins with these words; where it was refused, there is none."""
        event = self.next()
        if event is None:
            return
        if tuple(event.words[:len(start)]) != start:
            raise Problem(f'the log is not of this script: line {line.number} is "{" ".join(line.words)[:60]}", and the event "{event.text[:60]}"')
        self.numbers.append(line.number)
        self.home.play(event.words)
        self.made += len(event.copies)
        for copy in event.copies:
            self.waiting.add(copy.number)
            heapq.heappush(self.queue, copy.number)
        if event.word in TREATING:
            self.waiting.discard(int(event.words[1]))

    def take_all(self, line):
        """The events of a line."""
        if line.word in ONE_EVENT:
            self.take(line, line.word)
        elif line.word == 'flow':
            self.flow(line)
        elif line.word == 'run':
            self.run(line)
        elif line.word == 'sync':
            self.sync(line)
        elif line.word == 'address' and self.next().words[:2] == ['addresses', line.words[1]]:
            self.take(line)
        elif line.word == 'ula':
            decision = next(self.decided, 'keep')
            if decision != 'keep':
                self.take(line, 'external' if decision.startswith('announce') else 'withdraw', line.words[1])

    def flow(self, line):
        while self.waiting and self.next() is not None:
            while self.queue[0] not in self.waiting:
                heapq.heappop(self.queue)
            self.take(line, 'deliver' if self.next().word == 'deliver' else 'drop', str(self.queue[0]))

    def run(self, line):
        moment, stop, step = self.home.moment, int(line.words[1]), int(line.words[2])
        while moment < stop and self.next() is not None:
            moment = min(moment + step, stop)
            self.take(line, 'time', str(moment))
            for name in [name for name, runs in self.home.running.items() if runs]:
                self.take(line, 'tick', name)
            self.flow(line)

    def sync(self, line):
        """A question, and then each copy that was made since, in order of number."""
        last = self.made
        self.take(line, 'inject')
        while last < self.made and self.next() is not None:
            last += 1
            self.take(line, 'deliver', str(last))

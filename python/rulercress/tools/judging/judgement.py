"""Judges datagrams, however they were come by."""
from .. import captures, items
from .home import Home
from .frames import Frames
from .rules import TOLD, TYPES, Finding
from .senders import Senders
from .states import HEAD, States, walk
from .talks import Talks

SLACK = 0.01    # seconds that moments may be off
EXTERNAL = 33   # the type of an External-Connection


class Judgement:
    """What was found in datagrams, which are taken in their order."""

    def __init__(self, ports=(captures.PORT,), slack=SLACK):
        self.findings = []
        self.senders = Senders(self.findings, slack, ports)
        self.states = States(self.findings, self.senders)
        self.talks = Talks(self.findings, self.senders, self.states)
        self.told, self.remarks = [], []    # what is no finding, and lines on the capture
        self.count, self.cut = 0, []
        self.end = 0.0
        self.home = None

    def take(self, datagram):
        self.count += 1
        self.end = max(self.end, datagram.moment)
        self.senders.take_frame(datagram)
        if datagram.is_cut:
            self.cut.append(datagram)
            return
        found = datagram.items
        if found is None:
            place, why = captures.MALFORMED.match(datagram.lines[0]).groups()
            self.find('malformed', datagram, f'place={place} why={why}: {items.MALFORMED[int(why)]}')
            return
        self.take_refused(datagram, found)
        sender = self.senders.take(datagram, found)
        self.states.take(datagram, found)
        self.talks.take(sender, datagram, found)

    def find(self, rule, datagram, text, **more):
        self.findings.append(Finding(rule, datagram.frame, datagram.source, text, **more))

    def take_refused(self, datagram, found):
        """What `hncp decode` refuses of a datagram that is a list of TLVs, and where within it the fault is."""
        for top in found:
            node = top.words.get('node') if top.name == 'node-state' else None
            for item in walk([top]) if top.below else (top,):
                if item.name == 'bad':
                    self.take_bad(datagram, item, datagram.payload[item.place + HEAD:item.place + HEAD + item.length], node)
                elif item is top and 'body' in item.words:
                    place, why = items.first_fault(bytes.fromhex(item.words['body']))
                    place += item.place + HEAD + items.FIXED[item.kind]
                    self.find('body', datagram, f'place={place} why={why} of the datagram: {items.MALFORMED[why]}', node=node)

    def take_bad(self, datagram, item, value, node):
        why, sections = int(item.words['why']), TYPES[item.kind]
        text = f'place={item.place} type={item.kind} why={why}: {items.BAD[why]}'
        fault = items.inner_fault(item.kind, value) if why == 2 else None
        if fault:
            place, cause = fault
            where = f'place {place} of the value, {item.place + HEAD + place} of the datagram'
            if cause == 3 and place == len(value):
                what = f'the length {item.length} of the TLV of type {item.kind} ends before the padding of its last sub-TLV: {where}'
                self.find('no-padding', datagram, f'{what}; decode says bad {text}', node=node)
                self.read_padded(item, value)
                return
            text += f'; {where}: {items.MALFORMED[cause]}'
        self.find('bad', datagram, text, node=node, sections=f'RFC 7787, section 7; {sections}' if why == 2 else sections)

    @staticmethod
    def read_padded(item, value):
        """An External-Connection whose last padding is missing is read as if it stood there: its sender means what it says."""
        if item.kind == EXTERNAL:
            item.name, item.is_padded = 'external', True
            item.below = items.told_tree(captures.decoded(value + bytes(-len(value) % 4))[1:])
            for each in walk(item.below):
                each.place += item.place + HEAD

    def close(self):
        """Ends it: the home as it is then is judged too, and the findings come in the order of frames."""
        self.states.end()
        self.senders.end(self.states.posts)
        self.home = Home(self.states, self.senders, self.end)
        self.home.judge(self.findings)
        self.talks.end(self.home)
        self.findings.sort(key=lambda finding: finding.frame)
        self.told = [each for each in self.findings if each.rule in TOLD]
        self.findings = [each for each in self.findings if each.rule not in TOLD]


def judge(datagrams, **settings):
    """The judgement of all of these."""
    made, frames = Judgement(**settings), Frames(datagrams)
    made.remarks += frames.lines()
    for datagram in captures.decoded_ahead(frames.datagrams):
        made.take(datagram)
    made.close()
    return made

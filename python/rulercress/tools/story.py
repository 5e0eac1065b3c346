"""What changed when in a play: its looks and its datagrams, as one list of changes for a reader."""
import re

from . import hosts, logs, sums
from .common import Problem

MOST_COPIES = 12000       # with more of them datagrams are left out
MOST_TEXT = 8000000       # characters of decoded datagrams

SHOWN = re.compile(r'show (\S+) id=(\S+) number=(\d+) reach=(\d+) held=(\d+) running=(yes|no)$')
LAST = 10 ** 9            # as the number of a line: after all that lines did at that moment
NODE_STATE, PEER = 5, 8


class Shown:
    """A line `show`, taken apart."""

    def __init__(self, text):
        _, self.node, self.number, self.reach, self.held, running = SHOWN.match(text).groups()
        self.runs = running == 'yes'


class Story:
    """The play of a script, its links and hosts, and its datagrams or why there are none."""

    def __init__(self, play):
        self.play = play
        self.changes = []                # (moment, line, order, of whom, what)
        self.links = list(hosts.prefixes_of_links(play))
        self.lanes = hosts.hosts_of_links(play, self.links)
        self.copies, self.injected = [], []
        self.missing = self.read_log()
        self.tell_marks()
        self.tell_routers()
        self.tell_links()
        self.tell_hosts()
        self.tell_datagrams()
        self.changes.sort(key=lambda each: each[:3])
        self.sums = list(sums.sums(self))

    def add(self, moment, line, whom, what):
        self.changes.append((moment, line, len(self.changes), whom, what))

    def end(self):
        return self.play.looks[-1] if self.play.looks else 0

    def made(self):
        """How many copies were made and wait, at the end."""
        runs = self.play.runs.get(('mail',))
        return tuple(int(each.split('=')[1]) for each in runs.values[-1].split()[1:]) if runs else (0, 0)

    # Datagrams

    def read_log(self):
        """Reads the datagrams. The answer says why there are none, or nothing."""
        made, _ = self.made()
        if made > MOST_COPIES:
            return f'There are {made} copies. With more than {MOST_COPIES} they are left out.'
        log = logs.of_script(self.play.lines)
        if len(log.copies) != made:
            raise Problem(f'hnlook tells of {len(log.copies)} copies, and hncp of {made}: they are not of one version')
        self.copies, self.injected = log.copies, log.injected
        return None

    # What changed

    def tell_marks(self):
        for moment, line in self.play.marks:
            self.add(moment, line, 'script', f'line {line}: {" ".join(self.play.lines[line - 1].words)}'[:100])
        if self.play.refused:
            self.add(self.play.home.moment, self.play.refused[0], 'script', 'refused {} {}'.format(*self.play.refused))

    def tell_routers(self):
        by_look = {}
        for words, runs in self.play.runs.items():
            if words[0] in ('show', 'hash', 'audit'):
                for look, text in runs.pairs():
                    by_look.setdefault(look, []).append((words, text))
        shown, hashes = {}, {}
        for look in sorted(by_look):
            at = self.play.looks[look], self.play.after_line[look]
            for words, text in by_look[look]:
                if words[0] == 'hash':
                    hashes[words[1]] = text and text.split()[2]
            for words, text in by_look[look]:
                name = words[1]
                if words[0] == 'show':
                    for what in shown_change(shown.get(name), Shown(text)):
                        self.add(*at, name, what)
                    shown[name] = Shown(text)
                elif text and words[0] == 'hash':
                    alike = sum(each == hashes[name] for each in hashes.values())
                    self.add(*at, name, f'hash {hashes[name]}, of {alike} of {sum(map(bool, hashes.values()))} routers')
                elif text:
                    self.add(*at, name, text.replace(f' {name} ', ' '))

    def tell_links(self):
        before = {}
        for look, links in self.links:
            at = self.play.looks[look], self.play.after_line[look]
            for link in sorted(set(before) | set(links)):
                for what in link_changes(before.get(link, {}), links.get(link, {})):
                    self.add(*at, link, what)
            before = links

    def tell_hosts(self):
        lines = {moment: line for moment, line in zip(self.play.looks, self.play.after_line)}
        for link, lanes in self.lanes.items():
            for lane in lanes.values():
                for moment, state, is_assigned, ends in lane.pieces:
                    self.add(moment, lines.get(moment, LAST), f'hosts of {link}', held(lane.prefix, state, is_assigned, ends, moment))
                moment, state, is_assigned, ends = lane.pieces[-1]
                if state and not is_assigned and self.end() > moment:
                    self.add(self.end(), LAST, f'hosts of {link}', 'at the end: ' + held(lane.prefix, state, False, ends, self.end()))

    def tell_datagrams(self):
        for copy in self.copies:
            for moment, fate, absence in copy.fates:
                if fate == 'drop':
                    self.add(moment, LAST, 'copies', lost(copy, absence))
        self.tell_peers()
        made, waiting = self.made()
        told = f'{made} made, {waiting} waiting'
        if self.missing is None:
            dropped = sum(bool(copy.fates) and all(fate == 'drop' for _, fate, _ in copy.fates) for copy in self.copies)
            told += f', {dropped} dropped'
        if self.play.losses:
            told += f', with a loss of {max(self.play.losses)} %'
        self.add(self.end(), LAST, 'copies', told)

    def tell_peers(self):
        """Peers as nodes publish them, when their data come by for the first time."""
        names, known = {node: name for name, node in self.play.home.routers.items()}, {}
        heard = [(moment, copy.number, copy.data) for copy in self.copies for moment, fate, _ in copy.fates if fate == 'deliver']
        starts = [(moment, self.play.home.routers[self.play.lines[line - 1].words[1]]) for moment, line in self.play.marks
                  if self.play.lines[line - 1].word == 'start']
        for moment, _, data in sorted(heard, key=lambda each: each[:2]):
            while starts and starts[0][0] <= moment:
                known.pop(starts.pop(0)[1], None)    # it has no peers, and begins with number 1
            for node, number, peers in published(data):
                last, before = known.get(node, (None, set()))
                if last is not None and (number - last) % 2 ** 32 >= 2 ** 31 or peers == before:
                    continue
                known[node] = number, peers
                for word, some in (('lost', before - peers), ('gained', peers - before)):
                    for peer, far, own in sorted(some):
                        self.add(moment, LAST, names.get(node, node), f'peer {word}: {names.get(peer, peer)} {far} by endpoint {own}')


def lost(copy, absence):
    """What is told of a copy that was dropped, and of why it could not be delivered, if so."""
    (sender, own), (receiver, far) = copy.sender, copy.receiver
    way = f'from {sender} {own} to {receiver} {far}'
    return f'copy {copy.number} is dropped, {way}: {absence}' if absence else f'copy {copy.number} is lost, {way}'


def shown_change(before, now):
    """What a line `show` says that the one before did not."""
    if not now.runs:
        return ['stopped']
    if before is None or not before.runs:
        return [f'{"runs" if before is None else "started"}: id={now.node} number={now.number} reach={now.reach} held={now.held}']
    words = [f'{word} {getattr(before, word)} > {getattr(now, word)}' for word in ('node', 'number', 'reach', 'held')
             if getattr(before, word) != getattr(now, word)]
    return [', '.join(words)] if words else []


def link_changes(before, now):
    for prefix in sorted(set(before) | set(now)):
        old, new = before.get(prefix), now.get(prefix)
        if new is None:
            yield f'{prefix} gone: no router has it'
            continue
        by = ', '.join(new.publishers) or 'nobody'
        if old is None:
            yield f'{prefix} assigned, published by {by}{", applied" if new.applied else ""}'
            continue
        if old.publishers != new.publishers:
            yield f'{prefix} published by {by}'
        if bool(old.applied) != bool(new.applied):
            yield f'{prefix} applied' if new.applied else f'{prefix} no longer applied'
    for inside in sorted({each.inside for each in now.values()}):
        count = sum(each.inside == inside for each in now.values())
        if count > 1 and sum(each.inside == inside for each in before.values()) != count:
            yield f'{count} prefixes at once inside {inside}'


def left(end, moment):
    return 'ever' if end == hosts.ENDLESS else f'{max(0, int(end - moment)) // 1000} s more'


def held(prefix, state, is_assigned, ends, moment):
    """What hosts do with a prefix, as a text."""
    if state is None:
        return f'{prefix} ended'
    if is_assigned:
        return f'{prefix} {state}'
    text = f'{prefix} assigned by nobody, and still'
    if state == 'preferred':
        text += f' preferred for {left(ends[0], moment)},'
    return f'{text} valid for {left(ends[1], moment)}'


def tlvs(data):
    """The TLVs of a list, as (type, value); they end at the first fault."""
    at = 0
    while at + 4 <= len(data):
        kind, length = int.from_bytes(data[at:at + 2], 'big'), int.from_bytes(data[at + 2:at + 4], 'big')
        if at + 4 + length > len(data):
            return
        yield kind, data[at + 4:at + 4 + length]
        at += 4 + (length + 3) // 4 * 4


def published(data):
    """The node data of a datagram: node, sequence number, and peers as (node, endpoint, own endpoint)."""
    for kind, value in tlvs(data):
        if kind == NODE_STATE and len(value) > 20:
            peers = {(each[:4].hex(), int.from_bytes(each[4:8], 'big'), int.from_bytes(each[8:12], 'big'))
                     for nested, each in tlvs(value[20:]) if nested == PEER and len(each) == 12}
            yield value[:4].hex(), int.from_bytes(value[4:8], 'big'), peers

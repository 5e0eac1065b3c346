"""Plays a script with reports put in, and keeps what they say as runs: a look is what all reports say at one moment.

Reports are no events and draw no random words, so the play stays the same. This is tested each time: what the script's own
lines write must be the same with the looks and without them.
"""
import bisect
import re

from . import common
from .common import Problem

MOST_ROUNDS = 1000000     # a script has no more events than this, and each round is one at least
MOST_REPORTS = 150000     # with so many reports in all each round is looked at
MOST_BYTES = 2 ** 24      # of a script
SECOND = 1000
FOREVER = 4294967295      # as a lifetime: it never ends
MOST_AUDITED = 16         # in a home of more routers those with one hash are asked for one audit

REPORTS = set('show hash used prefixes elect advert audit compare mail addresses addressed ulas'.split())
LISTS = set('used prefixes addresses'.split())     # a line with a count, and then a line for each
NOTING = set('deliver inject'.split())             # they write a line for each note
ADVERTISING = set('run tick'.split())              # they write lines `ra`
# What is no mark: the course of time and reports, and at the beginning the setting.
UNMARKED = REPORTS | set('run time flow'.split())
SETTING = set('router link attach seed'.split())

LIFETIMES = re.compile(r'(valid|preferred)=(\d+)')
REACH = re.compile(r' reach=(\d+) ')


def rounds_of(start, stop, step, line):
    """The moments of the rounds of a `run`."""
    if (stop - start) // step > MOST_ROUNDS:
        raise Problem(f'line {line} has more than {MOST_ROUNDS} rounds')
    return [min(t, stop) for t in range(start + step, stop + step, step)]


class Home:
    """What stands while the lines of a script happen, each of which is played without a refusal."""

    def __init__(self):
        self.routers = {}      # name -> identifier, in order of definition
        self.running = {}
        self.links = []
        self.attached = {}     # (router, endpoint) -> link
        self.senders = set()   # links with an endpoint that was told to advertise
        self.was_on = set()    # (router, endpoint, link), each that ever was
        self.moment = 0
        self.loss = 0

    def play(self, words):
        act = getattr(self, 'on_' + words[0], None)
        if act:
            act(*words[1:])

    def on_router(self, name, node):
        self.routers[name] = node.lower()
        self.running[name] = True

    def on_link(self, name):
        self.links.append(name)

    def on_attach(self, name, endpoint, link):
        self.attached[name, int(endpoint)] = link
        self.was_on.add((name, int(endpoint), link))

    def on_detach(self, name, endpoint):
        del self.attached[name, int(endpoint)]

    def on_stop(self, name):
        self.running[name] = False

    def on_start(self, name):
        self.running[name] = True

    def on_radv(self, name, endpoint):
        self.senders.add(self.attached[name, int(endpoint)])

    def on_loss(self, loss):
        self.loss = int(loss)

    def on_time(self, moment):
        self.moment = max(self.moment, int(moment))

    def on_run(self, moment, _):
        self.on_time(moment)

    def endpoints_of(self, name):
        return sorted(endpoint for other, endpoint in self.attached if other == name)

    def place(self, name):
        """The place of a router in order of definition, from 1 on."""
        return list(self.routers).index(name) + 1


def played_lines(lines, refused):
    """The lines that happen: those with words, after the first, and before the refused one."""
    return [line for line in lines[1:] if line.words and not (refused and line.number >= refused[0])]


class Runs:
    """A value over the looks: where it becomes another, and what it is from there on."""

    def __init__(self):
        self.starts = []
        self.values = []

    def add(self, look, value):
        if not self.values or self.values[-1] != value:
            self.starts.append(look)
            self.values.append(value)

    def pairs(self):
        return list(zip(self.starts, self.values))

    def at(self, look):
        """The value at a look."""
        return self.values[bisect.bisect_right(self.starts, look) - 1]


class Falling:
    """A text with numbers of seconds that fall with time. What is kept is when each of them is 0.

    Of a moment that is known up to a second the bounds are kept, and each look narrows them. So two looks are equal if one
    set of moments explains both."""

    def __init__(self, text, seconds, moment):
        self.text = text
        self.ends = [(moment + each * SECOND if each else 0, moment + each * SECOND + SECOND - 1) for each in seconds]

    def __eq__(self, other):
        """Whether the other look, a later one, goes on with this; then this takes the narrower bounds."""
        if not isinstance(other, Falling) or self.text != other.text:
            return False
        both = [(max(a, c), min(b, d)) for (a, b), (c, d) in zip(self.ends, other.ends)]
        if any(low > high for low, high in both):
            return False
        self.ends = both
        return True

    __hash__ = None

    def stored(self):
        return [self.text] + [high for _, high in self.ends]


def falling_lifetimes(texts, moment):
    """The lines of `used`: their lifetimes fall, but for those that never end."""
    seconds = []

    def hide(found):
        if int(found.group(2)) == FOREVER:
            return found.group()
        seconds.append(int(found.group(2)))
        return f'{found.group(1)}={{}}'

    return Falling(LIFETIMES.sub(hide, '\n'.join(texts)), seconds, moment)


class Advert:
    """A Router Advertisement (RFC 4861, section 4.2): its router lifetime, and its prefixes with lifetimes in seconds."""

    def __init__(self, text):
        self.text = text
        data = bytes.fromhex(text)
        self.router_lifetime = int.from_bytes(data[6:8], 'big')
        self.prefixes = []
        at = 16
        while at + 32 <= len(data) and data[at] == 3:
            length, flags = data[at + 2], data[at + 3]
            valid, preferred = (int.from_bytes(data[at + k:at + k + 4], 'big') for k in (4, 8))
            self.prefixes.append((data[at + 16:at + 32], length, flags, valid, preferred))
            at += 32

    def falling(self, line, moment):
        """The report's line with its lifetimes in hexadecimal taken out."""
        text, seconds, at = self.text[:32], [], 32
        for _, _, _, valid, preferred in self.prefixes:
            text += self.text[at:at + 8]
            for lifetime in (valid, preferred):
                if lifetime != FOREVER:
                    seconds.append(lifetime)
                text += 'ffffffff' if lifetime == FOREVER else '{x}'
            text += self.text[at + 24:at + 64]
            at += 64
        return Falling(f'{line} {text}', seconds, moment)


class Play:
    """A script with its looks."""

    def __init__(self, lines, every=None):
        self.lines = lines
        self.own = common.play(line.text for line in lines)
        common.must_be_played(self.own)
        self.refused = common.refusal(self.own)
        self.happen = played_lines(lines, self.refused)
        self.every = every or self.interval()
        self.audited = None      # of each look the routers that are asked for an audit; nothing where all are
        if sum(line.word == 'router' for line in self.happen) > MOST_AUDITED:
            self.audited = []
            self.play_with_looks()
            self.audited = [list(groups) for groups in self.alike()]
        self.play_with_looks()
        if self.audited is not None:
            self.share_audits()

    def play_with_looks(self):
        """Puts the looks in, plays, and keeps what is said."""
        self.home = Home()
        self.texts = []          # the script with the looks
        self.owners = []         # of each text: the number of its line, or None for a report
        self.asked = []          # the looks: (moment, line before, place of the first text, place after the last, attachments)
        self.marks = []          # (moment, number of a line)
        self.losses = []         # losses above 0 that a line `run` or `flow` meets
        self.build()
        if sum(len(text) + 1 for text in self.texts) > MOST_BYTES:
            raise Problem(f'with looks at each {self.every} ms the script has more than 2^24 bytes; take fewer with --every')
        self.read()

    def interval(self):
        """How many milliseconds may lie between looks: 1 for each round where these are few, and else a second or more."""
        home, rounds, spans = Home(), 0, 0
        for line in self.happen:
            if line.word == 'run' and int(line.words[1]) > home.moment:
                rounds += (int(line.words[1]) - home.moment) // int(line.words[2]) + 1
                spans += int(line.words[1]) - home.moment
            home.play(line.words)
        reports = 6 * len(home.routers) + len(home.was_on)
        if rounds * reports <= MOST_REPORTS:
            return 1
        every = SECOND
        while spans // every * reports * 16 > MOST_BYTES:
            every *= 2
        return every

    def put(self, text, owner):
        self.texts.append(text)
        self.owners.append(owner)

    def is_audited(self, name):
        if self.audited is None:
            return True
        return len(self.asked) < len(self.audited) and name in self.audited[len(self.asked)]

    def alike(self):
        """Of each look the routers by groups, under the first of each. Those with one hash that reach others reach the same
        ones, since node data have the peers' identifiers; so an audit says the same of each."""
        columns = {name: (self.runs.get(('hash', name)), self.runs[('show', name)]) for name in self.home.routers if ('show', name) in self.runs}
        at, now = {name: [0, 0] for name in columns}, {name: [None, None] for name in columns}
        for look in range(len(self.looks)):
            groups, firsts = {}, {}
            for name, pair in columns.items():
                for side, runs in enumerate(pair):
                    if runs and at[name][side] < len(runs.starts) and runs.starts[at[name][side]] == look:
                        now[name][side] = runs.values[at[name][side]]
                        at[name][side] += 1
                digest, shown = now[name]
                if digest:
                    reach = REACH.search(shown).group(1)
                    key = (digest.split(' ')[2], reach) if reach != '1' else name
                    groups.setdefault(firsts.setdefault(key, name), []).append(name)
            yield groups

    def share_audits(self):
        """Gives each router the answer of the first of its group."""
        said = {name: Runs() for name in self.home.routers}
        for look, groups in enumerate(self.alike()):
            given = {}
            for first, names in groups.items():
                text = self.runs[('audit', first)].at(look)
                for name in names:
                    given[name] = text and text.replace(f' {first} ', f' {name} ', 1)
            for name, runs in said.items():
                runs.add(look, given.get(name))
        self.runs.update({('audit', name): runs for name, runs in said.items()})

    def look(self, line):
        """Puts reports in, of all routers."""
        start = len(self.texts)
        for name, runs in self.home.running.items():
            self.put(f'show {name}', None)
            if runs:
                for word in ('hash', 'audit', 'used', 'prefixes'):
                    if word != 'audit' or self.is_audited(name):
                        self.put(f'{word} {name}', None)
                for endpoint in self.home.endpoints_of(name):
                    self.put(f'advert {name} {endpoint}', None)
        self.put('mail', None)
        last = self.asked[-1][4] if self.asked else {}
        attached = last if last == self.home.attached else dict(self.home.attached)
        self.asked.append((self.home.moment, line, start, len(self.texts), attached))

    def build(self):
        """The script with the looks: after rounds, and before time goes on where lines stand before that."""
        home, changed, before = self.home, False, 1
        self.put(self.lines[0].text, 1)
        for line in self.lines[1:]:
            words = line.words
            is_played = line.words and not (self.refused and line.number >= self.refused[0])
            if not words or words[0] in REPORTS and is_played:
                self.put(line.text, line.number)
                continue
            ahead = words[0] in ('run', 'time') and int(words[1]) > home.moment
            if changed and (ahead or not is_played):
                self.look(before)
                changed = False
            if words[0] in ('run', 'flow') and home.loss:
                self.losses.append(home.loss)
            if words[0] == 'run' and ahead:
                last, step = home.moment, int(words[2])
                rounds = rounds_of(last, int(words[1]), step, line.number)
                for moment in rounds:
                    if moment // self.every > last // self.every or moment == rounds[-1]:
                        self.put(f'run {moment} {step}', line.number)
                        home.moment = last = moment
                        if is_played or moment != rounds[-1]:
                            self.look(line.number)
            else:
                if words[0] not in UNMARKED and (words[0] not in SETTING or home.moment):
                    self.marks.append((home.moment, line.number))
                self.put(line.text, line.number)
                if is_played:
                    home.play(words)
                changed = True
            if not is_played:
                break
            before = line.number
        if not self.refused and (changed or not self.asked):
            self.look(before)

    def read(self):
        """Reads what the play with looks wrote. What the script's own lines wrote has to be what they write without looks."""
        transcript = common.play(self.texts)
        refused = common.refusal(transcript)
        transcript = transcript[:-1] if refused else transcript
        written, at, own = [], 0, []
        for text, owner in zip(self.texts, self.owners):
            end = after(transcript, at, text, owner)
            written.append((at, end))
            if owner is not None:
                own.extend(transcript[at:end])
            at = end
        if refused:
            owner = self.owners[refused[0] - 1] if refused[0] else 0
            own.append(f'refused {owner if owner is not None else "a report"} {refused[1]}')
        if own != self.own or at != len(transcript):
            raise Problem('with reports put in the script says something else; nothing is shown')
        self.keep(transcript, written)

    def keep(self, transcript, written):
        """The runs of what the reports say, and the advertisements that would be sent at each look."""
        self.looks = []          # the moments
        self.after_line = []     # of each look the line before it
        self.attached = []       # of each look: (router, endpoint) -> link
        self.runs = {}           # words of a report -> Runs; nothing where it is not asked
        self.adverts = []        # of each look: (router, endpoint) -> Advert
        for moment, line, start, stop, attached in self.asked:
            if written[stop - 1][0] == written[stop - 1][1]:
                break            # the play is refused before this look
            look = len(self.looks)
            self.looks.append(moment)
            self.after_line.append(line)
            self.attached.append(attached)
            self.adverts.append({})
            here = set()
            for place in range(start, stop):
                words = tuple(self.texts[place].split(' '))
                here.add(words)
                value = self.value_of(words, transcript[slice(*written[place])], look)
                self.runs.setdefault(words, Runs()).add(look, value)
            for words, runs in self.runs.items():
                if words not in here:
                    runs.add(look, None)
        self.read_sent(transcript, written)

    def value_of(self, words, lines, look):
        """What is kept of a report."""
        if words[0] == 'advert':
            advert = Advert(lines[0].split(' ')[3])
            self.adverts[look][words[1], int(words[2])] = advert
            return advert.falling(' '.join(words), self.looks[look])
        return falling_lifetimes(lines, self.looks[look]) if words[0] == 'used' else '\n'.join(lines)

    def read_sent(self, transcript, written):
        """The advertisements that the script's endpoints send, from lines `ra`."""
        self.sent = []           # (moment, router, endpoint, Advert)
        for (start, end), owner in zip(written, self.owners):
            if owner is not None:
                for text in transcript[start:end]:
                    if text.startswith('ra '):
                        _, name, endpoint, moment, data = text.split(' ')
                        self.sent.append((int(moment), name, int(endpoint), Advert(data)))


def after(transcript, at, text, owner):
    """Where the lines end that a text wrote, which begin at a place."""
    words = text.split()
    word = words[0] if words and not words[0].startswith('#') else ''
    if at >= len(transcript) or owner == 1:
        return at
    if word in NOTING or word in ADVERTISING:
        start = 'note ' if word in NOTING else 'ra '
        while at < len(transcript) and transcript[at].startswith(start):
            at += 1
        return at
    if word in REPORTS or word == 'ula':
        count = int(transcript[at].split()[2]) if word in LISTS and transcript[at].count(' ') == 2 else 0
        return min(at + 1 + count, len(transcript))
    return at

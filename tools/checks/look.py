"""The check of `hnlook log`: random scripts, whose logs are held against what hncp alone says of them.

What hncp says: the script unrolled by `mail` lines (checks/unrolled.py), the notes of `deliver` and `inject`, the datagrams of
`hncp udp` on a loopback, the counts of `mail`, the numbers of `show`.
"""
import collections
import random

import common
from checks import loopback, samples, unrolled
from checks.helpers import SEED, Missing, must, must_be, need_look
from rulercress.tools import logs, looks

AT_ONCE = 100        # scripts whose datagrams are heard by one child
TRIED_DROPS = 3      # of each script so many dropped copies are delivered in a play of its own
AWAY = (11, 12)      # codes of a delivery to a detached endpoint or a stopped router


class Sample:
    """A random script with its transcript, its log, and the line of each event."""

    def __init__(self, seed):
        self.chance = random.Random(f'{SEED} {seed}')
        self.name = f'random script {seed}'
        self.is_lossy = seed % 2 == 1
        self.texts = samples.random_home(self.chance, self.is_lossy)
        self.lines = [common.Line(place, text) for place, text in enumerate(self.texts, 1)]
        self.transcript = common.play(self.texts)
        self.refused = common.refusal(self.transcript)
        text = common.look(['log'], self.texts)
        must(common.refusal(text) == self.refused, f'{self.name}: the log ends with {text[-1:]}, and the transcript with {self.transcript[-1:]}')
        self.log = logs.Log(text)
        self.owners = logs.Owners(self.lines, self.log, self.transcript).numbers

    def word_of(self, place):
        """The word of the line that an event is of."""
        return self.lines[self.owners[place] - 1].word


# By the log alone

def others(home, sender):
    """The other endpoints on a sender's link, in order of the routers' definition and of endpoints."""
    order = list(home.routers)
    there = [each for each, link in home.attached.items() if link == home.attached.get(sender) and each != sender]
    return sorted(there, key=lambda each: (order.index(each[0]), each[1]))


def actor_of(event, copies):
    """The router at which an event happens."""
    return copies[int(event.words[1]) - 1].receiver[0] if event.word == 'deliver' else event.words[1]


def compare_copies(sample):
    """Copies are numbered in order and treated after they were made. A multicast makes one for each other endpoint on the
    link, and a unicast one on the link. The answer: how many copies there are, and how many of them wait."""
    home, made, waiting = looks.Home(), [], set()
    for event in sample.log.events:
        where = f'{sample.name}: "{event.moment} {event.text[:60]}"'
        if event.word in logs.TREATING:
            must(1 <= int(event.words[1]) <= len(made), f'{where} is of a copy that was not made yet')
            waiting.discard(int(event.words[1]))
        home.play(event.words)
        must(event.moment == home.moment, f'{where}: the moment is {home.moment}')
        left = list(event.copies)
        while left:
            sender, data, multicast = left[0].sender, left[0].data, left[0].multicast
            expected = others(home, sender)
            must(sender[0] == actor_of(event, made), f'{where}: {sender[0]} sends')
            some = left[:len(expected)] if multicast else left[:1]
            found = [copy.receiver for copy in some if (copy.sender, copy.data, copy.multicast) == (sender, data, multicast)]
            must(found == expected if multicast else found[0] in expected, f'{where}: copies for {found}, and on the link are {expected}')
            del left[:len(some)]
        for copy in event.copies:
            made.append(copy)
            waiting.add(copy.number)
            must(copy.number == len(made), f'{where}: copy {copy.number} is the {len(made)}th')
    return len(made), len(waiting)


def compare_end(sample):
    """The counts of the last `mail`, and the numbers of the last `show` lines. The answer: how many copies there are."""
    made, waiting = compare_copies(sample)
    if not sample.refused:
        said = sample.transcript[-1]
        must(said == f'mail copies={made} waiting={waiting}', f'{sample.name}: {made} copies, {waiting} wait; {said}')
        published = dict(each for event in sample.log.events for each in event.published)
        shown = [line.split(' ') for line in sample.transcript if line.startswith('show ')][-len(published):]
        must_be([f'number={published[each[1]]}' for each in shown], [each[3] for each in shown], f'{sample.name}: numbers published last')
    return made


# Beside hncp

class Beside:
    """Goes over a script without loss, unrolled, and its log together."""

    def __init__(self, sample, texts, treats):
        self.sample = sample
        self.texts = list(texts)
        self.events = iter(sample.log.events)
        self.event = next(self.events, None)
        self.drops = []          # places of texts that are drops by the log alone
        self.explicit = []       # the events that are lines `deliver` and `inject` of the unrolled script
        self.copies = 0          # that were made
        self.decided = (text.split(' ')[2] for text in sample.transcript if text.startswith('ula '))
        for place, text in enumerate(texts):
            if self.event is not None and place:
                self.compare(place, text, place in treats)
        must(self.event is None, f'{sample.name}: an event more: {self.event and self.event.text}')

    def take(self, *expected):
        """The next event begins with these words."""
        event = self.event
        must(event is not None and event.words[:len(expected)] == list(expected),
             f'{self.sample.name}: the event "{event and event.text[:60]}", and by hncp "{" ".join(expected)}"')
        self.copies += len(event.copies)
        self.event = next(self.events, None)
        return event

    def compare(self, place, text, is_treated):
        words = text.split(' ')
        if is_treated:
            word = self.event.word if self.event.word in logs.TREATING else 'deliver'
            if word == 'drop':
                self.drops.append(place)
                self.texts[place] = f'drop {words[1]}'
            event = self.take(word, words[1])
        elif words[0] == 'inject':
            way, source = ('multi', '2001:db8::1') if words[3] == 'far' else (words[3], 'fe80::')
            event = self.take(*words[:3], way, source, '8231', words[4])
        elif words[0] in logs.ONE_EVENT:
            event = self.take(*words)
        else:
            return self.compare_choice(words)
        if event.word in ('deliver', 'inject'):
            self.explicit.append(event)
        return None

    def compare_choice(self, words):
        """A line that is no event, or more than one."""
        if words[0] == 'sync':
            last = self.copies
            must(self.take('inject', words[1]).words[3] == 'uni', f'{self.sample.name}: the question of a sync')
            while last < self.copies:
                last += 1
                self.take('deliver', str(last))
        elif words[0] == 'address' and self.event.words[:2] == ['addresses', words[1]]:
            self.take('addresses')
        elif words[0] == 'ula':
            decision, _, prefix = next(self.decided, 'keep').partition('=')
            if decision != 'keep':
                self.take(*['external', words[1], prefix, *['4294967295'] * 2] if decision == 'announce' else ['withdraw', words[1], prefix])


def noted(sample, beside):
    """The notes of each `deliver` and `inject` of the unrolled script, by a play of it with a `mail` after each."""
    texts, places = [], []
    for text in beside.texts:
        texts.append(text)
        if text.startswith(('deliver ', 'inject ')):
            places.append(len(texts))
            texts.append('mail')
    transcript = common.play(texts)
    codes = [each and each[1] for each in (common.refusal(transcript), sample.refused)]
    must(codes[0] == codes[1], f'{sample.name}: unrolled by the log it ends with {transcript[-1:]}')
    at, marks = 0, set(places)
    for place, text in enumerate(texts):
        start, at = at, looks.after(transcript, at, text, 1 if place == 0 else 2)
        if place + 1 in marks:
            yield transcript[start:at]


def compare_unrolled(sample, counts):
    """The events are those of the script as hncp alone unrolls it, and so are the notes of each delivery."""
    try:
        texts, treats = unrolled.unroll(sample.lines)
    except common.Problem:
        counts['not unrolled'] += 1      # it is refused in the midst of a line
        return
    beside = Beside(sample, texts, treats)
    for event, notes in zip(beside.explicit, noted(sample, beside)):
        must_be(event.notes, notes, f'{sample.name}: notes of "{event.text[:60]}"')
        counts['notes'] += len(event.notes)
    for place in sample.chance.sample(beside.drops, min(TRIED_DROPS, len(beside.drops))):
        texts = beside.texts[:place] + [beside.texts[place].replace('drop', 'deliver')]
        found = common.refusal(common.play(texts))
        must(found and found[0] == place + 1 and found[1] in AWAY, f'{sample.name}: "{beside.texts[place]}", and it can be delivered')
        counts['drops tried'] += 1
    counts['unrolled'] += 1
    counts['events'] += len(sample.log.events)


def compare_notes(sample, counts):
    """The notes in the transcript are those of the events that are lines of the script."""
    found = [note for place, event in enumerate(sample.log.events) if sample.word_of(place) in ('deliver', 'inject') for note in event.notes]
    must_be(found, [line for line in sample.transcript if line.startswith('note ')], f'{sample.name}: notes')
    counts['notes of lossy homes'] += len(found)


def compare_heard(sample, found, counts):
    """The datagrams on the loopback are those that the log delivers, but for those of `sync`, which go over no wire."""
    transcript, heard = found
    must_be(transcript, sample.transcript, f'{sample.name}: over the loopback')
    expected = [sample.log.copies[int(event.words[1]) - 1].data for place, event in enumerate(sample.log.events)
                if event.word == 'deliver' and sample.word_of(place) != 'sync']
    must_be([each.hex() for each in heard], [each.hex() for each in expected], f'{sample.name}: datagrams')
    counts['datagrams'] += len(heard)


def check_look(_, count):
    """Tries so many random scripts.

    Held to: random scripts, half of them with loss, whose logs are held to what hncp alone says. Without loss the
    script is unrolled by `mail` lines: the log has those events, with those notes, and what it drops cannot be
    delivered. With loss: the datagrams of `hncp udp`, heard on the loopback, are the copies that the log delivers;
    counts are those of `mail`, and numbers those of `show`. Not compared are the bytes of a unicast that was lost,
    and notes within `flow` and `run`.
    """
    need_look()
    counts, missing = collections.Counter(), None
    for start in range(0, count, AT_ONCE):
        lossy = []
        for seed in range(start, min(start + AT_ONCE, count)):
            sample = Sample(seed)
            counts['copies'] += compare_end(sample)
            counts['refused'] += sample.refused is not None
            if sample.is_lossy:
                compare_notes(sample, counts)
                counts['lost'] += sum(fate == 'drop' and not absence for copy in sample.log.copies for _, fate, absence in copy.fates)
                lossy.append(sample)
            else:
                compare_unrolled(sample, counts)
        missing = missing or heard_all(lossy, counts)
    must(counts['refused'] < count / 4 and counts['not unrolled'] < count / 20, f'too many are refused: {counts}')
    return (f'{count} random scripts, {counts["copies"]} copies; without loss {counts["unrolled"]} scripts, {counts["events"]} events, '
            f'{counts["notes"]} notes, {counts["drops tried"]} drops tried; with loss {counts["lost"]} copies lost, {counts["notes of lossy homes"]} notes, '
            f'{missing or str(counts["datagrams"]) + " datagrams heard"}')


def heard_all(lossy, counts):
    """Hears the datagrams of scripts with loss. The answer says why that cannot be, or nothing."""
    try:
        for sample, found in zip(lossy, loopback.plays([sample.texts for sample in lossy])):
            compare_heard(sample, found, counts)
    except Missing as missing:
        return str(missing)
    return None

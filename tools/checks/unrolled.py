"""A script without loss, unrolled by hncp alone: `time`, `tick` and a line for each copy in place of `run` and `flow`.

It knows nothing of hnlook. Which copies wait when is found by `mail` lines and by plays of their own, so what it gives is held
against the log.
"""
import common
from common import Problem
from rulercress.tools import looks


class Probe:
    """The script with `mail` before and after each flow, and with a `run` for each round: it shows what waits when."""

    def __init__(self, lines):
        self.texts = []
        self.owners = []      # of each text: the number of its line, and whether it stands inside of a run or a flow
        self.plans = {}       # number of a line -> its moments, or None for a flow
        self.starts = {}      # number of a line -> place of its first text
        self.loss = {}        # number of a line -> the loss that it meets
        moment, loss = 0, 0
        for line in lines:
            words = line.words
            rounds = None
            if line.number > 1 and line.word == 'run' and int(words[1]) >= moment:
                rounds = looks.rounds_of(moment, int(words[1]), int(words[2]), line.number)
                moment = int(words[1])
            elif line.number > 1 and line.word == 'time':
                moment = int(words[1])
            elif line.number > 1 and line.word == 'loss':
                loss = int(words[1])
            if rounds is None and line.word != 'flow':
                self.add(line.text, line.number, False)
                continue
            self.plans[line.number] = rounds
            self.starts[line.number] = len(self.texts)
            self.loss[line.number] = loss
            self.add('mail', line.number, True)
            for text in ['flow'] if rounds is None else [f'run {t} {words[2]}' for t in rounds]:
                self.add(text, line.number, True)
                self.add('mail', line.number, True)
        self.transcript = common.play(self.texts)
        if common.refusal(self.transcript) == (0, 15):
            raise Problem('the script has too many rounds')
        self.mails = self.read_mails()

    def add(self, text, line, inside):
        self.texts.append(text)
        self.owners.append((line, inside))

    def read_mails(self):
        """What each added `mail` said, under the number of its line."""
        said = iter(mail_counts(self.transcript))
        mails = {}
        for text, (line, inside) in zip(self.texts, self.owners):
            if text.split()[:1] == ['mail']:
                counts = next(said, None)
                if inside and counts:
                    mails.setdefault(line, []).append(counts)
        return mails

    def refused_line(self):
        """The line of the script at which the play is refused, or None."""
        refused = common.refusal(self.transcript)
        if not refused:
            return None
        line, inside = self.owners[refused[0] - 1]
        if inside:
            raise Problem(f'line {line} is refused in its midst, with code {refused[1]}')
        return line

    def waiting(self, line, floor):
        """The numbers above floor of the copies that wait when a line begins. Where not all or none of them do, each is
        dropped in a play of its own, which shows whether it waited."""
        copies, waits = self.mails[line][0]
        numbers = range(floor + 1, copies + 1)
        if waits == 0 or waits == len(numbers):
            return list(numbers) if waits else []
        drops = [text for copy in numbers for text in (f'drop {copy}', 'mail')]
        said = mail_counts(common.play(self.texts[:self.starts[line] + 1] + drops))[-len(numbers) - 1:]
        return [copy for copy, before, after in zip(numbers, said, said[1:]) if after[1] < before[1]]


def mail_counts(transcript):
    """How many copies were made and wait, by each `mail` line of a transcript."""
    words = [text.split() for text in transcript if text.startswith('mail ')]
    return [(int(made[7:]), int(waiting[8:])) for _, made, waiting in words]


def unroll(lines):
    """The texts of the new script, with the places of those that treat a copy."""
    probe = Probe(lines)
    refused = probe.refused_line()
    texts, treats = [], set()
    running = {}
    floor = 0  # no copy up to this number waits
    for line in lines:
        if line.number == refused:
            break
        if line.word in ('router', 'start', 'stop') and line.number > 1:
            running[line.words[1]] = line.word != 'stop'
        if line.number not in probe.plans:
            texts.append(line.text)
            continue
        if probe.loss[line.number]:
            raise Problem(f'line {line.number} meets a loss of {probe.loss[line.number]}')
        waiting = probe.waiting(line.number, floor)
        counts = [made for made, _ in probe.mails[line.number]]
        for place, moment in enumerate(probe.plans[line.number] or []):
            texts.append(f'time {moment}')
            texts.extend(f'tick {name}' for name, runs in running.items() if runs)
            treat(texts, treats, waiting + list(range(counts[place] + 1, counts[place + 1] + 1)))
            waiting, floor = [], counts[place + 1]
        if probe.plans[line.number] is None:
            treat(texts, treats, waiting + list(range(counts[0] + 1, counts[1] + 1)))
            floor = counts[1]
    texts.extend(line.text for line in lines if refused and line.number >= refused)
    return texts, treats


def treat(texts, treats, copies):
    for copy in copies:
        treats.add(len(texts))
        texts.append(f'deliver {copy}')

"""Says of each line of a transcript which line of the script wrote it, and at which moment, in milliseconds.

Four columns with a tab between: the number of the script's line, the moment, the script's line, the transcript's line.
The program plays the script again to know this. Where the transcript is not what it writes, the tool says so and ends.
Without a transcript it goes over the log of the script, which has the events, copies and notes of `run` and `flow` too; the
last column is an event, or a line below it. That needs hnlook.
"""
import itertools

from ..tools import common, logs, marks
from ..tools.common import Problem

MOST_SHOWN = 40  # characters of a script's line


def moments(lines):
    """The moment after each line, and the text that says it of what the line writes."""
    moment, texts = 0, {}
    for line in lines:
        before = moment
        if line.number > 1 and line.word in ('time', 'run'):
            moment = max(moment, int(line.words[1]))
        texts[line.number] = str(moment)
        if moment > before:
            # Such a line writes its refusal, which may come up on the way, and lines `ra`, which say their moment.
            texts[line.number] = f'{before}..{moment}' if line.word == 'run' else str(before)
    return texts


def shown(text):
    text = common.printable(text)
    return text if len(text) <= MOST_SHOWN else text[:MOST_SHOWN - 2] + '..'


def annotate(lines, transcript):
    """Writes the four columns of each line."""
    whole = common.play(line.text for line in lines)
    refused = common.refusal(whole)
    if refused and refused[1] in common.CODES_BEFORE_PLAY:
        pairs, at = [(refused[0], whole[-1])], {}
    else:
        pairs, at = marks.written(lines), moments(lines)
    for place, (pair, text) in enumerate(itertools.zip_longest(pairs, transcript)):
        if pair is None or pair[1] != text:
            said = 'nothing more' if pair is None else f'"{pair[1]}"'
            theirs = 'ends there' if text is None else f'has "{text}"'
            raise Problem(f'the transcript is not of this script: at its line {place + 1} the program writes {said}, and it {theirs}')
        line = lines[pair[0] - 1].text if 0 < pair[0] <= len(lines) else ''
        moment = text.split()[3] if text.startswith('ra ') else at.get(pair[0], '-')
        print(pair[0], moment, shown(' '.join(line.split())), text, sep='\t')


def annotate_log(lines):
    """Writes the four columns of each event and of each line below it."""
    log, transcript = logs.of_script(lines), common.play(line.text for line in lines)
    owners = logs.Owners(lines, log, transcript)
    for number, event in zip(owners.numbers, log.events):
        line = shown(' '.join(lines[number - 1].words))
        for text in [event.text] + [f'  {each}' for each in event.lines]:
            print(number, event.moment, line, text, sep='\t')
    if log.refused:
        print(log.refused[0], owners.home.moment, shown(' '.join(lines[log.refused[0] - 1].words)), transcript[-1], sep='\t')


def main(words=None):
    words = common.parser(__doc__, [
        ('script', {'metavar': 'SCRIPT', 'help': 'a script of hncp lab'}),
        ('transcript', {'metavar': 'TRANSCRIPT', 'nargs': '?', 'help': 'what hncp lab wrote for it; the log of the script, if none is named'}),
    ]).parse_args(words)
    lines = common.read_script(words.script)
    if words.transcript is None:
        annotate_log(lines)
    else:
        annotate(lines, common.read(words.transcript))

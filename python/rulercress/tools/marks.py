"""Which line of a script wrote which line of its transcript."""
import itertools

from . import common

# The words that write nothing. After each other line stands a `mail`, which changes nothing and ends what the line wrote.
SILENT = set('router link attach detach external withdraw caps private stop start seed loss time drop flow radv solicit'.split())


def with_marks(lines):
    """The texts to play, and of each the number of its line; a mark has none."""
    texts, owners = [], []
    for line in lines:
        texts.append(line.text)
        owners.append(line.number)
        if line.words and line.number > 1 and line.word not in SILENT:
            texts.append('mail')
            owners.append(None)
    return texts, owners


def written(lines):
    """What the program writes: pairs of a line's number and a text, in order."""
    texts, owners = with_marks(lines)
    transcript = common.play(texts)
    refused = common.refusal(transcript)
    end = len(texts)
    if refused:
        common.must_be_played(transcript)
        end = refused[0] - 1
        transcript = transcript[:-1]
    pairs, said = [], iter(transcript)
    for place in range(end):
        if owners[place] is None:
            continue
        if lines[owners[place] - 1].word == 'mail':
            pairs.append((owners[place], next(said)))
        if place + 1 < end and owners[place + 1] is None:
            upto_mark = itertools.takewhile(lambda text: not text.startswith('mail '), said)
            pairs.extend((owners[place], text) for text in upto_mark)
    # What is left was written by the refused line before its refusal.
    pairs.extend((owners[end], text) for text in said)
    if refused:
        pairs.append((owners[end], f'refused {owners[end]} {refused[1]}'))
    return pairs

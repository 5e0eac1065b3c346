"""What a play comes to, in a line each: when the home was sound, whether it stays as it is, and how long hosts were without a prefix."""

from . import common

SOUND = 'sound=yes'


def spells(states, end):
    """The times in which something was not so, from a list of (moment, whether it is so): after it was so first. The answer is the
    moment at which it was so first, or None, and these times as (start, end). What ended at its own moment is no time."""
    first = start = None
    found = []
    for moment, is_so in states:
        if first is None:
            first = moment if is_so else None
        elif not is_so and start is None:
            start = moment
        elif is_so and start is not None:
            found.append((start, moment))
            start = None
    if start is not None:
        found.append((start, end))
    return first, [(start, end) for start, end in found if end > start]


def soundness(play):
    """At each look where an audit becomes another: whether each running router says that the home is sound."""
    changes = {}
    for words, runs in play.runs.items():
        if words[0] == 'audit':
            for look, text in runs.pairs():
                changes.setdefault(look, []).append((words[1], text))
    now = {}
    for look in sorted(changes):
        now.update(changes[look])
        said = [text for text in now.values() if text]
        yield play.looks[look], bool(said) and all(SOUND in text for text in said)


def liveness(lanes):
    """Whether hosts of a link hold a prefix that is preferred and that somebody assigns, at each moment where that may change."""
    changes = {}
    for prefix, lane in lanes.items():
        for moment, state, is_assigned, _ in lane.pieces:
            changes.setdefault(moment, []).append((prefix, state == 'preferred' and is_assigned))
    now = {}
    for moment in sorted(changes):
        now.update(changes[moment])
        yield moment, any(now.values())


def seconds(moment):
    return f'{moment / 1000:.1f} s'.replace('.0 s', ' s')


def told(first, found, word, otherwise):
    """What is told of something that was so first at a moment, and then at times not."""
    if first is None:
        return f'never {word}'
    text = f'{word} at {seconds(first)}'
    if found:
        times = 'once' if len(found) == 1 else f'{len(found)} times'
        text += f'; then {times} {otherwise}, {seconds(sum(end - start for start, end in found))} in all'
    return text


def calmness(play):
    """What `hnlook calm` says at the end of a router that runs: until when the home is calm, or why it is not."""
    running = [name for name, runs in play.home.running.items() if runs]
    for name in running[:1]:
        yield 'calm', common.look(['calm', name], [line.text for line in play.lines])[0].split('calm=')[1]


def sums(story):
    """The lines: of whom, and what. The links are those whose hosts had a live prefix once."""
    yield 'home', told(*spells(soundness(story.play), story.end()), 'sound', 'not')
    yield from calmness(story.play)
    for link, lanes in story.lanes.items():
        states = list(liveness(lanes))
        if any(is_so for _, is_so in states):
            yield f'hosts of {link}', told(*spells(states, story.end()), 'a live prefix', 'none')

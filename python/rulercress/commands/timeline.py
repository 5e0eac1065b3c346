"""Says what changed when in the play of a script: routers, links, what hosts hold, and copies that were lost.

Three columns with a tab between: the moment in milliseconds, of whom, and what. The last lines say what it comes to: when the
home was sound, whether it is calm at the end and until when, and how long hosts of a link were without a live prefix, which is one
that is preferred and that somebody assigns. Reports are put in after each round, in a large home after each second; they change
nothing, and where the script's own reports come out otherwise nothing is shown.
With --html it makes a page, one file without network access, that shows the same as bands over time. It needs hnlook.
"""
import json
import os
import sys

from ..tools import captures, common, hosts, looks, story
from ..tools.common import Problem

PAGE = os.path.join(os.path.dirname(os.path.realpath(__file__)), 'timeline.html')
MOST_EVERY = 2 ** 48
FATES = {'deliver': 0, 'wait': 1, 'drop': 2}


class Pool:
    """Texts, or other values, by number: an equal one has the same number."""

    def __init__(self):
        self.items = []
        self.numbers = {}

    def add(self, item):
        key = json.dumps(item)
        if key not in self.numbers:
            self.numbers[key] = len(self.items)
            self.items.append(item)
        return self.numbers[key]


def stored_runs(runs, values):
    """Runs as look, value, look, value, .. by numbers; -1 is no value."""
    flat = []
    for look, value in runs.pairs():
        flat += [look, -1 if value is None else values.add(value.stored() if isinstance(value, looks.Falling) else value)]
    return flat


def in_lanes(pieces):
    """Gives each piece, which begins with its start and its end, a lane: the first that is free. How many there are."""
    ends = []
    for piece in sorted(pieces, key=lambda each: (each[0], each[2])):
        lane = next((lane for lane, end in enumerate(ends) if end <= piece[0]), len(ends))
        ends[lane:lane + 1] = [piece[1]]
        piece.append(lane)
    return max(1, len(ends))


def prefix_pieces(told, link):
    """The prefixes of a link as pieces: start, end, prefix, delegated prefix, publishers, routers, applied by, lane."""
    pieces, open_pieces = [], {}
    for look, links in told.links:
        moment, now = told.play.looks[look], links.get(link, {})
        for prefix, each in now.items():
            piece = open_pieces.get(prefix)
            values = [prefix, each.inside, ' '.join(each.publishers), ' '.join(each.members), ' '.join(each.applied)]
            if piece is not None and piece[2:] != values:
                piece[1] = moment
            if piece is None or piece[2:] != values:
                open_pieces[prefix] = [moment, told.end(), *values]
                pieces.append(open_pieces[prefix])
        for prefix in set(open_pieces) - set(now):
            open_pieces.pop(prefix)[1] = moment
    return keep_together(pieces)


def keep_together(pieces):
    """The pieces of one prefix that follow one another are in one lane."""
    spans, whole = {}, []
    for piece in pieces:
        last = spans.get(piece[2])
        if last is not None and last[1] == piece[0]:
            last[1] = piece[1]
        else:
            last = spans[piece[2]] = [piece[0], piece[1], piece[2]]
            whole.append(last)
        piece.append(last)
    count = in_lanes(whole)
    for piece in pieces:
        piece[-1] = piece[-1][3]
    return pieces, count


def host_pieces(told, link):
    """What hosts of a link hold, as pieces: start, end, prefix, state, whether it is assigned, end of each lifetime, lane."""
    pieces = []
    for lane in told.lanes.get(link, {}).values():
        starts = [each[0] for each in lane.pieces] + [told.end()]
        for (start, state, is_assigned, ends), stop in zip(lane.pieces, starts[1:]):
            if state:
                pieces.append([start, stop, lane.prefix, state, int(is_assigned)] + [-1 if end == hosts.ENDLESS else end for end in ends])
    return keep_together(pieces)


def stored_links(told):
    links = [link for link in told.play.home.links]
    links += sorted({link for _, each in told.links for link in each} - set(links))
    for link in links:
        pieces, lanes = prefix_pieces(told, link)
        held, host_lanes = host_pieces(told, link)
        yield {'name': link, 'pieces': pieces, 'lanes': lanes, 'hosts': held, 'hostLanes': host_lanes, 'sent': link in told.play.home.senders,
               'private': link not in told.play.home.links}


def stored_datagrams(told, routers):
    """The copies with their fates, and the texts of what they say. Where there is too much text, the rest has none."""
    pool, wanted = Pool(), []
    for data in [copy.data for copy in told.copies] + [each.data for each in told.injected]:
        wanted.append(pool.add(data.hex()))
    texts, size = [], 0
    payloads = [bytes.fromhex(each) for each in pool.items]
    told_of_each = captures.decode_all(payloads)
    for payload in payloads:
        text = '\n'.join(told_of_each[payload].lines)
        size += len(text)
        texts.append(text if size <= story.MOST_TEXT else '(left out: there is too much text)')
    place = {name: number for number, name in enumerate(routers)}
    link = {name: number for number, name in enumerate(told.play.home.links)}

    def end_of(endpoint):
        return [place[endpoint[0]], endpoint[1]]

    copies = []
    for number, copy in enumerate(told.copies):
        for moment, fate, _ in copy.fates or [(copy.moment, 'wait', None)]:
            row = [moment, *end_of(copy.sender), *end_of(copy.receiver), int(copy.multicast), FATES[fate], wanted[number], copy.number, copy.moment,
                   link.get(copy.link, -1)]
            copies.append((moment, copy.number, row))
    for number, each in enumerate(told.injected):
        sender = end_of(each.sender) if each.sender else [-1, -1]
        row = [each.moment, *sender, *end_of(each.receiver), int(each.way != 'uni'), 0, wanted[len(told.copies) + number], 0, each.moment,
               link.get(each.link, -1)]
        copies.append((each.moment, each.after + 0.5, row))
    return [row for _, _, row in sorted(copies, key=lambda each: each[:2])], texts


def parallel(home):
    """The links that two routers or more have in common with another link: their arrows are told apart by the link's name."""
    routers = {}
    for router, _, link in home.was_on:
        routers.setdefault(link, set()).add(router)
    return [place for place, link in enumerate(home.links)
            if any(other != link and len(routers.get(link, set()) & routers.get(other, set())) > 1 for other in home.links)]


def page_data(told, name):
    """All that the page shows."""
    play, values = told.play, Pool()
    routers = list(play.home.routers)
    reports = {' '.join(words): stored_runs(runs, values) for words, runs in play.runs.items()}
    copies, texts = stored_datagrams(told, routers)
    moments = [moment - before for moment, before in zip(play.looks, [0] + play.looks)]
    return {
        'name': name,
        'lines': [line.text for line in play.lines],
        'every': play.every,
        'looks': moments,
        'afterLine': play.after_line,
        'marks': play.marks,
        'routers': routers,
        'endpoints': sorted({(router, endpoint) for router, endpoint, _ in play.home.was_on}),
        'reports': reports,
        'values': values.items,
        'links': list(stored_links(told)),
        'shared': play.audited is not None,
        'missing': told.missing,
        'copies': copies,
        'texts': texts,
        'changes': [[moment, whom, what] for moment, _, _, whom, what in told.changes],
        'sums': told.sums,
        'parallel': parallel(play.home),
    }


def page(told, name):
    """The page: timeline.html with the data in it."""
    with open(PAGE, encoding='utf-8') as file:
        text = file.read()
    data = json.dumps(page_data(told, name), separators=(',', ':')).replace('<', '\\u003c')
    return text.replace('"DATA"', data, 1)


def told_of(texts, every=None):
    """What changed when in the play of a script of these lines, with reports at most once in `every` milliseconds."""
    common.must_play('hnlook')
    play = looks.Play(common.numbered(texts), every)
    if not play.looks:
        raise Problem('the script is refused before anything can be looked at')
    return story.Story(play)


def write_page(told, path, name):
    """Writes the page of a script of this name to a file."""
    with open(path, 'w', encoding='utf-8') as file:
        file.write(page(told, name))


def rows(told):
    """What is shown: moment in milliseconds, of whom, and what; at the end what it comes to."""
    yield from ((moment, whom, what) for moment, _, _, whom, what in told.changes)
    yield from ((told.end(), whom, what) for whom, what in told.sums)


def main(words=None):
    given = common.parser(__doc__, [
        ('--html', {'metavar': 'FILE', 'help': 'make this page as well'}),
        ('--every', {'metavar': 'MS', 'help': 'put reports in at most once in so many milliseconds'}),
        ('script', {'metavar': 'SCRIPT', 'help': 'a script of hncp lab'}),
    ])
    words = given.parse_args(words)
    every = None
    if words.every is not None:
        every = common.number(words.every, MOST_EVERY)
        if not every:
            given.error(f'{words.every} is no number of milliseconds')
    told = told_of(common.read(words.script) or [''], every)
    if words.html:
        write_page(told, words.html, os.path.basename(words.script))
    for row in rows(told):
        print(*row, sep='\t')
    if told.missing:
        print(f'timeline: {told.missing}', file=sys.stderr)

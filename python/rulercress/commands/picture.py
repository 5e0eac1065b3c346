"""Draws the home that a script ends with, as text for graphviz: routers, links, endpoints, uplinks and prefixes.

Each router is a box and each link an ellipse. An edge between them has the number of the endpoint. A delegated
prefix is a hexagon with a dashed edge. With a transcript, each link gets the prefixes that its routers name in the last
`prefixes` lines, those between which nothing happens, and the picture ends before a line that was refused. Without one it ends
before the first line that names what is not there, or that has a name or an identifier as no script has it.
"""
import ipaddress
import re

from ..tools import common, looks

ASSIGNED = re.compile(r'prefix (\S+) ep=(\d+) in=\S+ is=([0-9a-f:]+/\d{1,3}) published=\S+ applied=(yes|no)$')
NAME, NODE, PREFIX = re.compile(r'[A-Za-z][A-Za-z0-9_-]{0,15}'), re.compile('[0-9a-fA-F]{8}'), re.compile(r'[0-9a-fA-F:]+/\d{1,3}')
MANY = 16    # endpoints from which on the drawing is as high as it is wide
LARGE = '  graph [layout=sfdp, overlap=prism, splines=true, K=0.7];'


class Home:
    """What stands after some lines."""

    def __init__(self):
        self.routers = {}     # name -> identifier
        self.stopped = set()
        self.links = []
        self.attached = {}    # (router, endpoint) -> link
        self.uplinks = {}     # (router, prefix) -> lifetimes
        self.private = {}     # router -> length

    def play(self, words):
        """Lets a line happen. The answer is no where it names what is not there, or has too few words."""
        act = getattr(self, 'on_' + words[0], None)
        try:
            return not act or act(*words[1:]) is not False
        except (TypeError, KeyError, ValueError):
            return False

    def on_router(self, name, node):
        if name in self.routers or name in self.links or not NAME.fullmatch(name) or not NODE.fullmatch(node):
            return False
        self.routers[name] = node

    def on_link(self, name):
        if name in self.routers or name in self.links or not NAME.fullmatch(name):
            return False
        self.links.append(name)

    def on_attach(self, name, endpoint, link):
        key = name, int(endpoint)
        taken = any(other == name and to == link for (other, _), to in self.attached.items())
        if name not in self.routers or link not in self.links or key in self.attached or taken:
            return False
        self.attached[key] = link

    def on_detach(self, name, endpoint):
        del self.attached[name, int(endpoint)]

    def on_external(self, name, prefix, valid, preferred):
        if name not in self.routers or not PREFIX.fullmatch(prefix):
            return False
        self.uplinks[name, str(ipaddress.IPv6Network(prefix))] = f'{int(valid)} s, preferred {int(preferred)} s'

    def on_withdraw(self, name, prefix):
        if name not in self.routers:
            return False
        self.uplinks.pop((name, str(ipaddress.IPv6Network(prefix))), None)

    def on_private(self, name, length):
        if name not in self.routers:
            return False
        self.private.pop(name, None)
        if length != 'off':
            self.private[name] = int(length)

    def on_stop(self, name):
        if name not in self.routers:
            return False
        self.stopped.add(name)

    def on_start(self, name):
        if name not in self.routers:
            return False
        self.stopped.discard(name)


def home_of(lines, transcript):
    """The home, and the number of the line before which the picture ends, or None."""
    refused = common.refusal(transcript)
    home = Home()
    if refused and refused[1] in common.CODES_BEFORE_PLAY:
        return home, refused[0]
    for line in lines[1:]:
        if line.words and (refused and line.number == refused[0] or not home.play(line.words)):
            return home, line.number
    return home, None


def last_asked(lines, end):
    """How many of the script's lines `prefixes` stand last, with nothing that happens between them."""
    count, is_over = 0, False
    for line in lines[1:end and end - 1]:
        if line.word == 'prefixes':
            count, is_over = 1 if is_over else count + 1, False
        elif line.words and line.word not in looks.REPORTS:
            is_over = True
    return count


def assigned(home, transcript, count):
    """Of each link, and of each router for its private link, the prefixes that its last lines `prefixes` told, and whether each is
    applied."""
    blocks = []  # (router, [(endpoint, prefix, applied)])
    for text in transcript:
        found = ASSIGNED.match(text)
        if text.startswith('prefixes '):
            blocks.append((text.split()[1], []))
        elif found and blocks and found.group(1) == blocks[-1][0]:
            blocks[-1][1].append((int(found.group(2)), found.group(3), found.group(4)))
    told = dict(blocks[len(blocks) - count:])
    of_links, of_routers = {}, {}
    for name, prefixes in told.items():
        for endpoint, prefix, applied in prefixes:
            link = home.attached.get((name, endpoint))
            of, key = (of_routers, name) if endpoint == 0 else (of_links, link)
            if key is not None:
                of.setdefault(key, {})[prefix] = applied
    return of_links, of_routers


def quoted(*lines):
    """A string of graphviz. No text in it has a quotation mark or a backslash."""
    return '"' + '\\n'.join(lines) + '"'


def told_prefixes(prefixes):
    return [prefix if applied == 'yes' else f'{prefix} (not applied)' for prefix, applied in sorted(prefixes.items())]


def draw(home, lines, transcript, end):
    of_links, of_routers = assigned(home, transcript, last_asked(lines, end))
    yield 'graph home {'
    if len(home.attached) > MANY:
        yield LARGE
    if end:
        yield f'  // ends before line {end} of the script'
    for name, node in home.routers.items():
        private = [f'private /{home.private[name]}'] if name in home.private else []
        stopped = ['stopped'] if name in home.stopped else []
        label = quoted(name, node, *stopped, *private, *told_prefixes(of_routers.get(name, {})))
        yield f'  {quoted(name)} [shape=box, label={label}{", style=dotted" if stopped else ""}];'
    for link in home.links:
        yield f'  {quoted(link)} [shape=ellipse, label={quoted(link, *told_prefixes(of_links.get(link, {})))}];'
    for (name, endpoint), link in home.attached.items():
        yield f'  {quoted(name)} -- {quoted(link)} [label="{endpoint}"];'
    for (name, prefix), lifetimes in home.uplinks.items():
        uplink = quoted(f'{name} {prefix}')
        yield f'  {uplink} [shape=hexagon, label={quoted(prefix, lifetimes)}];'
        yield f'  {quoted(name)} -- {uplink} [style=dashed];'
    yield '}'


def main(words=None):
    words = common.parser(__doc__, [
        ('script', {'metavar': 'SCRIPT', 'help': 'a script of hncp lab'}),
        ('transcript', {'metavar': 'TRANSCRIPT', 'nargs': '?', 'help': 'what hncp lab wrote for it'}),
    ]).parse_args(words)
    transcript = common.read(words.transcript) if words.transcript else []
    lines = common.read_script(words.script)
    home, end = home_of(lines, transcript)
    for text in draw(home, lines, transcript, end):
        print(text)

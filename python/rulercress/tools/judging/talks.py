"""Who talks with whom: requests that nobody answers, and endpoints that fall silent. judging.minds judges what they agree on."""
import bisect

from .. import items
from .groups import Groups
from .minds import Minds
from .rules import Finding
from .senders import is_multicast

ANSWERED = 1.0          # seconds within which a request is answered
SOON, MANY = 5.0, 6     # a row of so many requests over so many seconds without an answer is told,
LONG, SOME = 15.0, 3    # or of so many over so many
ALIVE = 26.0            # seconds within which an endpoint is heard that is there: the longest interval of Trickle is 25.6
EMPTY = items.hash_of(b'').hex()


class Voice:
    """The network state hashes that a source said, in the order of moments."""

    def __init__(self):
        self.moments, self.hashes, self.datagrams = [], [], []

    def add(self, datagram, digest):
        self.moments.append(datagram.moment)
        self.hashes.append(digest)
        self.datagrams.append(datagram)

    def between(self, since, until):
        """The hashes said between two moments, and the one that held before."""
        first = max(bisect.bisect_right(self.moments, since) - 1, 0)
        return set(self.hashes[first:bisect.bisect_right(self.moments, until)])


class Talks:
    """Takes the datagrams in their order, and judges at the end who talked with whom."""

    def __init__(self, findings, senders, states):
        self.findings, self.senders, self.states = findings, senders, states
        self.open = {}        # (link, source, destination, what it asks for) -> the datagrams that ask and have no answer
        self.rows = []        # such lists that ended, each with its key
        self.unicasts = {}    # (link, source, destination) -> moments
        self.answers = {}     # (source, destination) -> moments of answers, by whichever link
        self.replied = set()  # (source, destination, port) of answers
        self.astray = []      # (answer, the request that it may belong to), where that came from another port than the answer goes to
        self.voices = {}      # (link, source) -> Voice

    def take(self, sender, datagram, found):
        link, source, destination = datagram.link, datagram.source, datagram.destination
        said = [item.words['hash'] for item in found if item.name == 'network-state']
        if said and sender.post:
            self.voices.setdefault((link, source), Voice()).add(datagram, said[-1])
        if is_multicast(destination):
            return
        self.unicasts.setdefault((link, source, destination), []).append(datagram.moment)
        answered = ['network'] * bool(said)
        for item in found:
            if item.name == 'request-network':
                self.open.setdefault((link, source, destination, 'network'), []).append(datagram)
            if item.name == 'request-node':
                self.open.setdefault((link, source, destination, item.words['node']), []).append(datagram)
            if item.name == 'node-state' and (item.length > items.FIXED[item.kind] or item.words['hash'] == EMPTY):
                answered.append(item.words['node'])
        if answered:
            self.answers.setdefault((source, destination), []).append(datagram.moment)
            self.replied.add((source, destination, datagram.port))
        for what in answered:
            key = link, destination, source, what
            self.take_port(datagram, [each for each in self.open.get(key, ()) if each.moment >= datagram.moment - ANSWERED])
            self.end_row(key, datagram.moment)

    def take_port(self, answer, asked):
        """An answer goes to the port that asked (RFC 7788, section 3)."""
        if asked and all(each.source_port != answer.port for each in asked):
            self.astray.append((answer, asked[-1]))

    def end_row(self, key, moment):
        """An answer ends a row of requests. Those that were asked within a second are answered by it, and the others by nobody."""
        row = [each for each in self.open.pop(key, ()) if each.moment < moment - ANSWERED]
        if len(row) >= SOME:
            self.rows.append((*key, row))

    # At the end

    def end(self, home):
        self.home = home
        rows = self.rows + [(*key, [each for each in row if each.moment < home.end - ANSWERED]) for key, row in self.open.items()]
        for row in rows:
            self.judge_row(*row)
        self.judge_ports()
        self.judge_silence()
        Minds(self).judge()

    def find(self, rule, datagram, text, node=None):
        self.findings.append(Finding(rule, datagram.frame, datagram.source, text, node=node))

    def posts_of(self, link, address):
        """The endpoints that speak from an address. There are more than one where captures of two links were merged."""
        return [post for post in self.senders.of(link, address).senders if post]

    def was_heard(self, link, address, since, until):
        moments = self.senders.of(link, address).moments
        place = bisect.bisect_left(moments, since)
        return place < len(moments) and moments[place] <= until

    def hashes(self, link, address, since, until):
        voice = self.voices.get((link, address))
        return voice.between(since, until) if voice else set()

    def groups(self, link, since, until):
        """The sources on a link, as the hashes that they said between two moments join them."""
        joined, firsts = Groups(), {}
        for by, address in self.voices:
            for digest in self.hashes(link, address, since, until) if by == link else ():
                joined.join(firsts.setdefault(digest, address), address)
        return joined

    # Requests that nobody answers

    def judge_row(self, link, source, destination, what, row):
        """Of a row of requests those count at which the destination was there: it was heard right before or some time after. An answer
        may come late, or be lost by the capture. So a row has to be long, and both say no hash in common meanwhile."""
        row = [each for each in row if self.was_heard(link, destination, each.moment - ANSWERED, each.moment + ALIVE)]
        if len(row) < SOME or what != 'network' and (link, destination, what) not in self.states.shown:
            return
        since, until = row[0].moment, row[-1].moment
        is_long = until - since >= LONG or until - since >= SOON and len(row) >= MANY
        if not is_long or self.answered_between(destination, source, since, until):
            return
        groups = self.groups(link, since, until)
        if groups.of(source) != groups.of(destination):
            asked = 'the network state' if what == 'network' else f'the data of node {what}'
            text = (f'{len(row)} requests for {asked} to {destination} until frame {row[-1].frame}, in {until - since:.3f} s, '
                    f'and no answer from there to any within {ANSWERED:g} s')
            posts = self.posts_of(link, destination)
            self.find('unanswered', row[0], text, node=posts[0][0] if len(posts) == 1 else None)

    def answered_between(self, source, destination, since, until):
        """Whether an answer came by any link: a mirroring port may show both directions with other tags."""
        moments = self.answers.get((source, destination), [])
        place = bisect.bisect_left(moments, since)
        return place < len(moments) and moments[place] <= until

    def judge_ports(self):
        """An answer to the port of HNCP is astray where the host that asked never spoke from there, and got none at the port from which
        it asked. Else it may be meant for a router on that host."""
        told = set()
        for answer, asked in self.astray:
            spoke = self.senders.of(answer.link, answer.destination).ports
            is_replied = (answer.source, answer.destination, asked.source_port) in self.replied
            if answer.port in self.senders.ports and answer.port not in spoke and not is_replied and answer.frame not in told:
                told.add(answer.frame)
                text = f'an answer to port {answer.port} of {answer.destination}, which asked from port {asked.source_port} in frame {asked.frame}'
                self.find('port', answer, text)

    # Endpoints that fall silent

    def judge_silence(self):
        """An endpoint is silent if others on its link went on to speak. It may have taken leave before: published that it has no peers
        there."""
        home, neighbours = self.home, self.ever_peers()
        silent = {post: last for post, last in home.last.items()
                  if home.is_silent(post, last, self.patience(last)) and self.senders.of(last.link, last.source).post == post}
        for post, last in silent.items():
            if not self.took_leave(post, last) and self.others_went_on(post, last, silent, neighbours.get(post, ())):
                text = (f'endpoint {post[1]} sent nothing more for {home.end - last.moment:.3f} s, to the end of the capture; '
                        f'peers are gone after {home.silence_of(post):g} s')
                self.find('silent', last, text, node=post[0])

    def patience(self, last):
        """How many times longer than its peers do it is waited for a source. Where keep-alives of others are not there, the capture
        loses frames."""
        return 2 if self.senders.missed - {last.source} else 1

    def ever_peers(self):
        """Of each endpoint those that one of both had as its peer, in any of its data."""
        found = {}
        for data in self.states.data.values():
            for peer, endpoint, own in data.peers():
                post, other = (data.state.node, own), (peer, endpoint)
                found.setdefault(post, set()).add(other)
                found.setdefault(other, set()).add(post)
        return found

    def took_leave(self, post, last):
        """Whether the last data of the node have no peer at the endpoint, and had one before, or are newer than its last datagram."""
        node, endpoint = post
        data = self.home.data.get(node)
        if data is None or any(own == endpoint for _, _, own in data.peers()):
            return False
        state = self.states.origins[self.home.latest[node].version]
        before = [self.states.data[each.key] for each in self.states.versions[node] if each.key in self.states.data]
        return state.moment - state.age > last.moment or any(own == endpoint for each in before for _, _, own in each.peers())

    def others_went_on(self, post, last, silent, peers):
        """Whether an endpoint that is known to be on the same link spoke after it. Where none is known, any one of the capture counts
        that said one hash with it, unless others fell silent with it: of two captures that were merged one may end earlier."""
        link = last.link
        on_link = {self.home.last[peer].source for peer in peers if peer != post and peer in self.home.last and self.home.last[peer].link == link}
        on_link |= {address for by, address in self.voices if by == link and
                    ((link, address, last.source) in self.unicasts or (link, last.source, address) in self.unicasts)}
        on_link.discard(last.source)
        if on_link:
            return any(self.spoke_after(link, address, last.moment) for address in on_link)
        if any(other != post and abs(each.moment - last.moment) < ALIVE for other, each in silent.items()):
            return False
        own = set(self.voices[link, last.source].hashes) if (link, last.source) in self.voices else set()
        return any(by == link and address != last.source and self.spoke_after(link, address, last.moment) and not own.isdisjoint(voice.hashes)
                   for (by, address), voice in self.voices.items())

    def spoke_after(self, link, address, moment):
        return self.was_heard(link, address, moment + ALIVE, self.home.end)

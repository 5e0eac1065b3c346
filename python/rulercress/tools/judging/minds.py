"""Who is of one mind: endpoints on one link that are no peers, or that say no network state hash in common."""
import bisect
import functools

from .groups import Groups

APART = 42.0     # seconds after which peers that do not hear each other are none (RFC 7788, section 3)
DIFFER = 60.0    # seconds that network state hashes may differ
STEP = 20.0      # seconds between the moments at which hashes are compared
SPOKE = 26.0     # seconds within which a source is heard that is there
NEVER = float('inf')


class Minds:
    """Judges at the end of a capture, by what `judging.talks.Talks` took."""

    def __init__(self, talks):
        self.talks, self.home = talks, talks.home
        self.states, self.senders = talks.states, talks.senders
        self.neighbours = self.find_neighbours()

    def find_neighbours(self):
        """The pairs of sources on one link, since one spoke to the other: (link, source, other) -> moments, the least source first."""
        found = {}
        for (link, source, destination), moments in self.talks.unicasts.items():
            if source != destination and all((link, each) in self.talks.voices for each in (source, destination)):
                found.setdefault((link, *sorted((source, destination))), []).extend(moments)
        return {key: sorted(moments) for key, moments in found.items()}

    def judge(self):
        self.judge_apart()
        self.judge_hashes()

    # Endpoints that stay apart

    def judge_apart(self):
        """Two endpoints are on one link if one spoke to the other, or if both are mutual peers of a third one at its endpoint there."""
        told = set()
        for one, other, moments in sorted(self.pairs(), key=lambda pair: (pair[0].first.frame, pair[1].first.frame)):
            both = frozenset((one.post, other.post))
            if len(both) == 2 and both not in told and self.is_apart(one, other, moments):
                told.add(both)

    def pairs(self):
        """The pairs of senders on one link, the first one heard first, and the moments that show it. None stands for the end."""
        on_link, found = {}, []
        for each in self.senders.senders():
            if each.said:
                on_link.setdefault((each.link, self.home.links.of(each.post)), []).append(each)
        for each in on_link.values():
            found += [(one, other, None) for place, one in enumerate(each) for other in each[:place]]
        for (link, *both), moments in self.neighbours.items():
            posts = [self.talks.posts_of(link, address) for address in both]
            if all(len(each) == 1 for each in posts):
                found.append((*(self.senders.of(link, address).senders[each[0]] for address, each in zip(both, posts)), moments))
        return [(*sorted(pair, key=lambda sender: sender.first.frame), moments) for *pair, moments in found]

    def is_apart(self, one, other, moments):
        """Whether two endpoints are no mutual peers for so long: as their data say, or since neither ever answered the other."""
        since, until = max(one.first.moment, other.first.moment), min(one.last.moment, other.last.moment)
        for this, that in ((one, other), (other, one)):
            parted = self.parted(this.post, that.post)
            if parted is not None and moments is None:
                parted = max(parted, self.joined(this.post, that.post))
            if parted is not None and is_spread(moments, max(since, parted), until, APART):
                frame = self.home.data[this.post[0]].state.frame
                self.find_apart(one, other, until - max(since, parted), f'the data of node {this.post[0]} have no such Peer (frame {frame})')
                return True
        if moments and is_spread(moments, since, until, APART) and self.never_answered(one, other, since, until):
            self.find_apart(one, other, until - since, 'one asked the other, neither answered, and they said no hash in common')
            return True
        return False

    def find_apart(self, one, other, seconds, why):
        last = max(one, other, key=lambda each: each.last.frame)
        text = f'{name(one.post)} and {name(other.post)} were heard on one link for {seconds:.3f} s, and are not each other\'s peers: {why}'
        self.talks.find('apart', last.last, text, node=last.post[0])

    def parted(self, post, other):
        """Since when the data of a node do not have an endpoint as its peer. None where they have it, or may not be the last ones."""
        if post[0] not in self.home.confirmed:
            return None
        return self.since(post, other, False)

    def joined(self, one, other):
        """Since when two endpoints are mutual peers of one and the same third one, and so on one link: never, if there is none."""
        found = [NEVER]
        for node, endpoint, own in self.home.peers.get(one[0], ()):
            if own == one[1]:
                third = node, endpoint
                moments = [self.since(*both, True) for post in (one, other) for both in ((post, third), (third, post))]
                found += [max(moments)] if None not in moments else []
        return min(found)

    def since(self, post, other, has):
        """Since when the data of a node have an endpoint as its peer, or have it not. None where the last ones do otherwise. What it
        published under a number that the capture does not show may be otherwise."""
        node, own = post
        since = later = None
        for state in sorted(self.states.versions.get(node, ()), key=lambda state: state.moment - state.age, reverse=True):
            data = self.states.data.get(state.key)
            is_next = later is None or (later - state.number) % 2 ** 32 < 2
            if data is None or not is_next or ((*other, own) in data.peers()) != has:
                break
            since, later = state.moment - state.age, state.number
        return since

    def never_answered(self, one, other, since, until):
        answers = self.talks.answers
        if (one.source, other.source) in answers or (other.source, one.source) in answers:
            return False
        own, others = (self.talks.hashes(each.link, each.source, since, until) for each in (one, other))
        return not own & others

    # Hashes that differ

    def judge_hashes(self):
        """Neighbours that said no hash in common for a minute, and have no third one on the link with which both did."""
        by_link = {}
        for link, address in self.talks.voices:
            by_link.setdefault(link, []).append(address)
        for link, addresses in by_link.items():
            addresses = tuple(addresses)
            pairs = {(one, other): moments for (by, one, other), moments in self.neighbours.items() if by == link}
            told = set()
            self.judge_mutual(link, addresses, told)
            for moment, both in self.windows(pairs):
                if both not in told and is_split(self.groups(link, addresses, moment), both):
                    told.add(both)
                    self.find_differ(link, both, moment)
            self.tell_strangers(link, addresses, pairs)

    def windows(self, pairs):
        """The ends of times of a minute in both halves of which two sources spoke, the last ones first."""
        found = set()
        for both, moments in pairs.items():
            steps = {max(int((self.home.end - moment - DIFFER / 2) // STEP), 0) for moment in moments}
            ends = {self.home.end - STEP * step for step in steps}
            found |= {(end, both) for end in ends if is_spread(moments, end - DIFFER, end, DIFFER)}
        return sorted(found, reverse=True)

    @functools.lru_cache(maxsize=4)
    def groups(self, link, addresses, moment, seconds=DIFFER):
        """Of each source that spoke all the time before a moment its group."""
        joined, spoke = self.talks.groups(link, moment - seconds, moment), []
        for address in addresses:
            if self.talks.voices[link, address].moments[0] <= moment - seconds and self.talks.was_heard(link, address, moment - SPOKE, moment):
                spoke.append(address)
        return {address: joined.of(address) for address in spoke}

    def judge_mutual(self, link, addresses, told):
        """A node says for a minute the hash of data in which it has a peer on the link, and that one says others all the time. It would
        have lost a peer that is gone."""
        end = self.home.end
        groups = self.groups(link, addresses, end)
        for address in groups:
            posts = self.talks.posts_of(link, address)
            node, endpoint = posts[0]
            if len(posts) > 1 or self.talks.hashes(link, address, end - DIFFER, end) != {self.home.hashes.get(node)}:
                continue
            for peer, far, own in self.home.peers.get(node, ()):
                last = self.home.last.get((peer, far))
                if own == endpoint and last and last.link == link and self.home.is_mutual(node, peer, far, own):
                    both = tuple(sorted((address, last.source)))
                    if both not in told and len(set(both)) == 2 and is_split(groups, both):
                        told.add(both)
                        self.find_differ(link, both, end, last.source)

    def find_differ(self, link, both, moment, odd=None):
        """The frame is that of the one that is known to be wrong, or else of the one that spoke last."""
        lasts = []
        for address in both:
            voice = self.talks.voices[link, address]
            place = bisect.bisect_right(voice.moments, moment) - 1
            lasts.append((voice.datagrams[place], voice.hashes[place]))
        (first, before), (last, digest) = sorted(lasts, key=lambda each: (each[0].source == odd, each[0].frame))
        text = f'said {digest}, and {first.source} {before} in frame {first.frame}: in {DIFFER:g} s they said no network state hash in common'
        self.talks.find('differ', last, text)

    def tell_strangers(self, link, addresses, pairs):
        """Sources that said no hash in common, and of which none spoke to any of the others, may be on two links of one capture."""
        groups = self.groups(link, addresses, self.home.end, APART)
        firsts = {}
        for address in sorted(groups):
            firsts.setdefault(groups[address], address)
        joined = Groups()
        for one, other in pairs:
            if one in groups and other in groups:
                joined.join(groups[one], groups[other])
        alone = {}
        for group, address in firsts.items():
            alone.setdefault(joined.of(group), address)
        first, *others = alone.values() or [None]
        for address in others:
            last = self.talks.voices[link, address].datagrams[-1]
            text = f'said no network state hash in common with {first}, and none of them spoke to the other'
            self.talks.find('strangers', last, text)


def is_split(groups, both):
    return all(each in groups for each in both) and groups[both[0]] != groups[both[1]]


def is_spread(moments, since, until, seconds):
    """Whether a time is so long, and one of some moments is in each half of it, if moments are given."""
    if until - since < seconds:
        return False
    if moments is None:
        return True
    places = [bisect.bisect_left(moments, since), bisect.bisect_left(moments, (since + until) / 2), bisect.bisect_right(moments, until)]
    return places[0] < places[1] < places[2]


def name(post):
    return f'{post[0]}/{post[1]}'

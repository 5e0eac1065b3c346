"""The datagrams of a capture as they are judged: in the order of time, each one once, and each with the link that it came by."""
from .groups import Groups

LATE = 0.001     # seconds by which a frame is out of the order of time, or more, until it is told
TWICE = 0.01     # seconds within which a datagram that comes again is the same one: a bridge or a mirroring port shows it twice
NAMED = b'\0\3'  # with which a datagram begins that names its endpoint, which is on one link


class Frames:
    """The datagrams that count, how many stand twice in the capture, and which frames are out of the order of time."""

    def __init__(self, datagrams):
        self.twice, self.late = 0, []
        ordered = self.in_order(datagrams)
        self.datagrams = list(self.once(ordered))

    def in_order(self, datagrams):
        datagrams, latest = list(datagrams), None
        for each in datagrams:
            if latest is not None and each.moment < latest - LATE:
                self.late.append(each.frame)
            latest = each.moment if latest is None else max(latest, each.moment)
        return sorted(datagrams, key=lambda each: each.moment)

    def once(self, datagrams):
        """Leaves out what stands there again. Where it came by another link of the capture too, both are one link."""
        seen, links = {}, Groups()
        kept = []
        for each in datagrams:
            key = each.source, each.source_port, each.destination, each.port, each.length, each.payload
            moment, by = seen.get(key, (None, []))
            if moment is None or each.moment - moment > TWICE:
                moment, by = each.moment, []
            is_again = each.link in by or by and each.payload.startswith(NAMED)
            seen[key] = moment, [*by, each.link]
            if is_again:
                links.join(by[0], each.link)
                self.twice += 1
            else:
                kept.append(each)
        for each in kept:
            each.link = links.of(each.link)
        return kept

    def lines(self):
        if self.twice:
            yield f'{self.twice} frames stand twice, within {TWICE * 1000:g} ms; of each pair one was judged'
        if self.late:
            yield (f'{len(self.late)} frames are out of the order of time, the first is frame {self.late[0]}; all were judged in the order of time, '
                   'which reordercap writes')

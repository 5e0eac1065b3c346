"""What is watched of all that a device publishes."""
from . import wire


def overlapping(state):
    """Two assigned prefixes of one node that overlap, or None."""
    found = wire.assignments(state.data)
    for place, one in enumerate(found):
        for other in found[place + 1:]:
            if one.prefix.version == other.prefix.version and one.prefix.overlaps(other.prefix):
                return one, other
    return None


class Watch:
    """What the device published so far that no moment excuses."""

    def __init__(self):
        self.why, self.heard = None, None

    def take(self, heard, node):
        state = heard.states.get(node)
        if self.why or not state or not state.data:
            return
        found = overlapping(state)
        if found:
            self.why, self.heard = ' and '.join(f'{each.prefix} of endpoint {each.endpoint}' for each in found), heard

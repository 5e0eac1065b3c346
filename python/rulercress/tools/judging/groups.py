"""What is joined with what."""


class Groups:
    """Things in groups, which grow together where two of them are joined."""

    def __init__(self):
        self.above = {}

    def of(self, one):
        """What stands for the group of this thing: the least of it, if all are comparable."""
        self.above.setdefault(one, one)
        while self.above[one] != one:
            self.above[one] = self.above[self.above[one]]
            one = self.above[one]
        return one

    def join(self, one, other):
        one, other = sorted((self.of(one), self.of(other)))
        self.above[other] = one

    def groups(self):
        """The members of each group, in order."""
        found = {}
        for one in sorted(self.above):
            found.setdefault(self.of(one), []).append(one)
        return found

"""Cuts names into their parts, and finds the names that have some parts in them."""
import re
from typing import List

NAME = re.compile(r'[A-Za-z0-9_]+')
PART = re.compile(r'[A-Z]+(?![a-z])|[A-Z]?[a-z]+|[0-9]+')


def parts(name: str) -> List[str]:
    """The parts of a name, in lower case: `SetPrivate2` and `set_private_2` have `set`, `private` and `2`."""
    return [part.lower() for part in PART.findall(name)]


class Word:
    """A word that is looked for: its parts follow each other in a name."""

    def __init__(self, text: str, begins: bool = False) -> None:
        self.text = text
        self.parts = parts(text)
        self.begins = begins

    def is_in_name(self, name: str) -> bool:
        """Whether a name has it: all its parts or, if it only has to begin, with a last one that goes on."""
        own, count = parts(name), len(self.parts)
        return any(self._is_at(own[at:at + count]) for at in range(len(own) - count + 1))

    def _is_at(self, own: List[str]) -> bool:
        if not self.begins:
            return own == self.parts
        return own[:-1] == self.parts[:-1] and own[-1].startswith(self.parts[-1])

    def is_in(self, text: str) -> bool:
        """Whether a name of a text has it."""
        return any(self.is_in_name(name) for name in NAME.findall(text) if self.parts[0] in name.lower())

    def may_be_in(self, text: str) -> bool:
        """Whether a text in lower case has all its parts, in whatever place."""
        return all(part in text for part in self.parts)

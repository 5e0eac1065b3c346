"""What can go wrong, as exceptions."""
from typing import Dict

# What each code of a refusal means: the table "Codes" of docs/FORMATS.md, which `tools/check --only python` compares.
MEANINGS: Dict[int, str] = {
    1: 'the first line is neither hncp 1 nor hncp 2',
    2: 'the first word of a line is unknown in this version, whatever follows it',
    3: 'a line has too few or too many words',
    4: 'a number, name, identifier, prefix, length, capability, way or hexadecimal text is malformed or out of range',
    5: 'a line has more than 16,384 bytes, its LF not counted',
    6: 'a line has a byte outside of 20 to 7E in hexadecimal; a carriage return is one',
    7: 'a name is unknown, or names the other kind',
    8: 'the name of a new router or link is taken',
    9: 'it would be the 65th router of a home of version 1, the 129th of one of version 2, the 65th link, the 17th endpoint '
       'or the ninth delegated prefix of a router, or the 1,000,001st event',
    10: 'the moment would fall',
    11: 'attach: the endpoint is in use; detach, deliver, inject, elect, advert, radv, solicit: it is not attached',
    12: 'the router is stopped (all lines on a router but start, show and drop)',
    13: 'there is no copy of that number',
    14: 'the router already has an endpoint on that link',
    15: 'the script has more than 2^24 bytes; the line is 0',
    16: 'before tick, deliver, inject or an event of sync: 1,000,000 copies were made, or copies and injected datagrams have '
        '2^28 bytes together',
    18: 'sync: no endpoints of the two routers are joined',
    19: 'address: the router would have more than 64 addresses',
}


class Problem(Exception):
    """What keeps a home or a command from going on, as one line for a reader: a program that is missing or failed, or an input."""


class Refused(Exception):
    """A line of the language was refused.

    `code` is the code of docs/FORMATS.md, `line` the text of the line, `number` its number in the script, from 1 on, and
    `meaning` what the code means. `is_over` says whether a part of the line has happened: then the home ended with it, as
    its transcript does, and each further line raises this again. Else nothing changed.
    """

    def __init__(self, code: int, number: int, line: str, is_over: bool = False) -> None:
        self.code = code
        self.number = number
        self.line = line
        self.is_over = is_over
        self.meaning = MEANINGS.get(code, 'no code of docs/FORMATS.md')
        super().__init__(code, number, line, is_over)

    def __str__(self) -> str:
        ended = '; the home ended there' if self.is_over else ''
        return f'line {self.number}, "{self.line}", is refused by code {self.code}: {self.meaning}{ended}'


class Malformed(ValueError):
    """Bytes that are no list of TLVs. `place` is in bytes, `why` the cause (docs/FORMATS.md, "The text of a datagram")."""

    def __init__(self, place: int, why: int) -> None:
        self.place = place
        self.why = why
        super().__init__(place, why)

    def __str__(self) -> str:
        return f'no list of TLVs: place {self.place}, cause {self.why}'


class NotReached(AssertionError):
    """A condition did not come within its time: a failed assertion for pytest."""


class SeedsFailed(AssertionError):
    """The function of `many` raised with some seeds.

    `failures` has what was raised, as text, by seed; `results` has the results of the other seeds.
    """

    def __init__(self, failures: Dict[int, str], results: Dict[int, object]) -> None:
        self.failures = failures
        self.results = results
        super().__init__(failures, results)

    def __str__(self) -> str:
        count = len(self.failures)
        shown = [f'seed {seed}: {text}' for seed, text in list(self.failures.items())[:10]]
        more = [f'and {count - len(shown)} more'] if count > len(shown) else []
        return '\n'.join([f'{count} of {count + len(self.results)} seeds failed', *shown, *more])

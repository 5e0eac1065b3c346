"""Makes the bytes of a datagram from lines, as hexadecimal digits for `inject`.

The lines are those that `hncp decode` writes (docs/FORMATS.md, "The text of a datagram"), with two spaces for each level:

  node-endpoint node=00000009 endpoint=1
  node-state node=00000009 number=1
    peer node=00000001 endpoint=1 own=1

The numbers before a name may stand there or not; the type counts for `other` and `bad` alone, which else take type=N, and
the length for zeros at the end of a value alone. Left out, age and priorities are 0, and there is no user agent. A hash that
is left out is made: that of a node-state from the data below it (RFC 7787, section 4.1.1), that of a network-state from the
Node States beside it (RFC 7787, section 4.1.1); both are the first 64 bits of MD5 (RFC 7788, section 3). `raw value=X` puts
in bytes as they are. Lines may be given as words of the command line, each one word, or by standard input. A line that begins
with `tlvs`, as the text of a datagram does, begins a new datagram; each gives one line.
"""
import sys

from ..tools import common
from ..tools.common import Problem
from ..tools.spelling import spelled

MOST_BYTES = 65507


def datagrams(texts):
    """The numbered lines of each datagram: all before and after each line that begins with `tlvs`."""
    parts = [[]]
    for numbered in enumerate(texts, 1):
        if numbered[1].split()[:1] == ['tlvs']:
            parts.append([])
        else:
            parts[-1].append(numbered)
    return parts if len(parts) == 1 or any(text.strip() for _, text in parts[0]) else parts[1:]


def main(words=None):
    words = common.parser(__doc__, [
        ('lines', {'metavar': 'LINE', 'nargs': '*', 'help': 'a line, as one word; without any, standard input is read'}),
    ]).parse_args(words)
    texts = words.lines or sys.stdin.buffer.read().decode('ascii', 'replace').split('\n')
    made = [spelled(part) for part in datagrams(texts)]
    for each in made:
        if len(each) > MOST_BYTES:
            raise Problem(f'a datagram has {len(each)} bytes, and one of UDP has at most {MOST_BYTES}')
    print('\n'.join(each.hex() or '-' for each in made))

"""The items of a datagram as a tree, from the lines of `hncp decode`, and the hashes that are made of them.

The lines are those of docs/FORMATS.md, "The text of a datagram". The numbers before a name may be left out.
"""
import hashlib
import re
import struct

from . import common
from .. import players
from .common import Problem

# The causes W of `bad why=W`, and of `malformed place=P why=W` (docs/FORMATS.md, "The text of a datagram").
BAD = {1: 'fixed fields or the bytes of a prefix are missing', 2: 'what follows the fields is no pad of zeros and list of TLVs',
       3: 'a prefix length above 128, or a bit that is set past the prefix length', 4: 'a user agent that is not in UTF-8'}
MALFORMED = {1: 'one to three bytes are left, where type and length take four', 2: 'the length passes the end',
             3: 'a pad byte is missing', 4: 'a pad byte is not zero'}
# How many bytes the fields of a type take before its sub-TLVs; those of a prefix come on top (RFC 7787, section 7; RFC 7788,
# section 10). HNCP-Version has a text to its end, and no sub-TLVs.
FIXED = {1: 0, 2: 4, 3: 8, 4: 8, 5: 20, 8: 12, 9: 8, 33: 0, 34: 8, 35: 5, 36: 20}
PREFIXED = (34, 35)


class Item:
    """A line: its level, its place, type and length where it has them, its name, its words as a table, and the items below it."""
    __slots__ = ('number', 'level', 'place', 'kind', 'length', 'name', 'words', 'below', 'is_padded')

    def __init__(self, number, level, place, kind, length, name, words):
        self.number, self.level = number, level
        self.place, self.kind, self.length = place, kind, length
        self.name, self.words = name, words
        self.below = []
        self.is_padded = False  # whether it is read with a padding that it has not

    def fail(self, text):
        raise Problem(f'line {self.number}: {text}')


def level_of(text):
    return len(text) - len(text.lstrip(' '))


def read_item(number, text, kind):
    """The item of a line that somebody may have written by hand."""
    words = text.split()
    numbers = [common.number(word) for word in words[:3]]
    if len(words) > 3 and None not in numbers:
        words = words[3:]
    else:
        numbers = [None] * 3
    item = kind(number, level_of(text), *numbers, words[0], {})
    for word in words[1:]:
        key, equals, value = word.partition('=')
        if not equals or key in item.words:
            item.fail(f'{word} is no field')
        item.words[key] = value
    return item


def tree(texts, kind=Item):
    """The items of the lowest level, each with those below it, from numbered lines."""
    return nested(read_item(number, text.rstrip(), kind) for number, text in texts if text.strip() and not text.lstrip().startswith('#'))


def told_item(number, text, start):
    """The item of a line that `hncp decode` wrote of bytes from a place on; with less work than one of a line by hand."""
    place, kind, length, name, *words = text.replace('=', ' ').split()
    fields = dict(zip(words[::2], words[1::2]))
    if len(words) != 2 * text.count('=') or len(words) > 2 * len(fields):
        raise ValueError
    return Item(number, level_of(text) if text[0] == ' ' else 0, int(place) - start, int(kind), int(length), name, fields)


def told_tree(texts, start=0):
    """The items of the lines that `hncp decode` wrote of a list of TLVs, which begins at a place of the bytes."""
    try:
        return nested([told_item(number, text, start) for number, text in enumerate(texts, 2)])
    except ValueError:
        return tree(enumerate(texts, 2))    # a program that is no hncp wrote them: that tells what is wrong


def nested(found):
    """The items of the lowest level, each with those below it, from the items of all lines."""
    top, open_items = [], []
    for item in found:
        while open_items and open_items[-1].level >= item.level:
            open_items.pop()
        if open_items:
            open_items[-1].below.append(item)
        elif top and item.level != top[0].level:
            item.fail('stands less far in than the first line')
        else:
            top.append(item)
        open_items.append(item)
    return top


def padded(value):
    return value + bytes(-len(value) % 4)


def hash_of(value):
    """The first 64 bits of MD5 (RFC 7788, section 3)."""
    return hashlib.md5(value).digest()[:8]


def network_state(states):
    """What a network state hash is made of: numbers and hashes in ascending order of nodes (RFC 7787, section 4.1.1)."""
    return b''.join(number + digest for _, number, digest in sorted(states))


def list_fault(octets):
    """The place and the cause of what is no list of TLVs, or None: as `first_fault`, without a call."""
    at = 0
    while at < len(octets):
        if len(octets) - at < 4:
            return at, 1
        end = at + 4 + struct.unpack('>H', octets[at + 2:at + 4])[0]
        if end > len(octets):
            return at, 2
        for place in range(end, end + -end % 4):
            if place >= len(octets) or octets[place]:
                return place, 3 if place >= len(octets) else 4
        at = end + -end % 4
    return None


def first_fault(octets):
    """The place and the cause of what is no list of TLVs, as `hncp decode` tells them, or None."""
    found = re.match(r'malformed place=(\d+) why=(\d)\n', players.decode(octets))
    return found and (int(found.group(1)), int(found.group(2)))


def fields_end(kind, value):
    """Where the fields of a value end, or None where they are not all there, or nobody knows the type."""
    end = FIXED.get(kind)
    if kind in PREFIXED:
        end = end + 1 + (value[end] + 7) // 8 if end < len(value) else None
    return None if end is None or end > len(value) else end


def inner_fault(kind, value):
    """Of a value that is `bad why=2`: the place within it, and the cause as of a datagram; None of any other. Sub-TLVs begin at a
    multiple of 4, after zeros (RFC 7787, section 7)."""
    end = fields_end(kind, value)
    if end is None:
        return None
    start = end + -end % 4
    for place in range(end, start if end < len(value) else end):
        if place >= len(value) or value[place]:
            return place, 3 if place >= len(value) else 4
    fault = first_fault(value[start:])
    return fault and (start + fault[0], fault[1])

"""The bytes of a datagram, from the lines that `hncp decode` writes; what commands/forge.py says of these lines holds."""
import ipaddress

from . import common
from .items import Item, hash_of, network_state, padded, tree

# The type of each item, and the fields that its value begins with (RFC 7787, section 7; RFC 7788, section 10).
ITEMS = {
    'request-network': (1, []),
    'request-node': (2, ['node']),
    'node-endpoint': (3, ['node', 'endpoint']),
    'network-state': (4, ['hash']),
    'node-state': (5, ['node', 'number', 'age', 'hash']),
    'peer': (8, ['node', 'endpoint', 'own']),
    'keep-alive': (9, ['endpoint', 'interval']),
    'version': (32, ['reserved', 'm', 'p', 'h', 'l', 'agent']),
    'external': (33, []),
    'delegated': (34, ['valid', 'preferred', 'prefix']),
    'assigned': (35, ['endpoint', 'priority', 'prefix']),
    'address': (36, ['endpoint', 'address']),
}
DEFAULTS = {'age': '0', 'm': '0', 'p': '0', 'h': '0', 'l': '0', 'agent': '-', 'hash': None, 'reserved': '-'}


class Line(Item):
    """A line whose fields are taken one after another; a field that nobody takes is none of its item."""

    def take(self, key):
        value = self.words.pop(key, DEFAULTS.get(key, ''))
        return self.fail(f'{key}= is missing') if value == '' else value

    def number_below(self, key, most):
        text = self.take(key)
        value = common.number(text, most)
        return self.fail(f'{key}={text} is no number up to {most}') if value is None else value

    def octets(self, key, size=None):
        text = self.take(key)
        try:
            value = b'' if text == '-' else bytes.fromhex(text)
        except ValueError:
            self.fail(f'{key}={text} is no hexadecimal text')
        return self.fail(f'{key}={text} has not {size} bytes') if size not in (None, len(value)) else value


def prefix_bytes(item):
    text = item.take('prefix')
    address, slash, length = text.partition('/')
    try:
        network = ipaddress.IPv6Network(text)
    except ValueError as error:
        item.fail(f'prefix={text} is no prefix: {error}')
    if not slash:
        item.fail(f'prefix={text} has no length')
    return bytes([network.prefixlen]) + network.network_address.packed[:(network.prefixlen + 7) // 8]


def address_bytes(item):
    text = item.take('address')
    try:
        return ipaddress.IPv6Address(text).packed
    except ValueError:
        return item.fail(f'address={text} is no address')


def field(item, key, beside, below):
    """The bytes of a field; beside has the Node States of the same list, and below the bytes within the item."""
    if key == 'node':
        return item.octets('node', 4)
    if key == 'hash' and item.words.get('hash') is None:
        return hash_of(below if item.name == 'node-state' else network_state(beside))
    if key == 'hash':
        return item.octets('hash', 8)
    if key == 'reserved':
        return bytes(2)
    if key in 'mh':
        return bytes([item.number_below(key, 15) << 4])
    if key in 'pl':
        return bytes([item.number_below(key, 15)])
    if key == 'priority':
        return bytes([item.number_below(key, 15)])
    if key == 'agent':
        return item.octets('agent')
    if key == 'prefix':
        return prefix_bytes(item)
    if key == 'address':
        return address_bytes(item)
    return item.number_below(key, 2 ** 32 - 1).to_bytes(4, 'big')


def value_of(item, beside):
    """The type and the value of an item."""
    if item.name in ('other', 'bad'):
        item.words.pop('why', None)
        kind = item.kind if item.kind is not None else item.number_below('type', 65535)
        return kind, item.octets('value') + spell(item.below)
    kind, keys = ITEMS[item.name]
    within = item.octets('body') if 'body' in item.words else item.octets('subs') if 'subs' in item.words else b''
    within += spell(item.below)
    if item.name == 'version':
        m, p, h, l, agent = (field(item, key, beside, within) for key in keys[1:])
        return kind, bytes([0, 0, m[0] | p[0], h[0] | l[0]]) + agent + within
    fixed = b''.join(field(item, key, beside, within) for key in keys)
    # Sub-TLVs begin at a multiple of 4 (RFC 7787, section 7); zeros may stand there without any.
    zeros = within or item.length == len(padded(fixed))
    return kind, (padded(fixed) if zeros else fixed) + within


def spell(items):
    """The bytes of a list of items. Network States come last to be made, since they tell of the Node States beside them."""
    made, states = {}, []
    for place, item in sorted(enumerate(items), key=lambda pair: pair[1].name == 'network-state'):
        if item.name == 'raw':
            made[place] = item.octets('value')
            if item.below:
                item.fail('nothing can lie below raw bytes')
        elif item.name not in ITEMS and item.name not in ('other', 'bad'):
            item.fail(f'{item.name} is no item')
        else:
            kind, value = value_of(item, states)
            if len(value) > 65535:
                item.fail('the value has more than 65535 bytes')
            if item.name == 'node-state':
                states.append((value[:4], value[4:8], value[12:20]))
            made[place] = kind.to_bytes(2, 'big') + len(value).to_bytes(2, 'big') + padded(value)
        if item.words:
            item.fail(f'{next(iter(item.words))}= is no field of {item.name}')
    return b''.join(made[place] for place in range(len(items)))


def spelled(numbered):
    """The bytes of a datagram of these numbered lines."""
    return spell(tree(numbered, Line))

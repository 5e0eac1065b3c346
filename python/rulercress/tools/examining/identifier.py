"""Examinations of what a device does about its identifier. They are held last, since it may be another one afterwards."""
from . import wire
from .catalogue import MUST, SHOULD, CannotTell, examination, want
from .neighbour import node_state
from .wire import tlv

CLAIMS = 4               # how often an identifier is claimed before the device has to leave it
AHEAD = 7


def claim(x, node, number, data=b''):
    """Says something under an identifier of the device."""
    x.send(node_state(node, number % 2 ** 32, data))


def stands(x, node):
    """The number of a node in the network of the device, or None."""
    state = x.network().states.get(node)
    return state and state.number


def is_newer(number, other):
    return number is not None and 0 < (number - other) % 2 ** 32 < 2 ** 31


def must_hold(x, node, number, what):
    """The device has to publish again with a newer number, or to have left the identifier."""
    held = x.wait(3.0, lambda: x.device.id != node or is_newer(stands(x, node), number))
    if x.device.id != node:
        raise CannotTell('it left its identifier at once, as a node may that was claimed before')
    want(held, f'{what}, and its own number is {stands(x, node)}', *x.network().heard)


@examination('RFC 7787, section 4.4', SHOULD, 3)
def claims_its_identifier_back(x):
    """Where another node publishes newer data under its identifier, a node publishes again with a number well above."""
    x.join()
    node, number = x.device.id, (x.own().number + AHEAD) % 2 ** 32
    claim(x, node, number)
    must_hold(x, node, number, f'number {number} was claimed')


@examination('RFC 7787, section 4.4', SHOULD, 3)
def claims_its_number_back(x):
    """Where another node publishes other data under its identifier and its number, a node publishes again."""
    x.join()
    node, number = x.device.id, x.own().number
    claim(x, node, number, tlv(208, b'other'))
    x.wait(3.0, lambda: x.device.id != node or is_newer(stands(x, node), number))
    want(x.device.id != node or is_newer(stands(x, node), number), f'number {number} was claimed with other data, and it is still its number',
         *x.network().heard)


@examination('RFC 7787, section 4.4', MUST, 3)
def holds_its_own_data(x):
    """What others publish under its identifier never takes the place of a node's own data."""
    x.join()
    node, before = x.device.id, x.own()
    data = wire.version(b'stranger')
    claim(x, node, before.number + AHEAD, data)
    x.hear(0.8)
    state = x.node(node)
    if state is None or x.device.id != node:
        raise CannotTell('it left its identifier')
    want(state.data != data, 'it gives the data of a stranger as its own', state.heard)


def leave_identifier(x):
    """Claims the identifier until the device has another one. The answer is the old one."""
    node = x.device.id
    for _ in range(CLAIMS):
        number = stands(x, node)
        if x.device.id != node:
            return node
        claim(x, node, (number or 0) + AHEAD, tlv(209, b'twin'))
        x.wait(1.5, lambda: x.device.id != node or is_newer(stands(x, node), (number or 0) + AHEAD))
        x.hear(0.3)
        x.network()
    return node


@examination('RFC 7788, section 3', MUST, 8)
def leaves_an_identifier_of_two(x):
    """Where its identifier is claimed again and again, a node takes a new one, which no other node has."""
    x.join()
    node = leave_identifier(x)
    want(x.device.id != node, f'it keeps the identifier {node.hex()} after {CLAIMS} claims', *x.network().heard)
    want(x.device.id not in (bytes(4), x.id), f'its new identifier is {x.device.id.hex()}', *x.network().heard)
    answer = x.network()
    want(x.device.id in answer.states, 'it publishes nothing under its new identifier', *answer.heard)


@examination('RFC 7788, section 3', MUST, 8)
def says_nothing_under_an_old_identifier(x):
    """After a node has left an identifier, nothing of its own is published under it any more."""
    x.join()
    node = leave_identifier(x)
    if x.device.id == node:
        raise CannotTell('it does not leave its identifier')
    old = x.session.former - {x.device.id}
    x.wait(3.0, lambda: not old & set(x.network().states))
    answer = x.network()
    want(not old & set(answer.states), f'its network has the identifier {node.hex()} still', *answer.heard)
    want(answer.is_right, 'the network state hash is not that of the Node States of its answer', *answer.heard)

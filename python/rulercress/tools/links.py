"""Sockets of HNCP on a real link (RFC 7788, section 3), for the tools that send there."""
import socket
import struct
import time

from . import common
from .common import Problem

GROUP = 'ff02::11'
ADDRESSES = '/proc/net/if_inet6'
TENTATIVE, DUPLICATE = 0x40, 0x08       # flags of addresses that are still tried, or are another's (RFC 4862, section 5.4)
PATIENCE = 5.0               # seconds to wait for an address, which a new interface gets after a while


def index_of(name):
    """The number of an interface."""
    try:
        return socket.if_nametoindex(name)
    except OSError:
        raise Problem(f'there is no interface {name}')


def link_local(name):
    """The link-local address of an interface that may be used, once it was tried."""
    end = time.monotonic() + PATIENCE
    while time.monotonic() < end:
        for text in common.read(ADDRESSES):
            digits, _, _, _, flags, interface = text.split()
            is_usable = not int(flags, 16) & (TENTATIVE | DUPLICATE)
            if interface == name and digits.startswith(('fe8', 'fe9', 'fea', 'feb')) and is_usable:
                return socket.inet_ntop(socket.AF_INET6, bytes.fromhex(digits))
        time.sleep(0.1)
    raise Problem(f'the interface {name} has no link-local address that may be used; is it up?')


def on_link(address, port, index):
    """A socket at an address of the interface alone."""
    made = socket.socket(socket.AF_INET6, socket.SOCK_DGRAM)
    try:
        made.setsockopt(socket.IPPROTO_IPV6, socket.IPV6_MULTICAST_IF, index)
        made.setsockopt(socket.IPPROTO_IPV6, socket.IPV6_MULTICAST_LOOP, 0)
        made.bind((address, port, 0, index))
    except OSError as error:
        made.close()
        raise Problem(f'UDP port {port} of {address}: {error.strerror}; does a gateway of its own run here?')
    return made


def in_group(port, index):
    """A socket that is in the group of HNCP on an interface."""
    made = on_link(GROUP, port, index)
    made.setsockopt(socket.IPPROTO_IPV6, socket.IPV6_JOIN_GROUP, socket.inet_pton(socket.AF_INET6, GROUP) + struct.pack('@I', index))
    return made

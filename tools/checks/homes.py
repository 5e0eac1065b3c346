"""A sound capture of a home of three routers, and captures with simulated moments and addresses.

`home.datagrams` has what `hncp udp` sent for a script of three routers in a row, an uplink and addresses: on each line the
moment in milliseconds and the bytes. Endpoint 1 of node 1 and endpoint 1 of node 2 are on one link, and endpoint 2 of node 2
and endpoint 1 of node 3 on another.
"""
import os
import struct

import common
from checks import samples
from rulercress.tools import captures

HOME = os.path.join(common.HERE, 'checks', 'home.datagrams')
TALKS = os.path.join(common.HERE, 'checks', 'talks')
GROUP = 'ff02::11'
OTHER_END = {(1, 1): (2, 1), (2, 1): (1, 1), (2, 2): (3, 1), (3, 1): (2, 2)}
ETHERNET, COOKED = 1, 276
MULTICAST_SIZE = 24  # bytes: a Node Endpoint and a Network State, which no answer has alone


def address(node, endpoint):
    """The address of an endpoint, as the mail has it (docs/FORMATS.md)."""
    return f'fe80::{node}:0:{endpoint}'


def home():
    """The datagrams of the home, each heard once."""
    made = []
    for line in common.read(HOME):
        moment, text = line.split()
        payload = bytes.fromhex(text)
        sender = struct.unpack('>II', payload[4:12])
        to = GROUP if len(payload) == MULTICAST_SIZE else address(*OTHER_END[sender]) if sender in OTHER_END else None
        made.append(captures.Datagram(len(made) + 1, int(moment) / 1000, '0', address(*sender), captures.PORT, to, captures.PORT, payload))
    return made


def talk(name):
    """The datagrams of a file of the folder `talks`: on each line the moment in milliseconds, source, destination and bytes."""
    made = []
    for line in common.read(os.path.join(TALKS, name + '.datagrams')):
        moment, source, destination, text = line.split()
        made.append(captures.Datagram(len(made) + 1, int(moment) / 1000, '0', source, captures.PORT, destination, captures.PORT, bytes.fromhex(text)))
    return made


def frame_of(datagram):
    """An Ethernet frame with the datagram, over IPv6 or IPv4."""
    source, destination = (samples.packed(each) for each in (datagram.source, datagram.destination))
    head = struct.pack('>HHH', datagram.source_port, datagram.port, 8 + datagram.length)
    ends = source + destination
    total = samples.checksum(ends + struct.pack('>II', 8 + datagram.length, 17) + head + bytes(2) + datagram.payload)
    udp = head + struct.pack('>H', total or 0xffff) + datagram.payload
    if len(source) == 16:
        return bytes(12) + b'\x86\xdd' + struct.pack('>IHBB', 0x60000000, len(udp), 17, 1) + ends + udp
    ip = struct.pack('>BBHIBBH', 0x45, 0, 20 + len(udp), 0, 1, 17, 0)
    return bytes(12) + b'\x08\x00' + ip[:10] + struct.pack('>H', samples.checksum(ip + ends)) + ends + udp


def write(path, datagrams):
    """A capture of datagrams at their moments."""
    write_frames(path, [(datagram.moment, frame_of(datagram)) for datagram in datagrams])


def write_frames(path, frames, link_type=ETHERNET):
    """A capture of frames, each with its moment in seconds."""
    with open(path, 'wb') as file:
        file.write(samples.FILE_HEAD[:-4] + struct.pack('<I', link_type))
        for moment, frame in frames:
            seconds, rest = divmod(round(moment * 1000000), 1000000)
            file.write(struct.pack('<IIII', seconds, rest, len(frame), len(frame)) + frame)


def tagged(frame, *tags):
    """An Ethernet frame with tags of VLANs: the kind of each, and its number."""
    return frame[:12] + b''.join(struct.pack('>HH', *tag) for tag in tags) + frame[12:]


def cooked(frame, interface):
    """An Ethernet frame as `tcpdump -i any` writes it, with the number of the interface (LINKTYPE_LINUX_SLL2)."""
    return frame[12:14] + struct.pack('>HIHBB', 0, interface, 1, 0, 6) + frame[6:12] + bytes(2) + frame[14:]

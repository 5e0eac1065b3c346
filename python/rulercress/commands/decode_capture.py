"""Writes what `hncp decode` says of each HNCP datagram of a capture, after a line with its frame, moment, source and destination.

Fragments of IPv6 and IPv4 are joined by tshark's reassembly: the frame is then that of the last fragment. Capture with the
filter `udp port 8231 or ip6 proto 44`, since only the first fragment has the port; 44 is the Fragment header (RFC 8200,
section 4.5). Datagrams of which a fragment is missing are left out, and counted on standard error. Packets within ICMP errors
are left out too. The status is 1 where the capture has no datagram from or to the ports.
"""
from ..tools import captures, common


def text_of(datagram):
    """The lines on a datagram."""
    size = len(datagram.payload)
    yield (f'frame {datagram.frame} at {datagram.moment:.6f} {datagram.source} {datagram.source_port} > '
           f'{datagram.destination} {datagram.port} {size} bytes')
    if datagram.is_cut:
        yield f'cut: the capture has {size} of {datagram.length} bytes'
    else:
        yield from datagram.lines


def main(words=None):
    given = common.parser(__doc__, [captures.PORTS, captures.CAPTURE])
    words = given.parse_args(words)
    ports = captures.ports_of(given, words)
    common.must_play('hncp')
    capture = captures.Capture(words.capture, ports)
    for datagram in captures.decoded_ahead(capture):
        print('\n'.join(text_of(datagram)))
    if capture.left_out:
        common.complain(f'left out: {capture.left_out} datagram(s), of which a fragment is missing')

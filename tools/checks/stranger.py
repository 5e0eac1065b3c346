"""A stranger on a link, who does not speak the truth, and then falls silent; or one who only listens.

  stranger.py prefixes INTERFACE ROUTER IDENTIFIER ENDPOINT SECONDS
  stranger.py crowd INTERFACE ROUTER IDENTIFIER ENDPOINT SECONDS COUNT
  stranger.py listen INTERFACE SECONDS

ROUTER is the link-local address of a router on the link, IDENTIFIER and ENDPOINT are its numbers.

With `prefixes` it claims to be delegated 32 prefixes that never end, then 32 others, each for SECONDS, and for longer where no long
advertisement passes. It prints what passed meanwhile: the bytes of IPv6 of the longest Router Advertisement, how many fragments of such packets, how many advertisements
told a preferred prefix before a departed one, and how many departed prefixes.

With `crowd` it claims that COUNT nodes are behind it, each with as many bytes of data as a node may have, for SECONDS.

With `listen` it waits at most SECONDS for a Router Advertisement with a departed prefix whose router then sends one with a single
prefix, and prints how many seconds lie between them.
"""
import hashlib
import socket
import struct
import sys
import time

PORT, OWN, ENDPOINT, EACH, MOST_DATA = 8231, 0x0badcafe, 7, 32, 60000
NODE_ENDPOINT, NODE_STATE, PEER, VERSION, EXTERNAL, DELEGATED, UNKNOWN = 3, 5, 8, 32, 33, 34, 800
ETHERNET, IPV6, ADVERT, FRAGMENT = 14, 0x86dd, 134, 44
OPTIONS, PREFIX, INFO = 56, 3, 32    # where the options of an advertisement begin; the one of a prefix, and its bytes
CROWD, PAUSE = 0x0c000000, 0.01   # the first identifier of a crowd; seconds after each of its datagrams
SEVERAL, PATIENCE = 500, 12         # bytes of an advertisement of more prefixes than a link has; times SECONDS in which one comes
LATER = 1000                      # a sequence number above those of the prefixes, which routers may not have forgotten


def tlv(kind, value):
    return struct.pack('>HH', kind, len(value)) + value + bytes(-len(value) % 4)


def peer(of, endpoint):
    return tlv(PEER, struct.pack('>III', of, endpoint, ENDPOINT))


def datagram(of, number, items):
    """A Node Endpoint of the stranger, and the state of a node."""
    data = b''.join(sorted(items))
    state = struct.pack('>III', of, number, 0) + hashlib.md5(data).digest()[:8] + data
    return tlv(NODE_ENDPOINT, struct.pack('>II', OWN, ENDPOINT)) + tlv(NODE_STATE, state)


def delegating(router, endpoint, turn):
    """What the stranger says of itself in a turn."""
    items = [peer(router, endpoint), tlv(VERSION, b'\0\0\0\0stranger')]
    for place in range(EACH):
        prefix = bytes.fromhex('20010db8') + struct.pack('>H', 0xe000 + 256 * turn + place)
        items.append(tlv(EXTERNAL, tlv(DELEGATED, struct.pack('>II', 0xffffffff, 0xffffffff) + bytes([48]) + prefix)))
    return datagram(OWN, turn + 1, items)


def crowd(router, endpoint, count):
    """What the stranger says of itself and of each node of a crowd."""
    ids = range(CROWD, CROWD + count)
    own = datagram(OWN, LATER, [peer(router, endpoint), *(peer(each, ENDPOINT) for each in ids)])
    rest = MOST_DATA - len(peer(OWN, ENDPOINT)) - 4
    return [own, *(datagram(each, 1, [peer(OWN, ENDPOINT), tlv(UNKNOWN, struct.pack('>I', each) * (rest // 4))]) for each in ids)]


def are_preferred(packet):
    """Of each prefix of an advertisement, in order, whether it is preferred."""
    place, found = OPTIONS, []
    while place + 8 <= len(packet) and packet[place + 1]:
        if packet[place] == PREFIX and packet[place + 1] * 8 == INFO:
            found.append(any(packet[place + 8:place + 12]))
        place += packet[place + 1] * 8
    return found


def listening(interface):
    """A socket that hears all frames of IPv6."""
    made = socket.socket(socket.AF_PACKET, socket.SOCK_RAW, socket.htons(IPV6))
    made.bind((interface, IPV6))
    return made


def packets(frames, until):
    """What passes up to a moment."""
    while time.monotonic() < until:
        frames.settimeout(max(0.001, until - time.monotonic()))
        try:
            yield frames.recv(65536)[ETHERNET:]
        except socket.timeout:
            return


def is_advert(packet):
    return packet[6] == socket.IPPROTO_ICMPV6 and packet[40] == ADVERT


class Heard:
    """What passes on a link."""

    def __init__(self):
        self.longest = self.fragments = self.disordered = self.departed = 0

    def hear(self, frames, until):
        """Takes what passes up to a moment."""
        for packet in packets(frames, until):
            self.fragments += packet[6] == FRAGMENT
            if is_advert(packet):
                found = are_preferred(packet)
                self.longest = max(self.longest, len(packet))
                self.disordered += found != sorted(found)
                self.departed += found.count(False)


def tell_prefixes(out, to, interface, router, endpoint, seconds):
    heard = Heard()
    with listening(interface) as frames:
        for turn in (0, 1):
            begun = time.monotonic()
            while time.monotonic() < begun + seconds or heard.longest <= SEVERAL and time.monotonic() < begun + PATIENCE * seconds:
                out.sendto(delegating(router, endpoint, turn), to)
                heard.hear(frames, time.monotonic() + 1)
    print(heard.longest, heard.fragments, heard.disordered, heard.departed)


def tell_crowd(out, to, router, endpoint, seconds, count):
    """Again and again, since a router may lose one of many large datagrams."""
    datagrams, until = crowd(router, endpoint, count), time.monotonic() + seconds
    while time.monotonic() < until:
        for each in datagrams:
            out.sendto(each, to)
            time.sleep(PAUSE)


def listen(interface, seconds):
    """Which router told of a departed prefix last, and when."""
    told = {}
    with listening(interface) as frames:
        for packet in filter(is_advert, packets(frames, time.monotonic() + seconds)):
            found, source = are_preferred(packet), packet[8:24]
            if len(found) == 1 and source in told:
                print(f'{time.monotonic() - told[source]:.1f}')
                return
            told.pop(source, None)
            if False in found and True in found:
                told[source] = time.monotonic()


def main():
    if sys.argv[1] == 'listen':
        listen(sys.argv[2], float(sys.argv[3]))
        return
    form, interface, address, router, endpoint, seconds = *sys.argv[1:4], int(sys.argv[4], 16), int(sys.argv[5]), float(sys.argv[6])
    to = address, PORT, 0, socket.if_nametoindex(interface)
    with socket.socket(socket.AF_INET6, socket.SOCK_DGRAM) as out:
        out.bind(('::', PORT))
        if form == 'prefixes':
            tell_prefixes(out, to, interface, router, endpoint, seconds)
        else:
            tell_crowd(out, to, router, endpoint, seconds, int(sys.argv[7]))


main()

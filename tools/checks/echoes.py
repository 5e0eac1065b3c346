"""Asks hosts for echoes, by ICMPv6 from the network namespace in which it runs, and prints each address that answers.

  echoes.py SECONDS ADDRESS..
"""
import os
import socket
import struct
import sys
import time

REQUEST, REPLY, EVERY = 128, 129, 0.3     # an address that has not answered is asked again after so many seconds


def main():
    until, silent = time.monotonic() + float(sys.argv[1]), set(sys.argv[2:])
    with socket.socket(socket.AF_INET6, socket.SOCK_RAW, socket.IPPROTO_ICMPV6) as raw:
        asked, number, name = 0.0, 0, os.getpid() & 0xffff
        while silent and time.monotonic() < until:
            if time.monotonic() >= asked:
                asked, number = time.monotonic() + EVERY, number + 1
                for address in silent:
                    try:
                        raw.sendto(struct.pack('>BBHHH', REQUEST, 0, 0, name, number), (address, 0))
                    except OSError:
                        pass  # there is no route yet
            raw.settimeout(max(0.001, min(asked, until) - time.monotonic()))
            try:
                data, source = raw.recvfrom(2048)
            except socket.timeout:
                continue
            if data[0] == REPLY and struct.unpack('>H', data[4:6])[0] == name and source[0] in silent:
                silent.discard(source[0])
                print(source[0], flush=True)


main()

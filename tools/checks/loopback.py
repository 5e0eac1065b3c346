"""The datagrams of `hncp udp`, as a packet socket hears them on the loopback of a network namespace of its own."""
import ctypes
import fcntl
import os
import pickle
import socket
import struct
import subprocess
import threading

import common
from checks.helpers import Missing, Wrong

PORT = 8231
NEW_NETWORK, NEW_USER = 0x40000000, 0x10000000
SILENCE = 0.05            # seconds without a datagram, after which it is asked whether the play has ended
TRIES = 3                 # a loopback may lose a datagram


def enter_own_network():
    """Puts this process into a network namespace of its own, with a loopback that is up."""
    user, group = os.getuid(), os.getgid()
    library = ctypes.CDLL(None, use_errno=True)
    if library.unshare(NEW_NETWORK) != 0:
        if library.unshare(NEW_NETWORK | NEW_USER) != 0:
            raise OSError(ctypes.get_errno(), 'no network namespace')
        for name, text in (('setgroups', 'deny'), ('uid_map', f'0 {user} 1'), ('gid_map', f'0 {group} 1')):
            with open(f'/proc/self/{name}', 'w') as file:
                file.write(text)
    with socket.socket(socket.AF_INET, socket.SOCK_DGRAM) as any_socket:
        request = struct.pack('16sH14x', b'lo', 0)
        flags = struct.unpack('16sH14x', fcntl.ioctl(any_socket, 0x8913, request))[1]
        fcntl.ioctl(any_socket, 0x8914, struct.pack('16sH14x', b'lo', flags | 1))


def payload_of(frame):
    """The bytes that a frame of the loopback has for the port, or None."""
    if len(frame) < 42 or frame[12:14] != b'\x08\x00' or frame[23] != 17:
        return None
    start = 14 + 4 * (frame[14] & 15)
    port, length = struct.unpack('>HH', frame[start + 2:start + 6])
    return frame[start + 8:start + length] if port == PORT else None


def listen(ears, heard, ended):
    """Hears frames until the play has ended and nothing more comes."""
    ears.settimeout(SILENCE)
    while True:
        try:
            frame, (_, _, way, _, _) = ears.recvfrom(70000)
        except socket.timeout:
            if ended.is_set():
                return
            continue
        payload = payload_of(frame) if way != socket.PACKET_OUTGOING else None
        if payload is not None:
            heard.append(payload)


def played_in_own_network(scripts, file):
    """Plays scripts in a network of its own, and writes what each comes to; or else why it cannot."""
    try:
        program = common.program()
        enter_own_network()
        ears = socket.socket(socket.AF_PACKET, socket.SOCK_RAW, socket.htons(3))
        ears.setsockopt(socket.SOL_SOCKET, 33, 2 ** 27)    # SO_RCVBUFFORCE
        ears.bind(('lo', 3))
    except (OSError, AttributeError) as error:
        pickle.dump(str(getattr(error, 'strerror', error)), file)
        return
    for texts in scripts:
        for _ in range(TRIES):
            found = played_once(program, ears, texts)
            if found[0] == common.play(texts):
                break
        pickle.dump(found, file)


def played_once(program, ears, texts):
    """The transcript of a script by `hncp udp`, and the bytes of each datagram that came to the port, in order."""
    heard, ended = [], threading.Event()
    listener = threading.Thread(target=listen, args=(ears, heard, ended))
    listener.start()
    done = subprocess.run([program, 'udp', str(PORT - 1)], input=common.joined(texts), stdout=subprocess.PIPE, stderr=subprocess.PIPE)
    ended.set()
    listener.join()
    return done.stdout.decode('ascii', 'replace').splitlines(), heard


def plays(scripts):
    """Of each script its transcript by `hncp udp`, and the datagrams. They are played by a child, since a process that has left
    its network cannot come back."""
    reading, writing = os.pipe()
    child = os.fork()
    if child == 0:
        status = 1
        try:
            os.close(reading)
            with os.fdopen(writing, 'wb') as file:
                played_in_own_network(scripts, file)
            status = 0
        finally:
            os._exit(status)
    os.close(writing)
    try:
        with os.fdopen(reading, 'rb') as file:
            yield from unpickled(file, len(scripts))
    finally:
        os.waitpid(child, 0)


def unpickled(file, count):
    for _ in range(count):
        try:
            found = pickle.load(file)
        except EOFError:
            raise Wrong('the plays over the loopback broke off') from None
        if isinstance(found, str):
            raise Missing(f'the loopback cannot be heard: {found}')
        yield found

"""What plays and decodes: the library where it is found, and else the programs. Both say the same."""
from . import library, programs
from .by_programs import ProgramPlay
from .play import Play


def home(version: int) -> Play:
    """A new home."""
    found = library.found()
    if not found:
        return ProgramPlay(version)
    from .by_library import LibraryPlay     # it takes a while to load, and the programs play without it
    return LibraryPlay(found, version)


def decode(data: bytes) -> str:
    """What `hncp decode` writes of a datagram."""
    found = library.found()
    return found.decode(data) if found else programs.run('hncp', ['decode'], data.hex().encode())[0]

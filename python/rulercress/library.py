"""The laboratory as a shared object: where it is. The module `calls` has what it does."""
import functools
import os
from typing import TYPE_CHECKING, Optional

from .errors import Problem
from .programs import CLONE, HERE

if TYPE_CHECKING:
    from .calls import Library

VARIABLE = 'HN_LAB'
NAME = 'libhn_lab_c.so.1'
INSTALLED = os.path.join(HERE, NAME)                      # where pip puts it
BUILT = os.path.join(CLONE, 'include', 'out', NAME)       # where `make -C include NAME=hn_lab_c` puts it
PROGRAMS = ('HNCP', 'HNLOOK')                             # one of these names a program, which plays then


@functools.lru_cache(maxsize=None)
def loaded(path: str) -> 'Library':
    """The library of a path. Each is loaded once."""
    from .calls import Library      # it takes a while to load, and the programs play without it
    return Library(path)


@functools.lru_cache(maxsize=None)
def _found(named: Optional[str], is_program_named: bool) -> 'Optional[Library]':
    if named is not None:
        return loaded(named) if named else None
    if not is_program_named:
        for path in [*filter(os.path.exists, (INSTALLED, BUILT)), NAME]:
            try:
                return loaded(path)
            except Problem:
                pass    # nobody named it, and there are the programs
    return None


def found() -> 'Optional[Library]':
    """The library that plays: that of the variable HN_LAB; else, if neither HNCP nor HNLOOK names a program, that which pip
    installed, the one built in the clone, or that of the system. Nothing if HN_LAB is empty, or there is none: then the programs play."""
    return _found(os.environ.get(VARIABLE), any(os.environ.get(name) for name in PROGRAMS))

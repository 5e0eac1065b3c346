"""The programs hncp and hnlook: where they are, and what they write."""
import functools
import os
import shutil
import subprocess
from typing import Optional, Sequence, Tuple

from .errors import Problem

HERE = os.path.dirname(os.path.realpath(__file__))
CLONE = os.path.normpath(os.path.join(HERE, '..', '..'))    # of a clone or an archive, where the package lies in one
BUILD = {'hnlook': 'build it by `rt run -- log < SCRIPT` in crates/hnlook, or '}    # how it is built in a clone, as part of a text
DONE, REFUSED, MEMORY = 0, 2, 6
TEXT = 'ascii'


def _first(*paths: Optional[str]) -> Optional[str]:
    """The first of these that is a program."""
    return next((found for found in (path and shutil.which(path) for path in paths) if found), None)


def in_clone(name: str) -> Optional[str]:
    """Where the clone of which the package is a part has a program that is built there; None outside of a clone."""
    return os.path.join(CLONE, 'crates', name, 'out', name) if os.path.isdir(os.path.join(CLONE, 'crates')) else None


@functools.lru_cache(maxsize=None)
def _found(name: str, named: Optional[str], search: Optional[str]) -> str:
    variable = name.upper()
    found = _first(named) if named else _first(in_clone(name), name)
    if not found:
        path, advice = (named or in_clone(name) or name), (BUILD.get(name, '') if in_clone(name) else '')
        raise Problem(f'there is no program {path}; {advice}set {variable} to the path of {name}')
    return found


def path_of(name: str) -> str:
    """The path of hncp or hnlook: of the variable HNCP or HNLOOK; else the one built in the clone; else that of PATH."""
    return _found(name, os.environ.get(name.upper()), os.environ.get('PATH'))


def run(name: str, words: Sequence[str], data: bytes) -> Tuple[str, int]:
    """What hncp or hnlook writes for these bytes, and its status, which is 0 or 2."""
    done = subprocess.run([path_of(name), *words], input=data, stdout=subprocess.PIPE, stderr=subprocess.PIPE)
    if done.returncode == MEMORY:
        raise MemoryError(f'{name} {words[0]} ran out of memory')
    if done.returncode not in (DONE, REFUSED):
        said = done.stderr.decode(TEXT, 'replace').strip()
        raise Problem(f'{name} {words[0]} ended with status {done.returncode}' + (f': {said}' if said else ''))
    return done.stdout.decode(TEXT, 'replace'), done.returncode

"""How work is parted: over the processors of a machine, and over machines."""
import os
import re
from typing import List, Sequence

SHARD = re.compile(r'(\d{1,9})/(\d{1,9})')


def shard(seeds: Sequence[int], part: str) -> List[int]:
    """The seeds of part K of N, where `part` is `K/N` with K from 1 to N: each Nth one. So the parts together have each seed
    once, wherever they run, and homes that take long come to all of them."""
    found = SHARD.fullmatch(part)
    if not found or not 1 <= int(found[1]) <= int(found[2]):
        raise ValueError(f'{part} is no K/N with K from 1 to N')
    return list(seeds)[int(found[1]) - 1::int(found[2])]


def processors() -> int:
    """How many processors this process may use."""
    return len(os.sched_getaffinity(0)) if hasattr(os, 'sched_getaffinity') else os.cpu_count() or 1

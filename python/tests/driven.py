"""Many random homes that are driven by hand: does the script that each leaves say what it did?

    cd python && python3 -m tests.driven -n 1000

Where the library is found it plays each home, and the programs play it beside: both have to come to the same.
"""
import sys
from typing import Optional

from rulercress import campaign, library
from rulercress.by_programs import ProgramPlay
from rulercress.log import Log, events_of

from . import homes

FEW, MORE = 10, 21      # so many things happen in a home at the least, and so many seeds in a row have different counts


def count_of(seed: int) -> int:
    """How many things happen in the home of a seed."""
    return FEW + seed % MORE


def check_script(seed: int) -> homes.Driver:
    """Drives the home of a seed. Its script is played to its transcript; reports that were asked on the way are those of the
    script with the reports in it; and what is known of copies is what the log of the script says."""
    driven = homes.Witness(seed).go(count_of(seed))
    home, text = driven.home, homes.played(driven.home.script)
    assert text == home.transcript, 'another transcript'
    assert text.endswith(''.join(line + '\n' for line in driven.told)), 'what was told at the end is not written there'
    assert 'refused ' not in text, text[-40:]
    script, expected = driven.witnessed()
    assert homes.played(script) == expected, 'other answers than those of reports in the script'
    log = Log()
    for event in events_of(''.join(line + '\n' for line in home.log)):
        log.take(event)
    assert log.copies == list(home.play.copies()), 'other copies than those of the log'
    assert list(log.waiting) == home.play.waiting(), 'other copies wait than in the log'
    check_fates(driven)
    return driven


def check_fates(driven: homes.Driver) -> None:
    """Each copy was judged once. One that was lost is dropped by a line, and never delivered."""
    lines = set(driven.home.play.lines)
    assert len(set(driven.asked)) == len(driven.asked), 'a copy was judged twice'
    for number in driven.dropped:
        assert f'drop {number}' in lines and f'deliver {number}' not in lines, f'copy {number} was lost, and the script has it otherwise'
    for number in set(driven.asked) - set(driven.dropped) - set(driven.delayed):
        assert f'deliver {number}' in lines, f'copy {number} was let pass, and the script does not deliver it'


def check_line_by_line(driven: homes.Driver) -> None:
    """A run of copies that are judged is the same as one in which each line is played, and then asked what waits."""
    slow = homes.SlowDriver(driven.seed).go(count_of(driven.seed))
    assert driven.home.script == slow.home.script, 'another script than line by line'
    assert driven.asked == slow.asked, 'other copies were judged than line by line, or in another order'
    assert driven.told == slow.told, 'other reports than line by line'


def check_programs(driven: homes.Driver) -> None:
    """What the library played is what the programs play: the same lines, copies and reports."""
    other = homes.Driver(driven.seed, ProgramPlay(2)).go(count_of(driven.seed))
    assert driven.home.script == other.home.script, 'another script than by the programs'
    assert (driven.asked, driven.dropped, driven.delayed) == (other.asked, other.dropped, other.delayed), 'other copies were judged than by the programs'
    assert driven.told == other.told, 'other reports than by the programs'
    assert driven.home.log == other.home.log, 'another log than by the programs'
    assert list(driven.home.play.copies()) == list(other.home.play.copies()), 'other copies than by the programs'
    for router in driven.home.routers:
        for form in ('why', 'table') if router.running else ('table',):
            assert driven.home.look(form, router.name) == other.home.look(form, router.name), f'another {form} than by the programs'


def differs(seed: int) -> Optional[str]:
    """Drives random homes by hand, with loss by direction, delays and cuts. Finds the seeds with which hncp lab plays the
    script of a home to another transcript than the home's, the script says something else than was done and told, or a home
    that is driven line by line has another script. So it does where the library and the programs come to other homes."""
    driven = check_script(seed)
    check_line_by_line(driven)
    if library.found():
        check_programs(driven)
    return None


if __name__ == '__main__':
    sys.exit(campaign(differs))

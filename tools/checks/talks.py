"""The check of what judge says on who talks with whom: gateways that are deaf, that die, that leave a link, that are of two minds.

`talks` has captures of homes that `hncp` played, one to a file. In `one_is_deaf` no copy from the first router comes to the
second one. In `one_is_deaf_beside_a_third` none from the second one comes to the first one. In `one_dies` and `one_of_two_dies` a
router stops after 40 s. In `one_leaves_a_link` a router goes on to speak on another link, in `one_comes_late` one is attached
after 50 s, and in `one_moves` one is on another link from 41 s on, by the same address.

In `two_homes_that_meet` three routers and two are kept apart on one link for 120 s. In `two_that_part_and_meet` two routers do not
hear each other from 40 s to 160 s. In `a_line_in_two_parts` that happens to the two in the middle of four from 60 s on, for good. In
`one_is_alone` the second of three neither hears nor is heard from 30 s on. It had published the prefix of the link, which another one
takes over; what it publishes then nobody sees. In `one_comes_back` one of four is alone from 10 s to 130 s, and the capture ends soon
after.
"""
import copy

from checks import faults, homes
from checks.helpers import must
from rulercress.tools.judging.judgement import judge

# Of each capture what judge has to find, and of what it tells beside.
FOUND = {
    'one_is_deaf': 'apart differ unanswered',
    'one_is_deaf_beside_a_third': 'apart',
    'one_dies': 'silent',
    'one_of_two_dies': 'silent',
    'one_leaves_a_link': '',
    'one_comes_late': '',
    'one_moves': '',
    'two_homes_that_meet': '',
    'two_that_part_and_meet': '',
    'a_line_in_two_parts': '',
    'one_is_alone': '',
    'one_comes_back': '',
}
# Of some what is found in the rest from so many seconds on. There the home is at rest, and no node data are shown.
LATE = {('one_is_deaf', 30.0): 'apart unanswered', ('one_dies', 15.0): 'silent', ('one_of_two_dies', 30.0): 'silent'}
FEW = 40       # parts of each capture that are judged
APART_UNTIL = 120.0    # seconds


def found(datagrams):
    return ' '.join(sorted({finding.rule for finding in judge(datagrams).findings}))


def check_talks():
    """Each capture, and from a moment on; and nothing in fronts that are too short for what happens."""
    for name, rules in FOUND.items():
        must(found(homes.talk(name)) == rules, f'{name}: {found(homes.talk(name))}, and not {rules}')
    for (name, moment), rules in LATE.items():
        rest = [each for each in homes.talk(name) if each.moment >= moment]
        must(found(rest) == rules, f'{name} from {moment} s on: {found(rest)}, and not {rules}')
    check_keep_alive()
    check_renumbered()
    return len(FOUND) + len(LATE) + check_parts() + check_strangers() + check_ends()


def check_keep_alive():
    """A keep-alive may be the first multicast with a new hash: it begins an interval of 200 ms, so the next one may come after 100."""
    sound = faults.Plant()
    last = [each for each in sound.datagrams if each.destination == homes.GROUP and each.source == homes.address(3, 1)][-1]
    for gap in (20.0, 20.12, 20.5):
        sound.add(last.moment + gap, last.source, last.destination, last.payload[:-8] + bytes(8))
    must(not found(sound.datagrams), f'a keep-alive with a new hash: {found(sound.datagrams)}')
    sound.add(last.moment + 20.55, last.source, last.destination, last.payload[:-8] + bytes(8))
    must(found(sound.datagrams) == 'too-soon', f'a multicast 50 ms after one: {found(sound.datagrams)}')


def check_renumbered():
    """Where a node publishes its old data under a new number, the data are known by their hash."""
    sound = faults.Plant()
    number, _, digest = sound.state(3, 69.0)
    sound.add(69.0, homes.address(3, 1), homes.address(2, 2), faults.endpoint(3, 1) + faults.node_state(3, number + 1, 0, digest))
    made = judge(sound.datagrams)
    must(made.home.is_whole and not made.findings, f'old data under a new number: {[str(each) for each in made.findings]}')
    must(not any('unknown' in line for line in made.home.lines()), 'old data under a new number are unknown')


def check_parts():
    """Nothing is found in fronts and rests of what is sound, nor where frames are lost: each third, fourth, .. is."""
    count = 0
    for name in [name for name, rules in FOUND.items() if not rules]:
        whole = homes.talk(name)
        step = max(len(whole) // FEW, 1)
        for place in range(step, len(whole), step):
            for part in (whole[:place], whole[place:]):
                must(not found(part), f'{name}: {found(part)} in {len(part)} of {len(whole)} datagrams')
                count += 1
    for every in range(4, 12):
        for first in range(every):
            kept = [each for place, each in enumerate(homes.talk('one_comes_late')) if place % every != first]
            rules = set(found(kept).split()) - {'too-late', 'network-hash'}    # what a lost frame looks like
            must(not rules, f'without each {every}th frame from {first} on: {rules}')
            count += 1
    return count


def check_strangers():
    """Two homes in one capture that never speak to each other may be on two links: that is told, and no finding."""
    other = [copy.copy(each) for each in homes.talk('one_is_deaf') if each.source == 'fe80::1:0:1' and each.destination == homes.GROUP]
    for each in other:
        each.source = 'fe80::77'
        each.payload = faults.endpoint(0x77, 1) + each.payload[12:]
    apart = [each for each in homes.talk('two_homes_that_meet') if each.moment < APART_UNTIL]
    for made in (judge(homes.talk('one_comes_late') + other), judge(apart)):
        must(not made.findings, f'two homes: {made.findings and made.findings[0]}')
        must([each.rule for each in made.told] == ['strangers'], f'two homes: told {[str(each) for each in made.told]}')
    return 2


def check_ends():
    """Of two captures that were merged one ends earlier: nobody is silent. If one endpoint alone is, it is told."""
    whole = homes.home()
    lan = (homes.address(1, 1), homes.address(2, 1))
    more = [copy.copy(each) for each in whole if each.source not in lan and each.moment > 45.0]
    for each in more:
        each.moment += 25.0
    made = judge([each for each in whole if each.source not in lan or each.moment < 40.0] + more)
    must('silent' not in {finding.rule for finding in made.findings}, f'a link that ends: {[str(each) for each in made.findings]}')
    return 1

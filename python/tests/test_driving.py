"""What a home does by hand is what its script says."""
import re
import unittest
from typing import Tuple

from rulercress import Home, many

from . import driven, homes

SEEDS = range(1, 13)


def what_happened(seed: int) -> Tuple[int, int, int, int]:
    """How many copies of a home were judged, lost and delayed, and how many cables cut. Its script says so, too, and it is
    as one that is driven line by line."""
    home = driven.check_script(seed)
    driven.check_line_by_line(home)
    return len(home.asked), len(home.dropped), len(home.delayed), home.cuts


class Driving(unittest.TestCase):

    def test_each_home_leaves_its_script(self) -> None:
        for count in map(sum, zip(*many(what_happened, SEEDS))):
            self.assertGreater(count, 5)

    def test_loss_in_one_direction(self) -> None:
        home = Home(seed=7)
        gateway, annex = home.router('gateway', 1), home.router('annex', 2)
        home.link('lan', gateway, annex)
        gateway.external('2001:db8:0:100::/56', valid=7200, preferred=3600)
        home.run(60, drop=lambda copy: copy.sender is annex and copy.receiver is gateway)
        self.assertFalse(gateway.settled)
        self.assertEqual(gateway.why.cause, 'stranger')
        self.assertNotIn('node=00000002', '\n'.join(gateway.table))
        self.assertLessEqual(home.until(lambda: gateway.sound, within=40), 40)

    def test_a_delayed_copy_comes_later_and_once(self) -> None:
        home = Home(seed=3)
        one, other = home.router('one'), home.router('other')
        home.link('lan', one, other)
        sent = {}

        def delay(copy) -> float:
            sent[copy.number] = copy.moment
            return 0.5
        home.run(2, delay=delay)
        home.run(1)
        events = [line.split() for line in home.log if re.match(r'\d+ deliver ', line)]
        came = {int(number): int(moment) / 1000 for moment, _, number in events}
        self.assertEqual(len(came), len(events))
        self.assertGreater(len(sent), 2)
        for number, moment in sent.items():
            if moment <= 2.4:
                self.assertAlmostEqual(came[number], moment + 0.5)

    def test_what_a_judge_asks_is_of_its_moment(self) -> None:
        home = Home(seed=1)
        one, other = home.router('one'), home.router('other')
        home.link('lan', one, other)
        seen = []

        def drop(copy) -> bool:
            self.assertIn(copy, home.waiting)
            seen.append((copy.number, copy.receiver.reach, len(home.copies)))
            return len(seen) % 3 == 0
        home.run(3, drop=drop)
        self.assertGreater(len(seen), 5)
        self.assertEqual([number for number, _, _ in seen], sorted(number for number, _, _ in seen))
        self.assertEqual(homes.played(home.script), home.transcript)

    def test_a_judge_that_raises_leaves_a_home(self) -> None:
        home = Home(seed=1)
        home.link('lan', home.router('one'), home.router('other'))

        def drop(copy) -> bool:
            raise KeyError(copy.number)
        with self.assertRaises(KeyError):
            home.run(3, drop=drop)
        self.assertTrue(home.waiting)
        home.run(3)
        self.assertEqual(home.waiting, [])
        self.assertEqual(homes.played(home.script), home.transcript)


if __name__ == '__main__':
    unittest.main()

"""Many seeds: order, what is raised, shards, and the main function of a campaign."""
import contextlib
import io
import os
import sys
import unittest
import unittest.mock
from typing import Optional, Tuple

from rulercress import Home, Problem, SeedsFailed, campaign, many, shard

SEEDS = range(3, 40)


def moment_of_rest(seed: int) -> float:
    home = Home(seed=seed)
    one = home.router('one')
    home.link('lan', one, home.router('other'))
    one.external('2001:db8::/56')
    return home.until(lambda: one.sound, within=60)


def finds_every_seventh(seed: int) -> Optional[str]:
    """Finds each seed that 7 divides, and fails with each that 10 divides."""
    if seed % 10 == 0:
        raise AssertionError('a tenth')
    return 'a seventh' if seed % 7 == 0 else None


class Campaigns(unittest.TestCase):

    def campaign(self, *words: str) -> Tuple[int, str]:
        text = io.StringIO()
        with contextlib.redirect_stdout(text):
            status = campaign(finds_every_seventh, words)
        return status, text.getvalue()

    def test_results_are_in_order_of_seeds(self) -> None:
        alone = [moment_of_rest(seed) for seed in SEEDS]
        self.assertEqual(many(moment_of_rest, SEEDS, processes=4), alone)
        self.assertEqual(many(moment_of_rest, SEEDS, processes=1), alone)
        self.assertEqual(many(lambda seed: seed * seed, [9, 2, 5], processes=2), [81, 4, 25])
        self.assertEqual(many(moment_of_rest, []), [])

    def test_what_is_raised_is_told_of_each_seed(self) -> None:
        with self.assertRaises(SeedsFailed) as caught:
            many(finds_every_seventh, range(1, 31), processes=3)
        failed = caught.exception
        self.assertEqual(list(failed.failures), [10, 20, 30])
        self.assertRegex(failed.failures[20], r'^AssertionError: a tenth \(test_campaigns.py:\d+\)$')
        self.assertEqual(len(failed.results), 27)
        self.assertRegex(str(failed), '3 of 30 seeds failed\nseed 10: ')

    def test_a_program_that_is_missing_ends_it(self) -> None:
        with unittest.mock.patch.dict('os.environ', {'HN_LAB': '', 'HNCP': '/nothing'}), self.assertRaisesRegex(Problem, 'seed 3: there is no program'):
            many(moment_of_rest, SEEDS, processes=2)

    def test_a_function_that_ends_its_process_is_told(self) -> None:
        with self.assertRaisesRegex(SeedsFailed, 'seed 4: SystemExit: 7'):
            many(lambda seed: sys.exit(7) if seed == 4 else seed, SEEDS, processes=2)
        with self.assertRaisesRegex(Problem, 'a process of the pool was ended'):
            many(lambda seed: os.kill(os.getpid(), 9) if seed == 4 else seed, SEEDS, processes=2)

    def test_shards_have_each_seed_once(self) -> None:
        parts = [shard(SEEDS, f'{part}/5') for part in range(1, 6)]
        self.assertEqual(sorted(sum(parts, [])), list(SEEDS))
        self.assertLessEqual(max(map(len, parts)) - min(map(len, parts)), 1)
        self.assertEqual(many(lambda seed: seed, SEEDS, part='2/5'), parts[1])
        for part in ('0/5', '6/5', '1', 'x/y', '1/0', '-1/5'):
            with self.assertRaises(ValueError):
                shard(SEEDS, part)

    def test_a_campaign_writes_findings(self) -> None:
        status, text = self.campaign('-n', '20', '--processes', '2')
        self.assertEqual(status, 3)
        self.assertRegex(text, r'^seed 7: a seventh\nseed 10: AssertionError: a tenth \(.*\)\nseed 14: a seventh\nseed 20: .*\n4 of 20 seeds\n$')
        self.assertEqual(self.campaign('--from', '1', '-n', '6'), (0, '0 of 6 seeds\n'))
        self.assertEqual(self.campaign('--from', '5', '-n', '5', '--shard', '3/3'), (3, 'seed 7: a seventh\n1 of 1 seeds\n'))

    def test_bad_words_are_told(self) -> None:
        for words in (('-n', '0'), ('--shard', '2/1'), ('--from', 'x'), ('--processes', '0'), ('more',)):
            with self.subTest(words=words), contextlib.redirect_stderr(io.StringIO()) as said, self.assertRaises(SystemExit) as ended:
                self.campaign(*words)
            self.assertEqual(ended.exception.code, 2)
            self.assertIn('usage:', said.getvalue())


if __name__ == '__main__':
    unittest.main()

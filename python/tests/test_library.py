"""The library: how it is found, and that it plays as the programs do."""
import copy
import os
import pickle
import tempfile
import unittest
import unittest.mock
from typing import List

from rulercress import Home, Problem, Refused, library, players
from rulercress.by_library import LibraryPlay
from rulercress.by_programs import ProgramPlay

from . import homes

LIBC = 'libc.so.6'
# A Node Endpoint TLV of node 9, endpoint 1 (RFC 7787, section 7.2.1).
OCTETS = bytes.fromhex('000300080000000900000001')


def environment(**values: str) -> 'unittest.mock._patch_dict':
    return unittest.mock.patch.dict('os.environ', values)


class Finding(unittest.TestCase):

    def test_an_empty_variable_is_for_programs_alone(self) -> None:
        with environment(HN_LAB=''):
            self.assertIsNone(library.found())
            self.assertIsInstance(Home().play, ProgramPlay)

    def test_a_program_that_is_named_plays(self) -> None:
        with environment(HNCP='/bin/true'):
            os.environ.pop('HN_LAB', None)
            self.assertIsNone(library.found())

    def test_what_is_named_and_is_no_library_is_told(self) -> None:
        with tempfile.TemporaryDirectory() as folder:
            text = os.path.join(folder, 'text')
            with open(text, 'w') as file:
                file.write('no library\n')
            for path, told in ((os.path.join(folder, 'none'), 'there is no library .*none that can be loaded .*; set HN_LAB to'),
                               (text, 'there is no library .*text that can be loaded .*; set HN_LAB to'),
                               (LIBC, 'libc.so.6 is no library of HNCP homes: it has no hn_lab_')):
                with self.subTest(path=path), environment(HN_LAB=path), self.assertRaisesRegex(Problem, told) as caught:
                    Home()
                self.assertEqual(str(caught.exception).count('\n'), 0)


@unittest.skipUnless(library.found(), 'there is no library')
class Playing(unittest.TestCase):

    def plays(self) -> List[Home]:
        """A home by each player."""
        found = library.found()
        assert found
        return [Home(seed=3, play=play) for play in (LibraryPlay(found, 2), ProgramPlay(2))]

    def test_copies_of_a_run_and_of_rounds_by_hand(self) -> None:
        seen = []
        for home in self.plays():
            one, other = home.router('A'), home.router('B')
            lan, more = home.link('lan', one, other), home.link('more', one, other)
            home.time(1)
            home.tick()
            known = [list(home.play.copies()), home.play.waiting()]
            home.run(5)
            home.detach(one, lan)
            home.run(1.5, drop=lambda copy: copy.number % 2, delay=lambda copy: 0.7)
            home.attach(one, lan, 3)
            home.tick()
            known += [list(home.play.copies()), home.play.waiting(), list(home.play.lines), home.transcript]
            home.run(1)
            known += [list(home.play.copies()), home.play.waiting(), home.log, home.moment, more.name]
            seen.append(known)
        self.assertEqual(*seen)
        self.assertGreater(len(seen[0][2]), len(seen[0][0]))

    def test_reports_leave_no_line(self) -> None:
        for home in self.plays():
            one = home.router('A')
            home.link('lan', one, home.router('B'))
            home.run(6)
            before = home.script
            self.assertTrue(one.settled)
            self.assertEqual(one.reach, 2)
            home.audit(one)
            self.assertEqual(home.script, before + 'audit A\n')
            self.assertEqual(home.transcript, 'audit A settled=yes quiet=yes sound=yes\n')
            self.assertEqual(homes.played(home.script), home.transcript)

    def test_what_is_refused(self) -> None:
        told = []
        for home in self.plays():
            one = home.router('A')
            home.link('lan', one, home.router('B'))
            for act in (lambda: home.look('why', 'X'), lambda: home.stop(one) or home.look('why', 'A'), lambda: home.line('deliver 9'),
                        lambda: home.line('inject B 1 multi zz'), lambda: home.run(600, step=0.001), lambda: home.run(1)):
                with self.assertRaises(Refused) as caught:
                    act()
                told.append(str(caught.exception))
            told.append(home.transcript + home.script + '\n'.join(home.log[-2:]))
        self.assertEqual(told[:7], told[7:])

    def test_a_home_may_be_copied(self) -> None:
        home = self.plays()[0]
        one = home.router('A')
        home.link('lan', one, home.router('B'))
        home.run(3, delay=lambda copy: 9)
        other = copy.deepcopy(home)
        for each in (other, pickle.loads(pickle.dumps(home))):
            each.run(20)
            self.assertEqual(each.play.moment, 23000)
        self.assertEqual(home.play.moment, 3000)
        home.run(20)
        self.assertEqual((home.script, home.transcript), (other.script, other.transcript))

    def test_a_datagram_says_the_same(self) -> None:
        texts = []
        for path in (os.environ.get('HN_LAB', library.BUILT), ''):
            with environment(HN_LAB=path):
                texts.append([players.decode(octets) for octets in (OCTETS, b'', OCTETS[:-1], bytes(4), bytes(1 << 17))])
        self.assertEqual(*texts)
        self.assertEqual(texts[0][0], 'tlvs 1\n0 3 8 node-endpoint node=00000009 endpoint=1\n')


if __name__ == '__main__':
    unittest.main()

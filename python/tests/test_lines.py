"""Lines that are refused, and those that are left until something is asked."""
import random
import unittest
import unittest.mock

from rulercress import Home, NotReached, Problem, Refused, programs
from rulercress.outline import Outline

from . import homes

WORDS = ('router', 'link', 'attach', 'attach', 'detach', 'external', 'withdraw', 'caps', 'start', 'stop', 'seed', 'loss', 'time',
         'time', 'run', 'tick', 'flow')
VALUES = {
    'NAME': ('a', 'b', 'c', 'd', 'l', 'm', '1x', 'abcdefghijklmnopq', 'r_-9'),
    'ID': ('00000001', 'ABCDEF01', '1', '0x000001', '000000001'),
    'LINK': ('l', 'm', 'n', 'a'),
    'EP': ('1', '2', '3', '0', '01', '4294967295', '4294967296', 'x'),
    'PREFIX': ('2001:db8::/56', '2001:db8:1::/48', '2001:db8::1/64', '::/0', '2001:DB8:0:0:0:0:0:0/32', '2001:db8::/129',
               '::ffff:1.2.3.4/128', '2001:db8::', 'x/1', '2001:db8::/056', '2001:db8::/ 56'),
    'SECONDS': ('0', '7200', '3600', '4294967295', '4294967296', '-1', ''),
    'PERCENT': ('0', '10', '100', '101'),
    'CAP': ('0', '7', '8', 'x'),
    'MOMENT': ('0', '100', '200', '500', '1000', '3000', '281474976710657'),
    'STEP': ('0', '1', '100', '1000', '281474976710657'),
    'SEED': ('0', '18446744073709551615', '18446744073709551616', '0000000000000000000001'),
}
FORMS = {
    'router': 'NAME ID', 'link': 'LINK', 'attach': 'NAME EP LINK', 'detach': 'NAME EP', 'external': 'NAME PREFIX SECONDS SECONDS',
    'withdraw': 'NAME PREFIX', 'caps': 'NAME CAP CAP CAP CAP', 'start': 'NAME', 'stop': 'NAME', 'seed': 'SEED', 'loss': 'PERCENT',
    'time': 'MOMENT', 'run': 'MOMENT STEP', 'tick': 'NAME', 'flow': '',
}


def random_line(chance: random.Random) -> str:
    word = chance.choice(WORDS)
    words = [word] + [chance.choice(VALUES[kind]) for kind in FORMS[word].split()]
    if chance.randrange(30) == 0:
        words.append('more')
    return ' '.join(words)


class Lines(unittest.TestCase):

    def test_what_is_left_is_never_refused(self) -> None:
        """Lines of which the outline is sure are played together, and none is refused; others as the program says."""
        chance, left = random.Random(8231), 0
        for _ in range(12):
            script, outline = ['hncp 2'], Outline()
            for _ in range(60):
                line = random_line(chance)
                words = line.split()
                if outline.is_sure(words):
                    left += 1
                elif homes.played('\n'.join([*script, line, ''])).split('\n')[-2:-1][:1] != []:
                    continue
                script.append(line)
                outline.take(words)
            self.assertEqual(homes.played('\n'.join([*script, ''])), '')
        self.assertGreater(left, 100)

    def test_a_refusal_has_code_line_and_words(self) -> None:
        home = Home()
        gateway = home.router('gateway')
        home.link('lan', gateway)
        before = home.script
        for act, code, line in ((lambda: home.router('gateway', 9), 8, 'router gateway 00000009'),
                                (lambda: home.router('1x'), 4, 'router 1x 00000002'),
                                (lambda: home.link('gateway'), 8, 'link gateway'),
                                (lambda: home.attach(gateway, home.links['lan']), 14, 'attach gateway 2 lan'),
                                (lambda: home.detach(gateway, 7), 11, 'detach gateway 7'),
                                (lambda: gateway.external('2001:db8::1/64'), 4, 'external gateway 2001:db8::1/64 7200 3600'),
                                (lambda: gateway.external('2001:db8::/56', 1, 2), 4, 'external gateway 2001:db8::/56 1 2'),
                                (lambda: home.time(-1), 4, 'time -1000'),
                                (lambda: home.line('deliver 7'), 13, 'deliver 7'),
                                (lambda: home.line('nonsense'), 2, 'nonsense'),
                                (lambda: home.line('tick gateway more'), 3, 'tick gateway more'),
                                (lambda: home.line('tick gätéway'), 6, 'tick gätéway'),
                                (lambda: home.sync(gateway, gateway), 18, 'sync gateway gateway')):
            with self.subTest(line=line), self.assertRaises(Refused) as caught:
                act()
            refused = caught.exception
            self.assertEqual((refused.code, refused.number, refused.line, refused.is_over), (code, 5, line, False))
            self.assertIn(refused.meaning, str(refused))
            self.assertEqual(home.script, before)
        self.assertEqual(list(home.named), ['gateway'])
        self.assertEqual(list(home.links), ['lan'])

    def test_a_moment_may_not_fall(self) -> None:
        home = Home()
        home.router('gateway')
        home.run(5)
        for act in (lambda: home.run(-1), lambda: home.time(-1), lambda: home.run(-1, drop=lambda copy: False)):
            with self.assertRaises(Refused) as caught:
                act()
            self.assertEqual(caught.exception.code, 10)
        self.assertEqual(home.moment, 5)

    def test_a_stopped_router_is_not_asked(self) -> None:
        home = Home()
        one, other = home.router('one'), home.router('other')
        home.link('lan', one, other)
        home.stop(other)
        with self.assertRaises(Refused) as caught:
            other.settled
        self.assertEqual(caught.exception.code, 12)
        self.assertTrue(one.settled)
        self.assertFalse(other.state.running)
        with self.assertRaises(Refused):
            home.stop(other)

    def test_a_line_that_is_none_is_an_error_of_the_caller(self) -> None:
        home = Home()
        for text in ('', '  ', '# a comment', 'mail\nmail', 'router a 00000001'):
            with self.assertRaises(ValueError):
                home.line(text)
        self.assertEqual(home.script, 'hncp 2\n')

    def test_a_home_of_version_1(self) -> None:
        home = Home(version=1)
        home.router('a')
        with self.assertRaises(Refused) as caught:
            home.line('ula a')
        self.assertEqual(caught.exception.code, 2)
        with self.assertRaises(Refused) as caught:
            Home(version=3).line('mail')
        self.assertEqual((caught.exception.code, caught.exception.number), (1, 1))

    def test_the_event_that_is_one_too_many_ends_a_run(self) -> None:
        home = Home()
        home.link('lan', home.router('one'), home.router('other'))
        with self.assertRaises(Refused) as caught:
            home.run(400, step=0.001)
        self.assertEqual((caught.exception.code, caught.exception.is_over), (9, True))
        self.assertTrue(home.transcript.endswith('refused 7 9\n'))
        self.assertEqual(homes.played(home.script), home.transcript)
        with self.assertRaises(Refused):
            home.line('mail')

    def test_a_program_that_is_missing_is_named(self) -> None:
        known = {name: programs.path_of(name) for name in ('hncp', 'hnlook')}
        with unittest.mock.patch.dict('os.environ', {'HN_LAB': '', 'HNCP': '/nothing', 'HNLOOK': '/bin/false'}):
            home = Home()
            with self.assertRaisesRegex(Problem, 'set HNCP to the path of hncp'):
                home.line('mail')
            with self.assertRaisesRegex(Problem, 'hnlook log ended with status 1'):
                home.look('log')
        self.assertEqual(programs.path_of('hncp'), known['hncp'])
        self.assertEqual(home.line('mail'), ['mail copies=0 waiting=0'])


class Reports(unittest.TestCase):

    def two(self) -> Home:
        home = Home(seed=3)
        one, other = home.router('A'), home.router('B')
        home.link('L', one, other)
        one.external('2001:db8::/56', 7200, 3600)
        return home

    def test_what_routers_tell(self) -> None:
        """The home of the tutorial's section "When hosts are told", whose text is written there."""
        home = self.two()
        home.run(6)
        one, other = home.routers
        self.assertTrue(one.settled and one.quiet and one.sound)
        self.assertEqual(one.prefixes, [(1, '2001:db8::/56', '2001:db8:0:5a::/64', None, False)])
        home.run(14)
        self.assertEqual(one.prefixes, [(1, '2001:db8::/56', '2001:db8:0:5a::/64', None, True)])
        self.assertEqual(one.used, [('2001:db8::/56', 7180, 3580)])
        self.assertEqual((one.reach, one.state.id, one.state.running), (2, 1, True))
        self.assertEqual(one.hash, other.hash)
        self.assertEqual(one.why.cause, None)
        self.assertEqual(home.moment, 20)
        self.assertEqual(repr(home), home.script)

    def test_questions_leave_no_line_and_an_audit_does(self) -> None:
        home = self.two()
        home.run(6)
        before = home.script
        home.routers[0].prefixes, home.routers[1].sound, home.routers[0].table, home.routers[1].why, home.copies
        self.assertEqual(home.script, before)
        self.assertTrue(home.audit(home.routers[0]).sound)
        self.assertEqual(home.script, before + 'audit A\n')
        self.assertEqual(home.transcript, 'audit A settled=yes quiet=yes sound=yes\n')

    def test_a_condition_is_waited_for_as_look_by_look(self) -> None:
        for within, every in ((20, 1.0), (20, 0.3), (7.5, 2)):
            ahead, plain = self.two(), self.two()
            took = ahead.until(lambda: ahead.routers[0].sound and ahead.routers[1].prefixes, within, every=every)
            past = 0.0
            while not (plain.routers[0].sound and plain.routers[1].prefixes):
                plain.run(min(every, within - past))
                past = min(past + every, within)
            self.assertAlmostEqual(took, past)
            self.assertEqual(ahead.script, plain.script)

    def test_what_does_not_come_is_a_failed_assertion(self) -> None:
        home = self.two()
        with self.assertRaisesRegex(NotReached, 'not within 3 seconds; the last that was told: show A id=00000001'):
            home.until(lambda: home.routers[0].reach > 9, within=3)
        self.assertEqual(home.moment, 3)
        self.assertEqual(home.until(lambda: True, within=0), 0)

    def test_what_is_no_report_is_told(self) -> None:
        home = self.two()
        for report, code in (('audit', 3), ('audit X', 7), ('elect A 1 X', 4), ('mail more', 3)):
            with self.assertRaises(Refused) as caught:
                home.ask(report)
            self.assertEqual((caught.exception.code, caught.exception.line), (code, report))
        with self.assertRaises(ValueError):
            home.ask('run 1000 100')
        self.assertEqual(home.ask(' audit  A '), home.line('audit A'))
        self.assertEqual(home.ask('compare A B'), home.line('compare A B'))
        self.assertEqual(home.ask('mail'), ['mail copies=0 waiting=0'])

    def test_copies_and_what_they_say(self) -> None:
        home = self.two()
        home.time(0.2)
        home.tick()
        home.tick()
        self.assertTrue(home.waiting)
        copy = home.waiting[0]
        self.assertEqual((copy.sender, copy.receiver, copy.endpoint, copy.link, copy.is_multicast, copy.moment),
                         (home.named['A'], home.named['B'], 1, home.links['L'], True, 0.2))
        self.assertEqual([item.name for item in copy.decoded], ['node-endpoint', 'network-state'])
        self.assertEqual(copy.decoded[0].fields, {'node': '00000001', 'endpoint': '1'})
        self.assertTrue(copy.has('network-state') and not copy.has('node-state'))
        home.drop(copy)
        self.assertNotIn(copy, home.waiting)
        home.deliver(copy)
        self.assertEqual(homes.played(home.script), home.transcript)

    def test_a_page_of_changes(self) -> None:
        import tempfile
        home = self.two()
        home.run(20)
        with tempfile.TemporaryDirectory() as folder:
            try:
                changes = home.timeline(folder + '/page.html')
            except Problem as problem:
                self.skipTest(str(problem))
            with open(folder + '/page.html', encoding='utf-8') as file:
                self.assertIn('2001:db8:0:5a::/64', file.read())
        self.assertTrue(any('2001:db8:0:5a::/64' in change.what for change in changes))


if __name__ == '__main__':
    unittest.main()

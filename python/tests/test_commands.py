"""Tests of the commands `rulercress NAME ..`, and of what they share."""
import inspect
import os
import subprocess
import sys
import tempfile
import unittest
from typing import Tuple

import rulercress
from rulercress import Home, commands, programs
from rulercress.errors import MEANINGS
from rulercress.tools import captures, items

PACKAGE = os.path.dirname(os.path.abspath(rulercress.__file__))
# A Node Endpoint TLV of node 9, endpoint 1 (RFC 7787, section 7.2.1), as a line and as bytes.
LINE, OCTETS = 'node-endpoint node=00000009 endpoint=1', '000300080000000900000001'


def run(*words: str) -> Tuple[int, str, str]:
    """The status of a command, its text, and its messages."""
    environment = dict(os.environ, PYTHONPATH=os.path.dirname(PACKAGE), HNCP=programs.path_of('hncp'), HNLOOK=programs.path_of('hnlook'))
    done = subprocess.run([sys.executable, '-m', 'rulercress', *words], stdin=subprocess.DEVNULL, stdout=subprocess.PIPE,
                          stderr=subprocess.PIPE, env=environment)
    return done.returncode, done.stdout.decode(), done.stderr.decode()


def two_routers() -> Home:
    home = Home(seed=3)
    one, other = home.router('A'), home.router('B')
    home.link('L', one, other)
    one.external('2001:db8::/56', 7200, 3600)
    home.run(20)
    return home


class Commands(unittest.TestCase):

    def test_each_module_is_a_command_that_is_listed(self) -> None:
        status, text, messages = run('--help')
        self.assertEqual((status, messages), (0, ''))
        listed = [line.split()[0] for line in text.split('commands:\n', 1)[1].splitlines()]
        modules = sorted(name[:-3].replace('_', '-') for name in os.listdir(os.path.join(PACKAGE, 'commands'))
                         if name.endswith('.py') and name != '__init__.py')
        self.assertEqual(sorted(listed), modules)
        for name in modules:
            self.assertEqual(list(inspect.signature(commands.module_of(name).main).parameters), ['words'], name)

    def test_each_command_says_what_it_does(self) -> None:
        for name in ('judge', 'decode-capture', 'how-often-settled'):
            status, text, messages = run(name, '--help')
            self.assertEqual((status, messages), (0, ''))
            self.assertTrue(text.startswith(f'usage: rulercress {name} '), text[:60])
            self.assertIn(inspect.getdoc(commands.module_of(name)) or '?', text)

    def test_wrong_words_are_told_by_a_usage_line(self) -> None:
        for words in ((), ('nothing',), ('judge',), ('seeds', '-n', '0', 'F', 'x')):
            status, text, messages = run(*words)
            self.assertEqual((status, text), (2, ''), words)
            self.assertTrue(messages.startswith('usage: rulercress'), messages)

    def test_bad_input_is_told_by_one_line(self) -> None:
        for name in ('picture', 'timeline', 'annotate'):
            status, text, messages = run(name, '/nothing')
            self.assertEqual((status, text, messages), (1, '', f'rulercress {name}: /nothing: No such file or directory\n'))

    def test_bytes_are_made_of_lines(self) -> None:
        self.assertEqual(run('forge', LINE), (0, OCTETS + '\n', ''))

    def test_the_page_of_codes_is_found(self) -> None:
        status, text, _ = run('explain', '5', '8')
        self.assertEqual((status, text.splitlines()[0]), (0, f'refused 5 8: {MEANINGS[8]}'))

    def test_a_capture_of_a_sound_home_is_judged_so(self) -> None:
        with tempfile.TemporaryDirectory() as folder:
            script, capture = os.path.join(folder, 'home.script'), os.path.join(folder, 'home.pcap')
            two_routers().save(script)
            status, text, messages = run('capture', script, capture)
            self.assertEqual((status, messages), (0, ''))
            frames = int(text.split()[0])
            status, text, messages = run('judge', capture)
        if 'there is no tshark' in messages:
            self.skipTest(messages)
        self.assertEqual((status, messages), (0, ''))
        self.assertTrue(text.startswith(f'capture datagrams={frames} sources=2 '), text[:80])


class Decoding(unittest.TestCase):
    """What one call of `hncp decode` says of many datagrams is what it says of each."""

    def test_together_and_alone(self) -> None:
        payloads = [copy.bytes for copy in two_routers().copies] + [b'', bytes.fromhex(OCTETS), bytes(3), bytes.fromhex('0008000100000000')]
        told = captures.decode_all(payloads)
        self.assertGreater(len(told), 10)
        for payload in payloads:
            alone = captures.decode(payload)
            self.assertEqual(told[payload].lines, alone)
            self.assertEqual(described(told[payload].items()), None if alone[0].startswith('malformed') else described(items.tree(enumerate(alone[1:], 2))))


def described(found: object) -> object:
    """A tree of items as plain values."""
    if not isinstance(found, list):
        return found
    return [(each.number, each.level, each.place, each.kind, each.length, each.name, each.words, described(each.below)) for each in found]


if __name__ == '__main__':
    unittest.main()

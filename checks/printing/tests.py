"""Tries the commands that print what the sources have on a small repository."""
import contextlib
import io
import os
import re
import subprocess
import sys
import tempfile
import unittest
from typing import Callable, Dict, List, Tuple

from printing.clauses import print_clauses
from printing.command import ROOT
from printing.definitions import print_definitions
from printing.small import NAMED, SMALL
from printing.touches import kind_of, print_touched, touched
from sources.closure import NotFound
from sources.functions import NotUnderstood, functions
from sources.names import Word, parts


def fill(root: str, files: Dict[str, str]) -> None:
    """Writes files."""
    for path, text in files.items():
        os.makedirs(os.path.dirname(os.path.join(root, path)), exist_ok=True)
        with open(os.path.join(root, path), 'w', encoding='utf-8') as file:
            file.write(text)


class OnSmall(unittest.TestCase):
    """Tests that have a small repository, which git tracks."""

    def setUp(self) -> None:
        """Makes it."""
        self.folder = tempfile.TemporaryDirectory()
        self.addCleanup(self.folder.cleanup)
        self.root = self.folder.name
        fill(self.root, SMALL)
        self.errors = ''

    def output(self, act: Callable[..., int], words: str, *options: str) -> Tuple[int, str]:
        """The status and the output of a command. What it says on standard error is kept."""
        out, errors = io.StringIO(), io.StringIO()
        with contextlib.redirect_stdout(out), contextlib.redirect_stderr(errors):
            status = act(self.root, words.split(), set(options))
        self.errors = errors.getvalue()
        return status, out.getvalue()

    def statuses(self, command: str, *calls: str) -> List[int]:
        """The statuses of a program of this repository, for the words of each call."""
        program = [sys.executable, os.path.join(ROOT, 'checks', command)]
        return [subprocess.run(program + call.split(), stdout=subprocess.DEVNULL, stderr=subprocess.DEVNULL).returncode
                for call in calls]


class OfDefinitions(OnSmall):
    """`checks/definitions`."""

    def test_a_crate_is_printed_in_the_order_of_its_root(self) -> None:
        """File by file, a file below another right after it, and none of the `use` lines."""
        status, text = self.output(print_definitions, 'one')
        self.assertEqual(status, 0)
        self.assertEqual([line for line in text.split('\n') if line.startswith('# ')],
                         ['# crates/one/specs/Shapes.antt', '# crates/one/specs/Shapes/Deep.antt',
                          '# crates/one/specs/Facts.antt', '# crates/one/specs/Around.antt'])
        self.assertNotIn('use ', text)

    def test_a_definition_is_printed_as_it_stands(self) -> None:
        """With the comment above it, comments and empty lines in it, and no comment that stands apart."""
        _, text = self.output(print_definitions, 'one IsClaimed')
        claimed = SMALL['crates/one/specs/Facts.antt'].split('\n\n-- ---- apart\n\n')[1].split('\n\nabbrev')[0]
        self.assertEqual(text, '# crates/one/specs/Facts.antt\n\n' + claimed + '\n')

    def test_a_definition_between_parameters_is_printed_with_them(self) -> None:
        """The line `module` stands above what it is around."""
        _, text = self.output(print_definitions, 'one held')
        self.assertEqual(text, '# crates/one/specs/Around.antt\n\nmodule _ {K : Type 0} (k : K) where\n\n'
                               '  -- it is held\n  abbrev pub held : K\n  held = k\n')

    def test_names_are_found_in_each_file(self) -> None:
        """A name of two files, and a constructor, which stands for its data."""
        _, text = self.output(print_definitions, 'one number Round')
        self.assertEqual(re.findall(r'(?m)^(?:# .*/(\w+)\.|(?:abbrev pub|pub data) (\w+))', text),
                         [('Shapes', ''), ('', 'Shape'), ('Deep', ''), ('', 'number'), ('Facts', ''), ('', 'number')])

    def test_a_name_that_is_not_there_is_told(self) -> None:
        """The others are printed all the same."""
        status, text = self.output(print_definitions, 'one nothing held')
        self.assertEqual((status, self.errors), (1, 'not found: nothing in one\n'))
        self.assertIn('abbrev pub held', text)

    def test_names_have_a_line_each(self) -> None:
        """The name, the file, the lines that are neither empty nor a comment, and the first line of the comment."""
        _, text = self.output(print_definitions, 'one', '--names')
        self.assertEqual([line.split(None, 3) for line in text.split('\n')[1:-1]], [
            ['Shape', 'one/specs/Shapes.antt', '3', 'a shape'],
            ['number', 'one/specs/Shapes/Deep.antt', '2'],
            ['IsClaimed', 'one/specs/Facts.antt', '4', 'what is claimed'],
            ['number', 'one/specs/Facts.antt', '3'],
            ['held', 'one/specs/Around.antt', '2', 'it is held']])

    def test_crates_are_counted(self) -> None:
        """Those without definitions have no line."""
        _, text = self.output(print_definitions, '', '--count')
        self.assertEqual([line.split() for line in text.split('\n')[1:-1]],
                         [['one', '5', '14', '4'], ['all', '5', '14', '4']])

    def test_a_file_that_the_root_does_not_name_is_told(self) -> None:
        """It would be left out else."""
        fill(self.root, {'crates/one/specs/Other.antt': 'abbrev pub other : ℕ\nother = 1\n'})
        with self.assertRaisesRegex(NotFound, 'one/specs/Other.antt'):
            self.output(print_definitions, 'one')

    def test_statuses(self) -> None:
        """Help and a crate; a crate, a name and any definition that is not there; words that are none."""
        self.assertEqual(self.statuses('definitions', '--help', 'hn_world', 'crates/hn_tlv/'), [0, 0, 0])
        self.assertEqual(self.statuses('definitions', 'nowhere', 'hn_world nothing', 'hncp'), [1, 1, 1])
        self.assertEqual(self.statuses('definitions', '', '--other hn_world', '--names --count hn_world'), [2, 2, 2])


class OfClauses(OnSmall):
    """`checks/clauses`."""

    def paths(self, words: str) -> List[str]:
        """The paths of the functions that are printed."""
        _, text = self.output(print_clauses, words)
        return [line[len('## '):] for line in text.split('\n') if line.startswith('## ')]

    def test_what_is_public_is_shown_with_its_path(self) -> None:
        """Functions, methods, methods of traits, and those for a type that say more; laws at the end."""
        self.assertEqual(self.paths('two'), [
            'two::first', 'two::inner::second', 'two::inner::deeper::third (inner)', 'two::forms::Thing::new',
            'two::forms::Thing::take', 'two::forms::Thing::dim', 'two::forms::Wide::go',
            'two::forms::<Thing as Wide>::go', 'two::forms::<Thing as From<Vec<u8>>>::from', 'two::forms::after (inner)',
            'two::forms::part::last (inner)',
            'two::is_lawful', 'two::forms::Thing::is_thing'])

    def test_headings_are_files(self) -> None:
        """The root comes first, and laws have headings of their own."""
        _, text = self.output(print_clauses, 'two')
        self.assertEqual(re.findall(r'(?m)^# (.*)$', text), [
            'crates/two/src/lib.rt', 'crates/two/src/forms.rt', 'crates/two/src/forms/part.rt',
            'crates/two/src/lib.rt: laws', 'crates/two/src/forms.rt: laws'])

    def test_a_contract_is_printed_as_it_stands(self) -> None:
        """Its doc comment without an attribute, clauses over lines, `ensures*`, comments between; and not its body."""
        _, text = self.output(print_clauses, 'two take')
        source = SMALL['crates/two/src/forms.rt'].split('// begin\n')[1].split('\n    {\n')[0]
        self.assertIn('#[inline]', source)
        lines = [line[4:] for line in source.split('\n') if '#[inline]' not in line]
        self.assertEqual(text, '# crates/two/src/forms.rt\n\n## two::forms::Thing::take\n\n' + '\n'.join(lines) + '\n')

    def test_a_function_is_found_by_the_end_of_its_path(self) -> None:
        """By a name, by a type and a name, and by the whole; a part of a name is not enough."""
        self.assertEqual(self.paths('two go'), ['two::forms::Wide::go', 'two::forms::<Thing as Wide>::go'])
        self.assertEqual(self.paths('two Thing::go'), ['two::forms::<Thing as Wide>::go'])
        self.assertEqual(self.paths('two two::forms::<Thing~as~Wide>::go'.replace('~', ' ')), [])
        self.assertEqual(self.paths('two deeper::third two::first'), ['two::first', 'two::inner::deeper::third (inner)'])
        self.assertEqual(self.paths('two hird'), [])

    def test_what_is_private_is_told(self) -> None:
        """And what is not there at all."""
        status, text = self.output(print_clauses, 'two hidden nothing within first')
        self.assertEqual((status, self.errors), (1, 'not found: hidden (it is not public) in two\n'
                                                    'not found: nothing in two\n'
                                                    'not found: within (it is not public) in two\n'))
        self.assertIn('## two::first\n', text)

    def test_clauses_are_counted(self) -> None:
        """For each function; then the sums, those of laws apart."""
        _, text = self.output(print_clauses, 'two', '--count')
        rows, table = text.split('\n\n')
        self.assertEqual([line.split() for line in rows.split('\n')[1:]], [
            ['0', '0', 'two::first'], ['0', '1', 'two::inner::second'], ['0', '0', 'inner', 'two::inner::deeper::third'],
            ['0', '1', 'two::forms::Thing::new'], ['1', '4', 'two::forms::Thing::take'],
            ['0', '0', 'two::forms::Thing::dim'], ['1', '1', 'two::forms::Wide::go'],
            ['0', '1', 'two::forms::<Thing', 'as', 'Wide>::go'],
            ['0', '1', 'two::forms::<Thing', 'as', 'From<Vec<u8>>>::from'], ['0', '0', 'inner', 'two::forms::after'],
            ['0', '1', 'inner', 'two::forms::part::last'],
            ['1', '1', 'law', 'two::is_lawful'], ['0', '1', 'law', 'two::forms::Thing::is_thing']])
        self.assertEqual(table.split('\n')[1].split(), ['two', '11', '2', '10', '2', '1', '2'])

    def test_crates_are_counted(self) -> None:
        """Each has a line, and all have one."""
        _, text = self.output(print_clauses, '', '--count')
        self.assertEqual([line.split() for line in text.split('\n')[1:-1]],
                         [['one'] + ['0'] * 6, ['two', '11', '2', '10', '2', '1', '2'],
                          ['all', '11', '2', '10', '2', '1', '2']])

    def test_what_is_not_understood_is_refused(self) -> None:
        """A clause of another kind, a word that begins no item, and brackets that do not match."""
        for text in ('pub fn f() decreases { n } {\n}\n', 'macro! { }\n', 'pub fn f() {\n', 'fn f() {}\n}\n',
                     'pub fn f()\n    ensures a b { }\n{}\n', 'const A: u8 = 1\n'):
            with self.assertRaises(NotUnderstood):
                functions('two/src/lib.rt', text)

    def test_statuses(self) -> None:
        """Help, a crate and all crates; what is not there; words that are none."""
        self.assertEqual(self.statuses('clauses', '--help', 'hn_tlv', '--count hn_tlv'), [0, 0, 0])
        self.assertEqual(self.statuses('clauses', 'nowhere', 'hn_tlv nothing', 'hncp'), [1, 1, 1])
        self.assertEqual(self.statuses('clauses', '', '--other hn_tlv'), [2, 2])


class OfTouches(OnSmall):
    """`checks/touches`."""

    def setUp(self) -> None:
        """Makes the small repository one of git."""
        super().setUp()
        fill(self.root, NAMED)
        for words in (['init', '-q'], ['add', '-A']):
            subprocess.run(['git', '-C', self.root] + words, check=True, stderr=subprocess.DEVNULL)
        fill(self.root, {'crates/one/src/untracked.rt': '// lantern\n'})

    def found(self, *words: str, begins: bool = False) -> Dict[str, int]:
        """The files that name a word, with their numbers of lines."""
        return {file.path: file.lines for file in touched(self.root, [Word(word, begins) for word in words])}

    def test_names_have_parts(self) -> None:
        """By underscores, capitals and digits."""
        self.assertEqual([parts(name) for name in ('set_lantern', 'SetLantern', 'SET_LANTERN', 'HNCPPort', 'WEvent2')],
                         [['set', 'lantern']] * 3 + [['hncp', 'port'], ['w', 'event', '2']])

    def test_a_word_matches_parts(self) -> None:
        """A whole part of a name, several that follow each other, and, where asked for, a part that begins so."""
        names = ('lantern', 'SetLantern', 'lantern_set', 'LANTERN', 'Lantern2', 'lanterns', 'lanternlit', 'lan_tern')
        self.assertEqual([Word('lantern').is_in_name(name) for name in names], [True] * 5 + [False] * 3)
        self.assertEqual([Word('lantern', True).is_in_name(name) for name in names], [True] * 7 + [False])
        self.assertEqual([Word('SetLantern').is_in_name(name) for name in ('re_set_lantern', 'set_a_lantern', 'set')],
                         [True, False, False])
        self.assertEqual([Word('set_lan', True).is_in_name(name) for name in ('set_lantern', 'get_lantern')],
                         [True, False])

    def test_files_are_found(self) -> None:
        """By their lines, each once, and by their path below the crate; what git does not track is left out."""
        self.assertEqual(self.found('lantern'), {
            'crates/lantern/src/lib.rt': 2, 'crates/one/data/lit.script': 1,
            'crates/one/further-edits/dim_lantern.edit': 0, 'crates/one/must-fail/dim.edit': 1, 'crates/one/proofs/forms/lantern/Answers.antt': 0,
            'crates/one/proofs/Lit.antt': 1, 'crates/one/specs/Facts.antt': 1, 'docs/LANTERN.md': 1,
            'docs/pictures/lantern.png': 0, 'tools/light': 2})
        self.assertEqual(self.found('lantern', begins=True)['README.md'], 1)
        self.assertEqual(self.found('set_lantern'), {'crates/one/must-fail/dim.edit': 1, 'tools/light': 1})

    def test_files_are_grouped_and_summed(self) -> None:
        """A line for each file, the crates by name, the repository last; a line for each kind."""
        status, text = self.output(print_touched, 'lantern')
        self.assertEqual(status, 0)
        self.assertEqual(re.findall(r'(?m)^# (.*)$', text), ['lantern', 'one', 'repository'])
        self.assertIn('\nproofs       1  crates/one/proofs/Lit.antt\n', text)
        table = [line.split() for line in text.split('kind ')[1].split('\n')[1:-1]]
        self.assertEqual({row[0]: row[1:] for row in table}, {
            'src': ['1', '2', '0'], 'specs': ['1', '1', '0'], 'proofs': ['2', '1', '1'], 'these': ['4', '4', '1'],
            'edits': ['2', '1', '1'], 'data': ['1', '1', '0'], 'pages': ['1', '1', '0'], 'pictures': ['1', '0', '1'],
            'tools': ['1', '2', '0'], 'checks': ['0', '0', '0'], 'others': ['0', '0', '0']})

    def test_several_words_are_counted_once(self) -> None:
        """A file that names both is one file, and a line with both is one line."""
        both = self.found('lantern', 'IsClaimed')
        self.assertEqual((both['crates/one/specs/Facts.antt'], both['docs/LANTERN.md']), (3, 1))
        status, _ = self.output(print_touched, 'lantern zebra', '--count')
        self.assertEqual((status, self.errors), (1, 'no file names zebra\n'))

    def test_files_with_each_word(self) -> None:
        """Those that name each of the words, one here; a file that has the words apart is not enough."""
        status, text = self.output(print_touched, 'lantern IsClaimed', '--each')
        self.assertEqual(status, 0)
        self.assertEqual(re.findall(r'(?m)^\w+ +\d+  (\S+)$', text), ['crates/one/specs/Facts.antt', 'docs/LANTERN.md'])
        status, _ = self.output(print_touched, 'lantern IsClaimed zebra', '--each')
        self.assertEqual((status, self.errors), (1, 'no file names zebra\n'))

    def test_kinds(self) -> None:
        """Of files of crates and of others."""
        kinds = {'crates/a/stdin': 'data', 'crates/a/specs/b/C.antt': 'specs', 'crates.txt': 'others',
                 '.ci/run': 'others', 'tools/README.md': 'pages', 'checks/all': 'checks', 'docs/settled.txt': 'pages'}
        self.assertEqual({path: kind_of(path) for path in kinds}, kinds)

    def test_statuses(self) -> None:
        """Help and a word; a word that no file has; words that are none."""
        self.assertEqual(self.statuses('touches', '--help', 'withdraw', '--count withdraw tick'), [0, 0, 0])
        self.assertEqual(self.statuses('touches', 'no' + 'where' * 2), [1])
        self.assertEqual(self.statuses('touches', '', '--other tick', 'a-b', '_'), [2, 2, 2, 2])

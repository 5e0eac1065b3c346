"""Tries the page with the headline: on small sources, and on a copy of these with one thing changed."""
import os
import re
import shutil
import subprocess
import sys
import tempfile
import unittest
from typing import Dict, List, Set
from unittest import mock

import headline_beside
import headline_rest
import headline_text
from headline_compare import difference, items
from headline_found import HALVES, Headline, NoSuchSign, others
from headline_page import DATA, pages
from sources.closure import Node, NotFound, Sources

ROOT = os.path.dirname(os.path.dirname(os.path.abspath(__file__)))

FACTS = '''-- Facts.
use Rattle.std.specs.Prelude.{◌≡◌, ◌<◌, ℕ, List, Some, Contains}
use Rattle.two.specs.Other.{IsSame as IsAlike, number}
use Rattle.two.specs.Shapes as shapes
use Rattle.two.specs.Passed.{IsPassed}
use Rattle.two.specs.declared.thing.Thing.{Thing}
use Rattle.two.specs.declared.thing.Kind.TheVariants as kind

-- the same, as this file has it
abbrev pub IsSame : ℕ → Type 0
IsSame n = n ≡ 0

-- what is claimed of a thing
pub record IsClaimed (t : Thing) (n : ℕ) : Type 0 where
  -- a comment in it
  pub same : IsSame n

  pub alike :
      (k : ℕ) → IsAlike k n → shapes.IsRound k
  pub passed : IsPassed n

-- a bound name, a field and a label cite nothing
abbrev pub BindsItsNames : Thing → Type 0
BindsItsNames t = (number : ℕ) → number < t.number

abbrev pub is_kind : Thing → ℕ
is_kind (kind.Large number) = number
'''

OTHER = '''use Rattle.std.specs.Prelude.{◌≡◌, ℕ}

-- the same, as another crate has it
abbrev pub IsSame : ℕ → ℕ → Type 0
IsSame a b = a ≡ b

abbrev pub number : ℕ
number = 7
'''

DEEP = '''abbrev pub IsPassed : Shape → Type 0
IsPassed Round = ⊥

abbrev pub IsKept : Type 0
IsKept = ⊥

-- a shape
pub data Shape : Type 0 where
  Round : Shape
  Square : Shape
'''

SHAPES = '''use Rattle.two.specs.Deep.{Round}

abbrev pub IsRound : Shape → Type 0
IsRound s = s ≡ Round
'''

THING = '''use crate::size::{
    Size, Weight,
};

/// A thing.
pub struct Thing {
    /// Its size.
    pub size: Size,
}

pub enum Kind {
    Large(u32),
}
'''

SIZE = '''ghost use Rattle.two.specs.Other.{number};

pub struct Size {
    hidden: Weight,
}

pub struct Weight(pub u32);

impl Model for Size {
    ghost Value = { ℕ };

    ghost view = { λ s. number };

    ghost invariant = { λ s. ⊥ };
}
'''

SMALL = {
    'one/specs/Facts.antt': FACTS,
    'two/specs/Other.antt': OTHER,
    'two/specs/Passed.antt': 'pub use Rattle.two.specs.Deep.{IsPassed}\nuse Rattle.two.specs.Deep.{IsKept}\n',
    'two/specs/Deep.antt': DEEP,
    'two/specs/Shapes.antt': SHAPES,
    'two/src/lib.rt': 'mod thing;\nmod size;\n\npub use size::Size;\npub use thing::{Kind, Thing};\n',
    'two/src/thing.rt': THING,
    'two/src/size.rt': SIZE,
    'three/src/part.rt': 'use two::{Kind, Size as Length};\n\npub struct Part(Length, Option<Kind>);\n',
}


def fill(root: str, files: Dict[str, str]) -> Sources:
    """Sources with these files."""
    for file, text in files.items():
        path = os.path.join(root, 'crates', file)
        os.makedirs(os.path.dirname(path), exist_ok=True)
        with open(path, 'w', encoding='utf-8') as written:
            written.write(text)
    return Sources(root)


def page(sources: Sources) -> str:
    """Both pages, one after the other."""
    return '\n'.join(pages(sources).values())


class OfSmallSources(unittest.TestCase):
    """What is read from small sources."""

    def setUp(self) -> None:
        """Makes the sources."""
        self.folder = tempfile.TemporaryDirectory()
        self.sources = fill(self.folder.name, SMALL)

    def tearDown(self) -> None:
        """Removes them."""
        self.folder.cleanup()

    def cited(self, file: str, name: str) -> List[Node]:
        """What a definition or a type cites."""
        return self.sources.cites(Node(file, name))

    def test_a_name_of_two_crates_is_resolved_by_the_use_lines(self) -> None:
        """`IsSame` is that of the file, and `IsAlike` is the one of crate two that has the same name."""
        found = self.cited('one/specs/Facts.antt', 'IsClaimed')
        self.assertEqual([node for node in found if node.name == 'IsSame'],
                         [Node('one/specs/Facts.antt', 'IsSame'), Node('two/specs/Other.antt', 'IsSame')])

    def test_modules_types_and_what_is_passed_on_are_followed(self) -> None:
        """A module under another name, a type of the program, and a name that a file passes on."""
        self.assertEqual(self.cited('one/specs/Facts.antt', 'IsClaimed'), [
            Node('two/src/thing.rt', 'Thing'), Node('one/specs/Facts.antt', 'IsSame'),
            Node('two/specs/Other.antt', 'IsSame'), Node('two/specs/Shapes.antt', 'IsRound'),
            Node('two/specs/Deep.antt', 'IsPassed')])

    def test_what_is_not_passed_on_is_not_found(self) -> None:
        """A name that a file uses and does not pass on, and one that no file has."""
        for name in ('IsKept', 'IsNowhere'):
            with self.assertRaises(NotFound):
                self.sources.imported('Rattle.two.specs.Passed', name)

    def test_bound_names_fields_and_labels_cite_nothing(self) -> None:
        """`number` is a definition that the file may cite, and is bound here."""
        self.assertEqual(self.cited('one/specs/Facts.antt', 'BindsItsNames'), [Node('two/src/thing.rt', 'Thing')])
        self.assertEqual(self.cited('one/specs/Facts.antt', 'is_kind'),
                         [Node('two/src/thing.rt', 'Thing'), Node('two/src/thing.rt', 'Kind')])

    def test_a_constructor_cites_its_type(self) -> None:
        """In a pattern of its own file, and where a `use` line brings it in."""
        shape = Node('two/specs/Deep.antt', 'Shape')
        self.assertEqual(self.cited('two/specs/Deep.antt', 'IsPassed'), [shape])
        self.assertEqual(self.cited('two/specs/Shapes.antt', 'IsRound'), [shape])

    def test_a_model_stands_for_the_fields(self) -> None:
        """Contracts see a type with a model as that says: here by a definition, and without the weight."""
        self.assertEqual(self.cited('two/src/thing.rt', 'Thing'), [Node('two/src/size.rt', 'Size')])
        self.assertEqual(self.cited('two/src/size.rt', 'Size'), [Node('two/specs/Other.antt', 'number')])

    def test_types_of_another_crate_are_followed(self) -> None:
        """By what its root passes on, also under another name."""
        self.assertEqual(self.cited('three/src/part.rt', 'Part'),
                         [Node('two/src/size.rt', 'Size'), Node('two/src/thing.rt', 'Kind')])

    def test_a_line_that_is_not_understood_is_refused(self) -> None:
        """A `use` line on two lines: what it brings in would be missed."""
        sources = fill(self.folder.name, {'one/specs/Cut.antt': 'use Rattle.two.specs.Deep.{\n  IsKept}\n'})
        with self.assertRaises(NotFound):
            sources.spec('one/specs/Cut.antt')

    def test_comments_and_empty_lines_are_not_counted(self) -> None:
        """A record with a comment and an empty line in it, and its comment above."""
        found = self.sources.entity(Node('one/specs/Facts.antt', 'IsClaimed'))
        self.assertEqual((len(found.code), len(found.shown)), (5, 7))

    def test_steps_are_the_fewest(self) -> None:
        """From the claim to the shape in two steps, and to the number by a type in a type in three."""
        steps = self.sources.steps([Node('one/specs/Facts.antt', 'IsClaimed')])
        self.assertEqual(steps[Node('two/specs/Deep.antt', 'Shape')], 2)
        self.assertEqual(steps[Node('two/specs/Other.antt', 'number')], 3)


class OfThisRepository(unittest.TestCase):
    """The page of a copy of this repository, in which one thing is changed."""

    @classmethod
    def setUpClass(cls) -> None:
        """Copies the definitions, the program and the checks."""
        cls.folder = tempfile.TemporaryDirectory()
        cls.root = os.path.join(cls.folder.name, 'copy')
        shutil.copytree(os.path.join(ROOT, 'checks'), os.path.join(cls.root, 'checks'))
        os.mkdir(os.path.join(cls.root, 'docs'))
        shutil.copy(os.path.join(ROOT, 'README.md'), cls.root)
        for crate in os.listdir(os.path.join(ROOT, 'crates')):
            for part in ('specs', 'src'):
                source = os.path.join(ROOT, 'crates', crate, part)
                if os.path.isdir(source):
                    shutil.copytree(source, os.path.join(cls.root, 'crates', crate, part))
        shutil.copytree(os.path.join(ROOT, 'crates', DATA), os.path.join(cls.root, 'crates', DATA))
        cls.sources = Sources(cls.root)
        cls.headline = Headline(cls.sources)
        cls.page = page(cls.sources)

    @classmethod
    def tearDownClass(cls) -> None:
        """Removes the copy."""
        cls.folder.cleanup()

    def change(self, file: str, old: str, new: str) -> None:
        """Changes a text of a file once, and back after the test."""
        path = os.path.join(self.root, 'crates', file)
        with open(path, encoding='utf-8') as source:
            text = source.read()
        self.assertIn(old, text)
        self.addCleanup(fill, self.root, {file: text})
        fill(self.root, {file: text.replace(old, new, 1)})

    def change_definition(self, node: Node, old: str, new: str) -> None:
        """Changes a text in a definition."""
        code = '\n'.join(self.sources.entity(node).code)
        self.change(node.file, code, code.replace(old, new, 1))

    def first_with(self, nodes: List[Node], text: str) -> Node:
        """The first of some definitions without comments inside it that has a text."""
        whole = [node for node in nodes if '\n'.join(self.sources.entity(node).code) in self.text_of(node.file)]
        return next(node for node in whole if text in '\n'.join(self.sources.entity(node).code))

    def text_of(self, file: str) -> str:
        """The text of a file."""
        with open(os.path.join(self.root, 'crates', file), encoding='utf-8') as source:
            return source.read()

    def differs(self) -> str:
        """How the pages of the changed copy differ."""
        return str(difference(self.page, page(Sources(self.root))))

    def test_each_line_of_each_definition_is_read(self) -> None:
        """No line of a file of definitions is left over, and each `use` line leads to something."""
        for file in self.sources.spec_files():
            spec = self.sources.spec(file)
            self.assertEqual(spec.unread, [], file)
            for found in spec.uses.names.values():
                self.sources.imported(found.module, found.name)

    def test_a_change_of_a_shown_definition_is_named(self) -> None:
        """One sign of a definition that is shown."""
        node = self.first_with(self.headline.shown, ' ≡ ')
        self.change_definition(node, ' ≡ ', ' ≢ ')
        self.assertEqual(self.differs(), '%s changed' % node.place)

    def test_a_change_that_keeps_the_lines_is_listed(self) -> None:
        """One sign of a definition that no page shows, which has as many lines as before: its mark tells it."""
        before = list(others(self.sources))
        node = self.first_with([Node(*line.rsplit(' ', 2)[0].split(': ')) for line in before], ' ≡ ')
        self.change_definition(node, ' ≡ ', ' ≢ ')
        self.assertTrue(self.differs().startswith('the section "The counts" changed: | '))
        after = list(others(Sources(self.root)))
        self.assertEqual([now.split(' ')[:2] for was, now in zip(before, after) if was != now], [node.place.split(' ')])

    def test_all_that_the_halves_rest_on_is_shown(self) -> None:
        """Each definition is on one of the pages, once; one that is left out is refused."""
        for node in (node for node in self.headline.of_one_world if not node.is_type):
            head = r'(?m)^(?:abbrev pub|unfoldable pub|pub record|pub data) %s ' % re.escape(node.name)
            self.assertRegex(self.page, head, node.place)
        with mock.patch.dict(headline_rest.IN_WORDS, {'hn_base/specs/Byte.antt': 'IsByte'}):
            with self.assertRaisesRegex(NotFound, 'hn_base/specs/Byte.antt: IsByte, on which the halves rest'):
                page(self.sources)

    def test_a_change_of_what_a_transcript_is_is_named(self) -> None:
        """Of the clause that stands alone, the definition of what cannot be missing."""
        self.change('hn_base/specs/Exists.antt', '→ ⊥', '→ ¬ ⊥')
        self.assertEqual(self.differs(), 'hn_base/specs/Exists.antt: Some! changed')

    def test_a_change_of_a_far_definition_is_seen(self) -> None:
        """One sign of a definition that is not shown: the mark of a count tells it."""
        self.change('hn_lab/specs/Lab.antt', 'status_of WireFailed = 5', 'status_of WireFailed = 6')
        self.assertTrue(self.differs().startswith('the section "The counts" changed: | these eleven clauses | '))

    def test_a_choice_that_chooses_nothing_is_refused(self) -> None:
        """A definition that the page leaves out, or shows of a clause that stands alone, and that is not of it."""
        for choice in (headline_rest.IN_WORDS, headline_beside.ALONE):
            with mock.patch.dict(choice, {'hn_typed/specs/Item.antt': 'IsNowhere'}):
                with self.assertRaisesRegex(NotFound, 'hn_typed/specs/Item.antt: IsNowhere, which a text of checks/ names'):
                    page(self.sources)
        part = headline_text.Part('Nothing.', ('hn_lab/specs/Play.antt: IsPlay',))
        with mock.patch.object(headline_text, 'FIRST', headline_text.FIRST + (part,)):
            with self.assertRaisesRegex(NotFound, 'hn_lab/specs/Play.antt: IsPlay, which a text of checks/ names, of the halves'):
                page(self.sources)

    def test_a_sentence_for_nothing_is_refused(self) -> None:
        """A sentence for a definition that is not shown, or not named; a type that is not one of those named; and a field."""
        for choice in (headline_rest.SENTENCES, headline_beside.SENTENCES, headline_text.GLOSSES, headline_rest.GLOSSES,
                       headline_beside.GLOSSES):
            with mock.patch.dict(choice, {'hn_typed/specs/Item.antt: IsNowhere': 'nothing'}):
                with self.assertRaisesRegex(NotFound, 'hn_typed/specs/Item.antt: IsNowhere, which a text of checks/ names'):
                    page(self.sources)
        with mock.patch.object(headline_rest, 'TYPES', (('hn_pair/src/assigned.rt', 'Wish'),)):
            with self.assertRaisesRegex(NotFound, 'hn_pair/src/assigned.rt: Wish, which a text of checks/ names'):
                page(self.sources)
        field = headline_text.Field('a key', 'hn_base/src/key.rt: Key', 'priority length', 'nothing')
        with mock.patch.object(headline_text, 'FIELDS', (field,)):
            with self.assertRaisesRegex(NotFound, 'length of hn_base/src/key.rt: Key, which a text of checks/ names'):
                page(self.sources)

    def test_each_definition_that_is_left_out_has_a_sentence(self) -> None:
        """What the shown text names and does not show has one sentence and its file, where it is named first."""
        sentences = re.findall(r'^(?:\.\.\.|-) `?([^\s`]+?)`?: [^\n]{8,} \(`?([^\s`]+\.antt)`?\)\.?$', self.page, re.MULTILINE)
        cited, named = self.headline.named_beside()
        left = [*cited, *(node for nodes in (self.headline.named_behind(), named) for part in nodes.values() for node in part)]
        self.assertEqual(sorted((file, name) for name, file in sentences), sorted(left))
        before = self.page.split('... Spells: ', 1)[0].split('abbrev pub SaysItem ', 1)
        self.assertIn(' Spells ', before[1])
        self.assertNotIn(' Spells ', before[0])

    def test_the_first_part_puts_in_words_what_it_names(self) -> None:
        """Each definition that the first part names and does not show has one line there, and is shown behind it."""
        first, behind = self.page.split('\n## The others\n', 1)
        lines = re.findall(r'^\.\.\. (\S+): \S', first, re.MULTILINE)
        self.assertEqual(lines, [node.name for node in self.headline.named_first()])
        for name in lines:
            self.assertRegex(behind, r'(?m)^(?:abbrev pub|unfoldable pub|pub record|pub data) %s ' % re.escape(name))

    def test_a_definition_without_a_sentence_is_refused(self) -> None:
        """One that is named and not shown, which has no comment and no sentence of the page."""
        comment = '-- a prefix that is told is inside a used delegated prefix, for which each router on the link holds it'
        self.change('hn_told/specs/Told.antt', '\n%s\npub record IsToldHeld' % comment, '\npub record IsToldHeld')
        with self.assertRaisesRegex(NotFound, 'a comment of hn_told/specs/Told.antt: IsToldHeld, or a sentence'):
            page(Sources(self.root))

    def test_a_changed_sentence_is_named(self) -> None:
        """A comment of a definition that is named and not shown: its first line is its sentence."""
        self.change('hn_told/specs/Told.antt', '-- a prefix that is told is inside', '-- one that is told is inside')
        self.assertEqual(self.differs(), 'hn_told/specs/Told.antt: the sentence for IsToldHeld changed')

    def test_words_and_signs_come_first(self) -> None:
        """The order of the page: what the definitions use stands before them, and the first part before all else."""
        heads = re.findall('^## (.*)$', pages(self.sources)['HEADLINE.md'], re.MULTILINE)
        self.assertEqual(heads, ['What is claimed', 'Two routers', 'The signs', 'The fields', 'The definitions', 'The others',
                                 'The counts'])

    def test_the_sample_is_that_of_the_transcripts(self) -> None:
        """The script and the transcript are files that checks/transcripts compares; without one there is no page."""
        for kind in ('script', 'transcript'):
            path = os.path.join(self.root, 'crates', DATA, '%s.%s' % (headline_text.SAMPLE, kind))
            with open(path, encoding='utf-8') as file:
                self.assertIn('\n```text\n%s```\n' % file.read(), self.page)
        with mock.patch.object(headline_text, 'SAMPLE', 'a_script_of_no_name'):
            with self.assertRaisesRegex(NotFound, 'a_script_of_no_name.script'):
                page(self.sources)

    def test_a_changed_comment_of_a_shown_definition_is_named(self) -> None:
        """The comment above a definition is a part of the page."""
        node = next(node for node in self.headline.behind if self.sources.entity(node).shown[0].startswith('-- '))
        comment = self.sources.entity(node).shown[0]
        self.change(node.file, comment, comment + ' indeed')
        self.assertEqual(self.differs(), '%s changed' % node.place)

    def test_a_changed_clause_is_named(self) -> None:
        """A clause that says something else."""
        clause = '\n'.join(self.headline.contract.clauses[HALVES[0]])
        self.change(self.headline.file, clause, clause.replace('{ ', '{ ¬ ', 1))
        self.assertEqual(self.differs(), '%s: run (%s) changed' % (self.headline.file, HALVES[0]))

    def test_a_clause_that_goes_is_named(self) -> None:
        """A clause that the page is about has another name."""
        self.change(self.headline.file, 'ensures %s {' % HALVES[1], 'ensures other {')
        with self.assertRaisesRegex(NotFound, 'the clause %s of run' % HALVES[1]):
            page(Sources(self.root))

    def names(self) -> Set[str]:
        """What the page of the changed copy has that the page has not."""
        return set(items(page(Sources(self.root)))) - set(items(self.page))

    def test_what_a_clause_cites_anew_is_counted(self) -> None:
        """Two definitions more, below the one that a clause cites: they appear, and the counts grow by them."""
        node = next(node for node in self.headline.of_one_world if not node.is_type)
        code = '\n'.join(self.sources.entity(node).code)
        self.change(node.file, code, code.replace('=', '= IsAnew →', 1)
                    + '\n\n-- anew\nabbrev pub IsAnew : Type 0\nIsAnew = IsBelow\n'
                    + '\nabbrev pub IsBelow : Type 0\nIsBelow =\n    (n : ℕ) → n ≡ n\n')
        self.assert_grown(node)

    def assert_grown(self, node: Node) -> None:
        """The counts have two definitions and five lines more, and no file more."""
        before, after = dict(self.headline.counted()), Headline(Sources(self.root))
        for what, nodes in after.counted():
            grown = 0 if node.name not in self.names_of_row(what) else 1
            definitions, lines, files = self.headline.count(before[what])[:3]
            self.assertEqual(after.count(nodes)[:3], (definitions + 2 * grown, lines + 5 * grown, files), what)
        appeared = self.names() - {'the first part: the sentence for IsAnew'}
        self.assertEqual(appeared, {'%s: IsAnew' % node.file, '%s: IsBelow' % node.file})

    def names_of_row(self, what: str) -> Set[str]:
        """The definitions that a row of the counts is about, as far as the test has to know."""
        half = next((half for half in HALVES if what.startswith('`%s`,' % half)), None)
        clauses = self.headline.contract.clauses if half is None else [half]
        return {node.name for node in self.sources.cited_by_clauses(self.headline.file, 'run', clauses)}

    def test_what_goes_and_appears_is_named(self) -> None:
        """A page that lacks a definition, and one that has it."""
        shown = self.headline.behind[0]
        without = self.page.replace('\n'.join(self.sources.entity(shown).shown) + '\n\n', '', 1)
        self.assertNotEqual(without, self.page)
        self.assertEqual(difference(without, self.page), '%s appeared' % shown.place)
        self.assertEqual(difference(self.page, without), '%s went' % shown.place)

    def test_a_sign_that_the_key_lacks_is_refused(self) -> None:
        """The fault names the definition and the sign."""
        node = self.first_with(self.headline.shown, ' ≡ ')
        self.change_definition(node, ' ≡ ', ' ≅ ')
        with self.assertRaisesRegex(NoSuchSign, '%s uses `≅`' % node.place):
            page(Sources(self.root))

    def assert_numbers_of_the_readme(self) -> None:
        """A README with another number is refused."""
        path = os.path.join(self.root, 'README.md')
        with open(path, encoding='utf-8') as file:
            text = file.read()
        for changed, status in ((text.replace(' definitions with ', '1 definitions with '), 1), (text, 0)):
            with open(path, 'w', encoding='utf-8') as file:
                file.write(changed)
            self.assertEqual(self.run_program().returncode, status)

    def run_program(self, *words: str) -> 'subprocess.CompletedProcess[str]':
        """Runs the program of the copy."""
        program = os.path.join(self.root, 'checks', 'headline')
        return subprocess.run([sys.executable, program] + list(words), stdout=subprocess.PIPE,
                              stderr=subprocess.PIPE, encoding='utf-8')

    def test_the_program_compares(self) -> None:
        """Without a page, with its page, and with a definition changed: the status, and one line."""
        self.assertEqual(self.run_program().returncode, 1)
        self.assertEqual(self.run_program('--write').returncode, 0)
        self.assertEqual(self.run_program().returncode, 0)
        self.assert_numbers_of_the_readme()
        for nodes, name in ((self.headline.tlvs, 'CLAUSES.md'), (self.headline.behind, 'HEADLINE.md')):
            node = self.first_with(nodes, ' ≡ ')
            self.change_definition(node, ' ≡ ', ' ≢ ')
            ran = self.run_program()
            self.assertEqual((ran.returncode, ran.stdout), (1, 'docs/%s: %s changed\n' % (name, node.place)))
        self.assertEqual(self.run_program('--read').returncode, 2)


if __name__ == '__main__':
    unittest.main()

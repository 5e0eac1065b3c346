"""A small repository, on which the commands are tried."""

SHAPES = '''-- Shapes.
pub mod Deep
use Rattle.std.specs.Prelude.{ℕ}

-- a shape
pub data Shape : Type 0 where
  Round : Shape
  Square : Shape
'''

FACTS = '''-- Facts of a lantern.
use Rattle.std.specs.Prelude.{◌≡◌, ℕ}

use Rattle.one.specs.Shapes.{Shape}

-- ---- apart

-- what is claimed
-- of a number
pub record IsClaimed (n : ℕ) : Type 0 where
  -- a comment in it
  pub same : n ≡ n

  pub alike :
      (k : ℕ) → IsClaimed k

abbrev pub number : ℕ → ℕ
number zero = 7
-- else
number n = n
'''

AROUND = '''-- What is held.
use Rattle.std.specs.Prelude.{ℕ}

module _ {K : Type 0} (k : K) where
  -- it is held
  abbrev pub held : K
  held = k
'''

LIB = r'''//! A crate. It has `pub fn commented() {`.
#![tactic(auto)]

mod forms;

pub use forms::{Thing, Wide};

/// Text with brackets, as '{' and "}".
pub const TEXT: &str = "} pub fn quoted() {";
const MARKS: [char; 3] = ['\'','{', '\\'];
const RAW: &str = r#"a "} quoted"#;

/// The first.
pub fn first<'a>(x: &'a str) -> Option<&'a str> {
    // A bracket in a comment }
    /* and another } */
    fn within() -> char {
        '}'
    }
    Some(x)
}

pub mod inner {
    /// The second.
    pub const fn second() -> u8
        ensures { result ≡ 2 }
    {
        2
    }

    mod deeper {
        pub fn third(x: &mut u8) {}

        pub(super) fn hidden() {}
    }
}

/// A law of an argument.
pub fn is_lawful(x: &u8)
    requires { x.now ≡ 1 }
    ensures { x.now ≡ 1 }
{}
'''

FORMS = '''ghost use Rattle.std.specs.Prelude.{◌≡◌, ℕ};

use std::marker::Model;

/// A thing.
#[derive(Drop)]
pub struct Thing {
    value: u8,
}

struct Hidden(u8);

pub enum Kind {
    One { value: u8 },
    Two,
}

impl Model for Thing {
    ghost Value = { ℕ };

    ghost view = { λ t. t.value };
}

impl<T: Fn(u8) -> u8> Wide for Other<T> {
    fn go(&mut self) -> u8 {
        1
    }
}

impl Thing {
    pub fn new() -> Thing
        ensures { result ≡ 0 }
    {
        Thing { value: 0 }
    }

// begin
    /// Takes it. The text may say `ensures { }`.
    ///
    /// # Errors
    ///
    /// Out of memory.
    #[inline]
    pub fn take<'b, T: Copy>(
        &'b mut self,
        other: T,
    ) -> Result<u8, ()>
        requires small { self.old ≡ 1 }
        // what it answers
        ensures ok { (n : ℕ) → record { a = n; b = "}" } ≡ result
            → n ≡ n' }

        // ensures nothing { so far
        ensures* lends { sem 𝓛 (lends result) }
        ensures { result ≡ result }
        ensures err { ⊥ → result.new ≡ result }
    {
        if other == 1 { return Err(()); }
        Ok(1)
    }

    fn within(&self) -> u8
        ensures { result ≡ 1 }
    {
        1
    }

    pub fn dim<'b>(&'b mut self) {}

    /// That it is a thing.
    pub fn is_thing(&self)
        ensures { self.now ≡ self.now }
    {}
}

/// What goes.
pub trait Wide {
    /// How far.
    ghost far: { Self → ℕ };

    const MOST: u8 = { 3 };

    /// Goes.
    fn go(&mut self) -> u8
        requires { far self.old ≡ 0 }
        ensures { far self.new ≡ 1 };
}

pub(crate) trait Narrow {
    fn stay(&self) -> u8
        ensures { result ≡ 1 };
}

impl Wide for Thing {
    ghost far = { λ t. t };

    fn go(&mut self) -> u8
        ensures more { result ≡ 1 }
    {
        1
    }
}

impl Narrow for Thing {
    fn stay(&self) -> u8
        ensures { result ≡ 1 }
    {
        1
    }
}

impl Wide for Hidden {
    fn go(&mut self) -> u8
        ensures { result ≡ 1 }
    {
        1
    }
}

impl From<Vec<u8>> for Thing
where
    u8: Copy,
{
    fn from(_: Vec<u8>) -> Thing
        ensures { result ≡ 0 }
    {
        Thing::new()
    }
}

pub(crate) fn hidden() -> u8 {
    1
}

pub unsafe fn after() -> [u8; 2] {
    [1; 2]
}
'''

SMALL = {
    'crates/one/specs/Lib.antt': 'pub mod Shapes\npub mod Facts\npub mod Around\n',
    'crates/one/specs/Shapes.antt': SHAPES,
    'crates/one/specs/Shapes/Deep.antt': 'use Rattle.std.specs.Prelude.{ℕ}\n\nabbrev pub number : ℕ\nnumber = 7\n',
    'crates/one/specs/Facts.antt': FACTS,
    'crates/one/specs/Around.antt': AROUND,
    'crates/two/src/lib.rt': LIB,
    'crates/two/src/forms.rt': FORMS,
    'crates/two/src/forms/part.rt': '/// The last.\npub fn last() -> u8\n    ensures { result ≡ 1 }\n{\n    1\n}\n',
}
"""The definitions and the code."""

NAMED = {
    'crates/lantern/src/lib.rt': '// A lantern, lit by a lantern.\npub fn is_lantern() {}\nfn lanterns() {}\n',
    'crates/lantern/src/dark.rt': 'fn dark() {}\n',
    'crates/one/proofs/Lit.antt': 'use Rattle.two.specs.declared.kind.Kind.TheVariants.{Lantern2}\nlit = 1\n',
    'crates/one/proofs/forms/lantern/Answers.antt': 'answer = 1\n',
    'crates/one/proofs/forms/lanterns/Answers.antt': 'answer = 1\n',
    'crates/one/must-fail/dim.edit': '-SetLantern\n+Set\n',
    'crates/one/further-edits/dim_lantern.edit': '-lit\n+dim\n',
    'crates/one/data/lit.script': 'lantern A\nlanternlit A\n',
    'docs/LANTERN.md': 'A lantern that IsClaimed.\n',
    'docs/pictures/lantern.png': 'lantern\0',
    'README.md': 'Lanterns.\n',
    'tools/light': 'LANTERN = 1\nset_lantern(lantern)\n',
}
"""Files that name a word, and some that name others like it."""

"""The words of the page with the headline behind its first part, which definitions it shows there, and the further signs."""
from headline_text import Row

IN_WORDS = {
    'hn_audit/specs/Quiet.antt': 'IsQuietByRules',
    'hn_audit/specs/Settled.antt': 'IsSettledByRules',
    'hn_world/specs/Replay.antt': 'IsReplayed',
    'hn_world/specs/Within.antt': 'AreWithinLimits',
}
"""The definitions near the clauses that are not shown: each says what the comment where it is named says."""

TLVS = ('hn_tlv/specs/', 'hn_typed/specs/')
"""The folders whose definitions say how bytes are read. The page of the other clauses shows them."""

TYPES = (
    ('hn_world/src/parts.rt', 'Parts'),
    ('hn_world/src/member.rt', 'Member'),
    ('hn_rules/src/state.rt', 'State'),
    ('hn_data/src/view.rt', 'Entry'),
    ('hn_pair/src/assigned.rt', 'Assigned'),
    ('hn_assign/src/advertised.rt', 'Advertised'),
    ('hn_base/src/key.rt', 'Key'),
    ('hn_hash/src/leaf.rt', 'Leaf'),
)
"""The types that a reader of the definitions needs: they are shown with their fields."""

BEGINNING = '''## The others

Behind the first part stand all other definitions on which the two claims rest, with their comments. Those that say how bytes are read as TLVs are on the page [CLAUSES](CLAUSES.md). That page also shows nine more clauses of `run` in the same way. [ASSURANCE](ASSURANCE.md) has all clauses in words.

### More signs
'''

TYPES_SAY = '''### The types

The types that the definitions use most, with their fields. Contracts see a `Shared<T>` as its `T`, a type that holds a list as that list, and `u8`, `u32` or `u64` as a natural number. A `Router` is seen as its `State`, a `Prefix` as a `PlainPrefix`: without what a type of the program keeps beside.
'''

DEFINITIONS = '''### The definitions behind them

Each comes after what first names it, in the first part or here. Files are below `crates/`. After `...` stands a sentence for a definition that is named there and is not on this page, with its file.

#### What types are seen as
'''

SENTENCES = {
    'hn_world/specs/Replay.antt: Replays': '#### Of each moment, and of equal hashes',
    'hn_audit/specs/Reached.antt: IsRunning': '''#### Of sound, settled and quiet

Two endpoints of one router are never on one link: law `hn_world/src/laws.rt: always_attached`. An endpoint is on at most one link: `link_of` gives one link or none.''',
    'hn_plain/specs/Plain.antt: Uses': '''The number 32 is a limit of this program, and of no RFC. In `Uses` the variable `front` is any sorted list of outermost prefixes that come before d. If each such list has fewer than 32 elements, then fewer than 32 come before d.''',
}
"""What stands before a definition, by its place."""

GLOSSES = {
    'hn_world/specs/Replay.antt: Goes': 'these events one after another, each of them a step',
}
"""What a definition says that the page names and does not show, if its comment does not say that to a reader of the page."""

COUNTS = '''Definitions are those of folders `specs/`, and their lines those that are neither empty nor comments. All that is named is followed, but for what is the kit's. "Of one world" leaves out `Always` and `Throughout`, which say of which worlds a half is claimed. With `Goes` begins how a world comes about. Types are those that definitions or their fields name. `checks/headline --others` prints each definition that the eleven clauses rest on and that neither page shows, with its file.'''

KEY = (
    Row('`Form.Lab`, `item.Version`', '.', 'one way to make a `Form`, `Lab`; one way to make an item, `Version`. After a capital or the word '
        '`item` the dot is no field'),
    Row('`a < b`, `a ≤ b`', '< ≤', '`a` is less than `b`; it is not greater'),
    Row('`a + b`, `a - b`, `a * b`, `a / b`, `a % b`, `a ^ b`', '+ - * / % ^',
        'of natural numbers: the sum, the difference or 0, the product, the quotient, the remainder, the power'),
    Row('`a == b`, `a && b`', '== && Bool', 'as a `Bool`: whether they are equal; whether both are true'),
    Row('`if b then x else y`', 'if then else', '`x` if `b` is true, else `y`'),
    Row('`R x y ≡ Less`, `IsStrictlySortedBy R xs`', 'Less IsStrictlySortedBy',
        'by the order `R`, `x` comes before `y`; each element before those after it'),
    Row('`nat_cmp`, `on f R`, `then_cmp R Q`', 'nat_cmp on then_cmp Ordering',
        'orders: of numbers; by what `f` gives; by `R`, and of what is equal by `R`, by `Q`'),
    Row('`λ x. a`', 'λ', 'the function that gives `a` for `x`'),
    Row('`abbrev pub f : T → U`, `f x = a`', 'abbrev pub unfoldable', '`f` gives a `U`, which for `x` is `a`; so with `unfoldable`'),
    Row('`pub record R : Type 0 where`', 'record where', 'a type of values, if nothing stands before the `:`'),
    Row('`pub data D : Type 0 where`', 'data', 'a `D` is made in one of these ways'),
    Row('`record { f = a; g = b }`', 'record { ; }', 'the value with these fields'),
    Row('`ℕ`', 'ℕ', 'a natural number'),
    Row('`[]`, `x ∷ xs`, `length xs`', '[] ∷ length', 'the empty list; `x`, then `xs`; how many elements'),
    Row('`map f xs`, `filter_map f xs`', 'map filter_map', 'each element by `f`; what `f` gives of each, if something'),
    Row('`flat_map f xs`', 'flat_map', 'the lists that `f` gives, one after another'),
    Row('`find p xs`, `take n xs`', 'find take', 'the first element of which `p` is true; the first `n` elements'),
    Row('`slice_index_or xs k x`', 'slice_index_or', 'the element at place `k`, from 0, or `x` if there is none'),
    Row('`to_be_bytes w32 n`', 'to_be_bytes w32', 'the 4 bytes of `n`, the greatest first; with `w16` 2, with `w128` 16'),
    Row('`md5 xs`', 'md5', 'the MD5 of some bytes (RFC 1321)'),
    Row('`count_by p xs`', 'count_by', 'of how many elements `p` is true'),
    Row('`IsTrue b`', 'IsTrue', 'the Boolean `b` is true'),
    Row('`Option T`, `Some x`', 'Option Some', 'perhaps a `T`; there is one, which is `x`'),
    Row('`option_map f o`', 'option_map', 'what `f` gives for what is in `o`, if there is something'),
)
"""The key of the signs that only the definitions behind the first part use."""

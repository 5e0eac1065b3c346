"""The words of the first part of the page with the headline that no source says, and which definitions it shows."""
from typing import NamedTuple, Tuple


class Row(NamedTuple):
    """A row of a key: how it is shown, the signs and words that it explains, and how they are read."""

    shown: str
    signs: str
    says: str


class Part(NamedTuple):
    """Definitions of the first part, as `FILE: NAME`, and what stands before them."""

    before: str
    places: Tuple[str, ...]


class Field(NamedTuple):
    """A row of the table of fields: of what, its type, the fields, and what they are."""

    of: str
    place: str
    fields: str
    says: str


SAMPLE = 'two_routers_share_a_prefix'
"""The script of crates/transcripts/data that the page shows with its transcript."""

BEGINNING = '''# The headline in one reading

For a reader who knows HNCP and doubts the claim. Up to "The others" the page takes about half an hour, half of it for Sound, Settled and Quiet. What stands behind may wait. `checks/headline --write` copies clauses and definitions from the sources. The prose explains them, and is not proved.

## What is claimed

The program `hncp` simulates homes. It reads a **script**: routers, links, and what happens to them. The word after `hncp` chooses its **form**: `lab` plays a given script, `soak` one of its own making, and `udp` also sends each delivered datagram over a loopback socket.

All forms call one function, `run`. A named promise of `run` is a **clause**, and is proved for every script and seed. Two clauses are the headline:'''

CLAIMED = '''- **`headline`**: two routers with equal network state hashes hold equal node data, or there is a **collision**: two different texts that they hash have one hash.
- **`settled`**: a running router that is settled and quiet is sound.

Both are said of the home at the end of the play, `result.world`, and of each earlier moment. `world_parts` leaves out whether the trace is kept for reading. If a line of the script cannot be read, or memory ends, there is no world, and they say nothing.

| Word | Means |
|---|---|
| world | The whole home at one moment: routers, links, datagrams under way |
| trace | All events so far, as the script and its seed brought them: deliveries, losses, repeats, forged datagrams, restarts, changes of links, and ticks, at which one router looks at its timers |
| set of a router | The running routers that it reaches over peers (RFC 7787, section 4.6), itself too |
| used | A router uses a delegated prefix d if it sees d announced, the valid lifetime has not ended, d has at most 64 bits, and d is inside no other such prefix. Of more than 32 it uses the first 32, in the order of addresses |
| not wanted | A used d whose preferred lifetime has ended, while that of another used one has not |
| post | What a router asks prefixes for: an endpoint, or its private link, where no other router is (RFC 7695, section 2). The private link counts as endpoint 0. A router has one only if the script gives it one, with a line `private` |
| assignment | The prefix that a router has for a post and a used d. The router publishes it in its node data, or follows another one on the link, which publishes it |

- **Settled**: each identifier that the router reaches is that of exactly one running router. All of its set reach the same, hold each other's node data as these now are, use the same delegated prefixes, and want the same of these. Two endpoints of the set name each other as peers if and only if they are on one link. No other running router is on a link of the set.
- **Quiet**: none of the set would make, change or destroy an assignment.
- **Sound**: each assignment is inside a used d. For each used d, each link where the set has a post has one prefix, or goes without. One prefix: all posts there have it, and exactly one publishes it. Without: no post there has one, and the router of each does not want d, or sees nothing free in d. Prefixes of different links do not overlap.

**Not claimed:**

- That a home comes to be settled and quiet, or when. ([CAMPAIGNS](CAMPAIGNS.md#when-does-a-home-come-to-rest) has how soon random homes did.)
- That hosts are told. Sound speaks of assignments, applied or not. (The clause `told` of [CLAUSES](CLAUSES.md) speaks of hosts.)
- Anything of real links, or of `node`, the form that is one router by the clock. `node` has no world.
- IPv4: RFC 7788 writes an IPv4 prefix as one of 96 bits or more, and no d of more than 64 bits is used.
- Delegated prefixes past the first 32; two endpoints of one router on one link, which no script can have; and [what the model leaves out](MODEL.md#what-is-left-out).

**What would refute it:** a script after which two routers have equal hashes, other node data, and no collision. Or one after which `audit A` says `settled=yes quiet=yes`, and lines `prefix` of its set show what is not sound: prefixes of two links that overlap; two prefixes for one link and one d, or none on some of its posts; no publisher, or two. `tools/judge` looks for these in a capture of the play (`tools/capture`).

**What must be trusted:** the toolchain that checked the proofs and made the program, and that the definitions mean what the RFCs mean ([ASSURANCE](ASSURANCE.md#what-is-trusted)).

## Two routers

A script, and what `hncp lab` writes for it:'''

SAMPLE_SAYS = '''| Text | Says |
|---|---|
| `external A .. 7200 3600` | A has an uplink with this delegated prefix, valid and preferred for so many seconds |
| `run 20000 100` | the clock goes on to 20,000 ms, in steps of 100 ms |
| `net=same ids=same` | equal hashes, sequence numbers and node data; and equal node identifiers, which are not hashed. A collision would show as `net=collide` |
| `ep=1 in=.. is=..` | the post, d, and the prefix that is assigned |
| `published=2`, `published=no` | this router publishes it, with priority 2; another one does |
| `applied=yes` | hosts may be told of it |

By a law `audit` says `settled=yes` and `quiet=yes` exactly where the definitions below hold: `hn_plain/src/laws.rt: plain_homes_are_the_same`. (A **law** is a proved fact about definitions.) Then `audit` writes `sound=yes` without a look, since that is proved.'''

SIGNS = '''`Uses s d` is the claim `Uses` about `s` and `d`. After that `¬` binds closest, then `×`, `⊎`, `↔`, and `→` least. A comment stands after `--`.'''

FIELDS_SAY = '''The fields that a first reading needs:'''

FIELDS = (
    Field('world `w`', 'hn_world/src/parts.rt: Parts', 'members trace version',
          'its routers; its trace; 1 or 2, by the first line of the script'),
    Field('router `r`', 'hn_world/src/member.rt: Member', 'router', 'its state'),
    Field('state `s`', 'hn_rules/src/state.rt: State', 'id net reach',
          'node identifier; network state hash; the identifiers that it reaches, as it last worked them out'),
    Field('state `s`', 'hn_rules/src/state.rt: State', 'own held private ports',
          '`own.body`: its node data, as bytes; `held.assigned`: its assignments; and two that tell its posts'),
    Field('assignment `c`', 'hn_pair/src/assigned.rt: Assigned', 'delegated endpoint prefix published',
          'd; the post; the prefix that is assigned; the priority with which it is published, or `None`'),
    Field('advertised `a`', 'hn_assign/src/advertised.rt: Advertised', 'prefix key',
          'the prefix; its priority, node and endpoint. Keys are compared in this order, and the greater one wins (RFC 7695, section 4.1; RFC 7788, section 6.3.1)'),
)
"""The fields that the definitions of the first part use."""

DEFINITIONS = '''Each has a sentence before it. What it names is put in words after `...`, and defined behind "The others".'''

FIRST = (
    Part('''### At each moment

`Always P w`: wherever the trace of `w` is cut into a past and a future, the past leads to a world `then`, and `P` holds of it. By law a trace leads to at most one world: `hn_world/src/laws.rt: at_most_one_world`. So `then` is the world of that moment. Where no future is left it is `result.world` itself: that its own trace leads to it is the clause `replayed` of `run`.''', (
        'hn_world/specs/Replay.antt: Always',)),
    Part('''### Claim 1: equal hashes

Two routers with equal hashes have equal leaves, or a collision is among what these two hash. A router keeps `net` as a field. By law it is at each moment the hash of the leaves as they then are: `hn_rules/src/laws.rt: hash_is_of_leaves`.

Each hash of 64 bits collides somewhere. So `IsCollision` says where: the texts of these two routers collide, or the texts are equal and node data at one place of the two lists collide. The script `two_data_of_one_hash.script` has such a home, and `compare` shows the two.''', (
        'hn_world/specs/Leaves.antt: EqualHashesAgree', 'hn_hash/specs/Agreement.antt: IsCollision')),
    Part('''### Claim 2: settled and quiet routers are sound

Each router of the set is judged by what it saw up to its own last event.''', (
        'hn_plain/specs/Plain.antt: SettledAreSound',)),
    Part('''### Sound

A router is sound if the three fields hold, which have comments. In `each_link`, `t` and `f` say only that some post of the set is on the link.''', (
        'hn_plain/specs/Plain.antt: IsSound',)),
    Part('''### Settled

A router is settled if the six fields hold, which have comments. Three of them need a word:

- `known`: with it `r` is of its own set, since each router reaches itself.
- `used` does not follow from `held`. Each router counts lifetimes at its own last event, so one may have ended for one router and not yet for another.
- `linked`: a Peer TLV that only one of the two has makes no link.''', (
        'hn_plain/specs/Plain.antt: IsSettled',)),
    Part('''### Quiet

A router is quiet if each of its set rests.''', (
        'hn_plain/specs/Plain.antt: IsQuiet',)),
    Part('''A **rival** of a post for d is a prefix inside d that another node advertises on the post's link. The best rival has the greatest key.

A router rests if each assignment is for a used d and a post (`pairs`), and each post and used d is in one of three cases (`each`). It has an assignment that stays ahead; it has one that stays behind; or it goes without, and has no rival. No router has two assignments for one post and d.''', (
        'hn_plain/specs/Plain.antt: Rests',)),
    Part('''Ahead: it is published and valid, and its key is above that of the best rival, if there is one. Behind: it is not published, and has the best rival's prefix. A router publishes with priority 2.''', (
        'hn_plain/specs/Plain.antt: StaysAhead', 'hn_plain/specs/Plain.antt: StaysBehind')),
)
"""The definitions of the first part, in its order."""

AFTER = '''**Why claim 2 is no restatement.** A router rests by what it sees. Sound speaks across routers and links. Between them stand `held` (what a router sees of another is what that one has) and `linked` (what it takes for its link is the link). Without these, two routers may rest and disagree.

### Questions

- **Is quiet what the program would do?** By a clause a router is quiet exactly if the assignment subroutine (RFC 7695, section 4.1), run once more on each of its set with each backoff due, changes no assignment: `hn_audit/src/audit.rt: quiet (fixed)`.
- **What ties the written lines to the world?** The clause `lab` (in [CLAUSES](CLAUSES.md)): with status 0 or 2 the text and `result.world` are those of one play of the script.
- **Does claim 2 rest on claim 1?** No: `held` asks for the node data themselves.
'''

GLOSSES = {
    'hn_world/specs/Replay.antt: Replays': 'these events lead from an empty home to this world. A `Traced` is an event with the random numbers that it drew',
    'hn_rules/specs/Nodes.antt: leaves_of': 'sequence number and node data of each node that it reaches, as it now holds them, in the order of identifiers',
    'hn_hash/specs/Hash.antt: Collides': 'two texts differ, and have one hash: the first 8 bytes of MD5',
    'hn_hash/specs/Network.antt: leaf_text': 'the text whose hash is the network state hash',
    'hn_hash/specs/Agreement.antt: CollidesInPlace': 'the node data at one place of both lists collide',
    'hn_audit/specs/Reached.antt: IsReached': 'the second router is of the set of the first',
    'hn_plain/specs/Plain.antt: Uses': 'the router uses d',
    'hn_base/specs/Prefix.antt: IsWithin': 'each address of the first prefix is in the second',
    'hn_audit/specs/Sound.antt: Link': 'a link of the world, or the private link of a router',
    'hn_base/specs/Prefix.antt: PlainPrefix': 'a prefix. `EpId` is the number of an endpoint',
    'hn_plain/specs/Plain.antt: IsThere': 'the router `s` is of the set of `r`, and its post `e` is on the link',
    'hn_audit/specs/Sound.antt: HasAssignment': 'the post `e` of the router has the assignment `c`, which is for `d`',
    'hn_plain/specs/Plain.antt: DoesNotWant': 'the router uses d and does not want it',
    'hn_plain/specs/Plain.antt: GoesWithout':
        'the post has no assignment for d, and its router does not want d or sees nothing free in d: each prefix in d of the length '
        'that the post gets overlaps an advertised one',
    'hn_audit/specs/Settled.antt: HoldsState': 'the first router holds exactly the sequence number and node data that the second has',
    'hn_audit/specs/Reached.antt: AreOnOneLink': 'the two endpoints are attached to one link',
    'hn_plain/specs/Plain.antt: AreLinked': 'by these node data, endpoint `e` of the first node and `f` of the second name each other as peers',
    'hn_own/specs/Posts.antt: posts_of': 'the posts of the router',
    'hn_plain/specs/Plain.antt: IsRival': '`a` is a rival of the post for d',
    'hn_plain/specs/Plain.antt: IsBestRival': 'it is the best one',
    'hn_plain/specs/Plain.antt: own_key': 'the key of an own assignment there, with priority 2',
    'hn_base/specs/Key.antt: IsAbove': 'the first key is greater',
    'hn_plain/specs/Plain.antt: HasOnePrefix': 'each post on the link has an assignment for d, all have one prefix, and exactly one of them is published',
    'hn_plain/specs/Plain.antt: IsSeenValid': 'valid: nothing that overlaps it is advertised off the link with a key above its own',
}
"""What a definition says that the first part names and does not show, if its comment does not say that there."""

KEY = (
    Row('`ensures c { A }`', 'ensures { }', 'the clause `c`: whenever `run` answers, `A` holds of its `result`'),
    Row('`IfSome o P`', 'IfSome result', 'if there is something in `o`, `P` holds of it'),
    Row('`(x : T) → A`', '( ) : →', 'for each `x` of type `T`, `A`; so with several: `(a b : T) (c : U) → A`'),
    Row('`(x : T) × A`', '×', 'there is an `x` of type `T`, and `A` holds of it'),
    Row('`A → B`, `A ↔ B`', '→ ↔', 'if `A` then `B`; `A` if and only if `B`'),
    Row('`A × B`, `A ⊎ B`, `¬ A`', '× ⊎ ¬', '`A` and `B`; `A` or `B`, or both; not `A`'),
    Row('`a ≡ b`, `a ≢ b`', '≡ ≢', 'they are equal; they differ'),
    Row('`x.f`, `x.0`', '.', 'the field `f` of `x`; the number of an identifier or endpoint'),
    Row('`Contains xs x`, `All P xs`', 'Contains All', '`x` is an element of the list; `P` holds of each element'),
    Row('`List T`, `xs ++ ys`', 'List ++', 'a list of `T`; `xs`, then `ys`'),
    Row('`None`, `IsSome o`', 'None IsSome', 'nothing; something is there'),
    Row('`abbrev pub N : T → Type 0`, `N x = A`', 'abbrev pub Type =', '`N x` is a claim about a `T`: it is short for `A`'),
    Row('`pub record N (x : T) : Type 0 where`', 'record where',
        'the claim `N x`: each field below it holds, or is something that there has to be'),
)
"""The key of the signs that the first part uses."""

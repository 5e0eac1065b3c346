"""The words of the page with the clauses beside the headline, which definitions it shows, and the signs that only they use."""
from headline_text import Row

ALONE = {
    'hn_base/specs/Exists.antt': 'Some!',
    'hn_lab/specs/Transcripts.antt': 'IsLabTranscript IsOfTranscript IsTranscript IsWrittenOf Transcript TranscriptIsUnique',
}
"""The definitions that are shown of the clauses that stand without the others of their paragraph."""

BEGINNING = '''# Nine more clauses of `run`, and how bytes are read

For a reader who has read [HEADLINE](HEADLINE.md), which has the words and signs that are not here. `checks/headline --write` makes this page too, and `checks/headline` compares it.

## The words

| Form | What it does |
|---|---|
| `lab`, `soak`, `udp` | They play a script. That of `soak` has 2 to 32 routers, and about a tenth of its copies is lost. With `udp` too one process plays all routers |
| `node` | It is one router, by the clock. It sends and takes datagrams over loopback UDP |
| `decode`, `watch` | They write what a datagram says, and what the datagrams of a capture claim |

| `run` takes and answers | What that is |
|---|---|
| `words` | the words of the command line |
| `src`, `out` | the source and the sink: standard input and standard output |
| `wire`, `clock` | what datagrams are sent over, and what tells the moments |
| `result.status` | the exit status, 0 to 6 |
| `result.world` | the world to which a script led, if there is one |
| `world_parts result.world` | what this world is; it leaves out whether the trace is kept for reading |
| `result.served` | what came of the router of `node`, if it is that form |

| Word | Means |
|---|---|
| status | 0: done. 1: the words ask for no form. 2: the input is refused. 3, 4, 5: the source, the sink, the wire failed. 6: out of memory. With 0, 2, 4 and 5 there is a world, if the input is a script |
| past of a world | The worlds that its trace went through |
| copy | A datagram on its way to one receiver. A multicast becomes one copy for each receiver |
| by mail, over the wire | How a copy travels (`Route`): in memory, with `lab` and `soak`; by the socket, with `udp` |
| injected | A datagram that no router of the world sent. It comes from a line `inject`, from the question of a line `sync`, or, with `udp`, from the wire if other bytes come back |
| front | The beginning of a list or text: perhaps nothing, perhaps all |
| version of a world | In version 2 a router knows up to 1,024 other nodes, in version 1 up to 256. The HNCP-Version TLV is another thing |
| elected | By the capabilities of HNCP-Version, on one link: who serves DHCPv6 addresses, for example |
| told | By the bytes of Router Advertisements. The program has no DHCP |
| calm, of an event | Time passes; or a router of the set ticks, and no timer has a cause to change anything; or one of the set gets a copy by multicast from a peer, with the network state hash that it has itself, and no lifetime ends |
| the same, of other routers | A router that is not of the set may tick, and may get a copy after which it keeps its identifier |
| calm, of a home | It is settled and quiet, each peer was heard not long ago, and each copy that waits for one of the set says the network state hash that it has itself |
| transcript | What a play comes to: a status, a world and a text |

## The clauses
'''

CLAUSES = '''As they stand in the source, with their comments. The last two stand there under a longer comment, which says this of `lab`:

- With status 3 the clause says nothing. Otherwise there are bytes that were read. They are all that the source had left, if the source tells what it has. Standard input does not tell.
- If the bytes are a script, `lab` says that this script has a transcript by mail: it cannot be that there is none. The clause `only` says that any two are equal. So there is exactly one.
- What is written is a front of the text of the transcript. With status 0 or 2 it is the whole text, and the status and the world are those of the transcript.

Each form has a clause. That of `soak` says the same of the script of a soak: `hn_run/specs/Outcome.antt: IsSoakRun`, field `of_script`. `checks/clauses hn_run` prints all clauses.'''

NAMED = '''These the clauses name, and the page does not show them:'''

SIGNS = '''## More signs
'''

DEFINITIONS = '''## The definitions

Each comes after what first names it. Files are below `crates/`. After `...` stands a sentence for a definition that neither page shows, with its file.
'''

SENTENCES = {
    'hn_audit/specs/Laws.antt: SettledElectAlike': '''### Elections, and what hosts are told

A Router Advertisement has only prefixes of assignments that are applied: `hn_router/specs/Advertising.antt: IsInfoOf`. Until then no Router Advertisement of that router tells hosts of it. What hosts still hold from before is not said.''',
    'hn_world/specs/Replay.antt: Throughout': '''### Over time

`QuietStays` speaks of one event, `CalmStaysInTurns` of many one after another. A copy of other content than the table of words says, such as an answer with node data, is not calm. [MODEL](MODEL.md#a-quiet-home-stays) says which ticks are calm.''',
    'hn_world/specs/Authentic.antt: AuthenticUnlessInjected': '### Published',
    'hn_lab/specs/Transcripts.antt: IsLabTranscript': '''### Transcripts

`Some!` is weaker in form than "there is one": the proof refutes that there is none, and does not say how to find it. In usual mathematics the two are the same.''',
}
"""What stands before a definition, by its place."""

TLVS = '''## How bytes are read

The two claims of HEADLINE rest on these definitions too. With them HEADLINE and this page have all that the claims rest on, of one world.
'''

GLOSSES = {
    'hn_audit/specs/Calm.antt: AreWaitingCurrent': 'each copy that waits for one of the set is current: it says the network state hash of its receiver',
    'hn_audit/specs/Heard.antt: ArePeersLinked': 'each peer of each of the set is an endpoint of another of the set, on one link with it',
    'hn_audit/specs/Heard.antt: AreSendsHeard':
        'what each endpoint of the set last sent was heard by each endpoint on its link that has it as a peer, or waits for that one',
    'hn_audit/specs/Lasting.antt: GoesTimely': 'events one after another: time passes; a router ticks until then, and less than 42 s after peers were heard; a copy is delivered until then; or a copy is dropped whose receiver is away',
    'hn_world/specs/Names.antt: router_place': 'the place of the router of a name, in the order of definition',
    'hn_audit/specs/Quiet.antt: IsQuietByRules': 'as IsQuiet of HEADLINE, as the rules find it',
    'hn_audit/specs/Settled.antt: IsSettledByRules': 'as IsSettled of HEADLINE, as the rules find it',
    'hn_streams/specs/Output.antt: IsFrontOf': 'the first text is a front of the second',
    'hn_play/specs/Stage.antt: begun':
        'where the play of a script begins: nothing has happened, no copy is lost, each random number is 0, no endpoint sends '
        'Router Advertisements, and there is no text',
    'hn_lab/specs/Lab.antt: IsLabRun': 'the status, the world and the text are those of a play of the bytes that were read, or of their first fault',
    'hn_play/specs/Told.antt: bytes_of': 'the lines of a text, one after another',
    'hn_world/specs/Replay.antt: IsReplayed': 'the world is the replay of its own trace',
    'hn_world/specs/Within.antt: AreWithinLimits':
        'each router, and each copy of a datagram that was ever sent, is within the limits that MODEL lists',
}
"""What a definition says that the page names and does not show, if its comment does not say that to a reader of the page."""

KEY = (
    Row('`replicate n x`, `drop n xs`', 'replicate drop', '`n` times `x`; the list without its first `n` elements'),
    Row('`get_or xs k x`', 'get_or', 'the element at place `k`, from 0, or `x` if there is none'),
    Row('`IsUtf8 bytes`', 'IsUtf8', 'the bytes are a text in UTF-8'),
    Row('`to_be_bytes w16 n`', 'w16 w128', 'the 2 bytes of `n`, the greatest first; with `w128` 16'),
    Row('`map string_bytes words.now`', 'string_bytes words', 'the words of the command line, as bytes'),
    Row('`out.old`, `out.new`, `words.now`', 'out words', 'what is handed to `run`: before the call, after it, and what no call changes'),
    Row('`S.left src.old`, `K.held out.new`', 'S src K out',
        '`S` and `K` are the types of the source and the sink. What the source has left before the call, the sink holds after it: '
        '`Some` bytes, or `None` if it does not tell'),
    Row('`SOURCE_FAILED`', 'SOURCE_FAILED', 'status 3'),
    Row('`{A : Type 0} → T`', '{ : }', 'for each type `A`. It is not written where the name is used: `Some! P`'),
    Row('`Some!`', '!', 'a name. The `!` is a part of it'),
    Row('`⊥`', '⊥', 'what is never so'),
    Row('`f _ = a`, `Unit {0}`', '_ Unit', 'in all other cases; what always holds'),
    Row('`a - b`, `true`', '- true', 'the difference, or 0; yes'),
    Row('`slice_get xs k ≡ Some x`', 'slice_get', '`x` is the element of `xs` at place `k`, from 0'),
)
"""The key of the signs that only these clauses and their definitions use."""

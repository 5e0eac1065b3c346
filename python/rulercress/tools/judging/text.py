"""The text of a judgement."""
import collections

from . import rules

SHOWN = 3        # findings of one name and node, or source, unless all are asked for


def listed(findings, every):
    """The lines of findings: of each name and node, or source, the first ones, and how many more there are."""
    counts = collections.Counter()
    last = {}
    for finding in findings:
        key = finding.rule, f'node={finding.node}' if finding.node else finding.source
        counts[key] += 1
        last[key] = finding
        if every or counts[key] <= SHOWN:
            yield f'  {finding}'
    for key, count in counts.items():
        if not every and count > SHOWN:
            yield f'  {count - SHOWN} more {key[0]} of {key[1]}, the last in frame {last[key].frame}'


def text_of(made, every):
    """The lines on a judgement."""
    sources = {address for (_, address), source in made.senders.known.items() if source.ports}
    yield f'capture datagrams={made.count} sources={len(sources)} end={made.end:.6f}'
    yield from made.remarks
    for datagram in made.cut:
        yield f'frame {datagram.frame} {datagram.source} cut: the capture has {len(datagram.payload)} of {datagram.length} bytes; not judged'
    for title, wanted in [('by hncp decode, whose text is proved', rules.BY_DECODE), ('computed by judge, not proved', rules.BY_JUDGE)]:
        found = [finding for finding in made.findings if finding.rule in wanted]
        yield f'findings {title}: {len(found)}'
        yield from listed(found, every)
    if made.told:
        yield f'told by judge, and no finding: {len(made.told)}'
        yield from listed(made.told, every)
    yield f'the home at the end, computed by judge from what hncp decode says{"" if made.home.is_whole else "; not all of it was captured"}:'
    for line in made.home.lines():
        yield f'  {line}'


def rule_lines():
    for title, found in [('by hncp decode', rules.BY_DECODE), ('computed by judge', rules.BY_JUDGE), ('told by judge, no finding', rules.TOLD)]:
        for name, (sections, meaning) in found.items():
            yield f'{name}: {meaning} ({sections}); {title}'

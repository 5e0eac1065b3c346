"""Says who violates what in a capture of HNCP, and then which nodes, peers, links and prefixes it shows at its end.

Each finding is a line with its frame, the source, perhaps the node, the name of the finding, and the section that it goes by:

  frame 7 fe80::1 node=00000001 data-hash: number 5 has the hash .., and its data give .. (RFC 7787, section 4.1.1; ..)

Findings of the text of `hncp decode` come first; that text is proved. All others are computed by this tool, which is not.
Of findings with one name and node, or source, three are shown, and the others counted. Capture with the filter
`udp port 8231 or ip6 proto 44`, as tools/decode-capture says. The status is 0 if nothing was found, 3 if something was, 1 if
the capture or the program is not as it has to be, also where nothing was found in a capture with cut frames, and 2 on bad
arguments.
"""
from ..tools import captures, common
from ..tools.common import Problem
from ..tools.judging import text
from ..tools.judging.judgement import SLACK, judge

FOUND = 3


class ShowRules(common.argparse.Action):
    """Writes what is looked for, and ends."""

    def __call__(self, given, *_):
        print('\n'.join(text.rule_lines()))
        given.exit()


def readable(datagrams, faults):
    """The datagrams up to a fault of the capture, which is put down."""
    try:
        yield from datagrams
    except Problem as fault:
        faults.append(fault)


def main(words=None):
    given = common.parser(__doc__, [
        captures.PORTS,
        ('--slack', {'metavar': 'MS', 'default': f'{SLACK * 1000:g}', 'help': f'how many milliseconds moments may be off ({SLACK * 1000:g})'}),
        ('--all', {'action': 'store_true', 'help': 'show each finding'}),
        ('--rules', {'action': ShowRules, 'nargs': 0, 'help': 'write what is looked for, and by which section'}),
        captures.CAPTURE,
    ])
    words = given.parse_args(words)
    ports, slack = captures.ports_of(given, words), common.number(words.slack, 10 ** 9)
    if slack is None:
        given.error(f'{words.slack} is no number of milliseconds')
    common.must_play('hncp')
    capture, faults = captures.Capture(words.capture, ports), []
    found = list(readable(capture, faults))
    if faults and not found:
        raise faults[0]
    made = judge(found, ports=ports, slack=slack / 1000)
    if capture.left_out:
        made.remarks.append(f'left out: {capture.left_out} datagram(s), of which a fragment is missing')
    print('\n'.join(text.text_of(made, words.all)))
    if faults:
        raise faults[0]
    if made.findings:
        return FOUND
    if made.cut:
        raise Problem(f'{len(made.cut)} of {made.count} datagrams are cut, and were not judged; capture with tcpdump -s 0')
    return 0

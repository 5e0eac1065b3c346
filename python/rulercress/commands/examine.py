"""Examines a live HNCP device on a link: it plays a neighbour, sends what a rule speaks of, and sees what the device does.

  tools/examine eth0 --pcap examination.pcap

Each examination has a rule of an RFC, and ends with a verdict:

  pass         the device does what the rule says
  fail         it does not; the frames of the capture show it
  cannot-tell  it could not be seen, and why

The device is the one HNCP node that is heard on the interface. With two interfaces it stands between two links. The examiner
takes identifiers of its own, and leaves nothing behind that does not time out; the examinations of `identifier` make the device
take a new identifier. At the end tools/judge is held over what was captured, which takes tshark and hncp. Of its findings those
on the device count, but for `network-hash` and `number-falls`: answers in several datagrams that overtake each other can show
these. In a report for test servers a failure is `failure` with MUST or SHOULD as its type, and `cannot-tell` is `skipped`.

It needs Linux, root (CAP_NET_RAW), a link-local address on each interface, and no other program on UDP port 8231 of that address.
The status is 0 if nothing failed, 3 if something did, 1 if an interface, a right, a file or the device is missing, also where the
device stops in the middle and nothing failed before, and 2 on bad arguments.
"""
import argparse
import contextlib
import signal

from ..tools import common
from ..tools.examining import catalogue, running
from ..tools.examining.session import SLACK


class ShowList(argparse.Action):
    """Writes what is examined, and ends."""

    def __call__(self, given, *_):
        print('\n'.join(catalogue.listed()))
        given.exit()


def identifier(text):
    if len(text) != 8 or not set(text) <= set('0123456789abcdefABCDEF'):
        raise argparse.ArgumentTypeError(f'{text} has not 8 hexadecimal digits')
    return bytes.fromhex(text)


def stop(*_):
    raise KeyboardInterrupt


def main(words=None):
    given = common.parser(__doc__, [
        ('--list', {'action': ShowList, 'nargs': 0, 'help': 'write the examinations: rule, section, MUST or SHOULD, how long each takes'}),
        ('--only', {'metavar': 'NAME,..', 'default': '', 'help': 'these examinations alone, or those of these subjects'}),
        ('--quick', {'action': 'store_true', 'help': f'leave out those that take {catalogue.LONG} s and more'}),
        ('--device', {'type': identifier, 'metavar': 'ID', 'help': 'the identifier of the device, where more nodes are on the link'}),
        ('--slack', {'metavar': 'MS', 'default': f'{SLACK * 1000:g}', 'help': f'how many milliseconds moments may be off for judge ({SLACK * 1000:g})'}),
        ('--junit', {'metavar': 'FILE', 'help': 'write a report for test servers'}),
        ('--json', {'metavar': 'FILE', 'help': 'write a report for programs'}),
        ('--pcap', {'metavar': 'FILE', 'help': 'keep the capture of all that went over the links'}),
        ('interfaces', {'metavar': 'INTERFACE', 'nargs': '+', 'help': 'the interface on the link of the device; a second one for its other link'}),
    ])
    words = given.parse_args(words)
    slack = common.number(words.slack, 10 ** 9)
    if slack is None:
        given.error(f'{words.slack} is no number of milliseconds')
    words.slack = slack / 1000
    if len(words.interfaces) > 2 or len(set(words.interfaces)) < len(words.interfaces):
        given.error('one interface, or two that differ')
    wanted, unknown = running.chosen([name for name in words.only.split(',') if name], words.quick, len(words.interfaces))
    if unknown or not wanted:
        given.error(f'there is no examination {unknown[0]}; --list names all' if unknown else 'no examination is left')
    signal.signal(signal.SIGTERM, stop)
    with contextlib.ExitStack() as stack:
        return running.run(words, wanted, stack)

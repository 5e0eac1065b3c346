"""The commands of the package: `rulercress NAME ..`. Each is a module with `main(words)`, and its text says what it does."""
import argparse
import importlib
import sys

from ..tools import common

PROGRAM = 'rulercress'
COMMANDS = {
    'annotate': 'which line of a script wrote which line of its transcript, and when',
    'capture': 'a capture of a simulated home, for Wireshark',
    'decode-capture': 'what each datagram of a capture says',
    'examine': 'examines a live device on a link',
    'explain': 'what a refusal means, and what is wrong with bytes',
    'forge': 'the bytes of a datagram, from lines',
    'how-often-settled': 'how often a lossy home is found settled and quiet',
    'how-soon-at-rest': 'how long homes take to come to rest',
    'judge': 'who violates what in a capture',
    'picture': 'the home of a script, as text for graphviz',
    'relay': 'puts a `hncp node` on a real link',
    'seeds': 'with which seeds a home shows a pattern',
    'timeline': 'what changed when in a home, and the page of it',
}


def module_of(name):
    """The module of a command."""
    return importlib.import_module(f'.{name.replace("-", "_")}', __name__)


def listed():
    """The lines that tell the commands."""
    width = max(map(len, COMMANDS))
    yield 'commands:'
    yield from (f'  {name:{width}}  {about}' for name, about in COMMANDS.items())


class ShowCommands(argparse.Action):
    """Writes what commands there are, and ends."""

    def __call__(self, given, *_):
        print('\n'.join([given.format_help(), *listed()]))
        given.exit()


def main():
    """The program `rulercress`."""
    if sys.argv[1:2] and sys.argv[1] in COMMANDS:
        name = sys.argv[1]
        sys.argv = [f'{PROGRAM} {name}', *sys.argv[2:]]
        common.end(module_of(name).main)
    given = argparse.ArgumentParser(prog=PROGRAM, description='Tools for those who test HNCP gateways (RFC 7788).', add_help=False)
    given.add_argument('-h', '--help', action=ShowCommands, nargs=0, help='list the commands; COMMAND --help says what one does')
    given.add_argument('command', metavar='COMMAND', choices=list(COMMANDS), help='one of those below, and its words')
    given.parse_args(sys.argv[1:2])

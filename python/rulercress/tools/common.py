"""What the commands share: what plays, scripts and transcripts, and how a command ends.

The library plays where it is found, and else the programs; both say the same.

A command ends with status 0 when it is done, 1 when its input or the program is not as it has to be, 2 on bad arguments.
"""
import argparse
import collections
import os
import shutil
import subprocess
import sys

from .. import library, programs
from ..errors import Problem
from ..shards import processors, shard

# The codes that are looked for in a whole script before anything happens (docs/FORMATS.md, "Scripts").
CODES_BEFORE_PLAY = {1, 2, 3, 4, 5, 6, 15}


def parser(about, arguments):
    """A parser of a tool's words: its name or flag, and the text that says what it is."""
    made = argparse.ArgumentParser(description=about, formatter_class=argparse.RawDescriptionHelpFormatter)
    for names, settings in arguments:
        made.add_argument(*names.split(), **settings)
    return made


def end(main):
    """Runs a tool, and ends with its status. Bad input gives one line, and no traceback."""
    try:
        status = main() or 0
        sys.stdout.flush()
    except Problem as problem:
        status = complain(str(problem))
    except BrokenPipeError:
        # Nobody reads any more; what Python would still write at its end goes nowhere.
        os.dup2(os.open(os.devnull, os.O_WRONLY), sys.stdout.fileno())
        status = 1
    except OSError as error:
        status = complain(f'{error.filename or "input"}: {error.strerror}')
    except MemoryError as error:
        status = complain(str(error) or 'out of memory')
    except KeyboardInterrupt:
        status = 130
    sys.exit(status)


def printable(text):
    """A text that comes from an input, what does no more than print: control characters stand as escapes."""
    return ''.join(each if each.isprintable() else f'\\x{ord(each):02x}' for each in text)


def complain(text):
    sys.stdout.flush()
    print(f'{os.path.basename(sys.argv[0])}: {printable(text)}', file=sys.stderr)
    return 1


def found(path):
    """The path of a program that a word of the command line names."""
    there = shutil.which(os.path.abspath(path) if os.path.exists(path) else path)
    if not there:
        raise Problem(f'there is no program {path}')
    return there


def program():
    """The path of the program hncp."""
    return programs.path_of('hncp')


def looker():
    """The path of the program hnlook."""
    return programs.path_of('hnlook')


def player():
    """The path of what plays: the library, or the program hncp."""
    found = library.found()
    return found.path if found else program()


def must_play(*names):
    """What these programs do can be done: by the library, or by the programs. It is said at once, and not after a long play."""
    if not library.found():
        for name in names:
            programs.path_of(name)


def ask(name, words, data):
    """What a program writes for these bytes, as lines, with its status. Other statuses than 0 and 2 are a problem."""
    done = subprocess.run(words, input=data, stdout=subprocess.PIPE, stderr=subprocess.PIPE)
    if done.returncode not in (0, 2):
        raise Problem(f'{name} {words[1]} ended with status {done.returncode}: {done.stderr.decode("ascii", "replace").strip()}')
    return done.stdout.decode('ascii', 'replace').splitlines(), done.returncode


def call(form, data):
    """What hncp writes for these bytes, as lines, with its status."""
    return ask('hncp', [program(), form], data)


def told(name, words, texts):
    """What hncp or hnlook with these words writes for a script of these lines, as lines."""
    found, data = library.found(), joined(texts)
    if not found:
        return ask(name, [programs.path_of(name), *words], data)[0]
    from .. import scripts      # it takes a while to load, and the programs play without it
    return scripts.run(found, name, words, data)[0].splitlines()


def look(words, texts):
    """What hnlook writes for a script of these lines, as lines."""
    return told('hnlook', words, texts)


def decode(text):
    """The lines that `hncp decode` writes for hexadecimal text."""
    return call('decode', text.encode('ascii', 'replace'))[0]


class Line:
    """A line of a script: its number, its text, and its words, of which a skipped line has none."""

    def __init__(self, number, text):
        self.number = number
        self.text = text
        words = [word for word in text.split(' ') if word]
        self.words = [] if not words or words[0].startswith('#') else words

    @property
    def word(self):
        return self.words[0] if self.words else ''


def read(path):
    """The lines of a file, each byte as one character."""
    with open(path, 'rb') as file:
        lines = file.read().decode('latin-1').split('\n')
    return lines[:-1] if lines[-1] == '' else lines


def numbered(texts):
    """The lines of a script of these texts, numbered from 1."""
    return [Line(number, text) for number, text in enumerate(texts, 1)]


def read_script(path):
    """The lines of a script; the first one has the version. No bytes are one empty line here."""
    return numbered(read(path) or [''])


def joined(texts):
    """The bytes of a script of these lines."""
    return ''.join(text + '\n' for text in texts).encode('latin-1')


def play(texts):
    """The transcript of a script of these lines, as lines."""
    return told('hncp', ['lab'], texts)


def in_order(function, values):
    """The function of each value, in order. As many calls run at once as there are processors; they wait for programs mostly."""
    from concurrent import futures  # it takes a while to load, and few tools need it
    pool = futures.ThreadPoolExecutor(processors())
    waiting = collections.deque()
    try:
        for value in values:
            waiting.append(pool.submit(function, value))
            if len(waiting) > 2 * processors():
                yield waiting.popleft().result()
        while waiting:
            yield waiting.popleft().result()
    finally:
        for each in waiting:
            each.cancel()
        pool.shutdown()


def plays_in_order(function, values):
    """As `in_order`, of a function that plays homes. Within one process of Python a call of the library would wait for others."""
    if not library.found():
        return in_order(function, values)
    from ..campaigns import in_processes
    return in_processes(function, values, processors())


def part_of(values, part, given):
    """Those of the values that part K of N has, where the part is a word `K/N`. A word that is none is told by the parser."""
    try:
        return shard(values, part)
    except ValueError as error:
        given.error(str(error))


def refusal(transcript):
    """The line and the code of the refusal that ends a transcript, or None."""
    words = transcript[-1].split() if transcript else []
    if len(words) == 3 and words[0] == 'refused' and words[1].isdigit() and words[2].isdigit():
        return int(words[1]), int(words[2])
    return None


def must_be_played(transcript):
    """A script that is refused before anything happens is a problem."""
    refused = refusal(transcript)
    if refused and refused[1] in CODES_BEFORE_PLAY:
        raise Problem(f'the program refuses the script: line {refused[0]}, code {refused[1]}; see tools/explain')


def number(text, most=2 ** 64 - 1):
    """A number of a script, or None."""
    if text.isascii() and text.isdigit() and len(text) <= 20 and int(text) <= most:
        return int(text)
    return None


def number_from(least, most):
    """Reads a number of these bounds, as the type of an argument."""
    def read(text):
        value = number(text, most)
        if value is None or value < least:
            raise argparse.ArgumentTypeError(f'{text} is no number from {least} to {most}')
        return value
    return read

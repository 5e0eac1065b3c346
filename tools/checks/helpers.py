"""What the checks of `tools/check` share. A check gives what it compared, as text, or raises Wrong, or Missing."""
import os
import shutil
import subprocess

import common

SEED = 8231


class Wrong(Exception):
    """The tool does not do what it has to."""


class Missing(Exception):
    """What the check needs and the machine has not."""


def run(tool, *words, data=b''):
    """A tool's status, its output and its messages."""
    path = os.path.join(common.HERE, tool)
    done = subprocess.run([path, *words], input=data, stdout=subprocess.PIPE, stderr=subprocess.PIPE)
    return done.returncode, done.stdout.decode('utf-8', 'replace'), done.stderr.decode('utf-8', 'replace')


def lines_of(tool, *words, data=b'', status=0):
    """The output of a tool that has to end with this status, as lines."""
    ended, text, messages = run(tool, *words, data=data)
    must(ended == status, f'{tool} {" ".join(words)[-90:]}: status {ended} and not {status}: {messages.strip()[-200:]}')
    return text.splitlines()


def must(so, text):
    if not so:
        raise Wrong(text)


def must_be(found, expected, where):
    """Two lists are the same; what is told is where they first differ."""
    for place in range(max(len(found), len(expected))):
        one, other = (each[place] if place < len(each) else 'nothing more' for each in (found, expected))
        must(one == other, f'{where}: "{str(one)[:120]}" at {place + 1}, and not "{str(other)[:120]}"')


def need(*names):
    for name in names:
        if not shutil.which(name):
            raise Missing(f'there is no {name}')


def copy_tools(folder, *names):
    """Puts copies of these tools, or of all, into a folder, beside a copy of the package that they are made of."""
    tools, kept = os.path.join(folder, 'tools'), shutil.ignore_patterns('__pycache__', 'tests')
    shutil.copytree(os.path.join(os.path.dirname(common.HERE), 'python'), os.path.join(folder, 'python'), ignore=kept)
    if not names:
        shutil.copytree(common.HERE, tools, ignore=kept)
        return
    os.mkdir(tools)
    for name in names:
        shutil.copy(os.path.join(common.HERE, name), tools)


def looks_in():
    """Whether the program hnlook is there."""
    try:
        return bool(common.looker())
    except common.Problem:
        return False


def need_look():
    """What needs hnlook is skipped where it is not there."""
    if not looks_in():
        raise Missing('there is no hnlook')


def is_static(transcript):
    refused = common.refusal(transcript)
    return bool(refused) and refused[1] in common.CODES_BEFORE_PLAY


def short(path):
    return os.path.basename(path)

"""The check of tools/release, on a small repository of its own. For what is not built here there are stand-ins."""
import ast
import hashlib
import json
import os
import platform
import re
import resource
import shutil
import subprocess
import tarfile
import time

import common
from checks.helpers import Missing, must, must_be, need

TOP = os.path.dirname(common.HERE)
LIBRARY = 'crates/hn_router_c/out/libhn_router_c.a'
PLACES = {'hncp': 'crates/hncp/out/hncp', 'hnlook': 'crates/hnlook/out/hnlook', 'library': LIBRARY}
SOURCES = {'crates.txt': '# crates\nhn_base: hex\nhn_router_c staticlib: hn_base\nhncp: hn_base\nhnlook: hn_base\nother: hn_base\n',
           'HANDLES': 'Handles allowed: Net.\n', '.gitignore': 'out/\n__pycache__/\n', 'crates/hn_base/src/lib.rt': 'a\n',
           'crates/hn_base/specs/Gone.antt': 'b\n', 'crates/hncp/src/main.rt': 'c\n', 'crates/hnlook/src/main.rt': 'd\n',
           'crates/hn_router_c/src/lib.rt': 'e\n', 'crates/other/src/lib.rt': 'f\n'}
LOGIC = '0123456789abcdef'        # of a kit of the check, where nothing here was built by another
DATA = 'crates/transcripts/data'
CALLS = [('hncp', ['decode'], 'datagram.hex', 'datagram.transcript'), ('hncp', ['lab'], 'taken_name.script', 'taken_name.transcript'),
         ('hncp', ['watch'], 'a_conflict_of_a_stale_number.capture', 'a_conflict_of_a_stale_number.transcript'),
         ('hnlook', ['table', 'gate'], 'a_backoff_waits.home', 'a_backoff_waits.table-gate')]
DAEMON = 'daemon/out/hnd'
MANUAL = ['man/hncp.1', 'man/hnlook.1', 'man/hncp-tools.1']
CHECKED = ['forge', 'explain', 'docs/BESIDE-REAL-GATEWAYS.md']     # checks that are run in the archive, those of some seconds


def plain_path():
    """The folders of the path in which there is no rt."""
    return os.pathsep.join(each for each in os.environ['PATH'].split(os.pathsep) if not os.path.exists(os.path.join(each, 'rt')))


def run_in(folder, words, path=None, data=b'', **how):
    """The status, the output and the messages of a command in a folder, with nothing of the environment but a path."""
    done = subprocess.run(words, cwd=folder, input=data, stdout=subprocess.PIPE, stderr=subprocess.PIPE,
                          env={'PATH': path or plain_path(), 'HOME': folder, 'LANG': 'C.UTF-8'}, **how)
    return done.returncode, done.stdout.decode('utf-8', 'replace'), done.stderr.decode('utf-8', 'replace')


def is_for_here(path):
    with open(path, 'rb') as file:
        head = file.read(20)
    return head[:5] == b'\x7fELF\2' and head[18:20] == b'\x3e\0'


def said(logic):
    """What a kit's compiler writes into what it makes."""
    return f'\0rattle logic={logic}\0'.encode()


def logic_of(paths):
    """The first 16 digits of the logic of which a file says that it is made by it."""
    for path in paths:
        with open(path, 'rb') as file:
            found = re.search(rb'rattle logic=([0-9a-f]{16})', file.read())
        if found:
            return found[1].decode()
    return LOGIC


def program_or_none(find):
    try:
        return find()
    except common.Problem:
        return None


class Home:
    """A small repository, with a kit beside it: what is built stands there, or a stand-in for it."""

    def __init__(self, folder):
        self.top, self.to = os.path.join(folder, 'home'), os.path.join(folder, 'to')
        self.kept = os.path.join(folder, 'rattle-kept')
        self.path = os.path.join(folder, 'kit', 'bin') + os.pathsep + plain_path()
        self.real = []
        os.makedirs(self.to)
        with open(os.path.join(common.HERE, 'release'), encoding='utf-8') as file:
            self.committed = ast.literal_eval(re.search(r'^COMMITTED = (\[.*?\])', file.read(), re.MULTILINE | re.DOTALL).group(1))
        for path in self.committed:
            if os.path.isdir(os.path.join(TOP, path)):
                shutil.copytree(os.path.join(TOP, path), self.at(path), ignore=shutil.ignore_patterns('__pycache__', 'out'))
            else:
                os.makedirs(os.path.dirname(self.at(path)), exist_ok=True)
                shutil.copy(os.path.join(TOP, path), self.at(path))
        for path, text in SOURCES.items():
            self.write(path, text)
        self.git('init', '-q')
        self.commit()
        self.build()
        self.write('../kit/bin/rt', f'#!/bin/sh\necho "{self.kit}"\n')
        os.chmod(self.at('../kit/bin/rt'), 0o755)

    def at(self, path):
        return os.path.join(self.top, path)

    def write(self, path, text):
        os.makedirs(os.path.dirname(self.at(path)), exist_ok=True)
        with open(self.at(path), 'w', encoding='utf-8') as file:
            file.write(text)

    def git(self, *words):
        status, text, messages = run_in(self.top, ['git', '-c', 'user.name=check', '-c', 'user.email=check', *words])
        must(status == 0, f'git {words[0]}: {messages.strip()}')
        return text.strip()

    def commit(self):
        self.git('add', '-A')
        self.git('commit', '-q', '-m', 'a commit')

    def build(self):
        """Puts the programs and the library where rt puts them, and notes them as rt ci does."""
        found = {'hncp': common.program(), 'hnlook': program_or_none(common.looker), 'library': os.path.join(TOP, LIBRARY)}
        self.real = [name for name in PLACES if found[name] and os.path.exists(found[name]) and (name == 'library' or is_for_here(found[name]))]
        self.logic = logic_of(found[name] for name in self.real)
        self.kit = f'a kit of the check, logic {self.logic}'
        for name, path in PLACES.items():
            os.makedirs(os.path.dirname(self.at(path)))
            if name != 'library':
                self.put(path, self.data_of(found[name]) if name in self.real else self.data_of(shutil.which('true')) + said(self.logic))
                os.chmod(self.at(path), 0o755)
                self.keep(name)
        shutil.copyfile(found['library'], self.at(LIBRARY)) if 'library' in self.real else self.make_library()

    def data_of(self, path):
        with open(self.at(path), 'rb') as file:
            return file.read()

    def put(self, path, data):
        with open(self.at(path), 'wb') as file:
            file.write(data)

    def keep(self, name):
        self.write(os.path.join(self.kept, f'proof-{name}-0', 'made.json'), json.dumps({'key': '0', 'files': [[name, self.sum_of(PLACES[name])]]}))

    def sum_of(self, path):
        return hashlib.sha256(self.data_of(path)).hexdigest()

    def make_library(self):
        """A library whose calls do nothing."""
        with open(self.at('include/hn_router.h'), encoding='utf-8') as file:
            calls = re.findall(r'^(?!typedef)(\w+) (\w+\([^;]*\));', re.sub(r'/\*.*?\*/', '', file.read(), flags=re.DOTALL), re.MULTILINE)
        folder = os.path.dirname(self.at(LIBRARY))
        text = f'#include "hn_router.h"\nconst char made_by[] = "rattle logic={self.logic}";\n' + ''.join(f'{kind} {call} {{ {"" if kind == "void" else "return 2;"} }}\n' for kind, call in calls)
        self.write(os.path.join(folder, 'calls.c'), text)
        for words in (['gcc', '-w', '-c', '-I', self.at('include'), '-o', 'calls.o', 'calls.c'], ['ar', 'rcs', os.path.basename(LIBRARY), 'calls.o']):
            status, _, messages = run_in(folder, words)
            must(status == 0, f'{words[0]}: {messages[-200:]}')

    def touch(self):
        """What is built becomes newer than the sources, as if it were built again."""
        for path in PLACES.values():
            os.utime(self.at(path))

    def release(self, to=None, path=None, **how):
        return run_in(self.top, [self.at('tools/release'), to or self.to], path or self.path, **how)

    def refuses(self, expected, **how):
        status, text, messages = self.release(**how)
        must(status == 1 and not text and messages.count('\n') == 1 and expected in messages, f'"{expected}": status {status}, {text}{messages[-200:]}')
        must(not os.listdir(self.to), f'"{expected}": it left {os.listdir(self.to)}')
        return 1


def check_trees(home):
    """Refuses trees that are not committed, and what was built of others."""
    home.write('new.txt', 'new\n')
    count = home.refuses('not committed: 1 path(s), as new.txt')
    os.remove(home.at('new.txt'))
    home.write('README.md', 'changed\n')
    count += home.refuses('not committed: 1 path(s), as README.md')
    home.git('add', 'README.md')
    count += home.refuses('not committed: 1 path(s), as README.md')
    home.git('reset', '-q', '--hard')
    home.write('crates/hn_base/specs/New.antt', 'new\n')
    home.commit()
    count += home.refuses('hncp is not newer than crates/hn_base/specs')
    home.touch()
    home.git('checkout', '-q', 'HEAD~1')
    count += home.refuses('hncp is not newer than crates/hn_base/specs')
    home.git('checkout', '-q', '-')
    home.touch()
    os.remove(home.at('crates/hn_base/specs/Gone.antt'))
    home.commit()
    count += home.refuses('hncp is not newer than crates/hn_base/specs')
    home.touch()
    home.write('crates/hnlook/src/main.rt', 'new\n')
    home.commit()
    count += home.refuses('hnlook is not newer than crates/hnlook/src/main.rt')
    home.touch()
    home.write('crates/other/src/lib.rt', 'not below\n')
    home.commit()
    return count


def check_built(home):
    """Refuses what is not there, old, of another processor, or unknown to rt."""
    count = 0
    for name, path in PLACES.items():
        aside = home.at('../aside')
        os.rename(home.at(path), aside)
        count += home.refuses(f'there is no {path}')
        home.write(path, 'text\n')
        count += home.refuses(f'{path} is not for x86-64')
        shutil.copy(aside, home.at(path))
        os.utime(home.at(path), (1, 1))
        count += home.refuses(f'{path} is not newer than ')
        data = home.data_of(aside)
        at = data.index(b'\x7fELF') + 18
        home.put(path, data[:at] + b'\xb7\0' + data[at + 2:])     # aarch64
        count += home.refuses(f'{path} is not for x86-64')
        home.put(path, data + said(16 * 'f'))
        count += home.refuses(f'{path} is not of the kit with logic {home.logic}')
        if name == 'library':
            home.put(path, data + b' backend=rattle ')
            count += home.refuses(f'{path} was made with --backend rattle')
            home.put(path, data.replace(b'rattle logic=', b'rattle_logic='))
            count += home.refuses(f'{path} is not of the kit with logic {home.logic}')
        else:
            home.put(path, data + b'\0')
            count += home.refuses(f'{path} is no program that rt says it built')
        os.replace(aside, home.at(path))
        home.touch()
    os.remove(os.path.join(home.kept, 'proof-hnlook-0', 'made.json'))
    count += home.refuses('hnlook is no program that rt says it built')
    home.write(PLACES['hnlook'] + '.stamp', 64 * '0' + home.sum_of(PLACES['hnlook']))     # as rt run does
    return count


def check_places(home):
    """Refuses folders that do not fit, and a path without a kit; a write that fails leaves nothing."""
    count = home.refuses('is no folder', to=home.at('nowhere')) + home.refuses('lies in the repository', to=home.at('crates/hncp/out'))
    count += home.refuses('there is no rt on the path', path=plain_path())
    return count + home.refuses('File too large', preexec_fn=lambda: resource.setrlimit(resource.RLIMIT_FSIZE, (4096, 4096)))


def made_twice(home):
    """The paths of an archive and of a package, where there is dpkg-deb. They come out the same for another folder, with other
    times and another mask."""
    status, text, messages = home.release()
    must(status == 0 and not messages, f'status {status}, {messages[-200:]}')
    lines = [line.split() for line in text.splitlines()]
    made = [name for name, *counts in lines if not name.endswith(':')]
    must(len(lines) == 2 and len(made) == (2 if shutil.which('dpkg-deb') else 1) and sorted(os.listdir(home.to)) == sorted(made), text)
    with tarfile.open(os.path.join(home.to, made[0])) as tar:
        files = len(tar.getnames())
    datas = [home.data_of(os.path.join(home.to, name)) for name in made]
    for (name, *counts), data in zip(lines, datas):
        must_be(counts, [f'files={files}', f'bytes={len(data)}', f'sha256={hashlib.sha256(data).hexdigest()}'], name)
    other = home.at('../other')
    os.mkdir(other)
    os.utime(home.at('README.md'))
    home.touch()
    time.sleep(1.1)     # the time of a gzip would be another
    must(home.release(to=other, preexec_fn=lambda: os.umask(0o077))[:2] == (0, text), 'a second archive or package has another sum')
    must_be([home.data_of(os.path.join(other, name)) for name in made], datas, 'a second archive or package')
    return [os.path.join(home.to, name) for name in made]


def check_contents(home, path):
    """The archive has what is committed and built, no more, in one folder, with sums of all; where it is unpacked."""
    place = home.at('../empty')
    os.mkdir(place)
    with tarfile.open(path) as tar:
        entries = tar.getmembers()
        tar.extractall(place)
    title = os.path.basename(path)[:-len('.tar.gz')]
    names = [entry.name.split('/', 1)[1] for entry in entries]
    stored = home.git('ls-files', '--', *home.committed, 'daemon').split('\n')
    made = [DAEMON] if DAEMON in names else []     # where make and libmnl are there
    must_be(names, sorted([*stored, *PLACES.values(), *made, *MANUAL, 'RELEASE', 'SHA256SUMS']), 'names')
    moment = int(home.git('show', '-s', '--format=%ct', 'HEAD'))
    sums = []
    for entry, name in zip(entries, names):
        mode = 0o755 if name in made or (os.access(home.at(name), os.X_OK) and name != LIBRARY) else 0o644
        found = entry.name, entry.isfile(), entry.mode, entry.mtime, entry.uid, entry.gid, entry.uname, entry.gname
        must(found == (f'{title}/{name}', True, mode, moment, 0, 0, 'root', 'root'), f'{name}: {found}')
        with open(os.path.join(place, entry.name), 'rb') as file:
            data = file.read()
        if name in stored or name in PLACES.values():
            with open(home.at(name), 'rb') as file:
                must(data == file.read(), f'{name} is another')
        sums += [f'{hashlib.sha256(data).hexdigest()}  {name}'] if name != 'SHA256SUMS' else []
    must_be(common.read(os.path.join(place, title, 'SHA256SUMS')), sums, 'SHA256SUMS')
    about = common.read(os.path.join(place, title, 'RELEASE'))
    version = re.search(r'-(\d+\.\d+\.\d+)-', title)[1]
    must(f'## {version}' in common.read(home.at('CHANGES.md')), f'CHANGES.md has no version {version}')
    processor = 'x86-64-v2' if home.real and home.real != ['library'] else 'x86-64'
    must_be([*about[:3], *about[4:]], ['Rulercress for x86-64 Linux', f'version {version}', f'commit {home.git("rev-parse", "HEAD")}', f'kit {home.kit}',
                                        f'processor of the programs: {processor}', 'processor of the library: x86-64'], 'RELEASE')
    return os.path.join(place, title)


def check_use(home, top):
    """What is in the archive works there, without the repository and without a kit."""
    used = []
    for name, words, given, expected in CALLS:
        if name in home.real:
            with open(os.path.join(top, DATA, given), 'rb') as file:
                status, text, _ = run_in(top, [PLACES[name], *words], data=file.read())
            must_be(text.splitlines(), common.read(os.path.join(top, DATA, expected)), f'{name} {words[0]} in the archive')
            must(status in (0, 2), f'{name} {words[0]} in the archive: status {status}')
            used += [name] if name not in used else []
    for name in CHECKED if 'hncp' in home.real else []:
        status, text, messages = run_in(top, ['tools/check', '--only', name, PLACES['hncp']])
        must(status == 0 and text.startswith('ok '), f'tools/check in the archive: {text.strip()}{messages[-200:]}')
    for words in (['prefix'], ['--count']):
        told = run_in(top, ['checks/samples', *words])
        must(told[1:] == run_in(TOP, ['checks/samples', *words])[1:] and told[0] == 0, f'checks/samples in the archive: {told}')
    status, text, _ = run_in(top, ['tools/explain', '5', '8', f'{DATA}/taken_name.script'])
    must(status == 0 and text.startswith('refused 5 8: '), f'tools/explain in the archive: status {status}, {text}')
    status, _, messages = run_in(top, ['tools/release', os.path.dirname(top)])
    must(status == 1 and 'is no clone' in messages, f'tools/release in the archive: status {status}, {messages}')
    tests = ['gcc', '-std=c11', '-O1', '-I', 'include', '-o', '../events', 'checks/c/events.c', 'include/hn_heap.c', LIBRARY]
    for words, made, wanted, is_tried in [(['make', '-C', 'daemon', 'O=../../hnd', 'CC=gcc'], '../hnd/hnd', 2, has_mnl()),
                                          (tests, '../events', 0, 'library' in home.real)]:
        if is_tried:
            status, _, messages = run_in(top, words)
            must(status == 0, f'{" ".join(words[:3])} in the archive: {messages[-300:]}')
            status, text, messages = run_in(top, [made])
            must(status == wanted, f'{made} in the archive: status {status}, {text}{messages[-200:]}')
            used.append(os.path.basename(made))
    return used


def has_mnl():
    """Whether the daemon can be built: it takes make and libmnl."""
    return bool(shutil.which('make')) and run_in('/', ['gcc', '-E', '-x', 'c', '-'], data=b'#include <libmnl/libmnl.h>\n')[0] == 0


def check_release(folder):
    """Held to: a repository of its own, with stand-ins for what is not built: each refusal of a tree, of what is
    built and of a folder leaves nothing, and so does a write that fails; two archives are the same, with other times and another mask; names, modes, owners,
    times and sums. It needs git and gcc. The archive is unpacked in an empty folder: with no kit on the path the
    programs give the repository's texts, `checks/samples` prints what it prints here, some checks pass, and gcc
    builds the daemon; with the real library it runs `checks/c/events.c`."""
    need('git', 'gcc', 'ar', 'true')
    if platform.machine() != 'x86_64':
        raise Missing('this machine is no x86-64')
    home = Home(folder)
    count = check_trees(home) + check_built(home) + check_places(home)
    top = check_contents(home, made_twice(home)[0])
    used = check_use(home, top)
    files = sum(len(names) for _, _, names in os.walk(top))
    lacking = [name for name in PLACES if name not in home.real]
    return f'{count} refusals, two archives alike, {files} files; used in the archive: {", ".join(used)}' + \
        (f'; stand-ins for {", ".join(lacking)}' if lacking else '')

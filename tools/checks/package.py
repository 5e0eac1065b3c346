"""The check of the Debian package of tools/release: it is made, installed into an empty folder, used there and removed."""
import gzip
import os
import re
import shutil
import subprocess

import common
from checks.helpers import must, must_be, need
from checks.release import CALLS, DATA, LIBRARY, Home, made_twice, run_in

SHARE = 'usr/share/rulercress'
PYTHON = 'usr/lib/python3/dist-packages'
LIBRARIES = 'usr/lib/x86_64-linux-gnu'
UNIT = 'usr/lib/systemd/system/hnd.service'
COMMANDS = ['annotate', 'capture', 'decode-capture', 'explain', 'forge', 'judge', 'picture', 'relay', 'seeds', 'timeline']
ADMIN = 'var/lib/dpkg'


def check_told(path):
    """What the package says of itself, and what is in it: files of root below usr, and one below etc, with right modes."""
    fields = dict(line.split(': ', 1) for line in output(['dpkg-deb', '--field', path]).splitlines() if re.match(r'[A-Z][\w-]*: ', line))
    version = re.search(r'_([^_]+)_amd64\.deb$', path)[1]
    must_be([fields['Package'], fields['Version'], fields['Architecture']], ['rulercress', version, 'amd64'], 'fields of the package')
    must('python3 (>= 3.9)' in fields['Depends'] and re.search(r'\blibc6\b', fields['Depends']), f'Depends: {fields["Depends"]}')
    lines = [line.split(None, 5) for line in output(['dpkg-deb', '--contents', path]).splitlines()]
    for mode, owner, _, _, _, name in lines:
        right = {'d': ['drwxr-xr-x'], 'l': ['lrwxrwxrwx'], '-': ['-rw-r--r--', '-rwxr-xr-x']}[mode[0]]
        must(owner == 'root/root' and mode in right and re.match(r'\./(usr/|etc/(default/(hnd)?)?$|$)', name), f'{mode} {owner} {name}')
    return len(lines)


def output(words):
    done = subprocess.run(words, stdin=subprocess.DEVNULL, stdout=subprocess.PIPE, stderr=subprocess.PIPE)
    must(done.returncode == 0, f'{" ".join(words[:2])}: status {done.returncode}, {done.stderr.decode("utf-8", "replace").strip()[-200:]}')
    return done.stdout.decode('utf-8', 'replace')


def dpkg(root, *words):
    """Runs dpkg on a folder that stands for the root of a system with nothing installed, so that this one's shell runs scripts."""
    output(['dpkg', f'--root={root}', f'--log={os.devnull}', '--force-depends', '--force-script-chrootless', *words])


def empty_root(root):
    for name in ('info', 'updates', 'triggers', 'alternatives', 'parts'):
        os.makedirs(os.path.join(root, ADMIN, name))
    for name in ('status', 'available'):
        with open(os.path.join(root, ADMIN, name), 'w', encoding='ascii'):
            pass


def held(root):
    """All that is in a root, but for what dpkg notes."""
    found = []
    for at, folders, names in os.walk(root):
        folders[:] = [name for name in folders if os.path.relpath(os.path.join(at, name), root) != ADMIN]
        found += [os.path.relpath(os.path.join(at, name), root) for name in [*folders, *names]]
    return sorted(found)


def check_manual(root):
    """Each command has a manual page, and the pages are in roff's language."""
    pages = os.path.join(root, 'usr/share/man/man1')
    commands = sorted(os.listdir(os.path.join(root, 'usr/bin')))
    for name in commands:
        with gzip.open(os.path.join(pages, f'{name}.1.gz'), 'rt', encoding='utf-8') as file:
            text = file.read()
        must(text.startswith('.TH ') and '\n.SH NAME\n' in text and '\n.SH DESCRIPTION\n' in text, f'the manual page of {name} begins {text[:60]}')
    if shutil.which('mandoc'):
        for name in ('hncp', 'hnlook', 'hncp-tools'):
            told = subprocess.run(['mandoc', '-T', 'lint', '-W', 'warning', os.path.join(pages, f'{name}.1.gz')], stdout=subprocess.PIPE, stderr=subprocess.STDOUT)
            must(told.returncode == 0, f'mandoc: {told.stdout.decode("utf-8", "replace").splitlines()[:1]}')
    return commands


def check_used(home, root):
    """Programs, tools and library work where they are installed, with nothing of the repository and no kit."""
    top, used = os.path.join(root, SHARE), []
    copied = shutil.copytree(top, os.path.join(home.to, 'copied'))
    for folder in (top, copied):
        status, text, messages = run_in(folder, ['sha256sum', '-c', '--quiet', 'SHA256SUMS'])
        must(status == 0 and not text, f'SHA256SUMS in {folder}: {text}{messages}'[:200])
    for name, words, given, expected in CALLS:
        if name in home.real:
            with open(os.path.join(top, DATA, given), 'rb') as file:
                _, text, _ = run_in(root, [os.path.join(root, 'usr/bin', name), *words], data=file.read())
            must_be(text.splitlines(), common.read(os.path.join(top, DATA, expected)), f'{name} {words[0]} of the package')
            used += [name] if name not in used else []
    for name in COMMANDS:
        status, text, messages = run_in(root, [os.path.join(root, f'usr/bin/hncp-{name}'), '--help'])
        must(status == 0 and text.startswith(f'usage: hncp-{name}'), f'hncp-{name} --help: status {status}, {text[:60]}{messages[-100:]}')
    status, text, _ = run_in(root, [os.path.join(root, 'usr/bin/hncp-explain'), '5', '8', os.path.join(top, DATA, 'taken_name.script')])
    must(status == 0 and text.startswith('refused 5 8: '), f'hncp-explain: status {status}, {text}')
    if 'hncp' in home.real:
        status, text, messages = run_in(root, [os.path.join(root, 'usr/bin/hncp-seeds'), '-n', '2', os.path.join(top, DATA, 'a_lossy_home.script'), 'ids=same'])
        must(status == 0 and text.endswith('2 of 2 seeds\n'), f'hncp-seeds: status {status}, {text[-100:]}{messages[-100:]}')
        used.append('hncp-seeds')
    return used + check_python(home, root) + check_unit(root) + check_libraries(home, root)


def check_python(home, root):
    """Python finds the package, and keeps what it compiles beside the modules; its command is there."""
    python = ['env', '-u', 'PYTHONDONTWRITEBYTECODE', f'PYTHONPATH={os.path.join(root, PYTHON)}', 'python3']
    found = output([*python, '-c', 'import rulercress.commands, sys; sys.stdout.write(rulercress.commands.__file__)'])
    kept = os.path.join(root, SHARE, 'python/rulercress/commands/__pycache__')
    must(os.path.realpath(found) == os.path.realpath(os.path.join(kept, '../__init__.py')), f'Python found {found}')
    must(os.path.isdir(kept), f'Python left no {kept}')
    told = output([*python, os.path.join(root, 'usr/bin/rulercress'), '--help'])
    must('\n  judge ' in told, f'rulercress --help: {told[:60]}')
    if 'hncp' in home.real:
        asked = "from rulercress import Home; home = Home(); home.router('a'); home.run(1); print(home.script.splitlines()[0])"
        told = output([*python, '-c', asked])
        must(told == 'hncp 2\n', f'a home in Python: {told}')
    return ['the Python package']


def check_unit(root):
    """The unit of the daemon names files of the package; where there is no daemon there is no unit."""
    is_there = os.path.exists(os.path.join(root, UNIT))
    must(is_there == os.path.exists(os.path.join(root, 'usr/sbin/hnd')), 'a daemon without its unit, or a unit without the daemon')
    if not is_there:
        return []
    told = '\n'.join(common.read(os.path.join(root, UNIT)))
    named = [re.search(rf'^{key}=/(\S+)', told, re.MULTILINE)[1] for key in ('ExecStart', 'EnvironmentFile')]
    must(all(os.path.isfile(os.path.join(root, each)) for each in named), f'{UNIT} names {named}')
    return ['hnd.service']


def check_libraries(home, root):
    """A program takes the static library with or without its memory, and the shared one; pkg-config is told of them."""
    folder, top = os.path.join(root, LIBRARIES), os.path.join(root, SHARE)
    words = ['gcc', '-std=c11', '-O1', '-I', os.path.join(root, 'usr/include'), '-o', os.path.join(home.to, 'events'), os.path.join(top, 'checks/c/events.c')]
    ways = {'the library': [os.path.join(top, 'include/hn_heap.c'), os.path.join(folder, 'rulercress', os.path.basename(LIBRARY))]}
    if shutil.which('make') and shutil.which('cc'):
        told = common.read(os.path.join(folder, 'pkgconfig/hn_router_c.pc'))
        must('prefix=/usr' in told and f'libdir=/{LIBRARIES}' in told, f'hn_router_c.pc: {told}')
        ways.update({'the static library': [os.path.join(folder, os.path.basename(LIBRARY))], 'the shared library': [f'-L{folder}', '-lhn_router_c']})
    for given in ways.values() if 'library' in home.real else ():
        output([*words, *given])
        output(['env', f'LD_LIBRARY_PATH={folder}', os.path.join(home.to, 'events')])
    return list(ways) if 'library' in home.real else []


def check_lintian(path):
    """What lintian says that is an error; nothing where there is none."""
    if not shutil.which('lintian'):
        return 'no lintian here'
    told = subprocess.run(['lintian', '--no-cfg', path], stdin=subprocess.DEVNULL, stdout=subprocess.PIPE, stderr=subprocess.DEVNULL)
    lines = told.stdout.decode('utf-8', 'replace').splitlines()
    errors = [line for line in lines if line.startswith('E:')]
    must(not errors, f'lintian: {errors[:1]}')
    return f'lintian has no error and {sum(line.startswith("W:") for line in lines)} warnings'


def check_package(folder):
    """Held to: what it says of itself; owners and modes; lintian, where that is there; as root it is installed by dpkg
    into an empty folder, where programs, tools, the Python package, libraries, sums and manual pages work, and removed:
    nothing is left, nor what Python kept beside its modules."""
    need('git', 'gcc', 'ar', 'true', 'dpkg-deb')
    home = Home(folder)
    path = made_twice(home)[1]
    entries = check_told(path)
    said = check_lintian(path)
    if os.geteuid() or not shutil.which('dpkg'):
        return f'{entries} entries, two alike; {said}; not installed, which root does by dpkg'
    root = home.at('../root')
    empty_root(root)
    before = held(root)
    dpkg(root, '--install', path)
    commands = check_manual(root)
    used = check_used(home, root)
    dpkg(root, '--purge', 'rulercress')
    must_be(held(root), before, 'left after the package was removed')
    return f'{entries} entries, two alike; {said}; installed {len(commands)} commands, used {", ".join(used)}; nothing left'

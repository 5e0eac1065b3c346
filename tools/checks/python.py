"""The check of the Python package: its texts, its tests, and that pip installs it without a network."""
import ast
import os
import re
import shutil
import subprocess
import sys

import common
from checks.helpers import Missing, lines_of, must, must_be, need_look

TOP = os.path.dirname(common.HERE)
FOLDER = os.path.join(TOP, 'python')
PAGE = os.path.join('docs', 'FORMATS.md')
EXAMPLE = os.path.join(TOP, 'examples', 'test_a_home.py')
FOLDERS = ('python', 'examples', 'tools', 'checks')     # whose Python files the oldest Python reads
OLDEST = (3, 9)
DEBIANS = '/usr/bin/python3'
PYTEST = ['-m', 'pytest', '-q', '-p', 'no:cacheprovider']
UNITTEST = ['-m', 'unittest', 'discover', '-t', '.', '-s', 'tests']
DRIVEN = ['-m', 'tests.driven', '-n', '20', '--from', '1001']
ABOUT = 'import sys; print("%d.%d.%d" % sys.version_info[:3])'
CALLS = 'import test_a_home as t; [getattr(t, name)() for name in dir(t) if name.startswith("test_")]'
DATA = os.path.join(TOP, 'crates', 'transcripts', 'data')
FOUND = 3                                                # the status of judge with findings
FOREIGN = ('PYTHONPATH', 'PYTHONHOME', 'PYTHONSTARTUP')  # what an environment of its own must not see


def started(words, folder=None, **more):
    """A command that has ended: its status, and what it wrote, messages too. A variable whose value is None is not set for it."""
    environment = {**os.environ, **dict.fromkeys(FOREIGN), 'HNCP': common.program(), 'HNLOOK': common.looker(), 'PYTHONDONTWRITEBYTECODE': '1', **more}
    environment = {name: value for name, value in environment.items() if value is not None}
    done = subprocess.run(words, cwd=folder, stdin=subprocess.DEVNULL, stdout=subprocess.PIPE, stderr=subprocess.STDOUT, env=environment)
    return done.returncode, done.stdout.decode('utf-8', 'replace').strip()


def output(words, folder, **more):
    """What a command writes. One that fails is wrong."""
    status, text = started(words, folder, **more)
    must(status == 0, f'{" ".join(words)[-80:]}: status {status}: {" | ".join(text.splitlines()[-4:])[-400:]}')
    return text


def is_python(path):
    """Whether a file is Python: by its name, or by its first line."""
    if path.endswith('.py'):
        return True
    with open(path, 'rb') as file:
        return file.readline().rstrip().endswith(b'python3')


def check_texts():
    """The oldest Python reads each file. How many there are."""
    paths = [os.path.join(at, name) for folder in FOLDERS for at, _, names in os.walk(os.path.join(TOP, folder)) for name in names]
    paths = [path for path in paths if is_python(path)]
    for path in paths:
        with open(path, encoding='utf-8') as file:
            ast.parse(file.read(), path, feature_version=OLDEST)
    return len(paths)


def check_tables():
    """The package has the version of CHANGES.md, and its codes mean what docs/FORMATS.md says. How many codes there are."""
    version = next(line[3:] for line in common.read(os.path.join(TOP, 'CHANGES.md')) if re.match(r'## \d', line))
    must(f'version = "{version}"' in common.read(os.path.join(FOLDER, 'pyproject.toml')), f'pyproject.toml has another version than {version}')
    sys.path.insert(0, FOLDER)
    try:
        from rulercress.errors import MEANINGS
    finally:
        sys.path.remove(FOLDER)
    page = '\n'.join(common.read(os.path.join(TOP, PAGE))).split('\n### Codes\n', 1)[1].split('\n#', 1)[0]
    known = re.findall(r'(?m)^\| (\d+) \| (.*) \|$', page.replace('`', ''))
    must_be([(str(code), meaning) for code, meaning in MEANINGS.items()], known, 'codes of docs/FORMATS.md')
    must_be(lines_of('explain', '5', '8')[:1], [f'refused 5 8: {MEANINGS[8]}'], 'code 8')
    return len(MEANINGS)


def has(python, module):
    return started([python, '-c', f'import {module}'])[0] == 0


def pythons():
    """The Pythons that are here and new enough, by version: Debian's, this one, and 3.9 where one is installed. A name on the
    path may stand for none."""
    found = {}
    for path in filter(None, map(shutil.which, (DEBIANS, sys.executable, 'python3.9'))):
        status, version = started([path, '-c', ABOUT])
        if status == 0 and tuple(map(int, version.split('.'))) >= OLDEST:
            found.setdefault(version, path)
    return found


def check_tests(known):
    """The tests of the package, by pytest where a Python has one, else by unittest; and random homes that are driven by hand,
    each held to the script that it leaves."""
    python = next((path for path in known.values() if has(path, 'pytest')), None)
    text = output([python, *PYTEST] if python else [sys.executable, *UNITTEST], FOLDER)
    counted = re.search(r'(\d+) passed|Ran (\d+) tests', text)
    must(counted, f'no test is told: {text[-90:]}')
    driven = output([python or sys.executable, *DRIVEN], FOLDER)
    must_be([driven], ['0 of 20 seeds'], ' '.join(DRIVEN))
    return f'20 homes driven by hand, {counted[1] or counted[2]} tests by {"pytest" if python else "unittest, since there is no pytest"}'


def check_commands(rulercress, folder):
    """The command that pip made, outside of a clone: it finds the page of the codes and that of timeline, and judges a capture."""
    script, capture, page = os.path.join(DATA, 'a_lossy_home.script'), os.path.join(folder, 'home.pcap'), os.path.join(folder, 'home.html')
    must(output([rulercress, 'judge', '--help'], folder).startswith('usage: rulercress judge '), 'rulercress judge --help is no usage')
    must_be(output([rulercress, 'explain', '5', '8'], folder).splitlines()[:1], lines_of('explain', '5', '8')[:1], 'rulercress explain')
    must_be(output([rulercress, 'timeline', '--html', page, script], folder).splitlines(), lines_of('timeline', script), 'rulercress timeline')
    must(os.path.getsize(page) > os.path.getsize(script), 'rulercress timeline writes no page')
    frames = output([rulercress, 'capture', script, capture], folder).split()[0]
    if shutil.which('tshark'):
        status, text = started([rulercress, 'judge', capture], folder)
        must(status in (0, FOUND) and text.startswith(f'capture datagrams={frames} '), f'rulercress judge: status {status}: {text[:120]}')


def installed(python, folder, beside):
    """pip installs the package from its folder alone, with these files of the clone beside it, into an environment that has
    nothing but pip. The environment, and where the package is."""
    place, clone = os.path.join(folder, 'environment'), os.path.join(folder, 'clone')
    for old in (place, clone):
        shutil.rmtree(old, ignore_errors=True)
    source = shutil.copytree(FOLDER, os.path.join(clone, 'python'), ignore=shutil.ignore_patterns('__pycache__'))
    for path, origin in beside.items():
        os.makedirs(os.path.dirname(os.path.join(clone, path)), exist_ok=True)
        shutil.copy(origin, os.path.join(clone, path))
    shutil.copy(EXAMPLE, folder)
    output([python, '-m', 'venv', place], folder)
    inside = os.path.join(place, 'bin', 'python')
    must(not has(inside, 'rulercress'), f'{python}: the package is there before it is installed')
    output([inside, '-m', 'pip', 'install', '--quiet', '--no-index', '--no-build-isolation', source], folder)
    shutil.rmtree(clone)
    at = output([inside, '-c', 'import rulercress; print(rulercress.__file__)'], folder)
    must(at.startswith(place + os.sep), f'{python}: what is imported is {at}')
    return place, at


def check_installed(python, folder):
    """Where pip installed the package each test of the example passes; and by pytest, which takes the package from that
    environment, where this Python has one."""
    place, at = installed(python, folder, {PAGE: os.path.join(TOP, PAGE)})
    output([os.path.join(place, 'bin', 'python'), '-c', CALLS], folder)
    check_commands(os.path.join(place, 'bin', 'rulercress'), folder)
    if has(python, 'pytest'):
        output([python, *PYTEST, os.path.join(folder, 'test_a_home.py')], folder, PYTHONPATH=os.path.dirname(os.path.dirname(at)))
        return ', by pytest too'
    return ''


def check_python(folder):
    """Held to: the texts are as above; the tests pass; the script that a home leaves is played to its transcript; and each Python installs the package, passes the example's tests, and has the command rulercress."""
    need_look()
    texts, codes, known = check_texts(), check_tables(), pythons()
    told = [f'{texts} files for Python 3.9, {codes} codes, {check_tests(known)}']
    able = {version: path for version, path in known.items() if has(path, 'ensurepip')}
    if not able:
        raise Missing(f'{told[0]}; not installed by pip: no Python here has ensurepip (Debian: python3-venv)')
    told += [f'{version} installs it and passes the example{check_installed(path, os.path.realpath(folder))}' for version, path in able.items()]
    return '; '.join(told + [f'{version} has no ensurepip' for version in known if version not in able])

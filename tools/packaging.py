"""Makes a Debian package of the files of an archive. tools/release calls it.

The tree of the archive lies whole at /usr/share/rulercress, where its sums hold; a copy that follows links is the archive.
Programs, libraries, the header, the manual pages and the unit of the daemon lie where Debian has such files. The tree has links
to programs and library, and Python finds the package in the tree by one. Each tool is the command hncp-NAME.

No daemon starts when the package is installed, since /etc/default/hnd has to name its interfaces first. What may be there
later goes with the package: what Python keeps beside modules, and with --purge what the daemon keeps over a restart.
"""
import gzip
import hashlib
import os
import re
import shutil
import subprocess
import tempfile
import time

from common import Problem

NAME = 'rulercress'
SHARE = f'usr/share/{NAME}'
DOC = f'usr/share/doc/{NAME}'
MAN = 'usr/share/man'
MAINTAINER = 'Rulercress maintainers <maintainers@users.noreply.rulercress.example>'
LIBRARIES = 'usr/lib/x86_64-linux-gnu'
PYTHON, MODULES = 'usr/lib/python3/dist-packages', f'python/{NAME}'            # where Debian's Python looks, and what it finds
UNIT, SETTINGS, DAEMON = 'daemon/system/hnd.service', 'daemon/system/hnd.default', 'daemon/out/hnd'
CONFIGURED = 'etc/default/hnd'
STATE = 'var/lib/hnd'
PAGES = ('README.md', 'CHANGES.md', 'CONTRIBUTING.md', 'RELEASE', 'docs')       # links to them lie in the folder of documents
EXAMPLES = 'daemon/system/'                                                    # how the daemon is started
NO_COMMANDS = ('release', 'check')                                             # they are of a clone
GLIBC = re.compile(rb'GLIBC_(\d+)\.(\d+)')
SHARED = re.compile(rf'{LIBRARIES}/\w+\.so\.\d+$')                              # the name by which a program asks for a library
ABOUT = '''plays homes of HNCP routers, and decodes HNCP datagrams
 HNCP (RFC 7788) lets home routers share delegated prefixes by themselves.
 The program hncp plays a home with losses, reboots and forged datagrams, and
 says whether each link has its prefix; what it says is proved. It decodes
 captured datagrams too. The program hnlook says what happened in a home, and
 why it is not settled.
 .
 With the same router as a C library and as the daemon hnd, with the Python
 package rulercress, and with tools for testers, such as hncp-judge, which
 says who violates what in a capture.
'''
COPYRIGHT = f'''Rulercress, by the {MAINTAINER}

No licence is given yet. Until there is one, nobody but the authors may copy,
change or hand on these files, but for what the law allows without a licence.

Copyright 2026 the Rulercress maintainers
'''
OVERRIDES = '''# The programs are as they were proved and built, byte for byte: SHA256SUMS has their sums.
unstripped-binary-or-object
# One package has the shared library and what links with it: there is one version of all.
link-to-shared-library-in-wrong-package
package-name-doesnt-match-sonames
# Nothing starts the unit but its owner, so only the end is told to systemd.
maintainer-script-calls-systemctl
'''
COMMAND = f'''#!/usr/bin/python3
"""The command {NAME} of the Python package."""
from {NAME}.commands import main

main()
'''
BEFORE_REMOVAL = f'''#!/bin/sh
# The daemon ends before its files go, and what Python kept beside the modules goes with them.
set -e
if [ "$1" = remove ] && [ -z "$DPKG_ROOT" ] && [ -d /run/systemd/system ]; then
    systemctl disable --now hnd.service || true
fi
find "$DPKG_ROOT/{SHARE}" -depth -type d -name __pycache__ -exec rm -r {{}} \\;
'''
AFTER_REMOVAL = f'''#!/bin/sh
# With --purge what the daemon kept over a restart goes too.
set -e
if [ "$1" = purge ]; then
    rm -rf "$DPKG_ROOT/{STATE}"
fi
'''


def is_command(path, mode):
    """Whether a file of the tree is a tool that is a command."""
    return re.fullmatch(r'tools/[a-z-]+', path) and mode & 0o100 and os.path.basename(path) not in NO_COMMANDS


def packed(data):
    """Bytes as gzip has them, without a time."""
    return gzip.compress(data, 9, mtime=0)


def manual(path):
    """Where a manual page of the tree lies: None for another file."""
    found = re.fullmatch(r'(?:.*/)?([\w-]+\.([1-8]))', path)
    return found and f'{MAN}/man{found[2]}/{found[1]}.gz'


def of_daemon(files):
    """The unit of the daemon and its settings, as the package has them; nothing where the tree has no daemon."""
    if DAEMON not in files:
        return {}
    unit = files[UNIT][1].replace(b'/usr/local/sbin/', b'/usr/sbin/')
    return {f'usr/lib/systemd/system/{os.path.basename(UNIT)}': (0o644, unit), CONFIGURED: (0o644, files[SETTINGS][1])}


def of_python(files):
    """By what Python finds its package, and the command of that."""
    return {f'{PYTHON}/{NAME}': (None, f'{SHARE}/{MODULES}'), f'usr/bin/{NAME}': (0o755, COMMAND.encode()),
            f'{MAN}/man1/{NAME}.1.gz': (None, f'{MAN}/man1/hncp-tools.1.gz')} if f'{MODULES}/__init__.py' in files else {}


def places(files, homes):
    """The files of the package: path -> mode and bytes, or path -> None and the place that a link names."""
    made = {**of_daemon(files), **of_python(files)}
    for path, (mode, data) in files.items():
        if path in homes:
            made[homes[path]] = mode, data
            made[f'{SHARE}/{path}'] = None, homes[path]
            continue
        made[f'{SHARE}/{path}'] = mode, data
        if manual(path):
            made[manual(path)] = 0o644, packed(data)
        if is_command(path, mode):
            made[f'usr/bin/hncp-{os.path.basename(path)}'] = None, f'{SHARE}/{path}'
            made[f'{MAN}/man1/hncp-{os.path.basename(path)}.1.gz'] = None, f'{MAN}/man1/hncp-tools.1.gz'
        if path.startswith('include/') and path.endswith('.h'):
            made[f'usr/{path}'] = mode, data
    for page in PAGES:
        made[f'{DOC}/{page}'] = None, f'{SHARE}/{page}'
    if any(path.startswith(EXAMPLES) for path in files):
        made[f'{DOC}/examples'] = None, f'{SHARE}/{EXAMPLES}'.rstrip('/')
    return made


def changelog(version, moment):
    """The changes as Debian has them: where to read them."""
    day = time.strftime('%a, %d %b %Y %H:%M:%S +0000', time.gmtime(moment))
    return packed(f'{NAME} ({version}) unstable; urgency=medium\n\n  * CHANGES.md has what changed.\n\n -- {MAINTAINER}  {day}\n'.encode())


def control(version, files):
    """What the package says of itself."""
    programs = [data for path, (mode, data) in files.items() if re.match(r'usr/s?bin/|usr/lib/.*\.so\.', path) and mode is not None]
    asked = [tuple(map(int, each)) for data in programs for each in GLIBC.findall(data)]
    libc = 'libc6 (>= %d.%d)' % max(asked) if asked else 'libc6'
    more = ', libmnl0' if any(b'libmnl.so.0' in data for data in programs) else ''
    size = sum(len(data) for mode, data in files.values() if mode is not None)
    return '\n'.join([f'Package: {NAME}', f'Version: {version}', 'Architecture: amd64', f'Maintainer: {MAINTAINER}',
                      f'Installed-Size: {-(-size // 1024)}', f'Depends: {libc}{more}, python3 (>= 3.9)', 'Recommends: tshark',
                      'Suggests: babeld, gcc, graphviz, valgrind', 'Section: net', 'Priority: optional', f'Description: {ABOUT}'])


def put(top, path, mode, data):
    """Writes a file, or a link to a place of the package."""
    whole = os.path.join(top, path)
    os.makedirs(os.path.dirname(whole), exist_ok=True)
    if mode is None:
        os.symlink(os.path.relpath(data, os.path.dirname(path)), whole)
        return
    with open(whole, 'wb') as file:
        file.write(data)
    os.chmod(whole, mode)


def tree(top, files, moment):
    """Writes the files of a package to a folder, with modes and times that do not depend on who does so."""
    for path, (mode, data) in sorted(files.items()):
        put(top, path, mode, data)
    for at, folders, names in os.walk(top, topdown=False):
        for name in names:
            os.utime(os.path.join(at, name), (moment, moment), follow_symlinks=False)
        os.chmod(at, 0o755)
        os.utime(at, (moment, moment))


def scripts(made):
    """What dpkg is told beside the files: what it runs, which settings are the user's, and that there are shared libraries."""
    told = {'prerm': (0o755, BEFORE_REMOVAL), 'postrm': (0o755, AFTER_REMOVAL)}
    settings = sorted(path for path in made if path.startswith('etc/'))
    shared = sorted(os.path.basename(path) for path, (mode, _) in made.items() if mode is None and SHARED.match(path))
    if settings:
        told['conffiles'] = 0o644, ''.join(f'/{path}\n' for path in settings)
    if shared:
        told['triggers'] = 0o644, 'activate-noawait ldconfig\n'
        told['shlibs'] = 0o644, ''.join(f'{name} {number} {NAME}\n' for name, number in (each.split('.so.') for each in shared))
    return {f'DEBIAN/{name}': (mode, text.encode()) for name, (mode, text) in told.items()}


def package(files, homes, more, version, moment):
    """The bytes of a package of the files of an archive, where homes says which of them lie elsewhere in Debian, and of more
    files for it alone. None where there is no dpkg-deb."""
    maker = shutil.which('dpkg-deb')
    if not maker:
        return None
    made = {**places(files, homes), **more}
    made[f'{DOC}/copyright'] = 0o644, COPYRIGHT.encode()
    made[f'{DOC}/changelog.gz'] = 0o644, changelog(version, moment)
    made[f'usr/share/lintian/overrides/{NAME}'] = 0o644, ''.join(
        line if line.startswith('#') else f'{NAME}: {line}' for line in OVERRIDES.splitlines(True)).encode()
    sums = ''.join(f'{hashlib.md5(data).hexdigest()}  {path}\n' for path, (mode, data) in sorted(made.items())
                   if mode is not None and not path.startswith('etc/'))
    about = control(version, made)
    made.update(scripts(made))
    made['DEBIAN/md5sums'] = 0o644, sums.encode()
    made['DEBIAN/control'] = 0o644, about.encode()
    with tempfile.TemporaryDirectory(prefix='release-') as folder:
        tree(os.path.join(folder, 'tree'), made, moment)
        done = subprocess.run([maker, '--root-owner-group', '-Zxz', '--build', 'tree', 'made.deb'], cwd=folder, stdin=subprocess.DEVNULL,
                              stdout=subprocess.DEVNULL, stderr=subprocess.PIPE, env={**os.environ, 'SOURCE_DATE_EPOCH': str(moment)})
        if done.returncode:
            raise Problem(f'dpkg-deb: {(done.stderr.decode("utf-8", "replace").splitlines() or ["it failed"])[-1]}')
        with open(os.path.join(folder, 'made.deb'), 'rb') as file:
            return file.read()

"""Makes the wheel of the package, as pip asks for it (PEP 517, PEP 660), with Python's standard library alone.

So it is installed without a network into an environment that has nothing but pip, of each Python from 3.9 on. Twice from one
tree the wheel is the same. Where the shared object of the laboratory was built in the clone, it goes into the wheel, which is
then for this kind of machine alone.
"""
import base64
import hashlib
import io
import os
import re
import sysconfig
import tarfile
import zipfile
from typing import Dict, Optional

HERE = os.path.dirname(os.path.abspath(__file__))
PACKAGE = 'rulercress'
SOURCES = ('pyproject.toml', 'README.md', 'wheels.py')
KINDS = ('.py', '.typed', '.html', '.md')
# The page that the command `explain` reads: it goes into the package, where the sources lie in a clone or an archive.
PAGE, PAGE_IN_CLONE = f'{PACKAGE}/commands/FORMATS.md', '../docs/FORMATS.md'
# The shared object, where `make -C include NAME=hn_lab_c` puts it, and where the package looks for it.
LIBRARY = 'libhn_lab_c.so.1'
LIBRARY_IN_CLONE, LIBRARY_IN_WHEEL = f'../include/out/{LIBRARY}', f'{PACKAGE}/{LIBRARY}'
MOMENT = (1980, 1, 1, 0, 0, 0)      # the first that a zip file can tell


def read(path: str) -> bytes:
    with open(os.path.join(HERE, path), 'rb') as file:
        return file.read()


def told(table: str = 'project') -> Dict[str, str]:
    """The texts of a table of pyproject.toml. Python reads that format itself from 3.11 on alone."""
    text = read('pyproject.toml').decode().split(f'[{table}]', 1)[1].split('\n[', 1)[0]
    return dict(re.findall(r'(?m)^([a-z-]+) = "([^"]*)"$', text))


def files_of(folder: str) -> Dict[str, bytes]:
    """The files of a folder of the sources, and of those in it."""
    whole = os.path.join(HERE, folder)
    paths = [os.path.relpath(os.path.join(at, name), HERE) for at, _, names in os.walk(whole) for name in names if name.endswith(KINDS)]
    return {path: read(path) for path in sorted(paths)}


def package() -> Dict[str, bytes]:
    """The files of the package."""
    files = files_of(PACKAGE)
    for path, path_in_clone in ((PAGE, PAGE_IN_CLONE), (LIBRARY_IN_WHEEL, LIBRARY_IN_CLONE)):
        if path not in files and os.path.isfile(os.path.join(HERE, path_in_clone)):
            files[path] = read(path_in_clone)
    return files


def tag_of(files: Dict[str, bytes]) -> str:
    """For which Pythons and machines a wheel of these files is."""
    platform = re.sub(r'[-.]', '_', sysconfig.get_platform()) if LIBRARY_IN_WHEEL in files else 'any'
    return f'py3-none-{platform}'


def metadata(project: Dict[str, str]) -> bytes:
    head = (f'Metadata-Version: 2.1\nName: {project["name"]}\nVersion: {project["version"]}\nSummary: {project["description"]}\n'
            f'Requires-Python: {project["requires-python"]}\nDescription-Content-Type: text/markdown\n\n')
    return head.encode() + read(project['readme'])


def scripts() -> str:
    """The commands that pip makes."""
    return '[console_scripts]\n' + ''.join(f'{name} = {target}\n' for name, target in told('project.scripts').items())


def write_wheel(folder: str, files: Dict[str, bytes]) -> str:
    """Writes a wheel of these files to a folder, and gives its name."""
    project = told()
    stem = f'{project["name"]}-{project["version"]}'
    about, tag = f'{stem}.dist-info', tag_of(files)
    is_pure = str(LIBRARY_IN_WHEEL not in files).lower()
    whole = {**files, f'{about}/METADATA': metadata(project),
             f'{about}/entry_points.txt': scripts().encode(),
             f'{about}/WHEEL': f'Wheel-Version: 1.0\nGenerator: wheels.py\nRoot-Is-Purelib: {is_pure}\nTag: {tag}\n'.encode()}
    record = ''
    for path, data in whole.items():
        digest = base64.urlsafe_b64encode(hashlib.sha256(data).digest()).rstrip(b'=').decode()
        record += f'{path},sha256={digest},{len(data)}\n'
    whole[f'{about}/RECORD'] = f'{record}{about}/RECORD,,\n'.encode()
    name = f'{stem}-{tag}.whl'
    with zipfile.ZipFile(os.path.join(folder, name), 'w', zipfile.ZIP_DEFLATED) as wheel:
        for path, data in whole.items():
            entry = zipfile.ZipInfo(path, MOMENT)
            entry.external_attr = 0o100644 << 16
            entry.compress_type = zipfile.ZIP_DEFLATED
            wheel.writestr(entry, data)
    return name


def build_wheel(wheel_directory: str, config_settings: Optional[dict] = None, metadata_directory: Optional[str] = None) -> str:
    """The wheel of the package: pip calls this."""
    return write_wheel(wheel_directory, package())


def build_editable(wheel_directory: str, config_settings: Optional[dict] = None, metadata_directory: Optional[str] = None) -> str:
    """A wheel that names this folder, so that changes of the sources hold at once: `pip install -e`."""
    return write_wheel(wheel_directory, {f'{PACKAGE}.pth': f'{HERE}\n'.encode()})


def build_sdist(sdist_directory: str, config_settings: Optional[dict] = None) -> str:
    """The sources as an archive."""
    project = told()
    stem = f'{project["name"]}-{project["version"]}'
    with tarfile.open(os.path.join(sdist_directory, f'{stem}.tar.gz'), 'w:gz') as archive:
        for path, data in {**{path: read(path) for path in SOURCES}, **package(), **files_of('tests')}.items():
            entry = tarfile.TarInfo(f'{stem}/{path}')
            entry.size = len(data)
            archive.addfile(entry, io.BytesIO(data))
    return f'{stem}.tar.gz'

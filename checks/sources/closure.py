"""Finds what a name stands for, by the `use` lines of the file that it stands in, and all that a clause rests on."""
import os
from typing import Dict, Iterable, Iterator, List, NamedTuple, Optional, Union

from sources.rust import RustFile, RustType
from sources.scopes import Cited
from sources.specs import Definition, SpecFile, Uses


class Node(NamedTuple):
    """A definition or a type, by its file below `crates` and its name."""

    file: str
    name: str

    @property
    def is_type(self) -> bool:
        """Whether it is a type of the program, and no definition."""
        return self.file.endswith('.rt')

    @property
    def place(self) -> str:
        """Its place, as pages write it."""
        return '%s: %s' % (self.file, self.name)


class NotFound(Exception):
    """Something is not where it should be, such as a name that a `use` line brings in."""

    def __str__(self) -> str:
        """What is not there."""
        return 'not found: %s' % self.args[0]


class Sources:
    """The sources of the repository at a folder."""

    def __init__(self, root: str) -> None:
        self.crates = os.path.join(root, 'crates')
        self._specs: Dict[str, Optional[SpecFile]] = {}
        self._rust: Dict[str, Optional[RustFile]] = {}
        self._cites: Dict[Node, List[Node]] = {}
        self._names = set(os.listdir(self.crates))

    def _text(self, file: str) -> Optional[str]:
        path = os.path.join(self.crates, file)
        if not os.path.isfile(path):
            return None
        with open(path, encoding='utf-8') as source:
            return source.read()

    def spec(self, file: str) -> Optional[SpecFile]:
        """A file of definitions, if it is there."""
        if file not in self._specs:
            text = self._text(file)
            found = None if text is None else SpecFile(text)
            if found is not None and found.unread:
                raise NotFound('the definition of the line "%s" of %s' % (found.unread[0], file))
            self._specs[file] = found
        return self._specs[file]

    def rust(self, file: str) -> Optional[RustFile]:
        """A file of the program, if it is there."""
        if file not in self._rust:
            text = self._text(file)
            self._rust[file] = None if text is None else RustFile(text)
        return self._rust[file]

    def has_crate(self, name: str) -> bool:
        """Whether a crate is one of this repository."""
        return name in self._names

    def spec_files(self) -> List[str]:
        """All files of definitions."""
        found = []
        for crate in sorted(self._names):
            for folder, _, files in os.walk(os.path.join(self.crates, crate, 'specs')):
                found += [os.path.relpath(os.path.join(folder, file), self.crates) for file in sorted(files)]
        return [file for file in found if file.endswith('.antt')]

    def entity(self, node: Node) -> Union[Definition, RustType]:
        """The definition or type of a node."""
        if node.is_type:
            return self.rust(node.file).types[node.name]
        return self.spec(node.file).definitions[node.name]

    def imported(self, module: str, name: str) -> Optional[Node]:
        """What a `use` line brings in by a name of a module. It is nothing if it is of the kit."""
        parts = module.split('.')
        if parts[0] != 'Rattle' or not self.has_crate(parts[1]) or parts[2] != 'specs':
            return None
        crate = parts[1]
        if parts[3] in ('declared', 'contracts'):
            return self._declared(crate, parts[4:], module, name)
        return self._defined(crate, parts[3:], module, name)

    def _declared(self, crate: str, parts: List[str], module: str, name: str) -> Node:
        """A type as definitions see it: `declared.FILE.TYPE`, and after that what the type has."""
        path = [part for part in parts if part[0].islower()]
        owner = next((part for part in parts if part[0].isupper()), name)
        file = '/'.join([crate, 'src'] + path) + '.rt'
        rust = self.rust(file)
        if rust is None or owner not in rust.types:
            raise NotFound('%s of %s' % (name, module))
        return Node(file, owner)

    def _defined(self, crate: str, parts: List[str], module: str, name: str) -> Optional[Node]:
        """A definition, or the `data` of a constructor. A file may pass on what its own `use` lines bring in."""
        file = '/'.join([crate, 'specs'] + parts) + '.antt'
        spec = self.spec(file)
        if spec is not None:
            own = self._own(file, name)
            if own is not None:
                return own
            if name in spec.uses.names and spec.uses.names[name].is_public:
                return self.by_uses(spec.uses, (name, ''))
        raise NotFound('%s of %s' % (name, module))

    def _own(self, file: str, name: str) -> Optional[Node]:
        """The definition of a file that has a name or, as a constructor, belongs to it."""
        spec = self.spec(file)
        name = spec.owners.get(name, name)
        return Node(file, name) if name in spec.definitions else None

    def by_uses(self, uses: Uses, cited: Cited) -> Optional[Node]:
        """What a cited name stands for by `use` lines. It is nothing if it is of the kit or of no `use` line."""
        name, after = uses.named(cited[0]), cited[1]
        if name in uses.modules and after:
            return self.imported(uses.modules[name], after)
        if name in uses.names:
            return self.imported(*uses.names[name][:2])
        return None

    def of_spec(self, file: str, cited: Cited) -> Optional[Node]:
        """What a name stands for in a file of definitions."""
        return self._own(file, cited[0]) or self.by_uses(self.spec(file).uses, cited)

    def _of_rust(self, file: str, name: str) -> Optional[Node]:
        """The type of this repository that a name stands for in a file of the program."""
        rust = self.rust(file)
        if name in rust.types:
            return Node(file, name)
        if name not in rust.uses:
            return None
        path, own = rust.uses[name]
        target = self._rust_file(file, path)
        return None if target is None else self._of_rust(target, own)

    def _rust_file(self, file: str, path: List[str]) -> Optional[str]:
        """The file that a path in a file of the program leads to."""
        crate = file.split('/')[0]
        if path[0] == 'crate':
            parts = [crate, 'src'] + path[1:]
        elif self.has_crate(path[0]):
            parts = [path[0], 'src'] + path[1:]
        else:
            parts = file.split('/')[:-1] + path
        names = [parts] if len(parts) > 2 else [parts + [root] for root in ('lib', 'main')]
        files = ['/'.join(name) + '.rt' for name in names]
        return next((name for name in files if self.rust(name) is not None), None)

    def cites(self, node: Node) -> List[Node]:
        """What a definition or a type cites, each once, in the order of its text."""
        if node not in self._cites:
            found = self._cited_by_type(node) if node.is_type else self._cited_by_definition(node)
            self._cites[node] = [other for other in dict.fromkeys(found) if other and other != node]
        return self._cites[node]

    def _cited_by_definition(self, node: Node) -> Iterator[Optional[Node]]:
        spec = self.spec(node.file)
        for cited in spec.cited(spec.definitions[node.name]):
            yield self.of_spec(node.file, cited)

    def _cited_by_type(self, node: Node) -> Iterator[Optional[Node]]:
        """Contracts see a type with a model as that says, and another by its fields."""
        rust = self.rust(node.file)
        found = rust.types[node.name]
        if found.model:
            for cited in rust.cited_by_model(found):
                yield self.by_uses(found.uses, cited) or self.by_uses(rust.ghosts, cited)
        else:
            for name in rust.types_in(found):
                yield self._of_rust(node.file, name)

    def cited_by_clauses(self, file: str, function: str, clauses: Iterable[str]) -> List[Node]:
        """What clauses of a function cite, each once, in the order of their text."""
        rust = self.rust(file)
        contract = rust.contract(function)
        found = [self.by_uses(rust.ghosts, cited) for name in clauses for cited in contract.cited(name)]
        return [node for node in dict.fromkeys(found) if node]

    def steps(self, seeds: Iterable[Node]) -> Dict[Node, int]:
        """All that some nodes rest on, with the fewest steps to it; they themselves are at 0."""
        found = {node: 0 for node in seeds}
        queue = list(found)
        for node in queue:
            for other in self.cites(node):
                if other not in found:
                    found[other] = found[node] + 1
                    queue.append(other)
        return found

"""A workspace: its packages, imports and the stages of their faults; and the identifiers bound to one declaration.

The order of stages, kinds and places follows the rules of the subset. A path is a str of ASCII, an offset a number of
bytes.
"""

import functools

from checks.model import lexer, syntax
from checks.model.checker import Checker


@functools.lru_cache(maxsize=256)
def tokens_of_file(path, source):
    """The tokens of a text that stands in a file; several workspaces share them, two files never do."""
    return lexer.tokens_of(source)


class SourceFile:
    """A file. Its tree or its fault is found where one of them is first asked for."""

    def __init__(self, path, source, interfaces=True):
        self.path = path
        self.source = source
        self.interfaces = interfaces

    @functools.cached_property
    def parsed(self):
        """The tree and None; or None and the offset and the kind of the first fault."""
        try:
            tokens = tokens_of_file(self.path, self.source)
        except lexer.Fault as fault:
            return None, (fault.offset, fault.kind)
        tree, fault = syntax.first_fault(tokens, self.interfaces)
        if fault is None:
            return tree, None
        number, kind = fault
        return None, (tokens[number].offset if number < len(tokens) else len(self.source), kind)

    @property
    def tree(self):
        return self.parsed[0]

    @property
    def fault(self):
        return self.parsed[1]

    def imports(self):
        """Each import's path, or None where the value is no text, with its node."""
        for node in self.tree.parts:
            value = lexer.string_value(node.at.text)
            yield node, value.decode("utf-8", "replace")


class Package:
    def __init__(self, path, files):
        self.path = path
        self.files = files
        self.faults = None
        self.checker = None

    @property
    def trees(self):
        return [file for file in self.files if file.tree is not None]

    def name(self):
        return self.files[0].tree.name.text


class Workspace:
    """Without interfaces the subset has no interface types, as programs had before."""

    def __init__(self, texts, interfaces=True):
        self.interfaces = interfaces
        self.files = {}
        folders = {}
        for path in sorted(texts, key=str.encode):
            if path.endswith(".go"):
                file = SourceFile(path, texts[path], interfaces)
                self.files[path] = file
                folders.setdefault(path.rsplit("/", 1)[0], []).append(file)
        self.packages = {folder: Package(folder, files) for folder, files in folders.items()}
        self.order = sorted(self.packages, key=str.encode)

    def of(self, texts):
        """The workspace of other texts in the same subset."""
        return Workspace(texts, self.interfaces)

    def imported(self, path):
        """The packages that a package imports directly."""
        found = set()
        for file in self.packages[path].trees:
            found |= {value for _, value in file.imports() if value in self.packages}
        return found

    def closure(self, path):
        found = {path}
        agenda = [path]
        while agenda:
            for other in self.imported(agenda.pop()):
                if other not in found:
                    found.add(other)
                    agenda.append(other)
        return found

    def package_faults(self, path):
        """The faults of a package as (path, offset, kind), sorted, of the first stage that has some."""
        package = self.packages[path]
        if package.faults is None:
            found = self.stages(package)
            package.faults = sorted(set(found), key=lambda f: (f[0].encode(), f[1], f[2]))
        return package.faults

    def stages(self, package):
        texts = [(f.path, *f.fault) for f in package.files if f.fault is not None]
        if texts:
            return texts
        name = package.name()
        clauses = [
            (f.path, f.tree.name.offset, "package") for f in package.files if f.tree.name.text != name
        ]
        if clauses:
            return clauses
        imports = [
            (file.path, node.at.offset, kind)
            for file in package.files
            for node, value in file.imports()
            for kind in [self.import_fault(package.path, value)]
            if kind is not None
        ]
        if imports:
            return imports
        package.checker = Checker(package, self.packages)
        return package.checker.faults()

    def import_fault(self, importer, path):
        if path not in self.packages:
            return "missing"
        if importer in self.closure(path):
            return "cycle"
        return "import" if self.package_faults(path) else None

    def faults(self):
        return [fault for path in self.order for fault in self.package_faults(path)]

    def affected(self, starts):
        """The packages whose closure has one of these packages, in order."""
        return [path for path in self.order if self.closure(path) & set(starts)]

    def without_faulty(self, texts):
        """The workspace without the Go files of packages with faults, and its texts."""
        sound = {
            path: text
            for path, text in texts.items()
            if path not in self.files or not self.package_faults(path.rsplit("/", 1)[0])
        }
        part = self if len(sound) == len(texts) else self.of(sound)
        assert not part.faults()
        return part, sound

    def bindings(self):
        """Each identifier and path literal: path, offset, length, declaration or None, whether it is an identifier."""
        for path in self.order:
            self.package_faults(path)
            yield from self.packages[path].checker.bindings

    def uses(self, path, offset):
        """The number of a refusal, or the places of the identifiers bound to the same declaration."""
        if path not in self.files:
            return 4
        if self.faults():
            return 9
        bound = [b for b in self.bindings() if b[0] == path and b[1] <= offset < b[1] + b[2]]
        if not bound:
            return 10
        declaration = bound[0][3]
        if declaration is None:
            return 11
        places = [(b[0], b[1]) for b in self.bindings() if b[3] is declaration and b[4]]
        return sorted(places, key=lambda place: (place[0].encode(), place[1]))

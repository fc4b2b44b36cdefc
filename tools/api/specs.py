"""The files of definitions (specs/*.antt): their names, where these stand, and what the files take in and give on."""
import re

from items import Scope, listed_names
from repository import CRATES

USE = re.compile(r"\s*(pub )?use (.*)")
DEFINITION = re.compile(r"\s*(?:(abbrev|unfoldable|opaque) pub|pub (record|data)|pub)\s+(\S+)")
CONSTRUCTOR = re.compile(r"\s*([^\W\d][\w'-]*) :")


class SpecFile:
    """A file of definitions: its text, its names with the lines at which they stand, and what it gives on."""

    def __init__(self, crate, path):
        self.crate, self.path = crate, path
        self.file = ".".join(path.relative_to(CRATES / crate / "specs").with_suffix("").parts)
        self.page = f"specs/{crate}.{self.file}.html"
        self.lines = path.read_text(encoding="utf-8").split("\n")
        self.names, self.exports, self.scope = {}, {}, Scope(self)
        self.read()

    def read(self):
        """Finds the names, those of constructors too, and every `use`."""
        # How far a `data` is indented whose constructors may follow.
        data = None
        for at, line in enumerate(self.lines):
            indent = len(line) - len(line.lstrip())
            use, named = USE.match(line), DEFINITION.match(line)
            if use:
                self.scope.add(use.group(2), at + 1)
                if use.group(1):
                    self.exports.update(listed_names(use.group(2)) or {})
            elif named and named.group(3) not in ("mod", "use") and is_definition(named, indent):
                self.names.setdefault(named.group(3), at)
                data = indent if named.group(2) == "data" else None
            elif data is not None and line.strip() and not is_comment(line):
                if indent <= data:
                    data = None
                elif CONSTRUCTOR.match(line):
                    self.names.setdefault(CONSTRUCTOR.match(line).group(1), at)

    def head(self):
        """The comment that begins the file."""
        found = []
        for line in self.lines:
            if not line.startswith("--"):
                break
            found.append(line[2:].strip())
        return found

    def first_line(self, name):
        """The line where the comment of a name begins, or where it stands itself."""
        at = self.names[name]
        while at and is_comment(self.lines[at - 1]):
            at -= 1
        return at

    def comment(self, name):
        """What is said above a name."""
        return " ".join(line.strip()[2:].strip() for line in self.lines[self.first_line(name):self.names[name]])

    def is_shown(self):
        """Whether it has a page: a list of files has none."""
        return bool(self.names) or self.file != "Lib"


def is_comment(line):
    return line.lstrip().startswith("--")


def is_definition(named, indent):
    """Whether this is a definition by itself, and no field of a record."""
    return bool(named.group(1) or named.group(2)) or not indent

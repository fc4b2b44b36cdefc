"""What the sources are read into: modules with their items, impls and scopes."""
import re

from repository import BadSource


class Clause:
    """A `requires` or `ensures`: its name, if it has one, and its text."""

    def __init__(self, keyword, name, text):
        self.keyword = keyword
        self.name = name
        self.text = text

    def is_separation(self):
        """Whether it is an assertion of separation logic."""
        return self.keyword.endswith("*")


class Ghost:
    """A `ghost` of a trait or an impl, as `ghost rule: { Self → Rule }`: what only contracts see."""

    def __init__(self, name, code, line):
        self.name = name
        self.code = code
        self.line = line
        self.docs = []


class Part:
    """A public field of a struct, or a variant of an enum, with its own public fields."""

    def __init__(self, name, text, docs, parts=()):
        self.name = name
        self.text = text
        self.docs = docs
        self.parts = list(parts)


class Owner:
    """What may have ghosts: a trait or an impl."""

    def ghost(self, name):
        """Its own ghost of this name, or None."""
        return next((ghost for ghost in self.ghosts if ghost.name == name), None)


class Item(Owner):
    """An item of a module, a trait or an impl, with all that is shown of it."""

    def __init__(self, kind, name, line, module):
        self.kind, self.name, self.line, self.module = kind, name, line, module
        # Whether `pub` stands before it; and whether it is public, as all that stands in a trait is.
        self.has_pub = self.is_public = False
        self.code = ""
        self.docs, self.attributes, self.clauses, self.parts = [], [], [], []
        # Of a trait: what stands in it.
        self.members, self.ghosts = [], []
        # What its clauses speak of: the definitions in scope, and the names of its own parameters.
        self.scope = module.scope
        self.parameters = set()
        # Filled in once all crates are read: its own impls, those of traits, the types of a trait, and flags.
        self.impls, self.trait_impls, self.types, self.flags = [], [], [], []

    def derived(self):
        """The traits that are derived for it."""
        found = [re.match(r"#\[derive\((.*)\)\]", text, re.DOTALL) for text in self.attributes]
        return [name.strip() for match in found if match for name in match.group(1).split(",") if name.strip()]

    def models(self):
        """Its impls of Model, which say what contracts see of its values."""
        return [impl for impl in self.trait_impls if impl.trait[-1] == "Model" and impl.ghosts]

    def public_members(self):
        """What can be called of it: the members of a trait, and the public functions of its own impls, in their order."""
        return self.members + [member for impl in self.impls for member in impl.public_members()]


class Impl(Owner):
    """An impl: its header, the path of its type and that of its trait, and what stands in it."""

    def __init__(self, header, trait, of, docs, line, scope):
        self.header = header
        self.trait = trait
        self.of = of
        self.docs = docs
        self.line = line
        self.scope = scope
        self.module = scope.module
        self.members, self.ghosts = [], []

    def public_members(self):
        return [member for member in self.members if member.has_pub]


class Module:
    """A file of a crate: its items, its impls, what it takes in and what it gives on."""

    def __init__(self, crate, path, names):
        self.crate, self.path, self.names = crate, path, names
        self.head, self.items, self.impls, self.flags = [], [], [], []
        # Its modules, each with whether it is public.
        self.modules = {}
        # What `use` brings in, by name; and what `pub use` gives on: name, path and line.
        self.imports, self.exports = {}, []
        self.scope = Scope(self)

    def item(self, name):
        """Its own item of this name, or None."""
        return next((item for item in self.items if item.name == name), None)

    def all(self):
        """It, and all modules within it."""
        yield self
        for module, _ in self.modules.values():
            yield from module.all()


class Scope:
    """What `ghost use` brings into a file, and into a trait or an impl of it: names, and names of whole files."""

    def __init__(self, module, outer=None):
        self.module = module
        # By name: the path and the name that it stands for.
        self.names = dict(outer.names) if outer else {}
        # By name of a file: its path.
        self.files = dict(outer.files) if outer else {}
        # All that was taken in the whole file, with lines.
        self.taken = outer.taken if outer else []

    def add(self, text, line):
        """One `use`, from behind that word on: PATH.{a, b as c}, or PATH as c."""
        text = " ".join(text.split())
        alone = re.fullmatch(r"(\S+)(?: as (\S+))?", text)
        if listed_names(text) is not None:
            for new, (path, old) in listed_names(text).items():
                self.names[new] = (path, old)
                self.taken.append((path, old, line))
        elif alone:
            self.files[alone.group(2) or alone.group(1).split(".")[-1]] = alone.group(1)
        else:
            raise BadSource(self.module.path, line, f"this isn't read as a `use`: {text}")


def listed_names(text):
    """The names of PATH.{a, b as c}, each with the path and the name that it stands for; None if it is no such list."""
    listed = re.fullmatch(r"(\S+)\.\{(.*)\}", text.strip())
    if not listed:
        return None
    pairs = (word.strip().partition(" as ") for word in listed.group(2).split(","))
    return {new or old: (listed.group(1), old) for old, _, new in pairs}

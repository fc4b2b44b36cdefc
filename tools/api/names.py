"""What belongs to what: who can be reached from outside a crate, and what a name stands for."""
import re

from items import Item, Module
from logic import super_traits
from repository import CRATES, ROLES, BadSource, crate_names
from source import read_module
from specs import SpecFile

# A name that leads on more often than this goes in a circle.
MOST_IMPORTS = 12
MOST_EXPORTS = 6


class Crate:
    """A crate: its files, and where each of its items is shown."""

    def __init__(self, name, role, height, tally):
        # `height` is its place in crates.txt: what stands on others is higher than they are.
        self.name, self.role, self.height = name, role, height
        roots = [CRATES / name / "src" / file for file in ("lib.rt", "main.rt")]
        root = next((path for path in roots if path.is_file()), None)
        if root is None:
            raise BadSource(CRATES / name, 0, "the crate has no root")
        self.is_program = root.name == "main.rt"
        self.root = Module(self, root, [])
        read_module(self.root, tally)
        files = [SpecFile(name, path) for path in sorted((CRATES / name / "specs").rglob("*.antt"))]
        self.specs = {found.file: found for found in files}
        self.file_order = self.order_of_files()
        # By item: its place on the crate's page.
        self.shown = {}

    def modules(self):
        return self.root.all()

    def order_of_files(self):
        """The place of each module among all: in the order in which the crate's head names the files, then as they are met."""
        named = re.findall(r"`([\w/]+\.rt)`", "\n".join(self.root.head))
        modules = list(self.modules())
        files = {module: module.path.relative_to(self.root.path.parent).as_posix() for module in modules}
        ranks = {module: named.index(file) if file in named else len(named) for module, file in files.items()}
        return {module: at for at, module in enumerate(sorted(modules, key=ranks.get))}

    def place_in_source(self, thing):
        """By what items and impls of the crate are put in the order of the source."""
        return self.file_order[thing.module], thing.line

    def shown_specs(self):
        """The files of definitions that have a page."""
        return [found for found in self.specs.values() if found.is_shown()]


class World:
    """All crates, and what a name in one of them stands for."""

    def __init__(self, tally):
        self.tally, self.crates = tally, {}
        for height, name in enumerate(crate_names()):
            role = next((at for at, (_, fits) in enumerate(ROLES) if re.fullmatch(fits, name)), None)
            try:
                if role is not None:
                    self.crates[name] = Crate(name, role, height, tally)
            except BadSource as bad:
                tally.report(bad)
        if tally.faults:
            return
        for crate in self.crates.values():
            self.reach(crate)
        for crate in self.crates.values():
            for module in sorted(crate.modules(), key=crate.file_order.get):
                self.join(module)
            for file in [*crate.modules(), *crate.specs.values()]:
                self.check_taken(file)

    def check_taken(self, file):
        """Whether all is there that a file takes from definitions of this repository."""
        for path, name, line in file.scope.taken:
            try:
                self.definition(path, name)
            except KeyError as bad:
                self.tally.report(BadSource(file.path, line, bad.args[0]))

    # Names of Rattle

    def find(self, module, names, depth=0):
        """The item or module that a path of names stands for, from a module; None for what isn't of this repository."""
        if depth > MOST_IMPORTS or not names:
            return None
        first, rest = names[0], names[1:]
        if first == "crate":
            return self.within(module.crate.root, rest, depth)
        if first == "self":
            return self.within(module, rest, depth)
        if not rest and module.item(first):
            return module.item(first)
        if rest and first in module.modules:
            return self.within(module.modules[first][0], rest, depth)
        if first in module.imports and module.imports[first] != names:
            return self.find(module, module.imports[first] + rest, depth + 1)
        if first in module.modules:
            return self.within(module.modules[first][0], rest, depth)
        if first in self.crates:
            return self.within(self.crates[first].root, rest, depth)
        return None

    def within(self, module, names, depth):
        """What a path names in a module that it has come to."""
        if not names:
            return module
        if names[0] in module.modules:
            return self.within(module.modules[names[0]][0], names[1:], depth)
        if len(names) == 1 and module.item(names[0]):
            return module.item(names[0])
        if names[0] in module.imports:
            return self.find(module, module.imports[names[0]] + names[1:], depth + 1)
        return None

    def reach(self, crate):
        """Gives each item that can be reached in a crate its place on the crate's page."""
        def walk(module, front):
            for item in module.items:
                if item.is_public:
                    crate.shown.setdefault(item, ".".join(front + [item.name]))
            for name, path, line in module.exports:
                found = self.find(module, path)
                if found is None:
                    self.tally.report(BadSource(module.path, line, f"`pub use {'::'.join(path)}` leads to nothing"))
                elif isinstance(found, Item) and (found.module.crate is crate or crate.name == "tirnouch"):
                    crate.shown.setdefault(found, ".".join(front + [name]))
            for name, (inner, public) in module.modules.items():
                if public:
                    walk(inner, front + [name])
        walk(crate.root, [])

    def trait_of_ghost(self, module, traits, name):
        """Which of these traits, or of those that they ask for, has a ghost of this name; None if none has."""
        for trait in (self.find(module, [trait]) for trait in traits):
            if isinstance(trait, Item) and trait.ghost(name):
                return trait
            above = super_traits(trait.code) if isinstance(trait, Item) and trait.kind == "trait" else []
            found = self.trait_of_ghost(trait.module, above, name) if above else None
            if found:
                return found
        return None

    def has_ghost(self, of, trait, name):
        """Whether an impl of a trait for a type says what this ghost is."""
        return any(impl.ghost(name) for impl in of.trait_impls if self.find(impl.module, impl.trait) is trait)

    def join(self, module):
        """Joins the impls of a module to their types and traits."""
        for name, text in module.flags:
            of = self.find(module, [name])
            if isinstance(of, Item):
                of.flags.append(text)
            else:
                self.tally.report(BadSource(module.path, 1, f"the type of the flags of {name} isn't found"))
        for impl in module.impls:
            of = self.find(module, impl.of)
            trait = self.find(module, impl.trait) if impl.trait else None
            if isinstance(of, Item):
                (of.trait_impls if impl.trait else of.impls).append(impl)
                if isinstance(trait, Item):
                    trait.types.append((of, impl))
            elif impl.public_members():
                what = f"the type of this impl's public functions, {'::'.join(impl.of)}, isn't found"
                self.tally.report(BadSource(module.path, impl.line, what))

    def unreachable(self):
        """The public functions that nobody outside their crates can name: of a module, or a type, that isn't given out."""
        found = set()
        for crate in self.crates.values():
            for module in crate.modules():
                inner = [item for item in module.items if item not in crate.shown]
                for impl in module.impls:
                    if self.find(module, impl.of) not in crate.shown:
                        inner += impl.members
                found |= {(module.path, item.line) for item in inner if item.kind == "function"}
        return found

    # Names of definitions

    def definition(self, path, name, depth=0):
        """What `PATH.{name}` stands for: a file and a name in it, an item and a variant, or None for others'."""
        match = re.fullmatch(r"Rattle\.(\w+)\.(specs|proofs)\.(.*)", path)
        if not match or match.group(1) not in self.crates or depth > MOST_EXPORTS:
            return None
        crate, file = self.crates[match.group(1)], match.group(3)
        if file.startswith("declared."):
            return self.declared(crate, file.split(".")[1:], name)
        if file.startswith("contracts.") or match.group(2) == "proofs":
            return None
        if file not in crate.specs:
            raise KeyError(f"there is no file of definitions {path}")
        found = crate.specs[file]
        if name in found.names:
            return found, name
        if name in found.exports:
            return self.definition(*found.exports[name], depth + 1)
        raise KeyError(f"{path} has no {name}")

    def declared(self, crate, names, name):
        """The type from whose declaration the prover takes a name, and its variant."""
        variant = name if names[-1] == "TheVariants" else None
        names = names[:-1] if variant else names
        found = self.within(crate.root, names, 0)
        if not isinstance(found, Item):
            raise KeyError(f"{crate.name} has no {'::'.join(names)}")
        return found, variant

"""Where the names between backticks of docs lead: to items, to what belongs to them, and to definitions."""
import re

from items import Item, Module
from markup import escape
from specs import SpecFile

NAME = re.compile(r"[^\W\d]\w*(::\w+)*(\(\))?")
# A definition before what it is said of, as `ShowsWorld setup s w`.
APPLIED = re.compile(r"[A-Z]\w*(?=( [\w.']+)+$)")


class DocLinks:
    """Shows what is between backticks of the docs of a module, or of an item.

    A name that stands alone may be of the type or the module that was named last, at first of the item itself."""

    def __init__(self, page, module, item=None, apart=()):
        self.page, self.world = page, page.world
        self.module, self.item, self.owner = module, item, item
        # Names of parameters, which lead nowhere.
        self.apart = apart

    def __call__(self, text):
        name = APPLIED.match(text)
        word, rest = (name.group(), text[name.end():]) if name else (text, "")
        href = self.href(word) if (name or NAME.fullmatch(text)) and word not in self.apart else None
        return f"<code>{self.page.link(href, word) if href else escape(word)}{escape(rest)}</code>"

    def href(self, text):
        """Where a name leads; None if nowhere."""
        names = text.removesuffix("()").split("::")
        item = self.find_item(names)
        if item is not None:
            if item.public_members():
                self.owner = item
            elif len(names) > 1:
                self.owner = self.find(names[:-1])
            return None if item is self.item else self.page.href_of_item(item)
        if len(names) > 1:
            self.owner = self.find(names[:-1])
        of_owner = self.href_of_member(names[-1]) if isinstance(self.owner, Item) else None
        return of_owner or (self.href_of_definition(names[0]) if len(names) == 1 else None)

    def find(self, names):
        """What a path of names stands for, in this module or else in another of the crate."""
        found = self.world.find(self.module, names)
        if found is None and (len(names) > 1 or names[0][:1].isupper()):
            found = next(filter(None, (self.world.find(module, names) for module in self.module.crate.modules())), None)
        return found

    def find_item(self, names):
        """The item that a name stands for: in scope, in the module named last, or, in a crate's head, its only one of this name."""
        found = self.find(names)
        if found is None and len(names) == 1 and isinstance(self.owner, Module):
            found = self.world.find(self.owner, names)
        if found is None and len(names) == 1 and self.owner is None and self.module is self.module.crate.root:
            named = [item for item in self.module.crate.shown if item.name == names[0]]
            found = named[0] if len(named) == 1 else None
        return found if isinstance(found, Item) else None

    def href_of_member(self, name):
        """Where a method, a variant or a ghost of the type that was named last leads."""
        owner = self.owner
        variants = owner.parts if owner.kind == "enum" else []
        if any(member.name == name for member in [*owner.public_members(), *variants]):
            return self.page.href_of_item(owner, name)
        return self.page.href_of_ghost(owner, name) if owner.ghost(name) else None

    def href_of_definition(self, name):
        """Where a definition leads that no word of English is: the crate's only one of this name, or one that it takes."""
        if not (name[:1].isupper() or "_" in name):
            return None
        crate = self.module.crate
        own = [(file, name) for file in crate.shown_specs() if name in file.names]
        paths = {module.scope.names[name] for module in crate.modules() if name in module.scope.names}
        found = own or [self.world.definition(*path) for path in paths]
        if len(found) != 1 or found[0] is None or not isinstance(found[0][0], SpecFile):
            return None
        return self.page.href(found[0][0].page, found[0][1])

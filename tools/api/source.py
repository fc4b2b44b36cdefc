"""Reading of .rt: the items of a file, their clauses and their docs.

A file is read item by item. What begins no item that is known here is a fault, so that nothing is passed over."""
import re

from items import Ghost, Impl, Item, Module, Scope
from parts import PartReader
from repository import BadSource

PUBLIC_FUNCTION = re.compile(r"\s*pub\s+((unsafe|const|extern\s*\"\w+\")\s+)*fn\b")


def read_module(module, tally):
    """Reads the whole file of a module. A function that only a plain look at the lines finds is a fault."""
    reader = Reader(module, tally)
    reader.read()
    for number, line in enumerate(reader.text.splitlines(), 1):
        if PUBLIC_FUNCTION.match(line) and (module.path, number) not in tally.functions_read:
            tally.report(BadSource(module.path, number, "this public function was not read"))


class Reader(PartReader):
    """Reads the items of a file into its module."""

    def __init__(self, module, tally):
        super().__init__(module.path)
        self.module, self.tally = module, tally

    def read(self):
        self.module.head = self.lines_of("head")
        while self.word() == "#" and self.word(1) == "!":
            self.attribute()
        while self.kind() != "end":
            item = self.item(self.module.scope)
            if isinstance(item, Item):
                self.module.items.append(item)

    def item(self, scope, owner=None):
        """One item, with its docs; of a trait or an impl, which is its owner then, a ghost too. What isn't shown gives None."""
        docs, attributes = self.docs_and_attributes()
        line, begin, public = self.line(), self.offset(), self.visibility()
        if "#[cfg(test)]" in attributes or "#[test]" in attributes:
            return self.skip_item()
        item = self.shape(scope, docs, line, begin, public)
        if isinstance(item, Item):
            item.docs, item.attributes = docs, attributes
            item.has_pub, item.is_public = public, public or bool(owner)
        elif isinstance(item, Ghost):
            item.docs = docs
        return item

    def skip_item(self):
        self.until("{", ";")
        if self.word() == "{":
            self.pair()
        else:
            self.take(";")

    def shape(self, scope, docs, line, begin, public):
        """The item behind its docs and its `pub`."""
        word = self.word()
        if word == "ghost":
            return self.ghost(scope, line, begin)
        if word == "use":
            return self.use(public)
        if word == "mod":
            return self.mod(public)
        if word == "macro_rules":
            return self.skip_item()
        if self.word(1) == "!":
            return self.macro()
        if word == "impl" or (word, self.word(1)) == ("unsafe", "impl"):
            return self.impl(scope, docs, line)
        if word in ("struct", "enum", "trait", "type", "static") or word == "const" and self.word(1) != "fn":
            return getattr(self, {"static": "const"}.get(word, word))(scope, line, begin)
        if word in ("fn", "unsafe", "extern", "const", "async"):
            return self.fn(scope, line, begin, public)
        return self.fail(f"`{word}` begins no item that is known")

    # What a file takes in, and its modules

    def ghost(self, scope, line, begin):
        """A `ghost use`, which gives None, or a ghost of a trait or an impl."""
        self.take("ghost")
        name = self.take()
        text = self.until(";")
        ghost = Ghost(name, self.source(begin), line)
        self.take(";")
        if name != "use":
            return ghost
        return scope.add(text, line)

    def use(self, public):
        line = self.line()
        self.take("use")
        tree = self.until(";")
        self.take(";")
        for name, path in imported(re.sub(r"\s+", " ", tree).strip()):
            self.module.imports[name] = path
            if public:
                self.module.exports.append((name, path, line))

    def mod(self, public):
        line = self.line()
        self.take("mod")
        name = self.take()
        if self.word() != ";":
            self.fail("a module within a file isn't read")
        self.take(";")
        folder = self.path.parent / ("" if not self.module.names else self.path.stem)
        path = next((path for path in (folder / f"{name}.rt", folder / name / "mod.rt") if path.is_file()), None)
        if path is None:
            raise BadSource(self.path, line, f"there is no file of the module {name}")
        module = Module(self.module.crate, path, self.module.names + [name])
        read_module(module, self.tally)
        self.module.modules[name] = (module, public)

    def macro(self):
        """Of macros, only that of flags has items, which are told of its type."""
        line, begin, name = self.line(), self.offset(), self.take()
        self.take("!")
        text = self.pair()
        self.take_if(";")
        if name != "bitflag_items":
            raise BadSource(self.path, line, f"what the macro {name} stands for isn't known")
        of = re.match(r"\s*impl (\w+)", text)
        if not of:
            raise BadSource(self.path, line, "no type of these flags is found")
        self.module.flags.append((of.group(1), self.source(begin)))

    # Constants and types

    def const(self, scope, line, begin):
        self.take("const", "static")
        return self.one_line("constant", line, begin)

    def type(self, scope, line, begin):
        self.take("type")
        return self.one_line("type", line, begin)

    def one_line(self, kind, line, begin):
        """An item that is shown up to its semicolon."""
        item = Item(kind, self.take(), line, self.module)
        self.until(";")
        self.take(";")
        item.code = self.source(begin)
        return item

    def struct(self, scope, line, begin):
        self.take("struct")
        item = Item("struct", self.take(), line, self.module)
        self.until("{", "(", ";")
        head = self.source(begin)
        if self.word() == "{":
            item.parts, hidden = self.fields()
            lines = [f"    {part.text}," for part in item.parts] + ["    // private fields"] * hidden
            item.code = head + (" {\n" + "\n".join(lines) + "\n}" if lines else " {}")
        elif self.word() == "(":
            item.code = f"{head}({', '.join(self.tuple_fields())});"
            self.take(";")
        else:
            self.take(";")
            item.code = head + ";"
        return item

    def enum(self, scope, line, begin):
        self.take("enum")
        item = Item("enum", self.take(), line, self.module)
        self.until("{")
        head = self.source(begin)
        self.take("{")
        while self.word() != "}":
            item.parts.append(self.variant())
        self.take("}")
        item.code = head + " {\n" + "".join(f"    {part.text},\n" for part in item.parts) + "}"
        return item

    # Traits and impls

    def trait(self, scope, line, begin):
        self.take("trait")
        item = Item("trait", self.take(), line, self.module)
        self.until("{")
        item.code = self.source(begin)
        item.scope = Scope(self.module, scope)
        self.block(item.scope, item)
        return item

    def impl(self, scope, docs, line):
        begin = self.offset()
        self.take_if("unsafe")
        self.take("impl")
        self.generics()
        trait, of = None, self.path_names()
        if self.word() == "for":
            self.take()
            trait, of = of, self.path_names()
        self.until("{")
        impl = Impl(self.source(begin), trait, of, docs, line, Scope(self.module, scope))
        self.block(impl.scope, impl)
        self.module.impls.append(impl)

    def block(self, scope, owner):
        """What stands between the braces of a trait or an impl. Its `ghost use` may stand behind what it is for."""
        self.take("{")
        while self.word() != "}":
            if self.kind() == "end":
                self.fail("a brace isn't closed")
            item = self.item(scope, owner)
            if isinstance(item, Item):
                owner.members.append(item)
            elif isinstance(item, Ghost):
                owner.ghosts.append(item)
        self.take("}")

    # Functions

    def fn(self, scope, line, begin, public):
        while self.word() != "fn":
            self.take("unsafe", "extern", "const", "async", '"C"')
        self.take("fn")
        item = Item("function", self.take(), line, self.module)
        item.scope = scope
        if public:
            self.tally.functions_read.add((self.path, line))
        self.until("{", ";", "requires", "ensures")
        item.code = self.source(begin).rstrip(",")
        item.parameters = set(re.findall(r"\b([a-z_]\w*)\s*:(?!:)", item.code))
        while self.word() in ("requires", "ensures"):
            item.clauses.append(self.clause())
        if self.word() == "{":
            self.pair()
        else:
            self.take(";")
        return item



def imported(tree):
    """The names that a `use` brings in, each with its path."""
    at = tree.find("{")
    if at < 0:
        path, _, name = tree.partition(" as ")
        names = [word.strip() for word in path.split("::")]
        return [(name.strip() or names[-1], names)]
    front = [word for word in tree[:at].split("::") if word.strip()]
    found, depth, part = [], 0, ""
    for letter in tree[at + 1:tree.rindex("}")] + ",":
        depth += (letter == "{") - (letter == "}")
        if letter == "," and not depth:
            found += imported(part.strip()) if part.strip() else []
            part = ""
        else:
            part += letter
    return [(front[-1], front) if names == ["self"] else (name, front + names) for name, names in found]

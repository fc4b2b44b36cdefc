"""A page of doc/, as it is written, and where the words on it lead."""
import pathlib
import re

from items import Item, Module
from logic import INSTANCE, WORD, string_spans
from markup import anchor, escape, escape_text
from repository import DOC, BadSource
from specs import SpecFile

STYLE = pathlib.Path(__file__).with_name("style.css").read_text(encoding="utf-8")
TYPE_NAME = re.compile(r"\b[A-Z]\w*\b")


class Page:
    """A page: its text so far. Links lead from its place."""

    def __init__(self, world, path, title, crate=None):
        self.world, self.tally = world, world.tally
        self.path, self.title, self.crate = path, title, crate
        self.out = []
        self.up = "../" * path.count("/")

    def put(self, *texts):
        self.out += texts

    def write(self):
        """Writes the file; gives its text."""
        text = "\n".join([
            "<!DOCTYPE html>", '<html lang="en">', "<head>", '<meta charset="utf-8">',
            '<meta name="viewport" content="width=device-width, initial-scale=1">',
            f"<title>{escape(self.title)}</title>", f"<style>\n{STYLE}</style>", "</head>", "<body>",
            '<a class="skip" href="#main">To the text</a>',
            f'<header><a href="{self.up}index.html">Tirnouch: all crates</a></header>', '<main id="main">',
            *self.out, "</main>", "<footer>Written by tools/api from the sources.</footer>",
            "</body>", "</html>", ""])
        path = DOC / self.path
        path.parent.mkdir(parents=True, exist_ok=True)
        path.write_text(text, encoding="utf-8")
        self.tally.pages += 1
        return text

    # Links

    def href(self, page, name=None):
        """To a page, or a place on it, from here."""
        place = f"#{anchor(name)}" if name else ""
        return place if page == self.path and place else f"{self.up}{page}{place}"

    def link(self, href, text, kind=None):
        self.tally.links += 1
        kind = f' class="{kind}"' if kind else ""
        return f'<a{kind} href="{escape(href)}">{escape_text(text)}</a>'

    def href_of_item(self, item, variant=None):
        """Where an item is shown, first on this page; None where it isn't."""
        for crate in (self.crate, item.module.crate):
            if crate is not None and item in crate.shown:
                name = crate.shown[item]
                return self.href(f"{crate.name}.html", f"{name}.{variant}" if variant else name)
        return None

    def href_of_definition(self, scope, path, name, line):
        """Where a definition is that a scope takes; a fault if there is none."""
        try:
            found = self.world.definition(path, name)
        except KeyError as bad:
            self.tally.report(BadSource(scope.module.path, line, bad.args[0]))
            return None
        if found is None:
            return None
        if isinstance(found[0], SpecFile):
            return self.href(found[0].page, found[1])
        href = self.href_of_item(*found)
        if href is None:
            self.tally.unlinked += 1
        return href

    def href_of_name(self, module, word):
        """Where a type, trait or constant of Rattle leads."""
        found = self.world.find(module, [word])
        return self.href_of_item(found) if isinstance(found, Item) else None

    def href_of_ghost(self, trait, name, of=None):
        """Where a ghost of a trait stands: at a type that says what it is, if one is given, else at the trait."""
        at_type = of is not None and self.world.has_ghost(of, trait, name)
        place = self.href_of_item(of, f"{trait.name}.{name}") if at_type else None
        return place or self.href_of_item(trait, f"ghost.{name}")

    def href_of_instance(self, module, text, name):
        """Where a ghost leads that stands behind this text: of ⟦<TYPE as TRAIT>⟧."""
        found = INSTANCE.search(text)
        trait = self.world.find(module, [found["trait"] or found["boxed"]]) if found else None
        if not isinstance(trait, Item) or not trait.ghost(name):
            return None
        of = self.world.find(module, [found["of"]]) if found["of"] else None
        return self.href_of_ghost(trait, name, of if isinstance(of, Item) else None)

    def href_of_model(self, module, name):
        """Where it is said what contracts see of a type; None where nothing is."""
        of = self.world.find(module, [name])
        return self.href_of_item(of, "ghosts") if isinstance(of, Item) and of.models() else None

    # Text whose words lead somewhere

    def logic(self, text, context):
        """Text of a clause or of definitions."""
        out, at, quoted = [], 0, string_spans(text)
        for match in WORD.finditer(text):
            begin, end = match.span()
            if begin < at or any(first <= begin < last for first, last in quoted):
                continue
            href, end = self.href_of_word(text, match, context)
            if href:
                kind = "value" if href == context.values.get(text[begin:end]) else None
                out += [escape_text(text[at:begin]), self.link(href, text[begin:end], kind)]
                at = end
        return "".join(out) + escape_text(text[at:])

    def href_of_word(self, text, match, context):
        """Where one word leads, and where that ends: behind the next one for a whole file's name, or a generic's."""
        word, (begin, end), scope, line = match.group(), match.span(), context.scope, context.line
        if text[:begin].endswith(("⟧.", ").")):
            return self.href_of_instance(scope.module, text[:begin], word), end
        if word in context.bound or is_field(text, begin, end):
            return None, end
        behind = WORD.match(text, end + 1) if text[end:end + 1] == "." else None
        if word in scope.files and behind:
            href = self.href_of_definition(scope, scope.files[word], behind.group(), line)
            return href, behind.end() if href else end
        if word in context.generics and behind:
            trait = self.world.trait_of_ghost(scope.module, context.generics[word], behind.group())
            return (self.href_of_ghost(trait, behind.group()), behind.end()) if trait else (None, end)
        if word in context.own or word in context.values:
            return context.own.get(word) or context.values[word], end
        if word in scope.names:
            return self.href_of_definition(scope, *scope.names[word], line), end
        if isinstance(scope.module, Module) and word[:1].isupper():
            return self.href_of_name(scope.module, word), end
        return None, end

    def code(self, text, module, generics=()):
        """A signature, whose types lead to where they are shown."""
        out, at, quoted = [], 0, string_spans(text)
        for match in TYPE_NAME.finditer(text):
            begin, word = match.start(), match.group()
            if text[begin - 2:begin] == "::" or any(first <= begin < last for first, last in quoted):
                continue
            href = None if word in generics else self.href_of_name(module, word)
            if href:
                out += [escape_text(text[at:begin]), self.link(href, word)]
                at = match.end()
        return "".join(out) + escape_text(text[at:])


def is_field(text, begin, end):
    """Whether a word of logic is a field: behind a dot, or before = in a record."""
    if text[begin - 1:begin] == "." and text[begin - 2:begin - 1] not in ("", " ", "("):
        return True
    return bool(re.match(r" = | :=", text[end:end + 4]) and re.search(r"[{;]\s*$", text[:begin]))

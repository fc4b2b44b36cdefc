"""The section of an item on a page: its declaration, docs, contract, and all that belongs to it."""
import re

from doclinks import DocLinks
from items import Impl, Item
from logic import Context, bound_in, generic_bounds, value_types
from markup import anchor, escape, escape_text, markdown
from wrapping import wrapped

# With more methods than this a type has a list of them.
MOST_UNLISTED = 4
# How clauses are headed, with the class of their box and their keyword.
CLAUSE_KINDS = [("Needs", "needs", "requires"), ("Promises", "promises", "ensures")]


class ItemSections:
    """Writes the sections of items onto a page."""

    def __init__(self, page):
        self.page, self.tally = page, page.tally

    def item(self, item, name, level=3, owner=None):
        """An item at its place on the page, with its contract and all that belongs to it. `owner` is its trait or impl."""
        page, method = self.page, owner is not None
        self.tally.items += 1
        if item.kind == "function":
            self.tally.functions_shown.add((item.module.path, item.line))
        kind = "method" if method and item.kind == "function" else item.kind
        page.put(f'<section class="{"method" if method else "item"}">')
        page.put(f'<h{level} id="{escape(name)}"><code>{escape(item.name)}</code> '
                 f'<span class="kind">{kind}</span></h{level}>')
        page.put(f"<pre>{self.declaration(item, name, generics_around(item, owner))}</pre>")
        links = DocLinks(page, item.module, self.spoken_of(item, owner), item.parameters)
        page.put(markdown(item.docs, level + 1, show_code=links))
        self.list_of_members(item, name)
        self.clauses(item, name, owner)
        self.parts(item.parts, item)
        for text in item.flags:
            page.put(f"<p>Its flags:</p><pre>{escape_text(text)}</pre>")
        self.ghosts(item, name, level)
        self.members(item, name, level)
        page.put("</section>")

    def spoken_of(self, item, owner):
        """The item of whose methods its docs speak: of a method's, its type or trait."""
        if owner is None or isinstance(owner, Item):
            return owner or item
        return self.page.world.find(owner.module, owner.of)

    def list_of_members(self, item, name):
        """What can be called of it, where that is much."""
        members = [member for member in item.public_members() if member.kind == "function"]
        if len(members) > MOST_UNLISTED:
            links = (self.page.link("#" + anchor(f"{name}.{member.name}"), member.name) for member in members)
            self.page.put(f"<p>Methods: {', '.join(links)}.</p>")

    def declaration(self, item, name, generics):
        """The code of an item; each variant of an enum is a place that clauses lead to."""
        apart = {*generics, item.name}
        if item.kind != "enum":
            return self.page.code(item.code, item.module, apart)
        head = self.page.code(item.code.split("{")[0], item.module, apart)
        lines = [f'    <span id="{escape(name)}.{escape(part.name)}">{self.page.code(part.text, item.module)}</span>,'
                 for part in item.parts]
        return head + "{\n" + "\n".join(lines) + "\n}"

    # Contracts

    def clauses(self, item, name, owner):
        values = self.values(item, owner)
        context = Context(item.scope, item.line, item.parameters - values.keys(), self.ghosts_in_reach(owner),
                          generics_around(item, owner), values)
        for label, kind, keyword in CLAUSE_KINDS:
            found = [clause for clause in item.clauses if clause.keyword.rstrip("*") == keyword]
            if not found:
                continue
            self.page.put(f'<div class="box {kind}" role="group" aria-label="{label}"><p>{label}</p><ul>')
            for clause in found:
                self.tally.clauses += 1
                self.page.put(self.clause(clause, context, f"{name}.{kind}"))
            self.page.put("</ul></div>")

    def clause(self, clause, context, front):
        text = self.page.logic(wrapped(clause.text), context.binding(bound_in(clause.text)))
        kind = ' <span class="kind">(an assertion of separation logic)</span>' if clause.is_separation() else ""
        if clause.name is None:
            return f"<li><code>{text}</code>{kind}</li>"
        name = escape(clause.name)
        return f'<li><strong id="{escape(front)}.{name}">{name}</strong> <code>{text}</code>{kind}</li>'

    # What contracts see

    def ghosts_in_reach(self, owner):
        """The ghosts that clauses of a trait's members may speak of, each with where it leads."""
        if not isinstance(owner, Item):
            return {}
        return {ghost.name: self.page.href_of_ghost(owner, ghost.name) for ghost in owner.ghosts}

    def values(self, item, owner):
        """The parameters and the result of a function, each with where it is said what contracts see of it."""
        of = owner.of[-1] if isinstance(owner, Impl) else None
        generics = generics_around(item, owner)
        types = {name: word for name, word in value_types(item.code, of).items() if word and word not in generics}
        found = {name: self.page.href_of_model(item.module, word) for name, word in types.items()}
        return {name: href for name, href in found.items() if href}

    def ghosts(self, item, name, level):
        """The ghosts of a trait; of a type, those that its impls have, as its view and its invariant."""
        impls = [impl for impl in item.trait_impls if impl.ghosts]
        if not item.ghosts and not impls:
            return
        self.page.put(f'<h{level + 1} id="{escape(name)}.ghosts">What contracts see</h{level + 1}>')
        if item.ghosts:
            self.page.put("<dl>")
            for ghost in item.ghosts:
                self.page.put(f'<dt id="{escape(name)}.ghost.{escape(ghost.name)}"><code>{self.ghost(ghost, item)}</code></dt>')
                if ghost.docs:
                    self.page.put(f"<dd>{markdown(ghost.docs, show_code=DocLinks(self.page, item.module, item))}</dd>")
            self.page.put("</dl>")
        named = set()
        for impl in impls:
            self.page.put(self.impl_ghosts(impl, name, named))

    def impl_ghosts(self, impl, name, named):
        """The ghosts of an impl, as they stand there. A name that several impls have is the first one's place."""
        header = self.page.code(impl.header, impl.module, generic_bounds(impl.header))
        lines = []
        for ghost in impl.ghosts:
            place = f"{name}.{impl.trait[-1]}.{ghost.name}"
            code = indented(self.ghost(ghost, impl) + ";")
            lines.append(code if place in named else f'<span id="{escape(place)}">{code}</span>')
            named.add(place)
        return self.impl_docs(impl) + f"<pre>{header} {{\n" + "\n".join(lines) + "\n}</pre>"

    def impl_docs(self, impl):
        return markdown(impl.docs, show_code=DocLinks(self.page, impl.module))

    def ghost(self, ghost, owner):
        """The code of a ghost, whose words lead somewhere."""
        scope = owner.scope
        self.tally.ghosts += 1
        head, _, text = ghost.code.partition(ghost.name)
        context = Context(scope, ghost.line, bound_in(text), self.ghosts_in_reach(owner), generics_around(owner))
        return escape_text(head + ghost.name) + self.page.logic(text, context)

    # What belongs to it

    def parts(self, parts, item):
        """Fields and variants that have docs."""
        told = [part for part in parts if part.docs or part.parts]
        if not told:
            return
        self.page.put("<dl>")
        for part in told:
            docs = markdown(part.docs, show_code=DocLinks(self.page, item.module, item))
            self.page.put(f"<dt><code>{escape(part.name)}</code></dt><dd>{docs}")
            self.parts(part.parts, item)
            self.page.put("</dd>")
        self.page.put("</dl>")

    def members(self, item, name, level):
        """Methods, traits, and the types of a trait."""
        for member in item.members:
            self.item(member, f"{name}.{member.name}", level + 1, item)
        header = plain_header(item)
        for impl in item.impls:
            for member in impl.public_members():
                if impl.header != header:
                    header = impl.header
                    code = self.page.code(header, impl.module, {*generic_bounds(header), item.name})
                    self.page.put(f'<p class="from"><code>{code}</code></p>')
                self.item(member, f"{name}.{member.name}", level + 1, impl)
        self.traits(item)
        self.types(item)

    def types(self, trait):
        """The types of a trait that are shown somewhere."""
        hrefs = {of.name: self.page.href_of_item(of) for of, _ in trait.types}
        links = [self.page.link(href, name) for name, href in sorted(hrefs.items()) if href]
        if links:
            self.page.put(f"<p>Types that have it: {', '.join(links)}.</p>")

    def traits(self, item):
        if item.derived():
            names = ", ".join(f"<code>{escape(name)}</code>" for name in item.derived())
            self.page.put(f"<p>Derived: {names}.</p>")
        impls = [impl for impl in item.trait_impls if impl not in item.models()]
        if not impls:
            return
        self.page.put("<p>Traits:</p><ul>")
        for impl in impls:
            code = self.page.code(impl.header, impl.module, generic_bounds(impl.header))
            self.page.put(f"<li><code>{code}</code>{self.impl_docs(impl)}</li>")
        self.page.put("</ul>")


def generics_around(*owners):
    """What is generic in an item and in what is around it, with bounds."""
    found = {}
    for owner in owners:
        if owner is not None:
            found.update(generic_bounds(owner.code if isinstance(owner, Item) else owner.header))
    return found


def plain_header(item):
    """The header of an impl that asks for no more than the type itself."""
    parameters = re.search(r"\b(?:struct|enum)\s+\w+\s*(<.*>)", item.code.split("{")[0].split("(")[0], re.DOTALL)
    if not parameters:
        return f"impl {item.name}"
    return f"impl{parameters.group(1)} {item.name}<{', '.join(generic_bounds(item.code))}>"


def indented(text):
    return "\n".join(f"    {line}" if line else line for line in text.split("\n"))

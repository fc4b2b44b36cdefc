"""The pages: the index, one for each crate, and one for each file of definitions."""
import re

from doclinks import DocLinks
from items import Item
from logic import WORD, Context, bound_by_line
from markup import anchor, escape, escape_text, first_sentence, head_sections, heading_id, inline, markdown
from page import Page
from repository import CRATES, ROLE_ORDER, ROLES
from sections import ItemSections

# The groups of a crate's own items, by their kinds.
GROUPS = [("Types", ("struct", "enum", "type")), ("Traits", ("trait",)), ("Functions", ("function",)),
          ("Constants", ("constant",))]
KIND_ORDER = [kind for _, kinds in GROUPS for kind in kinds]
# The one roof, which has no items of its own.
ROOF = "tirnouch"
# With fewer names than this a page has no list of them.
FEWEST_LISTED = 3


class Group:
    """What is shown on a crate's page under one heading: the items of a kind, of a module, or of another crate."""

    def __init__(self, title, name, items, module=None, source=None):
        self.title = title
        self.name = name
        self.items = items
        self.module = module
        self.source = source


# Crates


def crate_page(world, crate):
    """The page of a crate; gives its text."""
    page = Page(world, f"{crate.name}.html", f"{crate.name}, Tirnouch", crate)
    intro, told = head_sections(crate.root.head)
    kind = "program" if crate.is_program else "crate"
    page.put(f'<h1 id="top"><code>{escape(crate.name)}</code> <span class="kind">{kind}</span></h1>')
    page.put(head_html(page, intro))
    groups = groups_of(crate)
    contents(page, groups, [title for title, _ in told])
    for title, lines in told:
        if title != "Files":
            page.put(head_html(page, lines))
    if crate.is_program:
        page.put("<p>A program: nothing of it is called from outside.</p>")
    sections = ItemSections(page)
    for group in groups:
        page.put(f'<h2 id="{escape(group.name)}">{group.title}</h2>')
        if group.module is not None:
            page.put(markdown(group.module.head, 3, show_code=DocLinks(page, group.module)))
        if group.source is not None:
            page.put(f"<p>{inline(first_sentence(group.source.root.head))} All of it: "
                     f"{page.link(page.href(f'{group.source.name}.html'), group.source.name)}.</p>")
        for item in group.items:
            sections.item(item, crate.shown[item])
    items_of_others(page)
    files(page, told)
    definitions(page, crate)
    return page.write()


def head_html(page, lines):
    """A part of the head of the crate's root."""
    return markdown(lines, 2, "about-", DocLinks(page, page.crate.root))


def groups_of(crate):
    """The groups of a crate's page: by crates for the one roof, the highest first; else by kinds and then by modules."""
    def in_order(items):
        return sorted(items, key=lambda item: (KIND_ORDER.index(item.kind), item.module.crate.place_in_source(item)))

    if crate.name == ROOF:
        sources = dict.fromkeys(item.module.crate for item in crate.shown)
        return [Group(f"From <code>{source.name}</code>", f"of-{source.name}",
                      in_order(item for item in crate.shown if item.module.crate is source), source=source)
                for source in sorted(sources, key=lambda source: source.height, reverse=True)]
    groups = []
    root = [item for item, name in crate.shown.items() if "." not in name]
    for title, kinds in GROUPS:
        items = sorted((item for item in root if item.kind in kinds), key=crate.place_in_source)
        if items:
            groups.append(Group(title, f"all-{title.lower()}", items))
    for path in dict.fromkeys(name.rpartition(".")[0] for name in crate.shown.values() if "." in name):
        items = in_order(item for item, name in crate.shown.items() if name.rpartition(".")[0] == path)
        module = crate.root
        for part in path.split("."):
            module = module.modules[part][0]
        groups.append(Group(f"Module <code>{escape(path.replace('.', '::'))}</code>", f"module-{path}", items, module))
    return groups


def contents(page, groups, titles):
    """The list of what stands on a page: its headings, and its items without what belongs to them."""
    entries = [page.link("#" + heading_id("about-", title), title) for title in titles if title != "Files"]
    for group in groups:
        items = ", ".join(page.link("#" + anchor(page.crate.shown[item]), item.name) for item in group.items)
        entries.append(f'<a href="#{anchor(group.name)}">{group.title}</a>: {items}')
    if given_on(page):
        entries.append(page.link("#of-others", "From other crates"))
    if "Files" in titles:
        entries.append(page.link("#about-files", "Files"))
    if page.crate.shown_specs():
        entries.append(page.link("#definitions", "Definitions"))
    if len(entries) > 1:
        page.put('<nav aria-label="Contents"><ul>', *(f"<li>{entry}</li>" for entry in entries), "</ul></nav>")


def files(page, told):
    """The files of a crate: as its head tells of them; of a program whose head doesn't, by their own heads."""
    told_files = next((lines for title, lines in told if title == "Files"), None)
    modules = [module for module in page.crate.modules() if module is not page.crate.root]
    if told_files:
        page.put(head_html(page, told_files))
    elif page.crate.is_program and modules:
        page.put('<h2 id="files">Files</h2><dl>')
        for module in modules:
            name = module.path.relative_to(CRATES / page.crate.name)
            page.put(f"<dt><code>{escape(str(name))}</code></dt><dd>{markdown(module.head)}</dd>")
        page.put("</dl>")


def given_on(page):
    """The items of other crates that a crate gives on, by the names that it gives them."""
    root = page.crate.root
    found = [(name, page.world.find(root, path)) for name, path, _ in root.exports]
    return [(name, item) for name, item in found if isinstance(item, Item) and item not in page.crate.shown]


def items_of_others(page):
    """What a crate gives on of others, by links."""
    found = given_on(page)
    if not found:
        return
    page.put('<h2 id="of-others">From other crates</h2><ul>')
    for name, item in found:
        href = page.href_of_item(item)
        told = page.link(href, name) if href else escape(name)
        page.put(f"<li>{told} of <code>{item.module.crate.name}</code></li>")
    page.put("</ul>")


def definitions(page, crate):
    """The list of a crate's files of definitions."""
    if not crate.shown_specs():
        return
    page.put('<h2 id="definitions">Definitions</h2><dl>')
    for found in crate.shown_specs():
        page.put(f"<dt>{page.link(page.href(found.page), found.file)}</dt><dd>{inline(' '.join(found.head()))}</dd>")
    page.put("</dl>")


# Definitions


def specs_page(world, crate, found):
    """The page of a file of definitions; gives its text."""
    page = Page(world, found.page, f"{found.file} of {crate.name}, Tirnouch")
    page.put(f'<h1 id="page-top"><code>{escape(found.file)}</code> <span class="kind">definitions of '
             f'{page.link(page.href(f"{crate.name}.html"), crate.name)}</span></h1>')
    if len(found.names) >= FEWEST_LISTED:
        names = ", ".join(page.link("#" + anchor(name), name) for name in found.names)
        page.put(f'<nav aria-label="Definitions"><p>{names}</p></nav>')
    page.put(f"<pre>{specs_text(page, found)}</pre>")
    return page.write()


def specs_text(page, found):
    """The text of a file of definitions, with the places of its names."""
    starts = {}
    for name in found.names:
        starts.setdefault(found.first_line(name), []).append(name)
    # How many of the spans that are open end at each line.
    ends = {}
    out, bound = [], bound_by_line(found.lines)
    for at, line in enumerate(found.lines):
        code, dashes, comment = line.partition("--")
        if re.match(r"\s*(pub )?use |\s*pub mod ", line):
            text = escape_text(code)
        else:
            text = page.logic(code, Context(found.scope, at + 1, bound[at], names_led_to(found, at)))
        text += escape_text(dashes + comment)
        for name in starts.get(at, []):
            text = f'<span id="{escape(name)}">' + text
            ends[found.names[name]] = ends.get(found.names[name], 0) + 1
        out.append(text + "</span>" * ends.get(at, 0))
    return "\n".join(out).rstrip("\n")


def names_led_to(found, at):
    """The names of a file that lead to their place, from a line: not that which the line itself declares or defines."""
    first = WORD.match(found.lines[at].lstrip())
    own = first.group() if first else None
    return {name: "#" + anchor(name) for name, line in found.names.items() if line != at and name != own}


# The index


def index_page(world):
    """The page of all crates, by roles; gives its text."""
    page = Page(world, "index.html", "Tirnouch")
    page.put('<h1 id="top">Tirnouch</h1>',
             "<p>The public items of each crate, with their contracts: what a call needs, and what it promises. A word of a "
             "clause that is a definition leads to that definition.</p>")
    page.put('<nav aria-label="Roles"><ul>')
    for role in ROLE_ORDER:
        page.put(f'<li><a href="#role-{role}">{escape_text(ROLES[role][0])}</a></li>')
    page.put("</ul></nav>")
    for role in ROLE_ORDER:
        page.put(f'<h2 id="role-{role}">{escape_text(ROLES[role][0])}</h2><table><thead><tr>'
                 '<th scope="col">Crate</th><th scope="col">What it is</th></tr></thead><tbody>')
        for crate in world.crates.values():
            if crate.role == role:
                page.put(f"<tr><td>{page.link(f'{crate.name}.html', crate.name)}</td>"
                         f"<td>{inline(first_sentence(crate.root.head))}</td></tr>")
        page.put("</tbody></table>")
    return page.write()

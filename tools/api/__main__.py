"""The pages of doc/, for whoever calls the library: each crate's public items with their contracts, from the sources.

    python3 tools/api write    writes them anew: the index, a page for each crate, and one for each file of definitions

A public item is shown where it can be reached: by `pub mod` and `pub use`, from the crate's root. Its clauses stand
under it as they stand in the source, long ones in lines, and a word of a clause leads to the definition or the ghost
that it is. What can't be read, a public function that belongs nowhere, and a link that leads nowhere are told by file
and line; then the status is 1. A crate is read whole or not at all: where one can't be, no page is written.

The modules, from below: repository (places, roles, faults); tokens, items, parts, source (reading of .rt); specs
(reading of .antt); names (who is reachable, what a word stands for); logic (what the words of clauses may be); markup, page, doclinks,
wrapping, sections, pages (HTML, with style.css); checks."""
import shutil
import sys

from checks import check_pages
from names import World
from pages import crate_page, index_page, specs_page
from repository import DOC, BadSource, Tally


def write_pages(world):
    """Writes all pages anew; gives their texts by their paths."""
    if DOC.exists():
        shutil.rmtree(DOC)
    pages = {"index.html": index_page(world)}
    for crate in world.crates.values():
        pages[f"{crate.name}.html"] = crate_page(world, crate)
        for found in crate.shown_specs():
            pages[found.page] = specs_page(world, crate, found)
    return pages


def write():
    """Reads all crates and writes the pages; gives the status."""
    tally = Tally()
    world = World(tally)
    if tally.faults:
        return tally.status()
    check_pages(write_pages(world), tally)
    unreachable = world.unreachable()
    for path, line in sorted(tally.functions_read - tally.functions_shown - unreachable):
        tally.report(BadSource(path, line, "this public function is shown nowhere"))
    tally.print_counts(len(tally.functions_read & unreachable))
    return tally.status()


def main(words):
    if words == ["write"]:
        return write()
    print(__doc__)
    return 2


if __name__ == "__main__":
    sys.exit(main(sys.argv[1:]))

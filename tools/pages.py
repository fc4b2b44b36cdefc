#!/usr/bin/env python3
"""Whether the pages fit what they speak of: tools/pages.py check; the gate asks it, and it takes no time.

README.md has at most 70 lines. Its first commands are `make run` and `make test`; its scenario is a file of scenarios/, which the gate
tests; its devices, test in Python and output are those of c/example, which c_test runs; its lines of Rattle stand in crates/example_first.
docs/SCENARIOS.md has in front of each picture the worked row of that picture, with what it prints. docs/DEVICES.md has the devices of
c/example, docs/PYTHON.md its tests and a device of python/devices, docs/RATTLE.md the code of crates/example_first. docs/README.md lists
each page of docs/. docs/FROM_LIBUSB.md has a row for each function of c/include/libusb.h. Each link leads to a file and a heading; each page,
call, file and definition that is named is there. Prose fits into its columns, and counts nothing that a tool knows: crates, rows, scenes,
wrong bodies, laws."""
import pathlib
import re
import sys
from typing import Iterator, Sequence

ROOT = pathlib.Path(__file__).resolve().parent.parent
DOCS = ROOT / "docs"
EXAMPLE = ROOT / "c" / "example"
DRIVER = ROOT / "crates" / "example_first" / "src" / "meter.rt"
HEADER = ROOT / "c" / "include" / "libusb.h"
PAGES = [*(ROOT / it for it in ("README.md", "SECURITY.md", "CHANGELOG.md")), *sorted(DOCS.glob("*.md")), ROOT / "rows" / "README.md"]
MOST_LINES, MOST_COLUMNS = 70, 140
NUMBER = r"(?:\d[\d,]*|two|three|four|five|six|seven|eight|nine|ten|eleven|twelve|twenty|thirty|forty|fifty|hundred|dozen)"
COUNT = re.compile(rf"\b{NUMBER} (?:worked rows|rows|crates|wrong bodies|wrong definitions|scenes|clients|laws)\b", re.IGNORECASE)
# Names of specs, one or several behind `specs/`, and such as MODEL.md has them behind a rule's name.
SPECS = re.compile(r"\bspecs/([A-Z][\w/]*(?:(?:, and |, | and | or )[A-Z][\w/]*)*)")
PLACED = re.compile(r"^\*\*[^*]+\*\*[^.(]*\(([^)]*)\)", re.MULTILINE)


def blocks(text: str) -> list[list[str]]:
    """The indented blocks of a page, each as its lines without the indent."""
    found: list[list[str]] = []
    block: list[str] = []
    for line in [*text.splitlines(), "end"]:
        if line.startswith("    ") or (block and not line):
            block.append(line[4:])
        elif block:
            found.append("\n".join(block).rstrip("\n").split("\n"))
            block = []
    return found


def beside(row: str) -> list[str]:
    """The lines of a worked row, each step with what it prints beside it, in a column as wide as the longest step needs."""
    scenario = (ROOT / "rows" / f"{row}.in").read_text().splitlines()
    printed = (ROOT / "rows" / f"{row}.out").read_text().splitlines()
    setup = [it for it in scenario if it.split()[0] in ("device", "script")]
    steps = [it for it in scenario if it not in setup]
    width = max(map(len, steps)) + 3
    return setup + [f"{step:<{width}}{told}" for step, told in zip(steps, printed, strict=True)]


def lines_without(text: str, beginning: str) -> list[str]:
    """The lines of a text that aren't empty and don't begin so."""
    return [it for it in text.splitlines() if it and not it.startswith(beginning)]


def stand_in_order(lines: Sequence[str], text: str) -> bool:
    """Whether each of these lines stands in a text, behind the one before, but for blanks in front."""
    rest = iter(it.strip() for it in text.splitlines())
    return all(any(line.strip() == it for it in rest) for line in lines)


def has_lines(found: Sequence[list[str]], lines: list[str]) -> bool:
    """Whether a block has these lines, one behind the other."""
    return any(block[at : at + len(lines)] == lines for block in found for at in range(len(block)))


def readme_faults() -> Iterator[str]:
    """What of README.md isn't as it says."""
    text = (ROOT / "README.md").read_text()
    found = [[line for line in block if line] for block in blocks(text)]
    scenarios = [lines_without(it.read_text(), "#") for it in (ROOT / "scenarios").glob("*.txt")]
    test = (EXAMPLE / "test_meter.py").read_text().partition('"""\n')[2]
    expected = (EXAMPLE / "expected").read_text().splitlines()
    if len(text.splitlines()) > MOST_LINES:
        yield f"README.md has more than {MOST_LINES} lines"
    if not found or [line.split("#")[0].split() for line in found[0][:2]] != [["make", "run"], ["make", "test"]]:
        yield "README.md doesn't begin with `make run` and `make test`"
    if not any(has_lines(found, it) for it in scenarios):
        yield "README.md has no scenario that is a file of scenarios/"
    if not has_lines(found, lines_without((EXAMPLE / "devices.txt").read_text(), "#")):
        yield "README.md doesn't have the devices of c/example/devices.txt"
    if not has_lines(found, [it for it in test.splitlines() if it]):
        yield "README.md doesn't have the test of c/example/test_meter.py"
    if not has_lines(found, expected):
        yield "README.md doesn't print what c/example/expected has"
    rattle = [block for block in found if block[0].startswith("library.")]
    if not rattle or not stand_in_order(rattle[0], DRIVER.read_text()):
        yield f"README.md's lines of Rattle aren't those of {DRIVER.relative_to(ROOT)}"


def scenario_faults() -> Iterator[str]:
    """What of docs/SCENARIOS.md isn't that of its rows."""
    text = (DOCS / "SCENARIOS.md").read_text()
    for row in re.findall(r"\(pictures/(\w+)\.svg\)", text):
        if not (DOCS / "pictures" / f"{row}.svg").exists():
            yield f"docs/SCENARIOS.md shows a picture of {row}, which isn't there"
        if beside(row) not in blocks(text):
            yield f"docs/SCENARIOS.md doesn't have rows/{row}.in with what it prints"


def device_faults() -> Iterator[str]:
    """Devices of c/example/devices that docs/DEVICES.md has otherwise, or not at all."""
    found = blocks((DOCS / "DEVICES.md").read_text())
    for path in [EXAMPLE / "devices.txt", *sorted((EXAMPLE / "devices").glob("*.txt"))]:
        if not has_lines(found, path.read_text().splitlines()):
            yield f"docs/DEVICES.md doesn't have the lines of {path.relative_to(ROOT)}"


def example_faults() -> Iterator[str]:
    """Tests in docs/PYTHON.md and code in docs/RATTLE.md that aren't those of the examples."""
    sources = [*EXAMPLE.rglob("*.py"), *(ROOT / "python" / "devices").glob("*.py")]
    tests = [[line for line in it.read_text().splitlines() if line] for it in sources]
    for block in blocks((DOCS / "PYTHON.md").read_text()):
        lines = [line for line in block if line]
        if any(it.startswith(("def test_", "class ")) for it in lines) and not has_lines(tests, lines):
            yield f"docs/PYTHON.md has a test or a device that is none of c/example and python/devices: {lines[0]}"
    sources = [it.read_text() for it in DRIVER.parent.glob("*.rt")]
    for block in blocks((DOCS / "RATTLE.md").read_text()):
        if any(it.endswith(";") for it in block) and not any(stand_in_order(block, it) for it in sources):
            yield f"docs/RATTLE.md has code that isn't that of crates/example_first: {block[0]}"


def list_faults() -> Iterator[str]:
    """Pages that docs/README.md doesn't list."""
    listed = (DOCS / "README.md").read_text()
    for page in sorted(it.name for it in DOCS.glob("*.md")):
        if page != "README.md" and f"({page})" not in listed:
            yield f"docs/README.md doesn't list {page}"


def function_faults() -> Iterator[str]:
    """Functions of libusb that docs/FROM_LIBUSB.md has in no row."""
    rows = "\n".join(it for it in (DOCS / "FROM_LIBUSB.md").read_text().splitlines() if it.startswith("|"))
    for name in sorted(set(re.findall(r"\b(libusb_\w+)\(", HEADER.read_text()))):
        if f"`{name}`" not in rows:
            yield f"docs/FROM_LIBUSB.md has no row of {name}"


def headings(page: pathlib.Path) -> set[str]:
    """The anchors of a page: its headings in small letters, without signs, and with - for blanks."""
    found = re.findall(r"^#+ (.*)$", page.read_text(), re.MULTILINE)
    return {re.sub(r"[^\w\- ]", "", it.lower()).replace(" ", "-") for it in found}


def link_faults() -> Iterator[str]:
    """Links that lead to no file or no heading; and pages, tools and folders that a page names and that aren't there."""
    for page in PAGES:
        text, name = page.read_text(), page.relative_to(ROOT)
        for target in sorted(set(re.findall(r"\]\((?!https?:)([^)\s]+)\)", text))):
            path, _, anchor = target.partition("#")
            aim = (page.parent / path).resolve() if path else page
            if not aim.exists():
                yield f"{name} has a link to {target}, which isn't there"
            elif anchor and (aim.suffix != ".md" or anchor not in headings(aim)):
                yield f"{name} has a link to {target}, and there is no such heading"
        for it in sorted(set(re.findall(r"(?<!\()\b(?:bench|c|docs|tools|rows|crates|scenarios)/[\w./-]*\w", text))):
            if "NAME" not in it and "CRATE" not in it and not (ROOT / it).exists():
                yield f"{name} names {it}, which isn't there"


def name_faults() -> Iterator[str]:
    """Calls, as `Core::take`, and files of code that a page names and that aren't there."""
    sources = list((ROOT / "crates").rglob("*.rt"))
    names = {it.stem for it in sources} | {it.name for it in (ROOT / "crates").iterdir()}
    for source in sources:
        names |= set(re.findall(r"\b(?:fn|struct|enum|trait|type|ghost) (\w+)", source.read_text()))
    files = {it.name for it in sources}
    for page in PAGES:
        text = page.read_text()
        for owner, name in sorted(set(re.findall(r"`(?:[a-z_]+::)*(\w+)::(\w+)`", text))):
            if not {owner, name} <= names:
                yield f"{page.relative_to(ROOT)} names {owner}::{name}, which isn't there"
        for name in sorted(set(re.findall(r"\b([a-z_]+\.rt)\b", text)) - files):
            yield f"{page.relative_to(ROOT)} names {name}, which isn't there"


def spec_faults() -> Iterator[str]:
    """Definitions' files that a page names, as `specs/Holders`, and MODEL.md as `(World.Due)`, and that aren't there."""
    known = {it.relative_to(it.parents[-1]).as_posix() for it in ROOT.glob("crates/*/specs/**/*.antt")}
    places = {it.partition("/specs/")[2].removesuffix(".antt") for it in known}
    names = {it.rpartition("/")[2] for it in places}
    for page in PAGES:
        for found in SPECS.findall(page.read_text()):
            for name in re.split(r", and |, | and | or ", found):
                if name not in places and name not in names:
                    yield f"{page.relative_to(ROOT)} names specs/{name}, which isn't there"
    for found in PLACED.findall((DOCS / "MODEL.md").read_text()):
        for name in re.findall(r"(?<![\w`/])[A-Z]\w+(?:\.[A-Z]\w+)?(?![\w`])", found):
            if name.replace(".", "/") not in places:
                yield f"docs/MODEL.md names {name}, and no crate has such a file of specs/"


def file_faults() -> Iterator[str]:
    """Files of C and Python that docs/CONTRIBUTING.md names and that aren't there."""
    known = {it.name for top in ("c", "bench", "python", "tools") for it in (ROOT / top).rglob("*.*")}
    for name in sorted(set(re.findall(r"\b([a-z_]+\.(?:c|h|py|toml|json|txt))\b", (DOCS / "CONTRIBUTING.md").read_text())) - known):
        if not (ROOT / name).exists() and not (ROOT / "rows" / name).exists():
            yield f"docs/CONTRIBUTING.md names {name}, which isn't there"


def prose(page: pathlib.Path) -> Iterator[tuple[int, str]]:
    """The lines of a page that are no table, heading, picture or indented block, each with its number."""
    for number, line in enumerate(page.read_text().splitlines(), 1):
        if not line.startswith(("|", "#", "![", "    ")):
            yield number, line


def prose_faults() -> Iterator[str]:
    """Lines that are too wide, and counts of what a tool knows."""
    for page in PAGES:
        for number, line in prose(page):
            if len(line) > MOST_COLUMNS:
                yield f"{page.relative_to(ROOT)}:{number} has {len(line)} columns, {MOST_COLUMNS} at most"
            for count in COUNT.findall(line):
                yield f"{page.relative_to(ROOT)}:{number} counts by hand: {count}"


def main(words: Sequence[str]) -> int:
    """The status."""
    if list(words) != ["check"]:
        print(__doc__)
        return 2
    faults = [*readme_faults(), *scenario_faults(), *device_faults(), *example_faults(), *list_faults(), *function_faults()]
    faults += [*link_faults(), *name_faults(), *spec_faults(), *file_faults(), *prose_faults()]
    for fault in faults:
        print(fault)
    if not faults:
        print("the pages fit")
    return 1 if faults else 0


sys.exit(main(sys.argv[1:]))

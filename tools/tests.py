#!/usr/bin/env python3
"""docs/TESTS.md, which leads from each rule of docs/MODEL.md to the worked rows, the scenes and the wrong bodies that try it.

    tools/tests.py write    writes the page anew
    tools/tests.py check    says whether it is current, and whether each name that it goes by is there; the gate asks it

tools/rules.toml has the rules, each with its rows and scenes. A wrong body (must-fail/ of a crate, tools/wrong_bodies) and a
wrong definition (tools/plants) name the rules that they break, each by a line `rule: NAME`; nothing else reads those lines. It needs Python 3.11."""
import dataclasses
import pathlib
import re
import sys
import tomllib
from typing import Dict, Iterator, List, Sequence

ROOT = pathlib.Path(__file__).resolve().parent.parent
PAGE = ROOT / "docs" / "TESTS.md"
RULES = ROOT / "tools" / "rules.toml"
MODEL = ROOT / "docs" / "MODEL.md"
KEYS = {"name", "part", "rows", "scenes"}
# The wrong bodies that the gate tries, those beside it, and the wrong definitions.
WRONG = ("crates/*/must-fail/*.edit", "tools/wrong_bodies/*/*.edit", "tools/plants/*.patch")

HEAD = """\
# Which test tries which rule

Made by tools/tests.py from tools/rules.toml and from the wrong bodies, which name the rule that they break. A **row** is one run of
`usbtrace`, written down beforehand ([rows/README.md](../rows/README.md)). A **scene** is a part of a program whose output is compared: in C
against libusb's interface (c/tests/usb), in Rattle against the core and the library (the crates `check_*`). A **wrong body** is an edit
that the prover has to refuse, a wrong definition (`definitions`) one that a law or a row has to refuse
([CONTRIBUTING.md](CONTRIBUTING.md#wrong-bodies)). The parts are those of [MODEL.md](MODEL.md)."""

TABLE = "| rule | rows | scenes | wrong bodies |\n|---|---|---|---|"


@dataclasses.dataclass
class Rule:
    """A rule of the model. Scenes are `FILE: NAME` or `CRATE: NAME`; wrong bodies are the files that name the rule."""

    name: str
    part: str
    rows: List[str]
    scenes: List[str]
    wrong: List[pathlib.Path] = dataclasses.field(default_factory=list)


def anchor(heading: str) -> str:
    """The anchor of a heading of a page."""
    return re.sub(r"[^\w\- ]", "", heading.lower()).replace(" ", "-")


def rules() -> List[Rule]:
    """The rules, with the wrong bodies that name them."""
    found = []
    for it in tomllib.loads(RULES.read_text())["rule"]:
        found.append(Rule(it["name"], it["part"], it.get("rows", []), it.get("scenes", [])))
    named = breakers()
    for rule in found:
        rule.wrong = named.get(rule.name, [])
    return found


def breakers() -> Dict[str, List[pathlib.Path]]:
    """The files of wrong bodies and definitions, by the rule that they name."""
    named: Dict[str, List[pathlib.Path]] = {}
    for path in sorted((it for pattern in WRONG for it in ROOT.glob(pattern)), key=lambda it: (crate_of(it), it.stem, it)):
        for name in re.findall(r"^rule: (.*)$", path.read_text(), re.MULTILINE):
            named.setdefault(name, []).append(path)
    return named


def crate_of(path: pathlib.Path) -> str:
    """The crate of a wrong body; `definitions` for a wrong definition."""
    if path.suffix == ".patch":
        return "definitions"
    return path.parent.parent.name if path.parent.name == "must-fail" else path.parent.name


def rows_of(pattern: str) -> List[str]:
    """The names of the rows that a pattern names, by their names."""
    return sorted(it.stem for it in (ROOT / "rows").glob(f"{pattern}.cmd"))


def scene_paths(place: str) -> tuple[pathlib.Path, pathlib.Path]:
    """The source of a place's scenes, and the file that has what they print."""
    if place.startswith("check_"):
        return ROOT / "crates" / place, ROOT / "crates" / place / "stdout"
    folder = ROOT / "c" / "tests" / "usb"
    return folder / f"{place}.c", folder / f"{place}.expected"


def has_scene(scene: str) -> bool:
    """Whether a line of what a place prints begins with the scene's name."""
    place, _, name = scene.partition(": ")
    source, printed = scene_paths(place)
    return bool(name) and source.exists() and printed.is_file() and any(it.startswith(name) for it in printed.read_text().splitlines())


def link(text: str, path: pathlib.Path) -> str:
    """A link of the page to a file of the repository."""
    return f"[{text}](../{path.relative_to(ROOT)})"


def grouped(pairs: Sequence[tuple[str, str]]) -> Dict[str, List[str]]:
    """The second parts by the first, in the order in which they came."""
    groups: Dict[str, List[str]] = {}
    for key, value in pairs:
        groups.setdefault(key, []).append(value)
    return groups


def row_of(rule: Rule) -> str:
    """The rule's row of the page."""
    names = [name for pattern in rule.rows for name in rows_of(pattern)]
    rows = ", ".join(link(name, ROOT / "rows" / f"{name}.in") for name in names)
    places = grouped([(place, f'"{name}"') for place, _, name in (it.partition(": ") for it in rule.scenes)])
    scenes = "; ".join(f"{link(place, scene_paths(place)[0])}: {', '.join(found)}" for place, found in places.items())
    crates = grouped([(crate_of(it), link(it.stem, it)) for it in rule.wrong])
    wrong = "; ".join(f"`{crate}`: {', '.join(found)}" for crate, found in crates.items())
    return f"| {rule.name} | {rows} | {scenes} | {wrong} |"


def lacking(found: Sequence[Rule]) -> Iterator[str]:
    """What the page says of rules that lack a kind of test."""
    for kind, names in (
        ("row", [it.name for it in found if not it.rows]),
        ("scene", [it.name for it in found if not it.scenes]),
        ("wrong body", [it.name for it in found if not it.wrong]),
    ):
        if names:
            yield f"No {kind}:\n\n" + "\n".join(f"- {it}" for it in names)


def page(found: Sequence[Rule]) -> str:
    """The whole page."""
    texts = [HEAD]
    for part, members in grouped([(it.part, row_of(it)) for it in found]).items():
        texts += [f"## [{part}](MODEL.md#{anchor(part)})", TABLE + "\n" + "\n".join(members)]
    missing = list(lacking(found))
    if missing:
        texts += ["## Rules that lack a kind of test", *missing]
    return "\n\n".join(texts) + "\n"


def faults(found: Sequence[Rule]) -> Iterator[str]:
    """What a rule or a wrong body names and isn't there; and whether the page is current."""
    headings = re.findall(r"^## (.*)$", MODEL.read_text(), re.MULTILINE)
    names = [it.name for it in found]
    for it in tomllib.loads(RULES.read_text())["rule"]:
        for key in sorted(set(it) - KEYS):
            yield f"tools/rules.toml: {it['name']}: {key} is no key"
    for rule in found:
        if names.count(rule.name) > 1 or "|" in rule.name:
            yield f"tools/rules.toml: {rule.name}: said twice, or not fit for a table"
        if rule.part not in headings:
            yield f"tools/rules.toml: {rule.name}: docs/MODEL.md has no heading {rule.part}"
        for pattern in rule.rows:
            if not rows_of(pattern):
                yield f"tools/rules.toml: {rule.name}: there is no row {pattern}"
        for scene in rule.scenes:
            if not has_scene(scene):
                yield f"tools/rules.toml: {rule.name}: no scene begins with {scene}"
    for name, paths in breakers().items():
        if name not in names:
            yield from (f"{it.relative_to(ROOT)}: {name} is no rule of tools/rules.toml" for it in paths)
    if not PAGE.is_file() or PAGE.read_text() != page(found):
        yield "docs/TESTS.md isn't what the rules and wrong bodies say: tools/tests.py write"


def main(words: Sequence[str]) -> int:
    """The status."""
    if list(words) == ["write"]:
        PAGE.write_text(page(rules()))
        return 0
    if list(words) == ["check"]:
        found = list(faults(rules()))
        print("\n".join(found) if found else "docs/TESTS.md is current")
        return 1 if found else 0
    print(__doc__)
    return 2


if __name__ == "__main__":
    sys.exit(main(sys.argv[1:]))

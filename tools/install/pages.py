"""The pages that are taken along, in words that fit where they then stand."""
import re
from typing import Dict

from build import ROOT, Fault

DOCS = ROOT / "docs"
PAGES = ("INSTALL.md", "C.md", "DEVICES.md", "PYTHON.md", "VM.md", "CORE_FOR_C.md", "CAPTURES.md", "FORMATS.md", "SCENARIOS.md", "MODEL.md",
         "PROVED.md", "RACES.md")
LINK = re.compile(r"\[([^]]*)\]\(([^)\s]+)\)")
# What the repository calls something, and what an installation calls it, the longer names first.
NAMES = {
    "tools/replay.py bin/usbtrace": "tirnouch-replay",
    "tools/replay.py": "tirnouch-replay",
    "tools/tirnouch-run": "tirnouch-run",
    "tools/tirnouch-record": "tirnouch-record",
    "bin/usbtrace": "usbtrace",
    "-Ic/include ": "$(pkg-config --cflags tirnouch-libusb) ",
    "-Lbin -lusb-1.0": "$(pkg-config --libs tirnouch-libusb)",
    "c/example/": "examples/driver/",
    "c/include/libusb.h": "libusb-1.0/libusb.h",
    "c/include/": "tirnouch/",
    "bin/libusb-1.0": "lib/tirnouch/libusb-1.0",
    "bin/libtirnouch_core.a": "lib/tirnouch/libtirnouch_core.a",
    **{f"docs/{name}": name for name in PAGES},
}
# What stands elsewhere than in the repository.
PLACES = {"../scenarios": "examples/scenarios", "../LICENSE": "LICENSE"}
NOTE = """
*This copy of the page was installed with Tirnouch, and names programs as they are installed. What it says of `make`, and of files in
bench/, c/, crates/, rows/ and tools/, is of the repository. [INSTALL.md](INSTALL.md) says what is where.*
"""


def link_as_installed(found: "re.Match[str]") -> str:
    """A link to what is taken along; of any other the text, and where that is."""
    text, target = found.groups()
    name, hash_mark, part = target.partition("#")
    if "://" in target or not name or name in PAGES or name.startswith("pictures/"):
        return found.group(0)
    if name in PLACES:
        return f"[{text}]({PLACES[name]}{hash_mark}{part})"
    return f"{text} (in the repository)"


def renamed(line: str) -> str:
    """A line in an installation's names; of one that is shown in two columns the second stays where it is. What calls make is the
    repository's, and stays."""
    if re.match(r"\s*(\$ )?make ", line):
        return line
    columns = re.fullmatch(r"(    \S.*?)(\s{2,})(\S.*)", line)
    if columns:
        first, gap, second = columns.groups()
        return f"{renamed(first):<{len(first + gap) - 2}}  {renamed(second)}"
    for old, new in NAMES.items():
        line = line.replace(old, new)
    return line


def as_installed(name: str, text: str) -> str:
    """A page in an installation's words."""
    if name != "INSTALL.md":
        head, *lines = text.split("\n")
        text = "\n".join([head, NOTE.rstrip("\n"), *map(renamed, lines)])
    return LINK.sub(link_as_installed, text)


def pages() -> Dict[str, bytes]:
    """The pages, the pictures that they show, and the licence, by their names in share/doc/tirnouch."""
    missing = [it for it in PAGES if not (DOCS / it).is_file()]
    if missing:
        raise Fault(*(f"there is no docs/{it}, which is to be installed: see tools/install/pages.py" for it in missing))
    texts = {it: as_installed(it, (DOCS / it).read_text()) for it in PAGES}
    found = {name: text.encode() for name, text in texts.items()}
    for text in texts.values():
        for _, target in LINK.findall(text):
            if target.startswith("pictures/"):
                found[target] = (DOCS / target).read_bytes()
    found["LICENSE"] = (ROOT / "LICENSE").read_bytes()
    return found

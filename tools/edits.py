"""Edits that the prover has to refuse: the form of crates/CRATE/must-fail/NAME.edit and tools/wrong_bodies/CRATE/NAME.edit, what an edit
makes of its crate's files, and which function it is in."""
import pathlib
import re
from typing import Dict, List, NamedTuple, Optional, Tuple

ROOT = pathlib.Path(__file__).resolve().parent.parent
CRATES = ROOT / "crates"
# The edits beside the gate, and the gate's own.
BESIDE = ROOT / "tools" / "wrong_bodies"
# What `rt` takes for an edit.
NAMED = re.compile(r"[A-Za-z0-9_-][A-Za-z0-9_.-]*\.edit")
PARTS = ("src", "specs", "proofs")
FUNCTION = re.compile(r"^( *)(?:pub(?:\([^)]*\))? )?(?:(?:const|unsafe|extern \"C\") )*fn (\w+)", re.MULTILINE)
IMPL = re.compile(r"^impl(?:<[^{]*?>)? (?:(?:\w+::)*(\w+)(?:<[^{]*?>)? for )?&?(?:\w+::)*(\w+)", re.MULTILINE)


class Misfit(Exception):
    """Why an edit can't be applied, for a person."""


class Pair(NamedTuple):
    """A text that is replaced by another in a file, named from its crate's folder."""

    file: str
    old: str
    new: str


def pairs(edit: pathlib.Path) -> List[Pair]:
    file, old, found = "", "", []
    for line in edit.read_text().split("\n"):
        if line.startswith("file: "):
            file = line.removeprefix("file: ").strip()
        elif line.startswith("old: "):
            old = line.removeprefix("old: ")
        elif line.startswith("new:"):
            if not file or not old:
                raise Misfit("a new text without a file or an old one")
            found.append(Pair(file, old, line.removeprefix("new:").removeprefix(" ")))
            old = ""
    if not found:
        raise Misfit("it changes nothing")
    return found


def applied(edit: pathlib.Path, crate: pathlib.Path) -> Dict[str, str]:
    """The files that an edit changes in a crate's folder, each with its new text: an old text stands once in its file, behind the pairs
    before it."""
    texts: Dict[str, str] = {}
    for file, old, new in pairs(edit):
        if file.partition("/")[0] not in PARTS or ".." in file.split("/"):
            raise Misfit(f"{file} isn't below src, specs or proofs")
        if not (crate / file).is_file():
            raise Misfit(f"there is no {file} in {crate.name}")
        text = texts.setdefault(file, (crate / file).read_text())
        if text.count(old) != 1:
            raise Misfit(f"its old text stands {text.count(old)} times in {file} of {crate.name}")
        texts[file] = text.replace(old, new)
    if all(text == (crate / file).read_text() for file, text in texts.items()):
        raise Misfit("it changes nothing")
    return texts


def misfit(edit: pathlib.Path, crate: pathlib.Path) -> Optional[str]:
    """Why an edit can't be applied to its crate, if it can't."""
    try:
        applied(edit, crate)
    except Misfit as why:
        return str(why)
    return None


def in_gate() -> Tuple[List[pathlib.Path], List[pathlib.Path]]:
    """The edits that the gate tries, and what stands among them and is none: `rt` passes over it."""
    found = sorted(it for it in CRATES.glob("*/must-fail/**/*") if it.is_file() and it.suffix != ".md")
    good = [it for it in found if it.parent.name == "must-fail" and NAMED.fullmatch(it.name)]
    return good, [it for it in found if it not in good]


def module_of(file: str) -> str:
    """The module that a file of src is, by its path below the crate."""
    parts = file.removeprefix("src/").removesuffix(".rt").split("/")
    return "::".join(it for it in parts if it not in ("lib", "main", "mod"))


def places(edit: pathlib.Path, crate: pathlib.Path) -> List[str]:
    """Where a refusal is looked for, the smallest place first: the function that an edit changes, its module; an empty text is the crate."""
    file, old, _ = pairs(edit)[0]
    if not file.startswith("src/"):
        return [""]
    text = (crate / file).read_text()
    before = text[: text.index(old) + len(old)] if old in text else ""
    functions = list(FUNCTION.finditer(before))
    module = module_of(file)
    found = [module] if module else []
    if functions:
        indent, name = functions[-1].groups()
        owners = [it for it in IMPL.finditer(before) if it.start() < functions[-1].start()] if indent else []
        owner = (owners[-1][2] + (owners[-1][1] or "")) if owners else module
        found.insert(0, f"{owner}::{name}" if owner else name)
    return [*found, ""]

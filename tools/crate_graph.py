"""The crates of crates.txt, and which stands on which."""
import pathlib
from typing import Dict, List, Optional

ROOT = pathlib.Path(__file__).resolve().parent.parent


def lines() -> Dict[str, str]:
    """The line of each crate, by its name, lowest first."""
    text = (ROOT / "crates.txt").read_text()
    return {line.partition(":")[0].split()[0]: line for line in text.splitlines() if ":" in line and not line.startswith("#")}


def named(name: str) -> List[str]:
    """What a crate's line names: crates of the repository, and libraries of the kit."""
    return lines()[name].partition(":")[2].split()


def is_static(name: str) -> bool:
    """Whether a crate is a static library."""
    return "staticlib" in lines()[name].partition(":")[0].split()


def uses() -> Dict[str, List[str]]:
    """The crates of the repository, each with those of the repository that it names."""
    known = lines()
    return {name: [it for it in line.partition(":")[2].split() if it in known] for name, line in known.items()}


def below(name: Optional[str]) -> List[str]:
    """A crate and those that it stands on, lowest first; all of them where none is said."""
    known, found = uses(), set()
    left = list(known) if name is None else [name]
    while left:
        it = left.pop()
        if it not in found:
            found.add(it)
            left += known[it]
    return [it for it in known if it in found]

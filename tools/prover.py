"""The prover's own command for a crate, over the libraries that `make test` or `rt lib` left below crates/."""
import pathlib
import shutil
from typing import List

import crate_graph

ROOT = pathlib.Path(__file__).resolve().parent.parent
CRATES = ROOT / "crates"


class NotBuilt(Exception):
    """Why a crate can't be checked, for a person."""


def library(name: str) -> pathlib.Path:
    """Where the gate leaves a crate's library."""
    return CRATES / name / "out" / "rlib" / f"{name}.rlib"


def kit_folder() -> pathlib.Path:
    """The kit: the folder above that of `rt`."""
    found = shutil.which("rt")
    if not found:
        raise NotBuilt("there is no rt in your PATH")
    return pathlib.Path(found).resolve().parent.parent


def check_words(name: str) -> List[str]:
    """The command that checks a crate by one process. It is to be run in the crate's folder, or in a copy of it."""
    kit, known, used = kit_folder(), crate_graph.lines(), crate_graph.named(name)
    below = [it for it in crate_graph.below(name) if it != name]
    lacking = [it for it in below if not library(it).is_dir()]
    if lacking:
        raise NotBuilt(f"{lacking[0]} isn't built: run make test, or rt lib in crates/{lacking[0]}")
    root = "src/lib.rt" if (CRATES / name / "src" / "lib.rt").is_file() else "src/main.rt"
    words = [f"{kit}/bin/rattle", "check", "--crate-name", name, root]
    words += ["--crate-type", "staticlib"] if crate_graph.is_static(name) else []
    for it in ["std", *(it for it in used if it not in known)]:
        words += ["--extern", f"{it}={kit}/rlibs/{it}.rlib"]
    for it in used:
        words += ["--extern", f"{it}={library(it)}"] if it in known else []
    for folder in [kit / "rlibs", *(library(it).parent for it in below)]:
        words += ["-L", f"dependency={folder}"]
    words += ["--antt-project", f"{kit}/rattle/logic/antt-project.json", "--logic-built", f"{kit}/logic_built"]
    return [*words, "--links", f"{name}=", "--jobs", "1"]

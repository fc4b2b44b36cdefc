#!/usr/bin/env python3
"""Gives this clone libraries that are proved already, so that a proof above them begins at once.

    tools/libraries.py take          those that gates proved on this machine, in any clone; `make libraries`
    tools/libraries.py take FROM     those of another clone, or of a file that `pack` made; `make libraries FROM=FROM`
    tools/libraries.py pack FILE     packs those that a driver stands on, `tirnouch` and all below it, for another machine

A library is taken only where its sources and those of all below it are the ones of this clone, by the kit's own sums. It prints what was
taken and what lacks. `rt check`, `rt lib` and tools/prove go on over these libraries; the gate trusts none, and proves all from nothing."""
import functools
import os
import pathlib
import shutil
import signal
import sys
import tarfile
import tempfile
from typing import Any, Callable, Dict, List

import kit

ROOT = pathlib.Path(__file__).resolve().parent.parent
# What is packed: this crate, and all below it.
DRIVER = "tirnouch"

Crates = Dict[str, Any]
# Puts a crate's library into its place, where it is there; whether it was.
Source = Callable[[Any], bool]


def place(root: pathlib.Path, name: str) -> pathlib.Path:
    """Where a crate's library stands, beside its stamp."""
    return root / "crates" / name / "out" / "rlib"


def of_gates(ours: Crates) -> Source:
    """What `rt ci` kept on this machine."""
    rt = kit.code()
    rt.Crate.allowed = rt.handles_of(str(ROOT))
    kept = rt.Kept(list(ours.values()))

    def give(crate: Any) -> bool:
        for it in crate.below():
            if it.name not in kept.rlibs:
                kept.is_built(it)
        return kept.give(crate, False, kept.key(crate))

    return give


def of_clone(root: pathlib.Path) -> Source:
    """What stands in another clone: of a gate there, or by `rt lib`."""
    theirs = kit.crates(root)

    def give(crate: Any) -> bool:
        library = place(root, crate.name) / f"{crate.name}.rlib"
        if crate.name not in theirs or theirs[crate.name].stamp() != crate.stamp() or not (library / "format").is_file():
            return False
        shutil.copytree(library, place(ROOT, crate.name) / library.name)
        return True

    return give


def of_pack(folder: pathlib.Path) -> Source:
    """What was unpacked into a folder."""

    def give(crate: Any) -> bool:
        found = place(folder, crate.name)
        if not (found / "stamp").is_file() or (found / "stamp").read_text() != crate.stamp():
            return False
        shutil.copytree(found / f"{crate.name}.rlib", place(ROOT, crate.name) / f"{crate.name}.rlib")
        return True

    return give


def take(ours: Crates, give: Source) -> None:
    taken, lacking = [], []
    for name, crate in ours.items():
        if not crate.makes_rlib() or crate.is_built():
            continue
        if all(it.is_built() for it in crate.below()):
            shutil.rmtree(place(ROOT, name), ignore_errors=True)
            if give(crate):
                (place(ROOT, name) / "stamp").write_text(crate.stamp())
                taken.append(name)
                continue
        lacking.append(name)
    print(f"taken, {len(taken)}: {' '.join(taken)}\nlacking, {len(lacking)}: {' '.join(lacking)}")


def take_from(path: pathlib.Path, ours: Crates) -> int:
    if path.is_dir():
        take(ours, of_clone(path))
        return 0
    try:
        with tempfile.TemporaryDirectory(prefix="libraries-", dir=ROOT) as folder, tarfile.open(path) as packed:
            packed.extractall(folder, filter="data")
            take(ours, of_pack(pathlib.Path(folder)))
    except (OSError, tarfile.TarError) as why:
        print(f"{path} is no clone, and no file of libraries: {why}", file=sys.stderr)
        return 1
    return 0


def pack(path: pathlib.Path, ours: Crates) -> int:
    names = [it.name for it in ours[DRIVER].below()] + [DRIVER]
    lacking = [it for it in names if not ours[it].is_built()]
    if lacking:
        print(f"these aren't proved in this clone: {' '.join(lacking)}. `make libraries` takes what a gate proved", file=sys.stderr)
        return 1
    with tarfile.open(path, "w:gz") as packed:
        for it in names:
            packed.add(place(ROOT, it), place(ROOT, it).relative_to(ROOT))
    print(f"{path} has {len(names)} libraries, {path.stat().st_size // 1_000_000} MB")
    return 0


def main(words: List[str]) -> int:
    signal.signal(signal.SIGPIPE, signal.SIG_DFL)
    if words[:1] not in (["take"], ["pack"]) or len(words) > 2 or words == ["pack"]:
        print(__doc__)
        return 0 if words in (["--help"], ["-h"]) else 2
    # A crate's sum has those of all below it: it would be made once for each way that leads there.
    kit.code().rtlib.Crate.stamp = functools.lru_cache(maxsize=None)(kit.code().rtlib.Crate.stamp)
    ours = kit.crates(ROOT)
    held = kit.code().rtlib.lock(list(ours.values()))
    try:
        if words[0] == "pack":
            return pack(pathlib.Path(words[1]), ours)
        if len(words) == 2:
            return take_from(pathlib.Path(words[1]), ours)
        if not kit.keeps():
            print("this kit's gate keeps nothing but crates/*/out in its own clone: make libraries FROM=CLONE takes that", file=sys.stderr)
            return 1
        take(ours, of_gates(ours))
        return 0
    finally:
        for it in held:
            os.close(it)


if __name__ == "__main__":
    sys.exit(main(sys.argv[1:]))

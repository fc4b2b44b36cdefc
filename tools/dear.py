#!/usr/bin/env python3
"""Which functions of a crate are dear to prove: tools/dear.py CRATE [COUNT]

It proves the crate once more, over the libraries that `make test` or `rt lib` left below crates/, and prints as many functions as asked for
(20), those with the most seconds first. The seconds are by the clock, between the files that the prover writes as it comes to the end of
each part of a proof; other work on the machine adds to them. Behind them stands the part that took the longest. What stands under
`contracts` is what a function promises, and not its proof. The status is that of the prover."""
import collections
import pathlib
import re
import subprocess
import sys
import tempfile
from typing import Dict, List, Tuple

import crate_graph
import prover

ROOT = pathlib.Path(__file__).resolve().parent.parent
CRATES = ROOT / "crates"
# How many functions are printed, where that isn't said.
COUNT = 20
# The parts of which the prover makes a function's proof: a name of theirs begins with a capital letter.
PART = re.compile(r"(\.[A-Z]\w*)+$")

Part = Tuple[float, str]


def written(kept: pathlib.Path) -> List[Part]:
    """When each part of a proof was written, and its name, in order."""
    files = [it for it in kept.rglob("*.oantt") if not it.name.endswith(".decls.oantt")]
    return sorted((it.stat().st_mtime, it.name.removesuffix(".oantt")) for it in files)


def function_of(part: str) -> str:
    """The function that a part is of, by its path in the crate."""
    name = re.sub(r"^Rattle-\w+-(proofs|specs)\.", "", part)
    return PART.sub("", name) or name


def seconds_by_function(parts: List[Part]) -> Dict[str, List[Part]]:
    """The seconds of each function's parts."""
    found: Dict[str, List[Part]] = collections.defaultdict(list)
    for (before, _), (moment, name) in zip(parts, parts[1:]):
        found[function_of(name)].append((moment - before, name.rpartition(".")[2]))
    return found


def main(words: List[str]) -> int:
    if len(words) not in (1, 2) or words[0] not in crate_graph.lines() or not "".join(words[1:] or ["1"]).isdigit():
        print(__doc__, file=sys.stderr)
        return 2
    name, count = words[0], int(words[1]) if len(words) > 1 else COUNT
    try:
        command = prover.check_words(name)
    except prover.NotBuilt as why:
        raise SystemExit(f"dear: {why}")
    with tempfile.TemporaryDirectory(prefix=f"{name}-") as folder:
        kept = pathlib.Path(folder)
        ran = subprocess.run([*command, "--incremental", str(kept)], cwd=CRATES / name, stdout=subprocess.PIPE, stderr=subprocess.STDOUT,
                             text=True)
        found = seconds_by_function(written(kept))
    dearest = sorted(found.items(), key=lambda it: -sum(seconds for seconds, _ in it[1]))
    for function, parts in dearest[:count]:
        longest, part = max(parts)
        print(f"{sum(seconds for seconds, _ in parts):7.1f}  {function}  ({part} {longest:.1f})")
    print(f"{sum(seconds for parts in found.values() for seconds, _ in parts):7.1f}  {name}: {len(found)} functions and contracts")
    if ran.returncode:
        print(ran.stdout[-4000:], file=sys.stderr)
    return ran.returncode


if __name__ == "__main__":
    sys.exit(main(sys.argv[1:]))

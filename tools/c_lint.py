#!/usr/bin/env python3
"""Looks at the C code with analyzers: tools/c_lint.py. gcc's -fanalyzer and, where it is there, cppcheck read each file of c/usb and c/record, and c/heap.c.

What they find has to stand in c/findings.txt, with the reason why it is none: a line `FILE KIND: REASON`, where KIND is the
analyzer's word for it (-Wanalyzer-..., or cppcheck's). What stands there and isn't found any more is told too."""
import pathlib
import re
import shutil
import subprocess
import sys
from concurrent.futures import ThreadPoolExecutor
from typing import List, Set, Tuple

ROOT = pathlib.Path(__file__).resolve().parent.parent
FINDINGS = ROOT / "c" / "findings.txt"
WORDS = "-std=c11 -O2 -D_GNU_SOURCE -Wall -Wextra -pedantic -fanalyzer -fdiagnostics-plain-output -c -o /dev/null".split()
WARNING = re.compile(r"^[^ ].*: warning: .*\[(-W[\w-]+)\]$")
FORM = re.compile(r"(\S+) (\S+): .+")

Finding = Tuple[str, str]


def by_gcc(source: pathlib.Path) -> List[Finding]:
    """What -fanalyzer finds in a file."""
    ran = subprocess.run(["gcc", *WORDS, f"-I{ROOT / 'c' / 'include'}", source], capture_output=True, text=True)
    if ran.returncode:
        sys.exit(f"{source}: {ran.stderr}")
    warnings = filter(None, map(WARNING.match, ran.stderr.splitlines()))
    return [(str(source.relative_to(ROOT / "c")), warning[1]) for warning in warnings]


def by_cppcheck(source: pathlib.Path) -> List[Finding]:
    """What cppcheck finds there."""
    words = ["cppcheck", "--std=c11", "-D_GNU_SOURCE", f"-I{ROOT / 'c' / 'include'}", "--enable=warning,performance,portability", "-q",
             "--template={id}", source]
    ran = subprocess.run(words, capture_output=True, text=True)
    kinds = [line.strip() for line in ran.stderr.splitlines()]
    return [(str(source.relative_to(ROOT / "c")), kind) for kind in kinds if re.fullmatch(r"\w+", kind)]


def explained() -> Set[Finding]:
    lines = [line for line in FINDINGS.read_text().splitlines() if line and not line.startswith("#")]
    matches = [FORM.fullmatch(line) for line in lines]
    if None in matches:
        sys.exit(f"{FINDINGS}: not of the form FILE KIND: REASON: {lines[matches.index(None)]}")
    return {match.groups() for match in matches if match}


def main() -> int:
    sources = [*sorted((ROOT / "c" / "usb").glob("*.c")), *sorted((ROOT / "c" / "record").glob("*.c")), ROOT / "c" / "heap.c"]
    ways = [by_gcc] + ([by_cppcheck] if shutil.which("cppcheck") else [])
    with ThreadPoolExecutor() as pool:
        found = {it for way in ways for part in pool.map(way, sources) for it in part}
    known = explained()
    for finding in sorted(found - known):
        print(f"{' '.join(finding)}: found, and not explained in c/findings.txt")
    stale = {it for it in known - found if len(ways) == 2 or it[1].startswith("-W")}
    for finding in sorted(stale):
        print(f"{' '.join(finding)}: isn't found any more: take it out of c/findings.txt")
    print(f"{len(sources)} files, {len(found)} findings, {len(found - known)} not explained")
    return 1 if found - known or stale else 0


sys.exit(main())

"""The unproved program usbtrace with a call before each atomic step on a word, so that tools/interleavings/schedule.c decides who goes on
there; and with one where a function of the crates of TOLD begins, so that a schedule can be read.

`rt try` leaves an LLVM module, whose text gets these calls and is compiled without optimization: the code is that of the crates, and each
function stands by itself, so that one can be made to do nothing (planted.py)."""
import pathlib
import re
import subprocess
from typing import Iterator, List

import unproved

TARGET = unproved.TARGET
# An atomic step in a module's text: its kind, its word, and what is expected there.
STEP = re.compile(
    r"\s*(?:%\S+ = )?(?P<kind>cmpxchg(?: weak)?|atomicrmw \w+|load atomic i\d+,|store atomic (?P<type>i\d+) [^,]+,) ptr (?P<word>[^ ,]+)"
    r"(?:, i64 (?P<expected>[^ ,]+),)?"
)
DEFINED = re.compile(r'define .*?@(?:"([^"]*)"|([\w.$]+))\(')
# The crates whose functions say that they begin.
TOLD = ("usb_library::", "usb_workers::", "trace_live::")
DECLARED = """declare void @point_of_look(ptr, i32)
declare void @point_of_change(ptr, i32)
declare void @point_of_exchange(ptr, i64, i32)
declare void @come_into(i32)
"""


class Strange(Exception):
    """A step that isn't known: nothing would be decided there."""


class Points:
    """The text of a module with its points, and the names of the functions that it numbers."""

    def __init__(self) -> None:
        self.names: List[str] = ["the program"]

    def number(self, name: str) -> int:
        """The number of one more place in a function."""
        self.names.append(re.sub(r"::<.*", "", name))
        return len(self.names) - 1

    def point(self, line: str, name: str) -> str:
        """The call before a step."""
        found = STEP.match(line)
        if not found or "i64" not in line:
            raise Strange(line.strip())
        if found["kind"].startswith("cmpxchg"):
            return f"  call void @point_of_exchange(ptr {found['word']}, i64 {found['expected']}, i32 {self.number(name)})\n"
        how = "look" if found["kind"].startswith("load") else "change"
        return f"  call void @point_of_{how}(ptr {found['word']}, i32 {self.number(name)})\n"

    def added(self, lines: Iterator[str]) -> Iterator[str]:
        """The lines, with those calls."""
        name, is_begun = "", False
        for line in lines:
            if line.startswith("define "):
                found = DEFINED.match(line)
                name = (found[1] or found[2]) if found else ""
                is_begun = name.startswith(TOLD) and "++" not in name
                line = line.replace(" sanitize_address", "")
            elif line.startswith("attributes "):
                line = line.replace(" sanitize_address", "").replace(' "frame-pointer"="all"', "").replace("= { }", "= { nounwind }")
            elif is_begun and line.startswith("  ") and " alloca " not in line:
                yield f"  call void @come_into(i32 {self.number(name)})\n"
                is_begun = False
            if line.startswith("  ") and re.match(r"\s*(?:%\S+ = )?(?:cmpxchg|atomicrmw|(?:load|store) atomic) ", line):
                yield self.point(line, name)
            yield line
        yield DECLARED

    def as_c(self) -> str:
        """The names, for the program, and a null pointer behind them."""
        lines = "".join('    "' + it.replace("\\", "\\\\").replace('"', '\\"') + '",\n' for it in self.names)
        return f"const char *const names_of_module[] = {{\n{lines}    0,\n}};\n"


def write_points(text: pathlib.Path, to: pathlib.Path, names: pathlib.Path) -> None:
    """The text of a module with its points, and a file in C with the names of their functions."""
    points = Points()
    with text.open() as lines, to.open("w") as out:
        out.writelines(points.added(lines))
    names.write_text(points.as_c())


def object_of(module: pathlib.Path, folder: pathlib.Path, kit: pathlib.Path) -> List[pathlib.Path]:
    """The object of a module with its points, and the file in C with their names, both made below a folder."""
    clang, text, pointed = kit / "toolchain" / "bin" / "clang", folder / "module.ll", folder / "points.ll"
    subprocess.run([clang, TARGET, "-S", "-emit-llvm", "-x", "ir", module, "-o", text, "-O0", "-Xclang",
                    "-disable-llvm-passes"], check=True)
    write_points(text, pointed, folder / "names.c")
    text.unlink()
    made = folder / "module.o"
    subprocess.run([clang, TARGET, "-march=x86-64", "-O0", "-fPIC", "-ffunction-sections", "-fdata-sections", "-c", "-x", "ir", pointed,
                    "-o", made], check=True)
    return [made, folder / "names.c"]

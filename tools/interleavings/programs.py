"""The programs whose threads are run in every order, and their scenes."""
import dataclasses
import hashlib
import pathlib
import shutil
import subprocess
from typing import List, Sequence

import crate_graph
import module
import unproved

HERE = pathlib.Path(__file__).resolve().parent
ROOT = HERE.parent.parent
KIT = pathlib.Path(shutil.which("rt") or "rt").resolve().parent.parent
FLAGS = "-std=c11 -O2 -g -Wall -Wextra -pedantic -D_GNU_SOURCE".split()
# The functions of the C library in whose place those of posix.c are called, and of rattle.c.
OF_C = ("pthread_mutex_lock pthread_mutex_timedlock pthread_mutex_unlock pthread_cond_wait pthread_cond_timedwait pthread_cond_signal "
        "pthread_cond_broadcast pthread_create pthread_join pthread_self sched_yield ppoll write read clock_gettime").split()
OF_RATTLE = "syscall pthread_create pthread_join pthread_detach pthread_self sched_yield".split()


@dataclasses.dataclass
class Program:
    """A program under the search: its file, and what each scene has."""

    part: str
    file: pathlib.Path

    def scenes(self) -> List[str]:
        """The names of its scenes."""
        if self.part == "c":
            return subprocess.run([self.file], check=True, capture_output=True, text=True).stdout.split()
        return sorted(it.stem for it in (HERE / "scenes").glob("*.txt"))

    def words(self, scene: str) -> List[str]:
        """The words that run a scene."""
        return [str(self.file), scene if self.part == "c" else "live"]

    def text(self, scene: str) -> pathlib.Path:
        """What it reads."""
        return pathlib.Path("/dev/null") if self.part == "c" else HERE / "scenes" / f"{scene}.txt"


def compiled(source: pathlib.Path, to: pathlib.Path, more: Sequence[str] = ()) -> pathlib.Path:
    """The object of a file in C."""
    made = to / f"{source.stem}.o"
    subprocess.run(["gcc", *FLAGS, *more, "-c", source, "-o", made], check=True)
    return made


def linked(objects: Sequence[pathlib.Path], libraries: Sequence[pathlib.Path], points: str, names: Sequence[str], folder: pathlib.Path,
           to: pathlib.Path) -> None:
    """A program whose objects call the points' functions in the place of the C library's."""
    whole = folder / "whole.o"
    subprocess.run(["ld", "-r", *objects, "--whole-archive", *libraries, "--no-whole-archive", "-o", whole], check=True)
    subprocess.run(["objcopy", *(f"--redefine-sym={it}=points_{it}" for it in names), whole], check=True)
    parts = [compiled(HERE / f"{it}.c", folder) for it in (points, "schedule", "search")]
    subprocess.run(["gcc", whole, *parts, "-pthread", "-o", to], check=True)


def c_program(sources: pathlib.Path, folder: pathlib.Path) -> Program:
    """The scenes of libusb's interface, over the core that stands in bin/."""
    to, include = folder / "c", ["-I", str(sources / "c" / "include")]
    to.mkdir()
    files = [*sorted((sources / "c" / "usb").glob("*.c")), HERE / "scenes.c"]
    objects = [compiled(it, to, include) for it in files]
    linked(objects, [ROOT / "bin" / "libtirnouch_core.a"], "posix", OF_C, to, to / "scenes")
    return Program("c", to / "scenes")


def sum_of_files(sources: pathlib.Path) -> str:
    """A sum of all that the Rattle program is made of."""
    made = hashlib.sha256((HERE / "module.py").read_bytes())
    for crate in sorted(crate_graph.below("usbtrace")):
        for path in sorted((sources / "crates" / crate / "src").rglob("*.rt")):
            made.update(str(path.relative_to(sources)).encode() + b"\0" + path.read_bytes())
    return made.hexdigest()


def rattle_objects(sources: pathlib.Path, folder: pathlib.Path) -> List[pathlib.Path]:
    """The object of usbtrace with its points, kept in bin/ as long as its files stay, and the names of its functions."""
    kept, noted = ROOT / "bin" / "interleavings.o", ROOT / "bin" / "interleavings.state"
    names, made_of = ROOT / "bin" / "interleavings.c", sum_of_files(sources)
    if not (noted.is_file() and noted.read_text() == made_of):
        built = module.object_of(unproved.module_of(sources / "crates" / "usbtrace", folder), folder, KIT)
        kept.parent.mkdir(exist_ok=True)
        noted.unlink(missing_ok=True)
        for it, place in zip(built, (kept, names)):
            shutil.copyfile(it, place)
        noted.write_text(made_of)
    return [kept, compiled(names, folder)]


def rattle_program(sources: pathlib.Path, folder: pathlib.Path) -> Program:
    """The library and its workers, as `usbtrace live` runs them."""
    to = folder / "rattle"
    to.mkdir()
    linked(rattle_objects(sources, to), [KIT / "c" / f"lib{it}.a" for it in ("os_c", "libc_c")], "rattle", OF_RATTLE, to, to / "usbtrace")
    return Program("rattle", to / "usbtrace")

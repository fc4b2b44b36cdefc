"""What stands in bin/, and what is known of it: its version and date, its sources, the kit, and how each binary was built."""
import datetime
import os
import pathlib
import platform
import re
import shutil
import subprocess
import sys
from typing import List, NamedTuple, Optional

ROOT = pathlib.Path(__file__).resolve().parent.parent.parent
BIN = ROOT / "bin"
# What a library over the core says of it (c/description.c).
CORE = re.compile(rb"tirnouch, (\w+) core\0")
UNITS = re.compile(r"version = \{ (\d+), (\d+), (\d+),")
OLD = "built of other sources than these"
# The day that CHANGELOG.md is of, and its headings.
DAY = re.compile(r"^As of (\d{4})-(\d\d)-(\d\d)\.", re.M)
HEADING = re.compile(r"^### (.+)$", re.M)


class Fault(Exception):
    """Why something can't be done: each argument is a sentence for a person."""


class Binary(NamedTuple):
    """A file of bin/: where it is installed, the crate of which it is built (nothing where it is C alone), and the targets that build it."""

    name: str
    place: str
    crate: str
    targets: str


LIBRARY = "make c-try, without proofs; or make c-usb, which proves its core"
BINARIES = (
    Binary("libusb-1.0.so.0", "lib/tirnouch/libusb-1.0.so.0", "tirnouch_c", LIBRARY),
    Binary("libusb-1.0.a", "lib/tirnouch/libusb-1.0.a", "tirnouch_c", LIBRARY),
    Binary("libtirnouch-record.so", "lib/tirnouch/libtirnouch-record.so", "", LIBRARY),
    Binary("libtirnouch_core.a", "lib/tirnouch/libtirnouch_core.a", "tirnouch_c", LIBRARY),
    Binary("usbtrace", "bin/usbtrace", "usbtrace", "make run, without proofs; or make build, which proves it"),
)


def warn(sentence: str) -> None:
    print(f"tools/install: {sentence}", file=sys.stderr, flush=True)


def answer_of(*words: str) -> Optional[str]:
    """What a program prints in the repository; None where it isn't there, or fails."""
    try:
        ran = subprocess.run(words, cwd=ROOT, capture_output=True, text=True, check=False)
    except OSError:
        return None
    return ran.stdout.strip() if ran.returncode == 0 else None


def version() -> str:
    """That of the file VERSION."""
    text = (ROOT / "VERSION").read_text().strip()
    if not re.fullmatch(r"\d+\.\d+\.\d+", text):
        raise Fault(f"VERSION has {text!r}: it is to have three numbers, as 0.1.0")
    return text


def libusb_version() -> str:
    """The version of libusb whose interface this is."""
    found = UNITS.search((ROOT / "c" / "usb" / "errors.c").read_text())
    if not found:
        raise Fault("c/usb/errors.c has no version that libusb_get_version tells")
    return ".".join(found.groups())


def machine() -> str:
    return f"{platform.machine()}-{platform.system().lower()}"


def changes() -> List[str]:
    """The headings of CHANGELOG.md: what the version has."""
    return HEADING.findall((ROOT / "CHANGELOG.md").read_text())


def moment() -> int:
    """The time that files of an archive have: SOURCE_DATE_EPOCH, else the day that CHANGELOG.md is of."""
    said = os.environ.get("SOURCE_DATE_EPOCH")
    if said is not None:
        if not re.fullmatch(r"\d{1,10}", said):
            raise Fault(f"SOURCE_DATE_EPOCH is {said!r}: it is to be a number of seconds since 1970")
        return int(said)
    found = DAY.search((ROOT / "CHANGELOG.md").read_text())
    if not found:
        raise Fault("CHANGELOG.md says no day, as `As of 2026-11-28.`")
    year, month, day = (int(it) for it in found.groups())
    return int(datetime.datetime(year, month, day, tzinfo=datetime.timezone.utc).timestamp())


def day() -> datetime.datetime:
    return datetime.datetime.fromtimestamp(moment(), datetime.timezone.utc)


def sources() -> str:
    """The commit, and whether files that are kept in git differ from it."""
    commit = answer_of("git", "rev-parse", "HEAD")
    if commit is None:
        return "not known: git tells no commit here"
    return f"commit {commit}{', and changes' if answer_of('git', 'diff', '--quiet', 'HEAD') is None else ''}"


def kit() -> str:
    """What `rt version` says."""
    rt = shutil.which("rt")
    return (rt and answer_of(rt, "version")) or "not known: there is no rt in PATH"


class Build:
    """The binaries of a folder, and how each was built: `labels` has that in words, by name."""

    def __init__(self, folder: pathlib.Path = BIN) -> None:
        self.folder = folder
        missing = [it for it in BINARIES if not (folder / it.name).is_file()]
        if missing:
            raise Fault(*(f"there is no {folder / it.name}: build it by {it.targets}" for it in missing))
        states = {it: self.state(it) for it in sorted({it.crate for it in BINARIES if it.crate})}
        self.labels = {it.name: self.label(it, states.get(it.crate, "")) for it in BINARIES}

    def data(self, binary: Binary) -> bytes:
        return (self.folder / binary.name).read_bytes()

    def state(self, crate: str) -> str:
        """How the crate's build in bin/ was made, if it is that of today's sources: a word of tools/program.py."""
        if self.folder != BIN:
            return "none"
        return answer_of(sys.executable, "-B", str(ROOT / "tools" / "program.py"), "state", crate) or "none"

    def label(self, binary: Binary, state: str) -> str:
        """A library says by itself which core it has; that it isn't that of the sources is told too."""
        if not binary.crate:
            return "C, which is tested and not proved"
        if binary.crate == "usbtrace":
            return OLD if state == "none" else state
        found = CORE.search(self.data(binary))
        core = f"{found.group(1).decode()} core" if found else "a core that isn't known"
        return core if core == f"{state} core" else f"{core}, {OLD}"

    def warn_of_old(self) -> None:
        """Says which binaries aren't of today's crates, and whether a source in C is newer than the library."""
        for it in BINARIES:
            if OLD in self.labels[it.name]:
                warn(f"bin/{it.name} was {OLD}: build it anew by {it.targets}")
        used = [*(ROOT / "c").glob("*.c"), *(ROOT / "c" / "include").glob("*.h"), *(ROOT / "c" / "usb").iterdir(), *(ROOT / "c" / "record").iterdir()]
        newest = max(used, key=lambda it: it.stat().st_mtime)
        if newest.stat().st_mtime > (self.folder / BINARIES[0].name).stat().st_mtime:
            warn(f"bin/{BINARIES[0].name} is older than {newest.relative_to(ROOT)}: if that changed, build it anew by {LIBRARY}")

    def text(self) -> str:
        """The text of the file BUILD."""
        width = max(len(it.place) for it in BINARIES) + 2
        lines = "\n".join(f"{it.place:<{width}}{self.labels[it.name]}" for it in BINARIES)
        return f"""Tirnouch {version()} for {machine()}

sources: {sources()}
kit, where this was made: {kit()}

{lines}

A `proved` binary was built once the prover had accepted the proof of each function of its crate (tirnouch_c, usbtrace) and of the
crates below it. An `unproved` one is built of the same code without a look at the proofs; it has checks instead, and ends where one
fails. A `trusted` one is unproved, and has no checks. The C code over the core is tested, and not proved.
"""

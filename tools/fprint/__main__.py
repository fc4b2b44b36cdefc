"""Runs libfprint's own tests of its USB drivers (Debian's libfprint-2-tests), unchanged, against the captures that come with them, and
libgusb's self-test, through which libfprint uses libusb: make c-fprint.

    python3 tools/fprint [--seeds N] [--keep DIR] [NAME ..]      all drivers, or these

Each test runs its driver under umockdev-run, which fakes the kernel by a capture, or by a recording of ioctls. Here another umockdev-run
stands before it in PATH: tools/tirnouch-run makes a device of the capture, and the driver runs against that, over bin/libusb-1.0.so.0, once
with each seed from 1 to N (3). A recording of ioctls is first made a capture, by tools/tirnouch-record under umockdev-run itself. At last one
bit of the driver's third write is flipped (c/clients/changed.c), which has to fail the test: of a driver that writes by requests alone, of
its third request that writes. Where the driver crashes then, nothing has noticed it.

libgusb's self-test is the client gusb_suite of c/clients, where its sources are below /usr/src: its devices are a text.

A row is printed for each test, and what a run printed is kept in DIR, as NAME.SEED.out. What the machine lacks is said, and the status is 0;
else it is 1 where a run failed, or a flipped bit wasn't noticed or made a driver crash."""
import argparse
import os
import pathlib
import re
import shutil
import subprocess
import sys
import tempfile
from typing import Dict, List, NamedTuple, Optional, Tuple

ROOT = pathlib.Path(__file__).resolve().parent.parent.parent
HERE = pathlib.Path(__file__).resolve().parent
TESTS = pathlib.Path("/usr/share/installed-tests/libfprint-2")
CHANGED = ROOT / "c" / "clients" / "changed.c"
SECONDS = 300
GUSB_TESTS = 5
# Which write is flipped: of the transfers, and where a driver makes none, of the requests.
FLIPS = ("flip 3", "flip 3 requests")
# What libfprint's test says of a driver that used memory, or numbers, as nobody may.
CRASHED = re.compile(r"died with <Signals\.SIG(?:SEGV|BUS|ILL|FPE)\b")
# The cells of rows that aren't well.
FAULTS = {"FAILED", "NOT NOTICED", "CRASHED"}


class Test(NamedTuple):
    """A driver's test: its variables and its command, as its file of installed tests says them, and what it replays."""

    name: str
    variables: Dict[str, str]
    command: List[str]
    kind: str


def kind_of(folder: pathlib.Path) -> str:
    if list(folder.glob("*.pcapng")):
        return "capture"
    ioctls = [it for it in (folder / "capture.ioctl", folder / "custom.ioctl") if it.is_file()]
    if ioctls and "(SPI)" not in ioctls[0].read_text(errors="replace").split("\n", 1)[0]:
        return "ioctls"
    return "not USB"


def tests() -> List[Test]:
    found = []
    for file in sorted(TESTS.glob("driver-*.test")):
        said = re.search(r"^Exec=env (.*)$", file.read_text(), re.M)
        words = said[1].split() if said else []
        variables = dict(it.split("=", 1) for it in words if re.match(r"\w+=", it))
        command = [it for it in words if not re.match(r"\w+=", it)]
        if command:
            found.append(Test(file.stem.removeprefix("driver-"), variables, command, kind_of(pathlib.Path(command[-1]))))
    return found


def lacking() -> Optional[str]:
    """What has to be installed or built before anything can be run."""
    if not TESTS.is_dir():
        return "libfprint's tests: apt-get install libfprint-2-tests gir1.2-fprint-2.0 python3-gi python3-cairo (Debian 13)"
    for program, package in (("umockdev-run", "umockdev"), ("gcc", "gcc")):
        if not shutil.which(program):
            return f"{program}: apt-get install {package}"
    for file, target in (("libusb-1.0.so.0", "c-try"), ("libtirnouch-record.so", "c-try"), ("usbtrace", "run")):
        if not (ROOT / "bin" / file).is_file():
            return f"bin/{file}: make {target}"
    return None


class Runs:
    """The runs of all tests, in a folder in which captures, libraries and output are kept."""

    def __init__(self, folder: pathlib.Path, kept: Optional[pathlib.Path]) -> None:
        self.folder, self.kept = folder, kept or folder
        self.changed = folder / "changed.so"
        words = ["gcc", "-std=c11", "-O1", "-D_GNU_SOURCE", "-fPIC", "-shared", "-I", ROOT / "c" / "include", CHANGED, "-o", self.changed]
        subprocess.run(words, check=True)

    def run(self, test: Test, name: str, **more: str) -> Tuple[bool, str]:
        """Whether a run passed, and what it printed."""
        work = pathlib.Path(tempfile.mkdtemp(dir=self.folder))
        environment = {**os.environ, **test.variables, "FPRINT_ROOT": str(ROOT), "FPRINT_REAL": shutil.which("umockdev-run") or "",
                       "FPRINT_FOLDER": str(self.folder), "PATH": f"{HERE}:{os.environ['PATH']}", **more}
        try:
            ran = subprocess.run(test.command, cwd=work, env=environment, stdin=subprocess.DEVNULL, stdout=subprocess.PIPE,
                                 stderr=subprocess.STDOUT, timeout=SECONDS, check=False)
            text, is_passed = ran.stdout.decode(errors="replace"), ran.returncode == 0
        except subprocess.TimeoutExpired as late:
            text, is_passed = f"{(late.stdout or b'').decode(errors='replace')}\nno end in {SECONDS} seconds\n", False
        (self.kept / f"{test.name}.{name}.out").write_text(text)
        return is_passed, text

    def flipped(self, test: Test) -> str:
        """What came of a flipped bit: of the first kind of write of which the driver makes three."""
        for flip in FLIPS:
            done = self.folder / "done"
            done.unlink(missing_ok=True)
            is_passed, text = self.run(test, "flipped", FPRINT_CHANGED=str(self.changed), TIRNOUCH_CHANGED=flip,
                                       TIRNOUCH_CHANGED_DONE=str(done))
            if done.exists():
                return self.came_of_flip(is_passed, text)
        return "fewer than three writes"

    @staticmethod
    def came_of_flip(is_passed: bool, text: str) -> str:
        """What a flipped bit made of a run: told is what the library told, before the test's own end."""
        if is_passed:
            return "NOT NOTICED"
        if "isn't what the devices' text expects" in text:
            return "noticed: told"
        return "CRASHED" if CRASHED.search(text) else "noticed: the test fails"

    def row(self, test: Test, seeds: int) -> List[str]:
        if test.kind == "not USB":
            return [test.name, test.kind, *["-"] * seeds, "-"]
        passed = ["passed" if self.run(test, str(seed), FPRINT_SEED=str(seed))[0] else "FAILED" for seed in range(1, seeds + 1)]
        return [test.name, test.kind, *passed, self.flipped(test)]

    def self_test(self, *words: str) -> str:
        """What the row of c/clients/run says of libgusb's self-test."""
        run = [ROOT / "c" / "clients" / "run", "--keep", self.folder, *words, "gusb_suite"]
        ran = subprocess.run(run, capture_output=True, text=True, timeout=SECONDS, check=False)
        row = next((it for it in ran.stdout.splitlines() if it.startswith("gusb_suite ")), "")
        return next((it for it in ("skipped", "NOT NOTICED", "noticed") if it in row), "ran")

    def self_test_row(self, seeds: int) -> List[str]:
        """It passed where all of its tests are ok: what it prints around them depends on GLib's version."""
        passed = []
        for seed in range(1, seeds + 1):
            if self.self_test("--seed", str(seed)) == "skipped":
                return ["libgusb's self-test", "no sources", *["-"] * seeds, "-"]
            text = (self.folder / "gusb_suite.out").read_text()
            is_well = "[status 0]" in text and len(re.findall(r"^ok ", text, re.M)) == GUSB_TESTS and "not ok" not in text
            passed.append("passed" if is_well else "FAILED")
        return ["libgusb's self-test", "a text", *passed, self.self_test("--flip")]


def main() -> int:
    parser = argparse.ArgumentParser(prog="tools/fprint", usage=__doc__)
    parser.add_argument("--seeds", type=int, default=3)
    parser.add_argument("--keep", type=pathlib.Path)
    parser.add_argument("names", nargs="*")
    asked = parser.parse_args()
    lacks = lacking()
    if lacks:
        print(f"skipped: there is no {lacks}")
        return 0
    if asked.keep:
        asked.keep.mkdir(parents=True, exist_ok=True)
    chosen = [it for it in tests() if not asked.names or it.name in asked.names]
    titles = ["driver", "replays", *(f"seed {it}" for it in range(1, asked.seeds + 1)), "a flipped bit"]
    print("".join(f"| {it} " for it in titles) + "|\n" + "|---" * len(titles) + "|", flush=True)
    rows = []
    with tempfile.TemporaryDirectory(prefix="fprint-") as folder:
        runs = Runs(pathlib.Path(folder), asked.keep and asked.keep.resolve())
        for test in chosen:
            rows.append(runs.row(test, asked.seeds))
            print("".join(f"| {it} " for it in rows[-1]) + "|", flush=True)
        if not asked.names or "gusb" in asked.names:
            rows.append(runs.self_test_row(asked.seeds))
            print("".join(f"| {it} " for it in rows[-1]) + "|", flush=True)
    failed = sum(bool(FAULTS & set(row)) for row in rows)
    print(f"{len(rows) - failed} tests well, {failed} not")
    return 1 if failed else 0


if __name__ == "__main__":
    sys.exit(main())

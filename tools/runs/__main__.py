"""The part of tools/tirnouch-run and tools/tirnouch-record that watches programs: a limit, many seeds, a recording; that makes a text of
devices of a capture or a trace; and that tells the library's version.

    python3 tools/runs version LIBRARY FILE
    python3 tools/runs record FILE LIBRARY [--device VENDOR:PRODUCT] [--no-strings] -- PROGRAM ..
    python3 tools/runs text CAPTURE TEXT USBTRACE [--umockdev FILE] [--descriptors FILE] [--device VENDOR:PRODUCT]
    python3 tools/runs repeat TRACE TEXT USBTRACE [--device VENDOR:PRODUCT]
    python3 tools/runs judge DEVICES [--lenient] [--remove FILE] -- PROGRAM ..
    python3 tools/runs limit TIME MILLISECONDS [--judge DEVICES] [--remove FILE] -- PROGRAM ..
    python3 tools/runs seeds FIRST LAST [--jobs N] [--keep-going] [--limit TIME MILLISECONDS] [--virtual] [--no-programs] [--lenient] \
        [--remove FILE] --picture USBTRACE REMEDY --again RUN DEVICES [--more WORD ..] -- PROGRAM ..

tools/tirnouch-run or tools/tirnouch-record has checked the words, and tirnouch-run has set the environment of the program. They know where
the parts stand, in the repository and where they are installed: the library, the FILE with the version, and usbtrace, with the REMEDY where
that is missing. A FILE to --remove is the text that was made of a capture or a trace; `repeat` prints for how
many buses there are texts, FILE.2 and so on.

The modules, from below: program (a process group, and its end); traces (the files of a run's steps); judged (whether a run wrote what is
expected); limit (a run that is watched, and ended when its time is over); seeds (many runs); shown (what is told of them). Of captures:
capture (its events), recorded (a run that makes one), text (what is made of one). Of traces: retold (what moved in a run), unanswered (its
requests that had no answer), repeated (the text that is made of that)."""
import argparse
import ctypes
import pathlib
import signal
import sys
import tempfile
from typing import List, NoReturn, Sequence

from limit import remove, run_judged, run_with_limit
from program import end_by, tell
from recorded import run_recorded
from repeated import write_repeated
from seeds import Seeds
from shown import report
from text import write_text


class Ended(Exception):
    """This process was asked to end."""


def run_seeds(words: argparse.Namespace, program: Sequence[str]) -> int:
    def end(number: int, _frame: object) -> NoReturn:
        raise Ended(number)

    for number in (signal.SIGINT, signal.SIGTERM, signal.SIGHUP):
        if signal.getsignal(number) != signal.SIG_IGN:
            signal.signal(number, end)
    try:
        with tempfile.TemporaryDirectory(prefix="tirnouch-run-") as folder:
            runs = Seeds(words, program, pathlib.Path(folder))
            runs.run()
            return report(runs)
    except Ended as ended:
        remove(words.remove)
        end_by(ended.args[0])
    except OSError as error:
        tell(f"the runs can't be made: {error}")
        return 126


def print_version(library: str, version_file: pathlib.Path) -> int:
    """What the library says of itself, and the version; ctypes loads the library into this process, which does nothing else."""

    class Version(ctypes.Structure):
        """struct libusb_version"""

        _fields_ = [(name, ctypes.c_uint16) for name in ("major", "minor", "micro", "nano")] + [
            ("rc", ctypes.c_char_p), ("describe", ctypes.c_char_p)]

    try:
        ask = ctypes.CDLL(library).libusb_get_version
    except (OSError, AttributeError) as error:
        tell(f"{library} can't be loaded: {error}")
        return 127
    try:
        version = version_file.read_text().strip()
    except OSError as error:
        version = f"isn't known: {error}"
    ask.restype = ctypes.POINTER(Version)
    it = ask().contents
    rc, name = (it.rc or b"").decode(), (it.describe or b"").decode()
    print(f"{name} libusb {it.major}.{it.minor}.{it.micro}.{it.nano}{rc}\n{library}\nversion {version}")
    return 0


def arguments(words: Sequence[str]) -> argparse.Namespace:
    parser = argparse.ArgumentParser(description="the part of tools/tirnouch-run that watches programs")
    kinds = parser.add_subparsers(dest="kind", required=True)
    version = kinds.add_parser("version")
    version.add_argument("library")
    version.add_argument("file", type=pathlib.Path)
    record = kinds.add_parser("record")
    record.add_argument("file", type=pathlib.Path)
    record.add_argument("library")
    record.add_argument("--device")
    record.add_argument("--no-strings", action="store_true")
    judge = kinds.add_parser("judge")
    judge.add_argument("devices")
    judge.add_argument("--lenient", action="store_true")
    limit = kinds.add_parser("limit")
    limit.add_argument("said")
    limit.add_argument("milliseconds", type=int)
    limit.add_argument("--judge")
    seeds = kinds.add_parser("seeds")
    seeds.add_argument("first", type=int)
    seeds.add_argument("last", type=int)
    seeds.add_argument("--jobs", type=int)
    seeds.add_argument("--keep-going", action="store_true")
    seeds.add_argument("--limit", nargs=2)
    seeds.add_argument("--virtual", action="store_true")
    seeds.add_argument("--no-programs", action="store_true")
    seeds.add_argument("--lenient", action="store_true")
    seeds.add_argument("--picture", nargs=2, required=True)
    seeds.add_argument("--again", nargs=2, required=True)
    seeds.add_argument("--more", action="append", default=[])
    for kind in (judge, limit, seeds):
        kind.add_argument("--remove", type=pathlib.Path)
    text = kinds.add_parser("text")
    text.add_argument("capture", type=pathlib.Path)
    text.add_argument("text", type=pathlib.Path)
    text.add_argument("usbtrace")
    text.add_argument("--umockdev", type=pathlib.Path)
    text.add_argument("--descriptors", type=pathlib.Path)
    text.add_argument("--device")
    repeat = kinds.add_parser("repeat")
    repeat.add_argument("trace", type=pathlib.Path)
    repeat.add_argument("text", type=pathlib.Path)
    repeat.add_argument("usbtrace")
    repeat.add_argument("--device")
    return parser.parse_args(words)


def main(words: List[str]) -> int:
    at = words.index("--") if "--" in words else len(words)
    asked, program = arguments(words[:at]), words[at + 1:]
    if asked.kind == "version":
        return print_version(asked.library, asked.file)
    if asked.kind == "record":
        run_recorded(asked, program)
    if asked.kind == "judge":
        run_judged(asked, program)
    if asked.kind == "limit":
        run_with_limit(asked, program)
    if asked.kind == "text":
        return write_text(asked)
    if asked.kind == "repeat":
        return write_repeated(asked)
    try:
        return run_seeds(asked, program)
    finally:
        remove(asked.remove)


if __name__ == "__main__":
    sys.exit(main(sys.argv[1:]))

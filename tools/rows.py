#!/usr/bin/env python3
"""The worked rows of rows/ (rows/README.md), as the gate runs and proves them: all by bin/usbtrace; those that are run to their end by the
plain program too, in one text, which the program check_parts reads; and those of rows/proved.txt in crates/proof_laws, as definitions
(tools/proved_rows.py).

    tools/rows.py write         writes those files of the two crates anew that aren't as rows/ has them
    tools/rows.py check         says which they are; the gate asks it
    tools/rows.py run [NAME ..] runs all rows, or these, by the built program over its own streams, and says which differ; the gate does.
                                Standard input comes 61 bytes at a time, so that lines are cut anywhere

What check_parts is to print, and what is proved, comes from the rows' files, and never from a program."""
import array
import fcntl
import os
import pathlib
import re
import subprocess
import sys
import termios
import threading
import time

from proved_rows import BadRow, proved_files

ROOT = pathlib.Path(__file__).resolve().parent.parent
ROWS = ROOT / "rows"
CRATE = ROOT / "crates" / "check_parts"
PROGRAM = ROOT / "bin" / "usbtrace"
# What stands before a row's name, and before all that the plain program prints of rows.
NAME, PLAIN = b"=== ", b"worked rows, by the plain program\n"
# What a line of a test begins with that is no line of its scenario.
EXPECTS = b"expect "
# How many bytes of standard input come at a time, and for how many seconds a row may run.
STEP, SECONDS = 61, 60
# The files of a row, and those that are no row's.
KINDS, PAGES = ("cmd", "in", "out", "err", "status"), ("README.md", "proved.txt")


class Row:
    """A row, read from its files: those of standard error and of the status are left out where they say nothing."""

    def __init__(self, name):
        self.name = name
        self.words = self.read("cmd", None).decode()
        self.input, self.output = self.read("in", None), self.read("out", None)
        self.errors, self.status = self.read("err", b""), int(self.read("status", b"0"))
        self.judge()

    def read(self, kind, missing):
        path = ROWS / f"{self.name}.{kind}"
        if path.is_file():
            return path.read_bytes()
        if missing is None:
            raise BadRow(f"there is no {path.relative_to(ROOT)}")
        return missing

    def judge(self):
        if not re.fullmatch("[a-z0-9_]+", self.name):
            raise BadRow(f"{self.name}: a name has small letters, digits and _")
        if not re.fullmatch(r"\S+( \S+)*\n", self.words):
            raise BadRow(f"{self.name}.cmd: words between single spaces, and a line feed")
        if (ROWS / f"{self.name}.status").is_file() and not 0 < self.status < 256:
            raise BadRow(f"{self.name}.status: a status from 1 to 255; none where it is 0")
        if self.errors and not self.status and not self.words.startswith("live"):
            raise BadRow(f"{self.name}.err: with status 0 only a run in threads says something there")
        if NAME in self.input:
            raise BadRow(f"{self.name}.in: `===` stands between rows, and can't stand in one")

    def is_plain(self):
        """Whether the plain program runs it: what is run to its end."""
        return not self.status and not self.errors and bool(re.fullmatch(r"run|alone \d+", self.words.strip()))

    def text(self):
        """The row, as check_parts reads it: a scenario, so without what a test expects."""
        steps = b"".join(it for it in self.input.splitlines(keepends=True) if not it.startswith(EXPECTS))
        return NAME + f"{self.name}\nusbtrace {self.words}".encode() + steps

    def printed(self):
        """What check_parts is to print of it."""
        return NAME + f"{self.name}\n".encode() + self.output

    def differs(self):
        """Whether the built program does otherwise."""
        (read, write), ended = os.pipe(), threading.Event()
        feeding = threading.Thread(target=feed, args=(write, self.input, ended))
        feeding.start()
        try:
            ran = subprocess.run([PROGRAM, *self.words.split()], stdin=read, capture_output=True, timeout=SECONDS)
        finally:
            ended.set()
            feeding.join()
            os.close(read)
        return (ran.returncode, ran.stdout, ran.stderr) != (self.status, self.output, self.errors)


def feed(pipe, text, ended):
    """Gives a program its input, a step at a time: the next once the last was read."""
    left = array.array("i", [0])
    for at in range(0, len(text), STEP):
        os.write(pipe, text[at:at + STEP])
        while not fcntl.ioctl(pipe, termios.FIONREAD, left) and left[0] and not ended.is_set():
            time.sleep(0.0002)
        if ended.is_set():
            break
    os.close(pipe)


def all_rows():
    """The rows by their names. None of the files may belong to no row."""
    names = sorted(path.stem for path in ROWS.glob("*.cmd"))
    for path in sorted(ROWS.iterdir()):
        if path.name not in PAGES and (path.suffix[1:] not in KINDS or path.stem not in names):
            raise BadRow(f"{path.relative_to(ROOT)} is no row's")
    return [Row(name) for name in names]


def files(rows):
    """The files that are written, and what has to stand in them."""
    plain, scenes = [row for row in rows if row.is_plain()], (CRATE / "stdout").read_bytes().partition(PLAIN)[0]
    asked, printed = b"".join(row.text() for row in plain), b"".join(row.printed() for row in plain)
    return {CRATE / "stdin": asked, CRATE / "stdout": scenes + PLAIN + printed, **proved_files(rows)}


def is_in(path, text):
    """Whether a file has this text. Where the lists of a definition are broken into lines, it may differ."""
    known = path.read_bytes() if path.is_file() else None
    if known is None or path.suffix != ".antt":
        return known == text
    return re.sub("∷\n +", "∷ ", known.decode()) == re.sub("∷\n +", "∷ ", text.decode())


def write(rows):
    for path, text in files(rows).items():
        if not is_in(path, text):
            path.parent.mkdir(parents=True, exist_ok=True)
            path.write_bytes(text)
    return 0


def check(rows):
    others = [path for path, text in files(rows).items() if not is_in(path, text)]
    for path in others:
        print(f"{path.relative_to(ROOT)} isn't that of rows/: tools/rows.py write")
    if not others:
        print(f"{len(rows)} worked rows, of which check_parts has those of the plain program, and proof_laws those of rows/proved.txt")
    return 1 if others else 0


def run(rows):
    if not PROGRAM.is_file():
        print(f"there is no {PROGRAM.relative_to(ROOT)}: make run builds it")
        return 1
    others = [row.name for row in rows if row.differs()]
    for name in others:
        print(f"{name}: differs")
    print(f"{len(rows) - len(others)} rows as written, {len(others)} differ")
    return 1 if others else 0


def main(words):
    try:
        if words == ["write"]:
            return write(all_rows())
        if words == ["check"]:
            return check(all_rows())
        if words[:1] == ["run"]:
            return run([Row(name) for name in words[1:]] or all_rows())
    except BadRow as bad:
        print(bad)
        return 1
    print(__doc__)
    return 2


sys.exit(main(sys.argv[1:]))

"""How a test runs the program, and what it says where that ends otherwise than it has to."""
import contextlib
import itertools
import os
import pathlib
import socket
import subprocess
import tempfile
import threading
from typing import Callable, Iterator, List, NamedTuple, Optional, Sequence

from refuse_allocations import Failing, Room, ended, tries
from refuse_allocations import told as told_failing

ROOT = pathlib.Path(__file__).resolve().parent.parent.parent
PROGRAM = ROOT / "bin" / "usbtrace"
# How many seconds of processor time a run may take; by the clock it may take some times that.
SECONDS = 60
# How many faults a test tells, how many bytes of a line around the place that is meant, and how many of an input at both its ends.
MOST_TOLD, AROUND, AT_ENDS = 3, 60, 200
# What a program can't read: a folder.
UNREAD = None
# What is said where a stream fails, and where memory is refused.
FAILED, NO_MEMORY = b"usbtrace: input or output failed\n", b"usbtrace: out of memory\n"
# A device with the bulk endpoints 81 and 02 of interface 0, and the interrupt endpoint 83 of interface 1; all of them take 8 bytes.
DEVICE = b"device 0 0902300002010080320904000002ff00000007058102080000070502020800000904010001ff0000000705830308000a\n"


class End(NamedTuple):
    """How a run has to end."""

    status: int
    out: bytes
    err: bytes


class Ran(NamedTuple):
    """A run: its words, its input, and how it ended; the status is None where it didn't end. And how often it read its input."""

    words: str
    given: Optional[bytes]
    status: Optional[int]
    out: bytes
    err: bytes
    reads: int


def quoted(text: bytes) -> str:
    return repr(text)[1:]


def shortened(text: Optional[bytes], at: int = 0) -> str:
    """A text, or what it has around a place."""
    if text is None:
        return "missing"
    begin, end = max(at - AROUND, 0), at + AROUND
    return quoted(text) if len(text) <= 2 * AROUND else f"{'..' * (begin > 0)}{quoted(text[begin:end])}{'..' * (len(text) > end)}"


def told_input(given: Optional[bytes]) -> str:
    """An input, or its ends."""
    if given is UNREAD:
        return "an input that can't be read"
    if len(given) <= 2 * AT_ENDS:
        return quoted(given)
    return f"{len(given):,} bytes, {quoted(given[:AT_ENDS])} .. {quoted(given[-AT_ENDS:])}"


def difference(name: str, got: bytes, wanted: bytes) -> Iterator[str]:
    """The first line of a text that isn't as it has to be."""
    pairs = itertools.zip_longest(got.splitlines(keepends=True), wanted.splitlines(keepends=True))
    for number, (came, due) in enumerate(pairs, 1):
        if came != due:
            at = next((place for place, (one, other) in enumerate(zip(came or b"", due or b"")) if one != other), 0)
            yield f"line {number} of {name} is {shortened(came, at)}, not {shortened(due, at)}"
            return


def send(ours: socket.socket, given: bytes, step: int) -> None:
    """Sends so many bytes at a time, until all are sent or nobody takes them any more."""
    with ours, contextlib.suppress(OSError):
        for at in range(0, len(given), step):
            ours.send(given[at : at + step])


@contextlib.contextmanager
def messages(given: bytes, step: int) -> Iterator[socket.socket]:
    """A stream that gives so many of these bytes at each read: its messages are kept apart."""
    ours, theirs = socket.socketpair(socket.AF_UNIX, socket.SOCK_SEQPACKET)
    sender = threading.Thread(target=send, args=(ours, given, step))
    sender.start()
    try:
        yield theirs
    finally:
        theirs.close()
        sender.join()


@contextlib.contextmanager
def open_folder() -> Iterator[int]:
    """A folder as a stream: each read of it fails."""
    folder = os.open(ROOT, os.O_RDONLY)
    try:
        yield folder
    finally:
        os.close(folder)


class Trial:
    """Runs the program for one test, and keeps what was wrong. Words are those behind the program's name."""

    def __init__(self, program: pathlib.Path, room: Room) -> None:
        self.program, self.room = program, room
        self.faults: List[str] = []

    def check(self, is_so: bool, sentence: str) -> None:
        if not is_so:
            self.faults.append(sentence)

    def source(self, given: Optional[bytes], step: int, held: contextlib.ExitStack):
        """A stream that gives these bytes, so many at each read, or as many as are asked for; or one that can't be read."""
        if given is UNREAD:
            return held.enter_context(open_folder())
        if step:
            return held.enter_context(messages(given, step))
        file = held.enter_context(tempfile.TemporaryFile())
        file.write(given)
        file.seek(0)
        return file

    def run(self, words: str, given: Optional[bytes], step: int = 0, failing: Optional[Failing] = None, out: int = subprocess.PIPE) -> Ran:
        """A run; where something is to fail in it, or to be counted, by the library that does so."""
        command = [str(self.program), *words.split()]
        with contextlib.ExitStack() as held:
            source = self.source(given, step, held)
            if failing is None:
                it = ended(command, SECONDS, stdin=source, stdout=out)
            else:
                it = self.room.ran_over(command, source, failing, SECONDS)
        return Ran(words, given, it.status, it.out, it.err, it.made.get("reads", 0))

    def wrong(self, ran: Ran, what: str) -> None:
        """Something was wrong with a run."""
        self.faults.append(f"usbtrace {ran.words}, over {told_input(ran.given)}: {what}")

    def judge(self, ran: Ran, end: End) -> None:
        """A run has to end so."""
        found = [] if ran.status == end.status else [f"the status is {ran.status}, not {end.status}"]
        found += [*difference("standard output", ran.out, end.out), *difference("standard error", ran.err, end.err)]
        if found:
            self.wrong(ran, "; ".join(found))

    def expect(self, words: str, given: Optional[bytes], end: End, step: int = 0, failing: Optional[Failing] = None) -> None:
        """A run over this input has to end so."""
        self.judge(self.run(words, given, step, failing), end)

    def shows(self, words: str, given: Optional[bytes], parts: Sequence[bytes], step: int = 0, status: int = 0, err: bytes = b"",
              lacks: Sequence[bytes] = ()) -> None:
        """A run has to end with this status, say this on standard error, and print these parts and none of those, whatever else it prints."""
        ran = self.run(words, given, step)
        self.judge(ran._replace(out=b""), End(status, b"", err))
        for part in parts:
            if part not in ran.out:
                self.wrong(ran, f"{shortened(part)} isn't printed, but {shortened(ran.out)}")
        for part in lacks:
            if part in ran.out:
                self.wrong(ran, f"{shortened(part)} is printed")

    def refused(self, words: str, given: bytes) -> None:
        """Each allocation of a run is refused, alone and with all behind it: it ends as it does undisturbed, or prints nothing and tells that
        memory was wanting."""
        for failing, kind, it in tries(self.room, str(self.program), words, given, seconds=SECONDS):
            if kind == "wrong":
                self.wrong(Ran(words, given, *it[:3], 0), f"{told_failing(failing)}: status {it.status}, {shortened(it.err)}")


Test = Callable[[Trial], None]
TESTS: List[Test] = []


def test(it: Test) -> Test:
    """A test: what it checks of the program its name says."""
    TESTS.append(it)
    return it

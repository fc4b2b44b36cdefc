"""How a word of the program is run over an input, and what a run comes to."""
import collections
import pathlib
import re

from refuse_allocations import NOTHING, Room, said

ROOT = pathlib.Path(__file__).resolve().parent.parent.parent
ROWS = ROOT / "rows"
# What `usbtrace` says where a stream fails, and where `live` would call more callbacks than it may.
FAILED = b"usbtrace: input or output failed\n"
TOO_MANY_ROUNDS = b"usbtrace: more than %d callbacks are called: --rounds sets how many may be\n"
# What `live` lists of what never completes.
UNFINISHED = re.compile(rb"(h\d+ ep [0-9a-f]{2} (transfer \d+ (waits|ended)|(order|event|result|callback) [^\n]*)\n)*")
# Interface 0 with the bulk endpoints 81 and 02, interface 1 with the interrupt endpoints 83 and 04.
CONFIG = "0902370002010080320904000002ff00000007058102080000070502020800000904010002ff0000000705830308000107050403040001"

# A part: its cases, those of the gate, each from the words of the command; what a case comes to, run by run; and what is counted in its
# runs, if something is.
Part = collections.namedtuple("Part", "cases gate_cases tried counted", defaults=((),))
# A run that is tried: its class, in words what it was and how it ended, and how often each thing came that is counted.
Tried = collections.namedtuple("Tried", "kind text came", defaults=({},))


# How many calls of a run fail, where it isn't said, and no part has a rule of its own; and that it isn't said.
MOST, OWN = 200, -1


class Runs(Room):
    """Runs a program with the library that fails calls. Of a run's calls `most` fail, evenly spread; all where it is None, and as many as
    each part has it where it is OWN."""

    def __init__(self, program, seconds, most):
        self.program, self.seconds, self.most = program, seconds, most

    def most_of(self, own=MOST):
        """How many calls fail, or such a part of them; `own` where nobody asked for another number."""
        return own if self.most == OWN else self.most

    def of(self, word, given, failing=NOTHING, times=1):
        """How a word ends over an input; it may take so many times the seconds."""
        return self.ran([self.program, *word.split()], given, failing, times * self.seconds)


def wrong_unless(holds, kind, name, it):
    """The class of a run that is right where this holds."""
    return Tried(kind if holds else "wrong", f"{name}: {said(it)}")


def row_input(name):
    return (ROWS / f"{name}.in").read_bytes()


def row_inputs():
    return [path.read_bytes() for path in sorted(ROWS.glob("*.in"))]


def is_refusal(it, k):
    """Whether a run refused this line and printed nothing."""
    return (it.status, it.out, it.err) == (1, b"", b"usbtrace: line %d refused\n" % k)


def has_too_many(it, rounds):
    """Whether `live` would have called more callbacks than so many, and printed nothing; behind that it lists what isn't finished."""
    told = TOO_MANY_ROUNDS % rounds
    return (it.status, it.out) == (1, b"") and it.err.startswith(told) and UNFINISHED.fullmatch(it.err, len(told)) is not None

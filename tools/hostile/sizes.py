"""Inputs, lines and runs as long as may be, and longer; and what is open and held at the end of a run."""
import collections
import functools
import re

from refuse_allocations import WORDS
from runs import CONFIG, FAILED, Part, has_too_many, is_refusal, wrong_unless
from streams import long_scenario

# How many bytes an input may have, how many findings `check` prints, and how many steps `draw` draws.
LONGEST, MOST_FINDINGS, MOST_DRAWN = 67_108_864, 1_000, 2_000
TOO_LONG = b"usbtrace: the input is longer than %d bytes\n" % LONGEST
TOO_MANY_STEPS = b"usbtrace: %d steps are too many for a picture, which has %d: choose some by --from and --to\n"
# How many callbacks `live` calls where nothing says how many, and how many are asked for here.
MOST_ROUNDS, FEW_ROUNDS = 1_000_000, 1_000
# How many times as long a run of a large input may take.
SLOW = 5

# A word, what its input is, how the input is made, and whether a run over it is right; and whether the gate has it.
Size = collections.namedtuple("Size", "word name make is_right in_gate", defaults=(False,))


# What has to come.


def ends_well(it):
    return (it.status, it.err) == (0, b"")


def is_too_long(it):
    return (it.status, it.out, it.err) == (1, b"", TOO_LONG + FAILED)


def refuses(k):
    return lambda it: is_refusal(it, k)


def finds(count):
    """Whether so many bad lines are told of, the first of them with their sentences, and then how many more there are."""
    shown, more = min(count, MOST_FINDINGS), max(count - MOST_FINDINGS, 0)

    def is_right(it):
        lines = it.out.splitlines()
        numbers = [line.split(b":")[0] for line in lines[:shown]]
        rest = [b"more bad lines: %d" % more] * (more > 0) + [b"0 devices, 0 scripts, 0 steps"]
        return (it.status, it.err) == (1, b"") and numbers == [b"line %d" % k for k in range(1, shown + 1)] and lines[shown:] == rest

    return is_right


def calls(count):
    return lambda it: ends_well(it) and it.out.count(b" called ") == it.out.count(b"\n") == count


def calls_more_than(rounds):
    return lambda it: has_too_many(it, rounds)


def refuses_as_capture(it):
    return (it.status, it.out, it.err) == (1, b"", b"usbtrace: the capture is refused: not a capture\n")


def is_too_wide(it):
    return (it.status, it.out, it.err) == (1, b"", TOO_MANY_STEPS % (MOST_DRAWN + 1, MOST_DRAWN))


def tells_of_open_and_held(it):
    return ends_well(it) and it.out.startswith(b"h1 device 0 open\nh1 interface 0 held\n")


# Inputs.


def comments(size):
    line = b"# " + b"x" * 61 + b"\n"
    return line * (size // len(line)) + b"#" * (size % len(line))


def scripted(answers):
    return f"device 0 {CONFIG}\nscript 0 81 {answers}\n".encode()


def again(rounds):
    """A transfer whose callback submits it again, so many times."""
    return scripted(" ".join(["s"] * 4)) + b"open 1 0\nclaim 1 0\nsubmit 1 81 bulk 8 then=again:STALL:%d\n" % rounds


ENDLESS = 2**64 - 1


# Cases.


def of_every_word():
    """What every word takes or refuses."""
    for word in WORDS:
        refused, is_run = finds(1) if word == "check" else refuses(1), word == "run"
        yield Size(word, "67,108,864 bytes", lambda: comments(LONGEST), ends_well)
        yield Size(word, "67,108,865 bytes", lambda: comments(LONGEST + 1), is_too_long, is_run)
        yield Size(word, "80,000,000 bytes", lambda: comments(80_000_000), is_too_long)
        yield Size(word, "1,000,000 empty lines", lambda: b"\n" * 1_000_000, ends_well)
        yield Size(word, "a line of 1,000,000 digits", lambda: b"open 1 " + b"1" * 1_000_000, refused)
        yield Size(word, "a line of 1,000,000 words", lambda: b"submit " * 1_000_000, refused)
        yield Size(word, "a script of 65,536 answers", lambda: scripted("n " * 65535 + "n"), ends_well, True)
        yield Size(word, "a packet of 2,048 bytes", lambda: scripted("d:" + "00" * 2048), ends_well, is_run)


def of_texts():
    """The limits of a line, of findings, and of what is drawn and left."""
    yield Size("run", "a script of 65,537 answers", lambda: scripted("n " * 65536 + "n"), refuses(2), True)
    yield Size("run", "a packet of 2,049 bytes", lambda: scripted("d:" + "00" * 2049), refuses(2), True)
    for count in (1, MOST_FINDINGS, MOST_FINDINGS + 1, 1_500, 1_000_000):
        bad = functools.partial(bytes.__mul__, b"x\n", count)
        yield Size("check", f"{count:,} bad lines", bad, finds(count), count <= 1_500)
    yield Size("draw", "2,000 steps", lambda: long_scenario(MOST_DRAWN), ends_well)
    yield Size("draw", "2,001 steps", lambda: long_scenario(MOST_DRAWN + 1), is_too_wide, True)
    yield Size("draw --from 1 --to 2000", "2,001 steps", lambda: long_scenario(MOST_DRAWN + 1), ends_well, True)
    yield Size("left", "an open handle that holds an interface", lambda: scripted("n") + b"open 1 0\nclaim 1 0\n", tells_of_open_and_held, True)


def of_rounds():
    """Callbacks that submit again: as many as may be called, one more, and without an end."""
    few = f"live --rounds {FEW_ROUNDS}"
    yield Size("live", "1,000 callbacks", lambda: again(FEW_ROUNDS - 1), calls(FEW_ROUNDS))
    yield Size(few, "1,000 callbacks", lambda: again(FEW_ROUNDS - 1), calls(FEW_ROUNDS), True)
    yield Size(few, "1,001 callbacks", lambda: again(FEW_ROUNDS), calls_more_than(FEW_ROUNDS), True)
    yield Size("live --rounds 0", "a callback", lambda: again(0), calls_more_than(0), True)
    yield Size(few, "a rule without an end", lambda: again(ENDLESS), calls_more_than(FEW_ROUNDS), True)
    yield Size("live", "a rule without an end", lambda: again(ENDLESS), calls_more_than(MOST_ROUNDS))


def of_captures():
    """What the word takes or refuses that reads no scenario."""
    yield Size("devices", "nothing", lambda: b"", refuses_as_capture, True)
    yield Size("devices", "67,108,864 bytes of text", lambda: comments(LONGEST), refuses_as_capture)
    yield Size("devices", "67,108,865 bytes of text", lambda: comments(LONGEST + 1), is_too_long)


def all_sizes():
    return [*of_every_word(), *of_texts(), *of_rounds(), *of_captures()]


def cases(_):
    return [(number,) for number, _ in enumerate(all_sizes())]


def gate_cases(_):
    return [(number,) for number, size in enumerate(all_sizes()) if size.in_gate]


def tried(runs, number):
    """The run of a size, by its number."""
    size = all_sizes()[number]
    it = runs.of(size.word, size.make(), times=SLOW)
    yield wrong_unless(size.is_right(it), "as wanted", f"{size.word}: {size.name}", it)


PART = Part(cases, gate_cases, tried)

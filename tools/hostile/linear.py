"""Work that doesn't grow faster than its input: each word over a text, and over one four times as long, beside what `run` takes of both.

Processor time is compared, the least of some runs. Instructions can't be counted: valgrind loses its own memory to the program's, which
is mapped at fixed addresses."""
import functools
import resource
import subprocess
import sys
import tempfile

from runs import CONFIG, Part, Tried

# How long the shorter text is, and the longer one: in the gate, and else.
GATE_LENGTHS, LENGTHS = (256, 1024), (8192, 32768)
# What the longer text may take of the shorter one's time, where the square would be sixteen times, and what a word may take of that of `run`.
MOST_GROWTH, MOST_OF_RUN = 10.0, 3.0
# How many runs there are of each, and how many times the seconds of a run they may take; the least that is taken for work, in seconds.
TIMES, SLOW, LEAST = 5, 10, 0.01
# How often that is done where it took too long: whatever else runs on the processors makes runs longer, and none shorter.
TRIES = 3
BEGUN = f"device 0 {CONFIG}\n"
HELD = "open 1 0\nclaim 1 0\n"


# Texts: each of a length, for a word and for `run`.


def reads(packets):
    """A read of so many packets."""
    return f"{BEGUN}script 0 81 d:0102030405060708*{packets}\n{HELD}submit 1 81 bulk {8 * packets}\n" + "serve 0 81\n" * packets + "deliver\ntake\n"


def writes(packets):
    """A write of so many packets."""
    return f"{BEGUN}script 0 02 a*{packets}\n{HELD}submit 1 02 bulk x:{'07' * 8 * packets}\n" + "serve 0 02\n" * packets + "deliver\ntake\n"


def pauses(packets):
    """A read whose device isn't ready so many times."""
    return f"{BEGUN}script 0 81 n*{packets} d:0102030405060708\n{HELD}submit 1 81 bulk 8\n" + "serve 0 81\n" * (packets + 1) + "deliver\ntake\n"


def transfers(count, ends="deliver\ntake\n"):
    """So many reads of a packet each, one behind the other."""
    steps = "".join(f"submit 1 81 bulk 8\nserve 0 81\n{ends}return 1 {number}\n" for number in range(count))
    return f"{BEGUN}script 0 81 d:0102030405060708*{count}\n{HELD}{steps}"


def settles(count):
    """The same as a test, each of whose reads settles."""
    return transfers(count, ends="settle\n")


def macros(count):
    """So many macros, each called once."""
    made = "".join(f"macro read{number}\nsubmit 1 81 bulk 8\nserve 0 81\nsettle\nreturn 1 $1\nend\n" for number in range(count))
    calls = "".join(f"read{number} {number}\n" for number in range(count))
    return f"{BEGUN}script 0 81 d:0102030405060708*{count}\n{made}{HELD}{calls}"


SCENARIOS = {"reads": reads, "writes": writes, "pauses": pauses, "transfers": transfers}
WORDS = ("run", "run --steps", "run --packets", "alone 1", "explain", "check", "left", "capture", "live", "test")
# The texts of a word alone, each with the one that `run` is given: the scenario that it stands for; where macros are called once each,
# one with as many lines.
TESTS = {"settles": (settles, transfers), "macros": (macros, lambda count: transfers(count * 7 // 5))}


def cases_of(lengths):
    made = [(name, word, lengths) for name in SCENARIOS for word in WORDS]
    return made + [(name, "test", lengths) for name in TESTS]


def gate_cases(_):
    wanted = {("reads", "explain"), ("writes", "run --packets"), ("settles", "test")}
    return [it for it in cases_of(GATE_LENGTHS) if it[:2] in wanted]


# Runs.


def seconds_of(program, word, text, most):
    """The least seconds of processor time that a word takes over a text, of some runs; None where it doesn't end well."""
    with tempfile.TemporaryFile() as source:
        source.write(text.encode())
        taken = []
        for _ in range(TIMES):
            source.seek(0)
            before = resource.getrusage(resource.RUSAGE_CHILDREN)
            try:
                ran = subprocess.run(
                    [program, *word.split()], stdin=source, stdout=subprocess.DEVNULL, stderr=subprocess.PIPE, timeout=most
                )
            except subprocess.TimeoutExpired:
                return None
            after = resource.getrusage(resource.RUSAGE_CHILDREN)
            if ran.returncode:
                sys.stderr.buffer.write(ran.stderr)
                return None
            taken.append(after.ru_utime + after.ru_stime - before.ru_utime - before.ru_stime)
    return min(taken)


def told(name, word, seconds):
    """What a word took of two texts, beside what `run` took of them and of none: whether it is as wanted, and in words."""
    taken, beside, start = seconds[:2], seconds[2:4], seconds[4]
    if None in seconds:
        return False, f"{word}: {name}: a run doesn't end well: {taken}, {beside}, {start}"
    growth, of_run = (taken[1] - start) / max(taken[0] - start, LEAST), taken[1] / beside[1]
    text = f"{word}: {name}: {growth:.1f} times the time for four times the text, and {of_run:.1f} times that of run"
    return growth <= MOST_GROWTH and of_run <= MOST_OF_RUN, text


def least(one, other):
    """The lesser seconds of each two; None where one of them is."""
    return [None if None in pair else min(pair) for pair in zip(one, other)]


def measured(runs, name, word, lengths):
    """The least seconds of a word over the texts of both lengths, those of `run`, and those of `run` over nothing."""
    text_of, run_text_of = TESTS[name] if name in TESTS else (SCENARIOS[name], SCENARIOS[name])
    counted = functools.partial(seconds_of, runs.program, most=SLOW * runs.seconds)
    taken = [counted(word, text_of(it)) for it in lengths]
    beside = [counted("run", run_text_of(it)) for it in lengths]
    return [*taken, *beside, counted("run", "")]


def tried(runs, name, word, lengths):
    seconds = measured(runs, name, word, lengths)
    is_right, text = told(name, word, seconds)
    for _ in range(TRIES - 1):
        if is_right:
            break
        seconds = least(seconds, measured(runs, name, word, lengths))
        is_right, text = told(name, word, seconds)
    yield Tried("linear" if is_right else "wrong", text)


PART = Part(lambda _: cases_of(LENGTHS), gate_cases, tried)

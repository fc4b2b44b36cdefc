"""Every word, with reads and writes that fail, are cut short or interrupted, and streams that are closed, full or broken."""
import errno
import itertools
import os

from refuse_allocations import ENDS, FOREVER, WORDS, Failing, class_of, ended, spread
from runs import CONFIG, FAILED, Part, row_input, wrong_unless

# What a read or a write fails by; 0 is a call for one byte.
READ_CODES = (errno.EIO, errno.EBADF, errno.EAGAIN, errno.EISDIR)
WRITE_CODES = (errno.EIO, errno.EBADF, errno.ENOSPC, errno.EPIPE, errno.EAGAIN)
CODES = {"reads": READ_CODES, "writes": WRITE_CODES, "errors": WRITE_CODES}
INTERRUPTED, SHORT = errno.EINTR, 0
# How often a call is interrupted in a row.
TIMES = 3
# Streams that are closed or full, as a shell makes them, and which calls fail by them.
REDIRECTED = (
    ("<&-", "reads", "closed input"), (">&-", "writes", "closed output"), ("2>&-", "errors", "closed standard error"),
    ("</", "reads", "a folder as input"), (">/dev/full", "writes", "full output"), ("2>/dev/full", "errors", "full standard error"),
)
# Nobody reads standard output any more.
BROKEN = "a broken pipe"
# The input that is left out of the gate takes several reads and writes: so many steps, and so many bytes of a comment.
MANY_STEPS, MANY_BYTES = 1_800, 40_000


def long_scenario(steps):
    return b"device 0 %s\nopen 1 0\n" % CONFIG.encode() + b"take\n" * (steps - 1)


def cases_over(*inputs):
    """Every word over these inputs, and words that read none."""
    return [(word, *it) for it, word in itertools.product(inputs, (*WORDS, "--help", "run 1"))]


def gate_cases(_):
    return cases_over(("a row", row_input("cancel_amid_transfer")), ("a bad line", b"x\n"))


def cases(asked):
    return gate_cases(asked) + cases_over((f"{MANY_STEPS:,} steps", long_scenario(MANY_STEPS) + b"#" * MANY_BYTES))


def failings(made, most):
    """The failings of each read and write that was made, with whether the run has to come to the same."""
    for kind, codes in CODES.items():
        for call in spread(made[kind], most):
            yield from ((Failing(kind, call, call, code), False) for code in codes)
            yield Failing(kind, call, call + TIMES - 1, INTERRUPTED), True
        yield Failing(kind, 1, FOREVER, SHORT), True


def is_told(it, whole, kind, is_closed):
    """Whether a stream's failure is told, and nothing printed but a beginning; that of standard error can't be told. Where nobody reads
    standard output any more, the status tells it alone."""
    if kind == "errors":
        return (it.status, it.out) == (whole.status, whole.out) and whole.err.startswith(it.err)
    return (it.status, it.err) == (1, b"" if is_closed else FAILED) and (whole.out.startswith(it.out) if kind == "writes" else not it.out)


def judged(name, word, kind, is_same, it, whole, is_closed):
    """What a run comes to whose stream fails, or that has to come to the same as the undisturbed one."""
    right = class_of(word, it, whole) == "unharmed" if is_same else is_told(it, whole, kind, is_closed)
    return wrong_unless(right, "unharmed" if is_same else "told", name, it)


def tried(runs, word, name, given):
    """The runs of a word over an input, each with a stream that fails."""
    whole, name = runs.of(word, given), f"{word}: {name}"
    is_sound = whole.status in ENDS and (whole.made["reads"] or word not in WORDS)
    yield wrong_unless(is_sound, "undisturbed", name, whole)
    for failing, is_same in failings(whole.made, runs.most_of()):
        how = errno.errorcode[failing.code] if failing.code else "a byte a call"
        it = runs.of(word, given, failing)
        yield judged(f"{name}: {failing.kind} {failing.first}: {how}", word, failing.kind, is_same, it, whole,
                     failing.code == errno.EPIPE)
    for how, kind, it in real_streams(runs, word, given):
        yield judged(f"{name}: {how}", word, kind, not whole.made[kind], it, whole, how == BROKEN)


def real_streams(runs, word, given):
    """A program's ends with streams that are closed, full or broken, or that don't wait."""
    words = [runs.program, *word.split()]
    for how, kind, name in REDIRECTED:
        yield name, kind, ended(["sh", "-c", f'exec "$@" {how}', "sh", *words], runs.seconds, input=given)
    reading, writing = os.pipe()
    os.set_blocking(reading, False)
    yield "an input that doesn't wait", "reads", ended(words, runs.seconds, stdin=reading)
    os.close(reading)
    yield BROKEN, "writes", ended(words, runs.seconds, input=given, stdout=writing)
    os.close(writing)


PART = Part(cases, gate_cases, tried)

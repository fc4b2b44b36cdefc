"""Texts at the edges of what is taken (docs/FORMATS.md, the words): 67,108,864 bytes, in one read a byte and one more at most."""
from refuse_allocations import FOREVER, NOTHING, Failing

from usbtrace_tests.trial import FAILED, End, Trial, test

# How many bytes an input may have, and how often it is read at most.
LONGEST, MOST_READS = 67_108_864, 67_108_865
TAKEN, TOO_LONG = End(0, b"", b""), End(1, b"", b"usbtrace: the input is longer than 67108864 bytes\n" + FAILED)
# A read gives all that is asked for, or one byte.
WHOLE, BY_BYTES = NOTHING, Failing("reads", 1, FOREVER)


def reads_of(trial: Trial, size: int, end: End, failing: Failing) -> int:
    """How often a run reads a comment of so many bytes, over which it has to end so."""
    ran = trial.run("run", b"#" * size, failing=failing)
    trial.judge(ran, end)
    return ran.reads


@test
def the_longest_input_is_read_to_its_end(trial: Trial) -> None:
    reads = reads_of(trial, LONGEST, TAKEN, BY_BYTES)
    trial.check(reads == MOST_READS, f"the longest input, a byte a read, is read {reads:,} times: the last read is to find its end")


@test
def a_longer_input_is_read_no_further(trial: Trial) -> None:
    reads = reads_of(trial, LONGEST + 1, TOO_LONG, BY_BYTES)
    trial.check(reads == MOST_READS, f"a longer input, a byte a read, is read {reads:,} times: the last read is to give a byte too many")


@test
def the_longest_input_is_taken(trial: Trial) -> None:
    trial.check(reads_of(trial, LONGEST, TAKEN, WHOLE) > 0, "the longest input isn't read")


@test
def no_longer_input_is_taken(trial: Trial) -> None:
    trial.check(reads_of(trial, LONGEST + 1, TOO_LONG, WHOLE) > 0, "a longer input isn't read")


@test
def bytes_past_ascii_stand_in_comments_alone(trial: Trial) -> None:
    trial.expect("run", b"# caf\xc3\xa9 \xff\x00\x80\nopen 1 0\n#\xff", End(0, b"h1 refused 3\n", b""), step=4)
    second = End(1, b"", b"usbtrace: line 2 refused\n")
    trial.expect("run", b"#\xff\n\xc3\xa9\n", second, step=4)
    trial.expect("run", b"#\xff\nopen 1 0\x80\n", second, step=4)

"""Streams that fail (docs/FORMATS.md, the words): a read or a write that fails is told, but for one that nobody reads any more."""
import errno
import os

from refuse_allocations import FOREVER, Failing

from usbtrace_tests.trial import FAILED, NO_MEMORY, End, Trial, test

# Handle 1 opens a device that isn't there, twice; and what is written of it.
TEXT, LINES = b"open 1 0\nopen 1 0\n", b"h1 refused 3\nh1 refused 3\n"
# How many bytes each read gives.
STEP = 3


def tells_of_a_read(trial: Trial, words: str, given: bytes, code: int, said: bytes) -> None:
    """A read that fails so behind these bytes is all that is told."""
    reads = -(-len(given) // STEP)
    failing = Failing("reads", reads + 1, FOREVER, code)
    trial.expect(words, given, End(1, b"", said), STEP, failing)


def tells_of_a_write(trial: Trial, words: str, given: bytes, code: int, out: bytes, said: bytes) -> None:
    """A write that fails so behind this is told, and this is what standard output has."""
    failing = Failing("writes", 1, FOREVER, code, room=len(out))
    trial.expect(words, given, End(1, out, said), step=4, failing=failing)


def tells_of_each_write(trial: Trial, words: str, code: int, said: bytes) -> None:
    """A write that fails so behind any beginning of the lines is told."""
    for room in range(len(LINES)):
        tells_of_a_write(trial, words, TEXT, code, LINES[:room], said)


@test
def a_read_that_fails_in_midstream_ends_the_run(trial: Trial) -> None:
    for count in range(len(TEXT)):
        tells_of_a_read(trial, "run", TEXT[:count], errno.ECONNRESET, FAILED)


@test
def a_read_that_is_interrupted_is_made_again(trial: Trial) -> None:
    each_second = Failing("reads", 1, FOREVER, errno.EINTR, each=2)
    trial.expect("run", TEXT, End(0, LINES, b""), STEP, each_second)


@test
def a_read_without_memory_is_told_so(trial: Trial) -> None:
    tells_of_a_read(trial, "run", TEXT, errno.ENOMEM, NO_MEMORY)
    tells_of_a_read(trial, "alone 1", TEXT, errno.ENOMEM, NO_MEMORY)
    tells_of_a_read(trial, "check", b"no line\n", errno.ENOMEM, NO_MEMORY)


@test
def a_read_that_fails_hides_a_bad_line(trial: Trial) -> None:
    for words in ("run", "check"):
        tells_of_a_read(trial, words, b"no line\n", errno.ECONNRESET, FAILED)


@test
def a_write_that_fails_in_midstream_ends_the_run(trial: Trial) -> None:
    tells_of_each_write(trial, "run", errno.ENOSPC, FAILED)
    tells_of_each_write(trial, "alone 1", errno.ENOSPC, FAILED)
    tells_of_a_write(trial, "check", b"take 1\n", errno.ENOSPC, b"line 1:", FAILED)
    tells_of_a_write(trial, "check", b"take\n", errno.ENOSPC, b"0 devic", FAILED)
    tells_of_a_write(trial, "-h", TEXT, errno.ENOSPC, b"", FAILED)


@test
def a_reader_of_the_output_that_goes_away_is_told_nothing(trial: Trial) -> None:
    tells_of_each_write(trial, "run", errno.EPIPE, b"")
    tells_of_a_write(trial, "check", b"take\n", errno.EPIPE, b"0 devic", b"")
    tells_of_a_write(trial, "-h", TEXT, errno.EPIPE, b"", b"")


@test
def a_write_without_memory_is_told_so(trial: Trial) -> None:
    for words in ("run", "alone 1"):
        tells_of_a_write(trial, words, TEXT, errno.ENOMEM, b"h1 refused 3\n", NO_MEMORY)


@test
def what_is_printed_is_whole_where_the_program_ends(trial: Trial) -> None:
    for words in ("run", "alone 1"):
        trial.expect(words, TEXT, End(0, LINES, b""), step=4)
    trial.shows("-h", TEXT, [b"Usage: usbtrace"], step=4)


@test
def a_full_disk_and_a_pipe_that_nobody_reads_are_faults(trial: Trial) -> None:
    with open("/dev/full", "wb") as full:
        for words in ("run", "alone 1", "-h"):
            trial.judge(trial.run(words, TEXT, step=4, out=full.fileno()), End(1, b"", FAILED))
    reading, writing = os.pipe()
    os.close(reading)
    trial.judge(trial.run("run", TEXT, step=4, out=writing), End(1, b"", b""))
    os.close(writing)


@test
def the_status_is_left_where_standard_error_fails(trial: Trial) -> None:
    for words, given, status in (("run", b"no line\n", 1), ("walk", TEXT, 2)):
        failing = Failing("errors", 1, FOREVER, errno.EPIPE)
        trial.expect(words, given, End(status, b"", b""), step=1, failing=failing)

"""The worked rows of many packets, and a long scenario. What is printed follows from the rules of docs/MODEL.md."""
from typing import Iterable

from usbtrace_tests.trial import DEVICE, End, Trial, test

# How many bytes a run is given at a time.
STEP = 10_007
# A device whose endpoints 81 and 02 take packets of 512 bytes.
WIDE = b"device 0 0902300002010080320904000002ff00000007058102000200070502020002000904010001ff0000000705830308000a\n"
# Steps before the first transfer, and what follows the last packet of one.
CLAIMED, ENDED = b"\nopen 1 0\nclaim 1 0\n", b"deliver\ntake\n"
# A one-byte transfer in five steps, and what is printed of it, by its number.
STEPS = b"submit 1 81 bulk 8\nserve 0 81\ndeliver\ntake\nreturn 1 %d\n"
PRINTED = b"""h1 number %d
h1 ended %d code 13
h1 finished %d
h1 called %d ep 81 round 0 COMPLETED 1 data 01
h1 done
"""


def packet(number: int) -> bytes:
    """The digits of a packet of 512 bytes, each of them the packet's number modulo 251."""
    return b"%02x" % (number % 251) * 512


def packets(count: int, before: bytes = b"") -> bytes:
    """The digits of so many packets, with this before each."""
    return b"".join(before + packet(number) for number in range(count))


def of_each(text: bytes, numbers: Iterable[int]) -> bytes:
    """A text with each of these numbers in all its places."""
    return b"".join(text.replace(b"%d", b"%d" % number) for number in numbers)


def prints(trial: Trial, text: bytes, out: bytes) -> None:
    trial.expect("run", text, End(0, out, b""), STEP)


@test
def the_longest_read_has_512_packets(trial: Trial) -> None:
    submitted = b"submit 1 81 bulk 262145\nsubmit 1 81 bulk 262144\n"
    text = WIDE + b"script 0 81" + packets(512, b" d:") + CLAIMED + submitted + b"serve 0 81\n" * 512 + ENDED
    begun = b"h1 done\nh1 done\nh1 refused 1\nh1 number 0\n" + b"h1 moved 0 512\n" * 511
    called = b"h1 ended 0 code 1\nh1 finished 0\nh1 called 0 ep 81 round 0 COMPLETED 262144 data "
    prints(trial, text, begun + called + packets(512) + b"\n")


@test
def a_long_read_ends_with_a_short_packet(trial: Trial) -> None:
    answers = packets(128, b" d:") + b" d:beef"
    text = WIDE + b"script 0 81" + answers + CLAIMED + b"submit 1 81 bulk 65540\n" + b"serve 0 81\n" * 129 + ENDED
    begun = b"h1 done\nh1 done\nh1 number 0\n" + b"h1 moved 0 512\n" * 128
    called = b"h1 ended 0 code 13\nh1 finished 0\nh1 called 0 ep 81 round 0 COMPLETED 65538 data "
    prints(trial, text, begun + called + packets(128) + b"beef\n")


@test
def a_long_write_ends_with_an_empty_packet(trial: Trial) -> None:
    submitted = b"submit 1 02 bulk x:" + b"5a" * 131_072 + b" flags=ADD_ZERO_PACKET\n"
    text = WIDE + b"script 0 02" + b" a" * 257 + CLAIMED + submitted + b"serve 0 02\n" * 257 + ENDED
    begun = b"h1 done\nh1 done\nh1 number 0\n" + b"h1 moved 0 512\n" * 256
    called = b"h1 ended 0 code 1\nh1 finished 0\nh1 called 0 ep 02 round 0 COMPLETED 131072 data -\n"
    prints(trial, text, begun + called)


@test
def two_hundred_transfers_go_one_after_another(trial: Trial) -> None:
    more = b"\nsubmit 1 81 bulk 262144\nsubmit 1 81 bulk 262145\n"
    text = DEVICE + b"script 0 81" + b" d:01" * 200 + CLAIMED + of_each(STEPS, range(200)) + more
    prints(trial, text, b"h1 done\nh1 done\n" + of_each(PRINTED, range(200)) + b"h1 number 200\nh1 refused 1\n")


@test
def a_scenario_may_have_many_steps(trial: Trial) -> None:
    text = DEVICE + b"script 0 81" + b" d:01" * 2_000 + CLAIMED + of_each(STEPS, range(2_000))
    prints(trial, text, b"h1 done\nh1 done\n" + of_each(PRINTED, range(2_000)))

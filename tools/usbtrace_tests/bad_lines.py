"""Lines of every form that aren't taken, each at its number. What may stand where is from docs/FORMATS.md, the form of each line."""
from typing import Sequence, Union

from usbtrace_tests.trial import DEVICE, End, Trial, test

# A line that may stand there and one that may not: they follow the line that a test is about.
BEHIND = b"\nopen 2 0\nno line\n"
# What is said of the line behind four others; and where that one is taken, and the next.
LINE_5, LINE_7 = b"usbtrace: line 5 refused\n", b"usbtrace: line 7 refused\n"

# The lines before each bad one: a device, a script, and a handle's first steps.
BEFORE = b"# a scanner\n" + DEVICE + b"script 0 81 d:00 n s b\nopen 1 0\n"
# Lines that may not stand behind these, with what is wrong.
BAD = {
    b"scan 1": "no verb",
    b"Open 1 0": "a verb in capitals",
    b" open 1 0": "a space before",
    b"open 1 0 ": "a space behind",
    b"open\t1 0": "a tab",
    b"open 1": "too few words",
    b"open 1 0 0": "too many words",
    b"take 1": "a word behind a bare step",
    b"close": "no handle",
    b"close ": "an empty handle",
    b"close +1": "a handle with a sign",
    b"close -1": "a negative handle",
    b"reset 64": "a handle of 64",
    b"open 1 4": "a device of 4",
    b"claim 1 256": "an interface of 256",
    b"release 1 0x1": "an interface in hexadecimal",
    b"clear 1 8": "an endpoint of one digit",
    b"clear 1 081": "an endpoint of three digits",
    b"serve 0 g1": "an endpoint of no digits",
    b"cancel 1 18446744073709551616": "a number past 64 bits",
    b"expire 1 00": "a number with a leading zero",
    b"return 1": "a return without a number",
    b"unplug 4": "an unplugged device of 4",
    b"device 1 090209000001008032": "a device behind the first step",
    b"script 0 83 n": "a script behind the first step",
    b"submit 1 81 iso 8": "a kind that has no transfers",
    b"submit 1 81 bulk 08": "a length with a leading zero",
    b"submit 1 81 bulk 4294967296": "a length past 32 bits",
    b"submit 1 02 bulk x:000": "an odd number of digits",
    b"submit 1 02 bulk x:0g": "a digit that is none",
    b"submit 1 81 bulk 8 flags=FAST": "an unknown flag",
    b"submit 1 81 bulk 8 flags=": "no flag",
    b"submit 1 81 bulk 8 flags=FREE_BUFFER++FREE_BUFFER": "two plus signs",
    b"submit 1 81 bulk 8 timeout=4294967296": "a timeout past 32 bits",
    b"submit 1 81 bulk 8 timeout=": "no timeout",
    b"submit 1 81 bulk 8 timeout=1 timeout=1": "an option twice",
    b"submit 1 81 bulk 8 timeout=1 flags=FREE_BUFFER": "flags behind the timeout",
    b"submit 1 81 bulk 8 then=stop timeout=1": "a timeout behind the rule",
    b"submit 1 81 bulk 8 until=1": "an unknown option",
    b"submit 1 81 bulk 8 then=free": "an unknown rule",
    b"submit 1 81 bulk 8 then=again::1": "a rule without statuses",
    b"submit 1 81 bulk 8 then=again:DONE:1": "a rule of an unknown status",
    b"submit 1 81 bulk 8 then=again:ERROR": "a rule without rounds",
    b"submit 1 81 bulk 8 then=again:ERROR:18446744073709551616": "rounds past 64 bits",
}
# Lines that may stand there.
GOOD = (
    b"close 63",
    b"claim 1 255",
    b"clear 1 FF",
    b"cancel 1 18446744073709551615",
    b"submit 1 81 bulk 4294967295",
    b"submit 1 02 int x:",
    b"submit 1 02 int x:0aAf flags=ADD_ZERO_PACKET+ADD_ZERO_PACKET timeout=4294967295 then=stop",
    b"submit 1 81 bulk 8 flags=SHORT_NOT_OK+FREE_BUFFER+FREE_TRANSFER then=again:COMPLETED+STALL:18446744073709551615",
    b"submit 1 81 bulk 8 timeout=0 then=again:ERROR+TIMED_OUT+CANCELLED+NO_DEVICE+OVERFLOW:0",
    b"open 1 3",
    b"",
    b"#",
)

# Four lines with a device and the script of one endpoint.
SETUP = b"# a scanner\n\n" + DEVICE + b"script 0 83 n\n"
# Scripts and devices that may not stand behind these.
BAD_SETUP = (
    b"script 0 81",
    b"script 0 81 ",
    b"script 0 81 d",
    b"script 0 81 d:0",
    b"script 0 81 a",
    b"script 0 02 d:00",
    b"script 0 01 n",
    b"script 0 91 n",
    b"script 1 81 n",
    b"script 0 81 x",
    b"device 0 090209000001008032",
    b"device 2 090209000001008032",
    b"device 1",
    b"device 1 ",
    b"device 1 0902090000010080",
    # A second script of an endpoint.
    b"script 0 83 n",
)

# Four lines with a device whose endpoint 02 is for control transfers, and 83 for isochronous ones.
OTHER_KINDS = b"""# a headset

device 0 0902300002010080320904000002ff00000007058102080000070502000800000904010001ff0000000705830108000a
script 0 81 n
"""
# Scripts of those two, which may not follow.
OTHER_SCRIPTS = (b"script 0 02 n", b"script 0 83 n")


def is_said(trial: Trial, before: bytes, lines: Union[Sequence[bytes], "dict[bytes, str]"], said: bytes) -> None:
    """This alone is said of a run over each of these lines, behind four others."""
    for line in lines:
        trial.expect("run", before + line + BEHIND, End(1, b"", said))


@test
def a_bad_line_is_refused_at_its_number(trial: Trial) -> None:
    is_said(trial, BEFORE, BAD, LINE_5)
    is_said(trial, SETUP, BAD_SETUP, LINE_5)
    is_said(trial, OTHER_KINDS, OTHER_SCRIPTS, LINE_5)


@test
def a_good_line_is_taken(trial: Trial) -> None:
    is_said(trial, BEFORE, GOOD, LINE_7)
    is_said(trial, SETUP, [b"script 0 81 n"], LINE_7)
    is_said(trial, OTHER_KINDS, [b"open 1 0"], LINE_7)


@test
def a_script_has_65536_answers_and_a_packet_2048_bytes_at_most(trial: Trial) -> None:
    is_said(trial, SETUP, [b"script 0 81" + b" n" * 65_536, b"script 0 81 d:" + b"5a" * 2048], LINE_7)
    is_said(trial, SETUP, [b"script 0 81" + b" n" * 65_537, b"script 0 81 d:" + b"5a" * 2049], LINE_5)

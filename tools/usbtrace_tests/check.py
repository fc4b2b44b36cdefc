"""What a check says: a sentence for each kind of bad line, and the counts (docs/FORMATS.md, A check's lines)."""
from typing import Dict

from usbtrace_tests.trial import DEVICE, End, Trial, test

# How many bytes a check is given at a time: lines are cut anywhere.
STEP = 61

# A device, a script and a step; and what is said of them and a step more.
STEPPED = b"# a scanner\n" + DEVICE + b"script 0 83 n\nopen 1 0\n"
COUNTED_STEPS = b"\n1 device, 1 script, 2 steps\n"
# Bad steps, and what is said of them.
STEPS = {
    b"scan 1": b"`scan`: the first word is no verb, as `device`, `open` or `submit`",
    b" open 1 0": b"``: the first word is no verb, as `device`, `open` or `submit`",
    b"sumbit 1 81 bulk 8": b"`sumbit`: the first word is no verb, as `device`, `open` or `submit`; do you mean `submit`?",
    b"open 64 0": b"`64`: the handle isn't a decimal number from 0 to 63",
    b"open 1 4": b"`4`: the device isn't a decimal number from 0 to 3",
    b"claim 1 256": b"`256`: the interface isn't a decimal number from 0 to 255",
    b"clear 1 8": b"`8`: the endpoint isn't two hexadecimal digits",
    b"cancel 1 18446744073709551616": b"`18446744073709551616`: the number isn't decimal and below 2^64",
    b"submit 1 02 bulk x:0": b"`x:0`: the bytes aren't an even number of hexadecimal digits",
    b"submit 1 81 iso 8": b"`iso`: the kind is neither `bulk` nor `int`",
    b"submit 1 81 bulk 4294967296":
        b"`4294967296`: the length isn't a decimal number below 2^32, nor are there bytes behind `x:`",
    b"submit 1 81 bulk 8 flags=FAST":
        b"`flags=FAST`: flags= has something other than SHORT_NOT_OK, FREE_BUFFER, FREE_TRANSFER and ADD_ZERO_PACKET between its plus signs",
    b"submit 1 81 bulk 8 timeout=4294967296": b"`timeout=4294967296`: timeout= isn't a decimal number below 2^32",
    b"submit 1 81 bulk 8 then=again:DONE:1":
        b"`then=again:DONE:1`: then= is neither `stop` nor `again:S+S..:R` with names of statuses and a decimal number below 2^64",
    b"submit 1 81 bulk 8 then=stop timeout=1":
        b"`timeout=1`: the options are flags=, timeout= and then=, in this order and each at most once",
    b"device 1 090209000001008032": b"device and script lines stand before the first step",
    b"script 0 81 n": b"device and script lines stand before the first step",
}

# Bad devices and scripts, and what is said of them.
SETUP = b"# a scanner\n\n" + DEVICE + b"script 0 83 n\n"
SETUPS = {
    b"device 2 090209000001008032": b"the next device has the number 1",
    b"script 1 81 n": b"no line before this one has the device",
    b"script 0 91 n": b"the device has no bulk or interrupt endpoint of this address; it has 81, 02 and 83",
    b"script 0 83 n": b"the endpoint has a script already",
    b"script 0 81": b"a script has 1 to 65536 answers",
    b"script 0 81 n a": b"`a`: an answer of an IN endpoint isn't `d:` and a packet's bytes, `n`, `s` or `b`",
    b"script 0 02 a d:00": b"`d:00`: an answer of an OUT endpoint isn't `a`, `a:` and the bytes that are expected, `n`, `s` or `b`",
    b"script 0 02 a a:0*": b"`a:0*`: behind `a:` stands something other than an even number of hexadecimal digits, and `*` where more may follow",
}

# Descriptors that are refused, each with its fault and where it is.
DESCRIPTORS = {
    b"0902090000010080": b"the input ends at byte 8, before the configuration does",
    b"": b"the input ends at byte 0, before the configuration does",
    b"090109000001008032": b"the descriptor at byte 0 has a type that can't stand there",
    b"09020a0000010080320b": b"the descriptor at byte 9 has an impossible length",
    b"09021000010100803207058102080000": b"the descriptor at byte 9 has a type that can't stand there",
    b"090220000101008032090400000200000000070581020800000705810208000000": b"two endpoints have the address 81",
    b"09021900010100803209040000010000000007058102000000": b"endpoint 81 has a packet size outside 1 to 1,024",
}

# First words with too few words behind them, and their forms.
FORMS = {
    b"device 1": b"device D HEX",
    b"script 0": b"script D EP A A ..",
    b"open 1": b"open H D",
    b"close": b"close H",
    b"claim 1 0 0": b"claim H I",
    b"release 1": b"release H I",
    b"reset 1 ": b"reset H",
    b"clear 1": b"clear H EP",
    b"submit 1 81 bulk": b"submit H EP K B options",
    b"cancel 1": b"cancel H N",
    b"expire 1": b"expire H N",
    b"serve 81": b"serve D EP",
    b"command 1": b"command",
    b"deliver 1": b"deliver",
    b"take ": b"take",
    b"return 1": b"return H N",
    b"unplug": b"unplug D",
}


def checks_as(trial: Trial, text: bytes, out: bytes) -> None:
    """A check of a text finds bad lines, prints this, and says nothing on standard error."""
    trial.expect("check", text, End(1, out, b""), STEP)


def each_is_said(trial: Trial, lines: Dict[bytes, bytes], before: bytes, behind: bytes, front: bytes, back: bytes) -> None:
    """Of each line between two texts its sentence is said, between two others."""
    for line, sentence in lines.items():
        checks_as(trial, before + line + behind, front + sentence + back)


@test
def each_bad_line_has_its_sentence(trial: Trial) -> None:
    each_is_said(trial, STEPS, STEPPED, b"\ntake\n", b"line 5: ", COUNTED_STEPS)
    each_is_said(trial, FORMS, STEPPED, b"\ntake\n", b"line 5: the form is `", b"`, with single spaces" + COUNTED_STEPS)
    each_is_said(trial, SETUPS, SETUP, b"\nscript 0 02 a\n", b"line 5: ", b"\n1 device, 2 scripts, 0 steps\n")
    refused, none = b"line 1: the descriptor is refused: ", b"\n0 devices, 0 scripts, 0 steps\n"
    each_is_said(trial, DESCRIPTORS, b"device 0 ", b"\n", refused, none)


@test
def a_packet_past_2048_bytes_is_told(trial: Trial) -> None:
    text = SETUP + b"script 0 81 d:" + b"5a" * 2049 + b"\nscript 0 02 a\n"
    checks_as(trial, text, b"line 5: `d:5a5a5a5a5a5a5a5a5a5a5a..`: a packet has at most 2048 bytes\n1 device, 2 scripts, 0 steps\n")


@test
def a_thousand_bad_lines_are_told_and_then_how_many_more(trial: Trial) -> None:
    no_verb = b"line %d: `x`: the first word is no verb, as `device`, `open` or `submit`\n"
    told, none = b"".join(no_verb % number for number in range(1, 1_001)), b"0 devices, 0 scripts, 0 steps\n"
    checks_as(trial, b"x\n" * 1_000, told + none)
    checks_as(trial, b"x\n" * 1_002, told + b"more bad lines: 2\n" + none)


@test
def a_byte_past_ascii_is_told(trial: Trial) -> None:
    said = b"line 2: a byte isn't ASCII, as only a comment may have\n0 devices, 0 scripts, 0 steps\n"
    trial.expect("check", b"#\xff\nopen 1 0\xc3\xa9\n", End(1, said, b""), step=4)

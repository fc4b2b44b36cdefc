"""Part `damaged`: captures that are cut, or of which bytes are changed. `usbtrace devices` ends well, and what it prints is a scenario."""
import random
import re

from forms import FORMS
from scenes import random_scenario

# What may stand on standard error, and the comments of a text.
REFUSALS = re.compile(rb"usbtrace: the capture is refused: (not a capture|a file header cut short|link type \d+|no interface of usbmon or USBPcap)\n")
FIRST = r" \(first in frame [1-9]\d*\)"
COMMENTS = re.compile(
    r"# the capture ends amid a record"
    r"|# bus \d+ device \d+( \([0-9a-f]{4}:[0-9a-f]{4}\))? is left out: "
    rf"(no configuration descriptor|its configuration descriptor is refused|a hub|no answers|the fifth device){FIRST}"
    r"|# device \d was bus \d+ device \d+"
    r"|# ep [0-9a-f]{2}: (\d+ bytes were not recorded; they are 00 here|\d+ packets were too long; their bytes are 00 here"
    r"|\d+ transfers of more than 262144 bytes are left out|\d+ requests of more than 4096 bytes are left out"
    rf"|\d+ transfers are left out: not a bulk or interrupt endpoint of this configuration){FIRST}"
    r"|# ep [0-9a-f]{2}: the first 65536 of \d+ answers \(the next is in frame [1-9]\d*\)")
# The status of a capture that ends amid a record, and what is told of it.
CUT, CUT_LINE, CUT_TOLD = 4, b"# the capture ends amid a record\n", b"usbtrace: the capture ends amid a record\n"
# How long a run may take, in seconds of processor time.
SECONDS = 10
# How many times a capture is damaged.
TIMES = 100


def changed(dice, capture):
    """A capture of which bytes are changed, put in, left out or cut off, in one place or a few."""
    for _ in range(dice.choice((1, 1, 1, 2, 4, 16))):
        at, size = dice.randrange(len(capture) + 1), dice.choice((1, 1, 2, 4, 16, 64))
        some = dice.choice((bytes(size), b"\xff" * size, dice.randbytes(size)))
        capture = dice.choice((
            capture[:at] + some + capture[at + size :], capture[:at] + some + capture[at + size :], capture[:at] + some + capture[at:],
            capture[:at] + capture[at + size :], capture[:at] or b"\0"))
    return capture


def judged(machine, capture, count):
    """What is wrong with a run over a damaged capture; else it is counted."""
    it = machine.usbtrace("devices", capture)
    refused = it.status == 1 and not it.out and REFUSALS.fullmatch(it.err)
    if it.seconds > SECONDS:
        return f"takes {it.seconds:.1f} seconds"
    if refused:
        count["refused: " + refused[1].decode().split(" type")[0]] += 1
        return None
    is_cut = it.status == CUT and it.err == CUT_TOLD and it.out.startswith(CUT_LINE)
    if not is_cut and (it.status not in (0, 1) or it.err):
        return f"ends with status {it.status}: {it.err[:200]!r}"
    lines = it.out.decode(errors="replace").splitlines()
    strange = next((line for line in lines if line.startswith("#") and not COMMENTS.fullmatch(line)), None)
    if strange:
        return f"prints {strange!r}"
    if (it.status != 1) != any(line.startswith("device ") for line in lines):
        return f"ends with status {it.status}, and prints {lines[:3]}"
    if it.out and machine.usbtrace("check", machine.usbtrace("devices --scenario", capture).out).status:
        return "prints no scenario"
    count["read"] += it.status != 1
    count["without a device"] += it.status == 1
    return None


def damaged(machine, asked, count):
    names = [*FORMS]
    for done in range(0, asked.damaged, TIMES):
        seed = asked.seed + done // TIMES
        dice = random.Random(seed)
        whole = machine.usbtrace("capture", random_scenario(dice)).out
        for number in range(min(TIMES, asked.damaged - done)):
            form = names[number % len(names)]
            wrong = judged(machine, changed(dice, FORMS[form](whole)), count)
            if wrong:
                count["wrong"] += 1
                yield f"seed {seed}, number {number}, {form}: `devices` {wrong}"

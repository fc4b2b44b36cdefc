"""Scenarios: those of rows/, and random ones."""
from machine import ROWS

# Interface 0 with the bulk endpoints 81 and 02, interface 1 with the interrupt endpoints 83 and 04; packets of 8 bytes.
CONFIG = "0902370002010080320904000002ff00000007058102080000070502020800000904010002ff0000000705830308000107050403080001"
KINDS = {"81": "bulk", "02": "bulk", "83": "int", "04": "int"}
INTERFACES = {"81": 0, "02": 0, "83": 1, "04": 1}
READS = ("81", "83")
FLAGS = ("SHORT_NOT_OK", "ADD_ZERO_PACKET", "FREE_BUFFER")
STATUSES = ("COMPLETED", "ERROR", "CANCELLED", "STALL", "OVERFLOW")
# Handles, each with its device and its endpoints; handles 1 and 2 share a device.
HANDLES = {1: (0, ("81", "02")), 2: (0, ("83", "04")), 3: (1, ("81", "02", "83", "04"))}
# The steps, each as often as it is to come among so many.
VERBS = (
    ["submit"] * 10 + ["serve"] * 18 + ["deliver"] * 12 + ["take"] * 8 + ["return"] * 8 + ["command"] * 8 + ["cancel"] * 2 + ["expire"]
    + ["clear"] * 2 + ["claim", "release", "reset"]
)
SHAPES = (100, 300, 800)


def row_scenarios():
    """The scenarios of the worked rows, by name."""
    return {path.stem: path.read_bytes() for path in sorted(ROWS.glob("*.in"))}


def answer(dice, ep):
    own = ["d:" + dice.randbytes(size).hex() for size in (0, 1, 7, 8, 8, 8, 8, 8, 8, 9)] if ep in READS else ["a"] * 14
    return dice.choice(["n", "n", "s", "b", *own])


def script(dice, device, ep):
    return " ".join([f"script {device} {ep}", *(answer(dice, ep) for _ in range(dice.randint(1, 60)))])


def submission(dice, h, ep):
    """A submit line, most often one that is accepted."""
    body = str(dice.choice((0, 5, 8, 16, 24, 64))) if ep in READS else "x:" + dice.randbytes(dice.choice((0, 5, 8, 16, 24))).hex()
    words = [f"submit {h} {ep} {KINDS[ep]} {body}"]
    if dice.random() < 0.4:
        words.append("flags=" + "+".join(dice.sample(FLAGS, dice.randint(1, 3))))
    if dice.random() < 0.2:
        words.append("timeout=1000")
    if dice.random() < 0.3:
        words.append(f"then=again:{'+'.join(dice.sample(STATUSES, 2))}:{dice.randint(1, 2)}")
    return " ".join(words)


def step(dice, verb, counts):
    """A step of this verb; `counts` has how many transfers each handle was asked for so far."""
    h = dice.choice([*HANDLES])
    device, endpoints = HANDLES[h]
    ep, number = dice.choice(endpoints), max(0, counts[h] - 1 - dice.choice((0, 0, 1, 1, 2, 3, 4, 6, 8)))
    if verb == "submit":
        counts[h] += 1
        return submission(dice, h, ep)
    words = {"serve": f" {device} {ep}", "clear": f" {h} {ep}", "claim": f" {h} {INTERFACES[ep]}", "release": f" {h} {INTERFACES[ep]}",
             "reset": f" {h}", "cancel": f" {h} {number}", "expire": f" {h} {number}", "return": f" {h} {number}"}
    return verb + words.get(verb, "")


def random_scenario(dice):
    """Two devices with random answers, and steps of three handles; of some the first device is pulled out near the end."""
    lines = [f"device {device} {CONFIG}" for device in (0, 1)]
    lines += [script(dice, device, ep) for device in (0, 1) for ep in KINDS]
    lines += [f"open {h} {device}" for h, (device, _) in HANDLES.items()]
    lines += [f"claim {h} {i}" for h, (_, endpoints) in HANDLES.items() for i in sorted({INTERFACES[ep] for ep in endpoints})]
    counts, steps = dict.fromkeys(HANDLES, 0), dice.choice(SHAPES)
    lines += [step(dice, dice.choice(VERBS), counts) for _ in range(steps)]
    if dice.random() < 0.3:
        lines.insert(len(lines) - dice.randint(0, steps // 3), "unplug 0")
    return "".join(line + "\n" for line in lines).encode()

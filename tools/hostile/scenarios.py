"""Random scenarios, and texts that are damaged."""
import itertools

from runs import CONFIG, row_inputs

KINDS_OF_ENDPOINTS = {"81": "bulk", "02": "bulk", "83": "int", "04": "int", "85": "bulk"}
# The steps, each as often as it is to come among so many.
STEPS = (
    ["submit"] * 9 + ["serve"] * 9 + ["deliver"] * 9 + ["take"] * 7 + ["return"] * 6 + ["command"] * 6 + ["cancel"] * 3
    + ["open", "claim", "claim", "release", "close", "clear", "reset"]
)
# Those that `live` doesn't take.
UNLIVED = ["expire", "expire", "unplug"]
# What all scenarios begin with, behind the devices and their scripts.
FIRST_STEPS = ("open 1 0", "open 2 0", "open 3 1", "claim 1 0", "claim 2 1", "claim 3 0", "claim 3 1")
STATUSES = ("COMPLETED", "ERROR", "TIMED_OUT", "CANCELLED", "STALL", "NO_DEVICE", "OVERFLOW")
FLAGS = ("SHORT_NOT_OK", "FREE_BUFFER", "FREE_TRANSFER", "ADD_ZERO_PACKET")
# Words that stand in place of others, and bytes.
HARMFUL_WORDS = (
    "", "-1", "+1", "00", "64", "256", "4", "4294967295", "4294967296", "18446744073709551615", "18446744073709551616", "0x81",
    "x:", "x:0", "d:", "d:" + "00" * 2048, "d:" + "00" * 2049, "flags=", "flags=FREE_BUFFER+", "timeout=4294967296", "then=stop",
    "then=again::1", "then=again:COMPLETED:", "then=again:STALL+STALL:2", "open", "device", "#", "81", "8F", "ff", "take", "x" * 5000,
)
HARMFUL_BYTES = b"\0\t\n\r #+-=:0189afxAF\x7f\x80\xff"


def is_in(ep):
    return int(ep, 16) > 127


def answer(dice, ep):
    """An answer of an endpoint's script."""
    own = ["d:" + dice.randbytes(size).hex() for size in (0, 1, 7, 8, 8, 8, 8, 8, 8, 9)] if is_in(ep) else ["a"] * 12
    return dice.choice(["n", "s", "b"] + own)


def options(dice):
    """The options of a submission, in their order."""
    if dice.random() < 0.3:
        yield "flags=" + "+".join(dice.sample(FLAGS, dice.randint(1, 4)))
    if dice.random() < 0.3:
        yield f"timeout={dice.choice((0, 1, 1000))}"
    if dice.random() < 0.4:
        yield f"then=again:{'+'.join(dice.sample(STATUSES, dice.randint(1, 3)))}:{dice.randint(0, 3)}"


def submission(dice, h, ep):
    body = str(dice.choice((0, 8, 16, 20, 300_000))) if is_in(ep) else "x:" + dice.randbytes(dice.choice((0, 8, 13))).hex()
    kind = KINDS_OF_ENDPOINTS[ep] if dice.random() < 0.95 else "bulk"
    return " ".join([f"submit {h} {ep} {kind} {body}", *options(dice)])


def step(dice, verb):
    """A step of this verb, mostly at what is there."""
    h, dev, ep = dice.choice("1112233"), dice.choice("0001"), dice.choice([*KINDS_OF_ENDPOINTS])
    number = dice.randint(0, 12)
    behind = {
        "open": f" {h} {dev}", "close": f" {h}", "claim": f" {h} {dice.choice('0012')}", "release": f" {h} {dice.choice('01')}",
        "reset": f" {h}", "clear": f" {h} {ep}", "cancel": f" {h} {number}", "expire": f" {h} {number}", "return": f" {h} {number}",
        "serve": f" {dev} {ep}", "unplug": f" {dice.choice('12')}",
    }
    return submission(dice, h, ep) if verb == "submit" else verb + behind.get(verb, "")


def script(dice, dev, ep):
    return " ".join([f"script {dev} {ep}", *(answer(dice, ep) for _ in range(dice.randint(1, 30)))])


def scenario(dice):
    """A random scenario: two devices with random scripts, and steps of three handles. One in two can be run by `live`."""
    lines = [f"device {dev} {CONFIG}" for dev in (0, 1)]
    lines += [script(dice, dev, ep) for dev, ep in itertools.product((0, 1), [*KINDS_OF_ENDPOINTS][:4])]
    verbs = STEPS + UNLIVED * dice.randint(0, 1)
    lines += [*FIRST_STEPS, *(step(dice, dice.choice(verbs)) for _ in range(dice.choice((5, 40, 150))))]
    return "".join(line + "\n" for line in lines).encode()


def pieces(dice, answers):
    """Answers in up to four pieces, in their order; the first may be empty, and no other is."""
    cuts = sorted({dice.randint(0, len(answers) - 1) for _ in range(dice.randint(1, 3))})
    return [answers[:cuts[0]], *(answers[at:end] for at, end in zip(cuts, [*cuts[1:], len(answers)]))]


def fed(dice):
    """A random scenario in which the ends of scripts are fed, by lines anywhere behind them; and the same one with whole scripts, and
    comments in the place of these lines."""
    lines = [[line, line] for line in scenario(dice).decode().splitlines()]
    for whole in [it[0] for it in lines if it[0].startswith("script ")]:
        _, dev, ep, *answers = whole.split(" ")
        first, *rest = pieces(dice, answers)
        at = lines.index([whole, whole])
        lines[at] = [" ".join(["script", dev, ep, *first]) if first else "#", whole]
        for piece in rest:
            at = dice.randint(at + 1, len(lines))
            lines.insert(at, [" ".join(["feed", dev, ep, *piece]), "#"])
    return tuple("".join(it[side] + "\n" for it in lines).encode() for side in (0, 1))


def damage_byte(dice, text):
    """A text in which a byte is changed, put in or left out, or which ends early."""
    at, byte = dice.randrange(len(text) + 1), bytes([dice.choice(HARMFUL_BYTES)])
    return dice.choice((text[:at] + byte + text[at + 1:], text[:at] + byte + text[at:], text[:at] + text[at + 1:], text[:at]))


def damage_line(dice, text):
    """A text in which a word or a line is changed, or a line comes twice or not at all."""
    lines = text.split(b"\n")
    k, other = dice.randrange(len(lines)), dice.choice(lines)
    words = lines[k].split(b" ")
    words[dice.randrange(len(words))] = dice.choice(HARMFUL_WORDS).encode()
    changed = b" ".join(words)
    those = dice.choice(([changed], [changed], [lines[k], lines[k]], [], [other], [lines[k] + other]))
    return b"\n".join([*lines[:k], *those, *lines[k + 1:]])


def damaged(dice):
    """A row or a random scenario that is damaged in one place or a few."""
    text = dice.choice(row_inputs()) if dice.random() < 0.7 else scenario(dice)
    for _ in range(dice.choice((1, 1, 2, 5))):
        text = dice.choice((damage_byte, damage_byte, damage_line, damage_line, damage_line))(dice, text)
    return text

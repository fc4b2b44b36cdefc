"""Every word over random scenarios and over damaged ones: the words agree with each other. And every word but `live` over scenarios that
are fed: each says what it says of the whole scripts."""
import random
import re
import xml.etree.ElementTree

from refuse_allocations import has_whole_records
from runs import UNFINISHED, Part, has_too_many, is_refusal, wrong_unless
from scenarios import damaged, fed, scenario

# How many texts are tried of each part, unless a number is asked for, and how many the gate tries.
COUNT = 2_000
GATE_COUNT = 60
# And of those that are fed, which each word reads twice.
GATE_FED_COUNT = 20
# How many callbacks are called: a rule of a row has no end.
ROUNDS = 1_000
LIVE = f"live --rounds {ROUNDS}"
# How much `check` says of a scenario; and behind that a refused line, its reason, and the end of a callback whose resubmission is refused.
COUNTS = rb"\d+ devices?, \d+ scripts?, \d+ steps?\n"
CHECKED = COUNTS + rb"(\d+ .+ \| (h\d+|-) refused \d\n    .+\n(\d+ .+ \| h\d+ done\n)?)*"
# The words that report packets which aren't as expected, behind all else, with status 3; and what they say.
JUDGING = ("run", "run --steps", "left")
REPORTED = rb"(# (line \d+: )?device \d, endpoint [0-9a-f]{2}: .+\n)+"
REPORT = re.compile(REPORTED + rb"# what was written isn't what the scenario expects: \d+ differences?\n\Z")
# What the lines of some words look like, where the scenario is good.
SHAPES = {
    "left": rb"(h\d+ (device \d open|interface \d+ held|ep [0-9a-f]{2} .+)\n)*",
    LIVE: rb"(h\d+ called \d+ ep [0-9a-f]{2} round \d+ [A-Z_]+ \d+ data ([0-9a-f]+|-)\n)*",
}


def first_refused(it):
    """The number of the line that a run refused."""
    found = re.fullmatch(rb"usbtrace: line (\d+) refused\n", it.err)
    return int(found[1]) if found else None


def first_unlived(given):
    """The number of the first line that `live` doesn't take, and other words do."""
    return next((k for k, line in enumerate(given.split(b"\n"), 1) if line.startswith((b"expire ", b"unplug "))), None)


def is_test(given):
    """Whether lines of a text may stand for others, as in a test."""
    return any(line == b"settle" or line.startswith(b"macro ") or b" *" in line or b" -> " in line for line in given.split(b"\n"))


def is_stepwise(steps, run, given):
    """Whether the lines of `--steps` are those of `run`, each behind the number and the text of a line, in their order; in a test the text may
    be another."""
    lines, found, last, may_differ = given.split(b"\n"), [], 0, is_test(given)
    for line in steps.splitlines():
        number, _, rest = line.partition(b" ")
        at = int(number) if number.isdigit() else 0
        text, bar, entry = rest.rpartition(b" | ")
        if not max(last, 1) <= at <= len(lines) or not bar or not (may_differ or text == lines[at - 1]):
            return False
        found.append(entry)
        last = at
    return found == run.splitlines()


def own_lines(text, h):
    """What a run says to a handle and of unplugged devices, but for claims that another's hold refused."""
    mine, held = (b"h%d " % h, b"- done", b"- refused"), b"h%d refused 5" % h
    return [line for line in text.splitlines() if line.startswith(mine) and line != held]


def is_alone(alone, run, h):
    """Whether all that a handle says alone is its own, and the same as amid the others."""
    own = own_lines(alone, h)
    return own == own_lines(run, h) and len(own) == alone.count(b"\n")


def refused_in(text):
    """The entries of a run that are refused, perhaps each behind its line."""
    return [line.split(b" | ")[-1] for line in text.splitlines() if re.search(rb"(h\d+|-) refused \d$", line)]


def is_checked(check, run):
    """Whether a check of a good scenario tells what its run refuses."""
    return re.fullmatch(CHECKED, check) is not None and refused_in(check) == refused_in(run)


def is_picture(text):
    try:
        return xml.etree.ElementTree.fromstring(text).tag.endswith("svg")
    except xml.etree.ElementTree.ParseError:
        return False


def judged(it):
    """What a run reports of packets that aren't as expected, and the run without that."""
    found = REPORT.search(it.out) if it.status == 3 else None
    return (found[0], it._replace(status=0, out=it.out[: found.start()])) if found else (b"", it)


def is_taken(word, it, run, given):
    """Whether a run of a good scenario ended well, and what it printed agrees with what `run` did."""
    if word == LIVE and it.status:
        return has_too_many(it, ROUNDS)
    if it.status != 0 or not (UNFINISHED.fullmatch(it.err) if word == LIVE else it.err == b""):
        return False
    if word in SHAPES:
        return re.fullmatch(SHAPES[word], it.out) is not None
    if word.startswith("alone"):
        return is_alone(it.out, run.out, int(word.split()[1]))
    if word == "check":
        return is_checked(it.out, run.out)
    if word == "draw":
        return is_picture(it.out)
    if word == "capture":
        return bool(it.out) and has_whole_records(it.out)
    return word == "run" or is_stepwise(it.out, run.out, given)


def is_refused(word, it, k):
    """Whether a run refuses this line, which is the first bad one; `check` tells of it."""
    if word == "check":
        return (it.status, it.err) == (1, b"") and it.out.startswith(b"line %d: " % k)
    return is_refusal(it, k)


def tried_text(runs, name, given, h):
    """Every word over a text, which agree on its first bad line, and on the packets that aren't as expected."""
    whole = runs.of("run", given)
    k, unlived = first_refused(whole), first_unlived(given)
    reported, run = judged(whole)
    for word in ("run", "run --steps", f"alone {h}", "left", "draw", "capture", "check", LIVE):
        first = min(filter(None, (k, unlived)), default=None) if word == LIVE else k
        it = whole if word == "run" else runs.of(word, given)
        report, rest = judged(it) if word in JUDGING else (reported, it)
        right = is_refused(word, it, first) if first else report == reported and is_taken(word, rest, run, given)
        yield wrong_unless(right, "refused" if first else "taken", f"{word}: {name}", it)


def part(text_of):
    """The part of the texts that are made in this way, each from its seed."""
    def tried(runs, seed):
        dice = random.Random(seed)
        yield from tried_text(runs, f"--seed {seed}", text_of(dice), dice.randint(0, 3))

    return Part(lambda asked: seeds(asked, asked.count or COUNT), lambda asked: seeds(asked, GATE_COUNT), tried)


def tried_fed(runs, seed):
    """Every word over a text whose answers are fed, and over the one with whole scripts."""
    dice = random.Random(seed)
    fed_text, whole = fed(dice)
    for word in ("run", "run --steps", f"alone {dice.randint(0, 3)}", "left", "explain", "draw", "capture", "check", "test"):
        it, other = runs.of(word, fed_text), runs.of(word, whole)
        alike = not it.status and (it.status, it.out, it.err) == (other.status, other.out, other.err)
        yield wrong_unless(alike, "alike", f"{word}: --seed {seed}", it)


def seeds(asked, count):
    return [(asked.seed + number,) for number in range(count)]


# The part of the texts that are fed.
FED = Part(lambda asked: seeds(asked, asked.count or COUNT), lambda asked: seeds(asked, GATE_FED_COUNT), tried_fed)
# How the texts of a part are made.
TEXTS = {"random": scenario, "damaged": damaged}

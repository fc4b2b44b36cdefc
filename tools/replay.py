#!/usr/bin/env python3
"""Runs the steps that a C program's run made by usbtrace, and compares what each of them came to.

    tools/replay.py USBTRACE TRACE..
    tirnouch-replay TRACE..

A TRACE is the file that TIRNOUCH_TRACE or `tirnouch-run --trace` names: a scenario (FORMATS.md of the documentation), in which a
comment behind a step's line has what the core said of it in the program's run. USBTRACE is the program, bin/usbtrace; installed as
tirnouch-replay, this takes the one that stands beside it. Compared are refusals, numbers of transfers, and callbacks with their
bytes. A trace that agrees has one line; of one that differs the differences are told, at most 5 of each kind, with the number of the
step's line, and the status is 1.

    # answer CODE                        the step was refused, and this is libusb's number of it
    # done                               it was done
    # number N                           it submitted the transfer of this number
    # called N ep EP STATUS ACTUAL HEX   this callback came out; HEX is - where no bytes moved in, and ? where they aren't known"""
import collections
import pathlib
import re
import subprocess
import sys

# What usbtrace calls a refusal, and libusb's number of it.
CODES = {"1": "-2", "2": "-4", "3": "-5", "4": "-6", "5": "-6", "6": "-11", "7": "-12"}
SAID = {
    "answer": re.compile(r"# answer (?P<code>-\d+)"),
    "done": re.compile(r"# done"),
    "number": re.compile(r"# number (?P<n>\d+)"),
    "called": re.compile(
        r"# called (?P<n>\d+) ep (?P<ep>[0-9a-f]{2}) (?P<status>[A-Z_]+) (?P<actual>\d+) (?P<data>[0-9a-f]+|-|\?)"),
}
PRINTED = {
    "answer": re.compile(r"(h\d+|-) refused (?P<code>[1-7])"),
    "done": re.compile(r"(h\d+|-) done"),
    "number": re.compile(r"h\d+ number (?P<n>\d+)"),
    "called": re.compile(
        r"h\d+ called (?P<n>\d+) ep (?P<ep>[0-9a-f]{2}) round 0 (?P<status>[A-Z_]+) (?P<actual>\d+) data (?P<data>[0-9a-f]+|-)"),
}
# The differences, and what stands before those of a kind.
KINDS = {
    "refused": "refused by usbtrace alone",
    "alone": "told by usbtrace alone",
    "answer": "another answer",
    "done": "not done by usbtrace",
    "number": "another number",
    "called": "another callback",
}
MOST = 5
# usbtrace, where both are installed; the repository has none there.
BESIDE = pathlib.Path(__file__).resolve().with_name("usbtrace")
# How much of a line is shown.
WIDTH = 100

Step = collections.namedtuple("Step", "line text said")


def stop(message):
    """What can't be compared."""
    sys.exit(f"{pathlib.Path(sys.argv[0]).name}: {message}")


def comment_of(line, name, number):
    """What a comment says of its step: a kind and its words; None where it says nothing of it."""
    words = line.split(" ")
    kind = words[1] if len(words) > 1 else ""
    if kind not in SAID:
        return None
    found = SAID[kind].fullmatch(line)
    if not found:
        stop(f"{name}, line {number}: this isn't of the form that a trace has: {short(line)}")
    return kind, found.groupdict()


def steps_of(text, name):
    """A trace's steps, each with what was said of it."""
    steps = []
    for number, line in enumerate(text.split("\n"), 1):
        if line.startswith("#"):
            said = comment_of(line, name, number)
            if said and (not steps or steps[-1].said):
                stop(f"{name}, line {number}: there is no step of which this could be said: {short(line)}")
            if said:
                steps[-1] = steps[-1]._replace(said=said)
        elif line and not line.startswith(("device ", "script ", "feed ")):
            steps.append(Step(number, line, None))
    return steps


def counted(count, word):
    return f"{count} {word}" if count == 1 else f"{count} {word}s"


def short(line):
    return line if len(line) <= WIDTH else line[: WIDTH - 2] + ".."


def read_printed(line):
    """What usbtrace printed, in the same form; None where it is of another kind."""
    for kind, pattern in PRINTED.items():
        found = pattern.fullmatch(line)
        if found:
            words = found.groupdict()
            if kind == "answer":
                words["code"] = CODES[words["code"]]
            return kind, words
    return None


def difference(said, printed):
    """The kind of difference between what a trace says of a step and what was printed; None where there is none."""
    if said is None:
        if printed is None or printed[0] == "done":
            return None
        return "refused" if printed[0] == "answer" else "alone"
    kind, words = said
    if printed is None or printed[0] != kind:
        return "refused" if printed and printed[0] == "answer" else kind
    unknown = [key for key in words if words[key] == "?"]
    return None if all(words[key] == printed[1][key] for key in words if key not in unknown) else kind


def run(program, trace, text):
    """The lines that usbtrace prints, and whether it came to the end."""
    try:
        ran = subprocess.run([program, "run"], input=text, capture_output=True, check=False)
    except OSError as error:
        stop(f"{program} can't be run ({error.strerror}); tools/program.py try builds bin/usbtrace")
    complaint = ran.stderr.decode(errors="replace").strip()
    refused = re.search(r"line (\d+) refused", complaint)
    if refused:
        line = text.decode(errors="replace").split("\n")[int(refused.group(1)) - 1]
        print(f"{trace}, line {refused.group(1)}: usbtrace doesn't take it: {short(line)}")
    elif ran.returncode:
        print(f"{trace}: usbtrace ended with status {ran.returncode}: {complaint}")
    return ran.stdout.decode(errors="replace").splitlines(), ran.returncode == 0


def show(trace, found):
    """The first differences of each kind."""
    for kind, title in KINDS.items():
        for step, line in found[kind][:MOST]:
            said = f"; the trace has {' '.join([step.said[0], *step.said[1].values()])}" if step.said else ""
            print(f"{trace}, line {step.line}: {title}: {short(step.text)} | {short(line)}{short(said)}")
        if len(found[kind]) > MOST:
            print(f"{trace}: and {len(found[kind]) - MOST} more: {title}")


def replay(program, trace):
    """Compares a trace; whether all of it agrees."""
    try:
        text = pathlib.Path(trace).read_bytes()
    except OSError as error:
        stop(f"{trace} can't be read ({error.strerror})")
    if not text:
        stop(f"{trace} is empty: no program ran with TIRNOUCH_TRACE")
    steps = steps_of(text.decode(errors="replace"), trace)
    lines, ended = run(program, trace, text)
    if ended and len(lines) != len(steps):
        print(f"{trace}: {counted(len(steps), 'step')}, but usbtrace printed {counted(len(lines), 'line')}")
        ended = False
    found = collections.defaultdict(list)
    compared = steps[: len(lines)]
    for step, line in zip(compared, lines):
        kind = difference(step.said, read_printed(line))
        if kind:
            found[kind].append((step, line))
    show(trace, found)
    count = collections.Counter(step.said[0] for step in compared if step.said)
    differences = sum(map(len, found.values()))
    parts = [counted(len(compared), "step"), counted(count["answer"], "refusal"), counted(count["number"], "number"),
             counted(count["called"], "callback")]
    rest = "" if ended else f" of {counted(len(steps), 'step')}"
    print(f"{trace}: compared {', '.join(parts)}{rest}: {counted(differences, 'difference')}")
    return ended and not differences


def main():
    words = sys.argv[1:]
    if words and words[0] in ("--help", "-h"):
        print(__doc__)
        sys.exit(0)
    if BESIDE.is_file():
        words = [str(BESIDE), *words]
    if len(words) < 2 or any(it.startswith("-") for it in words):
        sys.exit(__doc__)
    program = words[0] if "/" in words[0] else f"./{words[0]}"
    agree = [replay(program, trace) for trace in words[1:]]
    sys.exit(0 if all(agree) else 1)


if __name__ == "__main__":
    main()

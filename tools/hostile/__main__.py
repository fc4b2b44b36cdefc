"""Tries usbtrace in hostile ways, and says what comes of each. docs/HOSTILE.md tells what is wanted, and what came.

    python3 tools/hostile [PART ..]    all parts, or these
    python3 tools/hostile gate         some of each part, by one processor in half a minute; the gate asks it

    memory         every word over every row: an allocation or a thread is refused, alone or with all behind it
    again          check_library and check_parts, which make again what an allocation was refused to
    random         every word over random scenarios
    fed            every word over random scenarios whose answers are fed, and over the same ones with whole scripts
    truth          `explain` over random scenarios that come to its reasons: each sentence is true; how often each form came is told
    damaged        every word over rows and random scenarios in which bytes, words or lines are changed
    streams        every word: reads and writes that fail, are cut short or interrupted; streams that are closed, full or broken
    sizes          inputs, lines and runs as long as may be, and longer; and what is open and held at the end of a run
    descriptors    `check` and `run`: each beginning of a descriptor, and each byte set to each value
    linear         every word over texts of two lengths: what it takes grows with the text, and is at most three times what `run` takes

What is wrong is printed, and the status is 1, but for what known.txt knows. Needs a C compiler.

The modules, from below: runs (how a word is run, and what a run comes to); scenarios (random and damaged texts); memory, again,
texts, streams, sizes, descriptors, linear (the parts: their cases, and what each has to come to); crowded, followed, refusals, told,
sentences, truth (the part of the sentences: its scenarios; the state that entries tell; which calls are refused; a sentence in its place, and
what each says; and the cases)."""
import argparse
import collections
import concurrent.futures
import fnmatch
import itertools
import os
import pathlib
import random
import sys

# Where refuse_allocations.py stands, which the modules use.
sys.path.append(str(pathlib.Path(__file__).resolve().parent.parent))

import again
import descriptors
import linear
import memory
import sizes
import streams
import texts
import truth
from refuse_allocations import SECONDS
from runs import MOST, OWN, ROOT, Runs

KNOWN = pathlib.Path(__file__).resolve().parent / "known.txt"
PARTS = {
    "memory": memory.PART,
    "again": again.PART,
    **{name: texts.part(text_of) for name, text_of in texts.TEXTS.items()},
    "fed": texts.FED,
    "truth": truth.PART,
    "streams": streams.PART,
    "sizes": sizes.PART,
    "descriptors": descriptors.PART,
    "linear": linear.PART,
}
# How the random texts of a part are made.
SHOWN = {**texts.TEXTS, "truth": truth.scenario}
# How many wrong runs of a part are told.
MOST_TOLD = 12
# Of a run of the gate all calls fail.
GATE_MOST = None


def known(part):
    """The patterns of what is known to be wrong in a part."""
    lines = KNOWN.read_text().splitlines() if KNOWN.is_file() else []
    return [line for line in lines if line.startswith(f"{part}: ")]


def tried(job):
    """What a case comes to, by its part and its words."""
    runs, part, words = job
    return list(PARTS[part].tried(runs, *words))


class Tally:
    """What the runs of a part came to, and which known patterns were met."""

    def __init__(self, part):
        self.part, self.patterns = part, known(part)
        self.count, self.came, self.met, self.unknown = collections.Counter(), collections.Counter(), set(), 0

    def take(self, end):
        """Counts a run, and prints it where it is wrong and not known to be."""
        text = f"{self.part}: {end.text}"
        is_known = [it for it in self.patterns if end.kind == "wrong" and fnmatch.fnmatchcase(text, it)]
        self.met |= set(is_known)
        self.came.update(end.came)
        self.count["wrong, as is known" if is_known else end.kind] += 1
        if end.kind == "wrong" and not is_known:
            self.unknown += 1
            if self.unknown <= MOST_TOLD:
                print(text, flush=True)

    def tell(self, is_gate):
        """Prints the counts; of what else is counted all, or in the gate how much of it came."""
        if self.unknown > MOST_TOLD:
            print(f"{self.part}: and {self.unknown - MOST_TOLD} more")
        parts = ", ".join(f"{number:,} {kind}" for kind, number in sorted(self.count.items()))
        print(f"{self.part}: {sum(self.count.values()):,} runs: {parts}", flush=True)
        counted = PARTS[self.part].counted
        if counted and is_gate:
            print(f"{self.part}: {sum(self.came.values()):,} sentences, of {len(self.came)} of {len(counted)} forms", flush=True)
        for what in () if is_gate else counted:
            print(f"{self.part}: {self.came[what]:6,} {what}", flush=True)

    def tell_unmet(self):
        """Prints what is known to be wrong and didn't come."""
        for pattern in self.patterns:
            if pattern not in self.met:
                print(f"{self.part}: this didn't come, though it is known: {pattern}")


def is_right(part, ends, is_whole, is_gate):
    """Tells what came of a part's runs, of which these may be all. Whether nothing was wrong but what is known."""
    tally = Tally(part)
    for end in ends:
        tally.take(end)
    tally.tell(is_gate)
    if is_whole:
        tally.tell_unmet()
    return not tally.unknown


def options(words):
    it = argparse.ArgumentParser(prog="python3 tools/hostile", usage=__doc__)
    it.add_argument("parts", nargs="*", metavar="PART", help="or `gate`")
    it.add_argument("--seed", type=int, default=1, help="of the first random scenario, and of the first damaged one")
    it.add_argument("--show", action="store_true", help="print the text of that seed, of the part that is named, and try nothing")
    it.add_argument("--count", type=int, help=f"how many texts: {texts.COUNT:,} random or damaged scenarios, {truth.COUNT:,} of truth")
    it.add_argument("--most", type=int, default=OWN, metavar="N",
                    help=f"N calls of a run fail, evenly spread, in place of {MOST}, of all or a fifth in memory, and of all in the gate")
    it.add_argument("--each", type=int, default=1, metavar="K", help="each Kth case alone, for a quick look")
    it.add_argument("--seconds", type=float, default=SECONDS, help="of processor time that a run may take; six times that by the clock")
    it.add_argument("--jobs", type=int, default=os.cpu_count(), help="how many runs at a time; the gate makes one")
    it.add_argument("--program", type=pathlib.Path, default=ROOT / "bin" / "usbtrace")
    return it.parse_args(words)


def cases_of(asked, part, is_gate):
    made = PARTS[part].gate_cases if is_gate else PARTS[part].cases
    return made(asked)[:: asked.each]


def tries(asked, names, is_gate):
    """Tries the parts. Whether nothing was wrong in any but what is known."""
    most, jobs = (GATE_MOST, 1) if is_gate else (asked.most, asked.jobs)
    with Runs(asked.program, asked.seconds, most) as runs, concurrent.futures.ProcessPoolExecutor(jobs) as pool:
        right = []
        for part in names:
            work = [(runs, part, words) for words in cases_of(asked, part, is_gate)]
            right.append(is_right(part, itertools.chain.from_iterable(pool.map(tried, work)), asked.each == 1, is_gate))
    return all(right)


def main(words):
    asked = options(words)
    is_gate = asked.parts == ["gate"]
    names = asked.parts if asked.parts and not is_gate else [*PARTS]
    if not set(names) <= set(PARTS) or (asked.show and names[0] not in SHOWN):
        print(__doc__)
        return 2
    if asked.show:
        sys.stdout.buffer.write(SHOWN[names[0]](random.Random(asked.seed)))
        return 0
    if not asked.program.is_file():
        print(f"there is no {asked.program}: make run builds it")
        return 1
    return 0 if tries(asked, names, is_gate) else 1


if __name__ == "__main__":
    sys.exit(main(sys.argv[1:]))

"""Tries `usbtrace capture` and `usbtrace devices` on other programs and on captures of all kinds. docs/CAPTURES.md tells what came.

    python3 tools/captures [PART ..]    all parts, or these

    tshark      the worked rows' captures: what tshark shows is what the printed run comes to, and so are the bytes
    random      the same of random scenarios
    umockdev    libusb itself, over umockdev that replays captures: its callbacks are told what `usbtrace run` prints
    round       `devices` over captures of runs, in each form of file: it has the answers that the callbacks used
    damaged     `devices` over captures that are cut, or of which bytes are changed
    large       `devices` over captures as long as may be

Each part prints a line of counts; what is wrong stands before it, and the status is 1. Where tshark, umockdev, a C compiler or libusb
isn't there, the parts that need it are left out: that is told, and the status is 1 too.

The modules, from below: machine (programs that are run); told (the events and answers of a run, from what `run --steps` prints);
scenes (rows and random scenarios); windows (a packet as Windows' recorder writes it); forms (a capture in other forms); shown, replayed,
round, damaged, large (the parts)."""
import argparse
import collections
import pathlib
import sys

from damaged import damaged
from large import large
from machine import ROOT, Lacking, Machine
from replayed import umockdev
from round import round_trips
from shown import random_scenarios, tshark

PARTS = {"tshark": tshark, "random": random_scenarios, "umockdev": umockdev, "round": round_trips, "damaged": damaged, "large": large}
# How many faults of a part are told.
MOST_TOLD = 12


def options(words):
    it = argparse.ArgumentParser(prog="python3 tools/captures", usage=__doc__)
    it.add_argument("parts", nargs="*", metavar="PART")
    it.add_argument("--seed", type=int, default=1, help="of the first random scenario")
    it.add_argument("--count", type=int, default=100, help="how many random scenarios; `round` takes four times as many")
    it.add_argument("--damaged", type=int, default=4_000, help="how many damaged captures")
    it.add_argument("--program", type=pathlib.Path, default=ROOT / "bin" / "usbtrace")
    return it.parse_args(words)


def is_right(name, machine, asked):
    """Tries a part, and tells what came. Whether nothing was wrong."""
    count, faults = collections.Counter(), 0
    try:
        for fault in PARTS[name](machine, asked, count):
            faults += 1
            if faults <= MOST_TOLD:
                print(f"{name}: {fault}", flush=True)
    except Lacking as lacking:
        print(f"{name}: left out: {lacking}", flush=True)
        return False
    if faults > MOST_TOLD:
        print(f"{name}: and {faults - MOST_TOLD} more")
    parts = ", ".join(f"{number:,} {kind}" for kind, number in count.items())
    print(f"{name}: {parts}; {faults or 'no'} {'fault' if faults == 1 else 'faults'}", flush=True)
    return not faults


def main(words):
    asked = options(words)
    unknown = [it for it in asked.parts if it not in PARTS]
    if unknown:
        print(f"there is no part {unknown[0]}; the parts are {', '.join(PARTS)}")
        return 2
    if not asked.program.is_file():
        print(f"there is no {asked.program}: make run builds it")
        return 1
    machine = Machine(asked.program.resolve())
    return 0 if all([is_right(name, machine, asked) for name in asked.parts or PARTS]) else 1


if __name__ == "__main__":
    sys.exit(main(sys.argv[1:]))

"""Every order in which threads of some short programs can run, as far as a bound goes: whether one of them hangs, and what each ends with.

    python3 tools/interleavings [PART] [--bound N] [--seconds N] [--only SCENE] [--schedule S] [--sources FOLDER]

A program's threads run one at a time. At each point, where one is about to touch what others touch, or waits, it is decided who goes on
(schedule.c); and each run of the program makes other decisions, until all were made (search.c). The bound says how often in a run a
thread has to wait though it could go on; who goes on where one waits or ends is tried without a bound. A run fails where no thread can go
on, though not all ended; where it has more points than any that ends; where work is left while all wait; or where it prints what its
scene doesn't allow. Its schedule is printed, which `--only` and `--schedule` run once more, point by point.

PART says which code: `c` is libusb's interface (scenes.c; points at locks, conditions and polled descriptors), `rattle` the library with
its two workers, as `usbtrace live` runs the texts of scenes/ (points at each atomic step, each wait and each wake). Without one, both.
Outcomes of a scene stand in outcomes/, one behind the other. `--sources` names another copy of the repository, whose code is tried
instead.

No time passes: a wait that only its time would end is a hang. No wait ends for no reason, and memory isn't refused."""
import argparse
import pathlib
import sys
import tempfile
from typing import List

HERE = pathlib.Path(__file__).resolve().parent
sys.path.append(str(HERE.parent))

import programs  # noqa: E402
from searched import Limits, Search, searched  # noqa: E402

# What each part may take in the gate, in seconds of the processor's for a scene, and the bound that it is for.
LIMITS = {"c": Limits(bound=2, seconds=20), "rattle": Limits(bound=0, seconds=20)}


def words_of(argv: List[str]) -> argparse.Namespace:
    """The words behind the program's name."""
    parser = argparse.ArgumentParser(prog="tools/interleavings", description=(__doc__ or "").partition("\n")[0])
    parser.add_argument("part", nargs="?", choices=sorted(LIMITS))
    parser.add_argument("--bound", type=int, choices=range(7))
    parser.add_argument("--seconds", type=int)
    parser.add_argument("--only", metavar="SCENE")
    parser.add_argument("--schedule")
    parser.add_argument("--sources", type=pathlib.Path, default=programs.ROOT)
    return parser.parse_args(argv)


def shown(scene: str, found: Search) -> bool:
    """Prints what the search of a scene found; whether nothing is wrong."""
    print(f"{scene}: {found.line()}", flush=True)
    for it in found.faults:
        print(it, flush=True)
    return not found.faults


def tried(part: str, words: argparse.Namespace, folder: pathlib.Path) -> bool:
    """Tries all scenes of a part; whether nothing is wrong."""
    limits = LIMITS[part]
    limits = Limits(limits.bound if words.bound is None else words.bound, words.seconds or limits.seconds, words.schedule)
    made = programs.c_program(words.sources, folder) if part == "c" else programs.rattle_program(words.sources, folder)
    scenes = [it for it in made.scenes() if words.only in (None, it)]
    return all([shown(it, searched(made, it, limits, folder)) for it in scenes])


def main(argv: List[str]) -> int:
    """0 where nothing is wrong, 1 where something is."""
    words = words_of(argv)
    with tempfile.TemporaryDirectory(prefix="interleavings-") as folder:
        parts = [words.part] if words.part else sorted(LIMITS)
        return 0 if all([tried(it, words, pathlib.Path(folder)) for it in parts]) else 1


if __name__ == "__main__":
    sys.exit(main(sys.argv[1:]))

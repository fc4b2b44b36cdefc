#!/usr/bin/env python3
"""The wrong bodies that the gate doesn't try all, for its time: tools/wrong_bodies/CRATE/NAME.edit, in the form of a crate's
must-fail/NAME.edit. A line `rule: NAME` in front names a rule of the model that it breaks (tools/tests.py).

    tools/wrong_bodies.py fit             says which of them, of the gate's own and of tools/plants fit their files no more; seconds, and
                                          the gate asks it
    tools/wrong_bodies.py turn [MINUTES]  has the prover refuse those whose turn it is at this commit, a twentieth, until six processor
                                          minutes are spent, or so many; the gate asks it behind its proofs, whose libraries it takes
    tools/wrong_bodies.py turn --dry      names them, and tries none
    tools/wrong_bodies.py try [CRATE ..]  has the prover refuse each, in a copy of the repository beside it: half a minute
                                          each; and first proves the crates, where this machine's gate hasn't
    tools/wrong_bodies.py together [CRATE ..]
                                          the same over the libraries that `make test` left here, some in one check: a third of the time

tools/wrong_bodies/goals.json has the goal by which each was refused when it was last looked at, as far as it is known. `turn` and `try` fail
where that is another one now, and so does `together`; with --keep behind their word they put what they saw into that file instead.
"""
import os
import pathlib
import shutil
import subprocess
import sys
import tempfile
from typing import Callable, Iterable, List

import edits
import kit
import prover
import wrong_batches
import wrong_turn
from wrong_goals import Kept, goal_of

ROOT = pathlib.Path(__file__).resolve().parent.parent
PLANTS = ROOT / "tools" / "plants"


def beside() -> List[pathlib.Path]:
    return sorted(edits.BESIDE.glob("*/*.edit"))


def tell_misfits(found: List[pathlib.Path], what: str) -> int:
    """Says which edits can't be applied, and how many can; how many can't."""
    # (an edit of the gate stands one folder deeper)
    crates = {it: edits.CRATES / (it.parent.parent if it.parent.name == "must-fail" else it.parent).name for it in found}
    misfits = [(it, why) for it, crate in crates.items() if (why := edits.misfit(it, crate))]
    for it, why in misfits:
        print(f"{it.relative_to(ROOT)}: {why}")
    print(f"{len(found) - len(misfits)} {what} fit their files, {len(misfits)} don't")
    return len(misfits)


def fit() -> int:
    good, others = edits.in_gate()
    for it in others:
        print(f"{it.relative_to(ROOT)}: the gate passes over it: an edit stands right in must-fail, and its name ends in .edit")
    unfit = tell_misfits(good, "wrong bodies of the gate") + len(others)
    unfit += tell_misfits(beside(), "wrong bodies beside the gate")
    plants = sorted(PLANTS.glob("**/*.patch"))
    wrong = [it for it in plants if not applies(it)]
    for it in wrong:
        print(f"{it.relative_to(ROOT)}: it can't be applied")
    print(f"{len(plants) - len(wrong)} wrong definitions and threads fit their files, {len(wrong)} don't")
    return 1 if unfit or wrong else 0


def applies(plant: pathlib.Path) -> bool:
    """Whether each piece of a patch of tools/plants stands in its file, with the lines around it."""
    text, piece, pieces = "", [], []
    for line in plant.read_text().split("\n"):
        if line.startswith("--- a/"):
            pieces.append((text, piece))
            file = ROOT / line.removeprefix("--- a/")
            text, piece = file.read_text() if file.is_file() else "", []
        elif line.startswith("@@ "):
            pieces.append((text, piece))
            piece = []
        elif line[:1] in (" ", "-") and not line.startswith("---"):
            piece.append(line[1:])
    pieces.append((text, piece))
    return all("\n".join(lines) in text for text, lines in pieces if lines)


class Report:
    """What came of edits: how many are refused, and what is wrong."""

    def __init__(self, keeps: bool) -> None:
        self.kept, self.keeps, self.wrong, self.counts = Kept(), keeps, 0, dict.fromkeys(("refused", "unknown"), 0)

    def refused(self, name: str, goal: "str | None") -> None:
        self.counts["refused"] += 1
        differs = self.kept.difference(name, goal)
        if differs:
            print(f"{name}: {differs}", flush=True)
            self.wrong += not self.keeps

    def tell(self, name: str, it: wrong_turn.Tried) -> None:
        """Tells what came of an edit in its turn."""
        if it.word == wrong_turn.REFUSED:
            print(f"{name}: refused by {it.goal}, {it.seconds:.0f} s", flush=True)
            self.refused(name, it.goal)
        elif it.word == wrong_turn.UNKNOWN:
            print(f"{name}: not tried: {it.why}", flush=True)
            self.counts["unknown"] += 1
        else:
            what = f"BAD EDIT: {it.why}" if it.word == wrong_turn.BAD else "NOT REFUSED: the crate is still proved with it"
            print(f"{name}: {what}", flush=True)
            self.wrong += 1

    def end(self) -> int:
        if self.keeps:
            print(f"{len(self.kept.seen)} goals are kept, of which {self.kept.keep()} weren't known")
        return 1 if self.wrong else 0

    def count(self) -> int:
        """The end, with how many edits came to what."""
        status = self.end()
        print(f"{self.counts['refused']} of them refused, {self.counts['unknown']} not tried, {self.wrong} wrong")
        return status


def take_turn(is_dry: bool, seconds: float, keeps: bool) -> int:
    content, found = wrong_turn.content(), beside()
    chosen = wrong_turn.turn(content, found)
    print(f"{len(chosen)} of the {len(found)} wrong bodies beside the gate have their turn with the files {content[:12] or 'of no commit'}", flush=True)
    if is_dry:
        print("".join(f"{wrong_turn.name_of(it)}\n" for it in chosen), end="")
        return 0
    # (on a slow machine it may be that there is time for none)
    report = Report(keeps)
    return over_libraries({it.parent.name for it in chosen}, report, lambda: wrong_turn.try_turn(chosen, seconds, report.tell))


def over_libraries(crates: Iterable[str], report: Report, tries: Callable[[], None]) -> int:
    """Tries edits of these crates over the libraries that stand here, where there are all, and tells what came of them: the status."""
    try:
        for crate in sorted(crates):
            prover.check_words(crate)
    except prover.NotBuilt as why:
        print(f"none is tried: {why}")
        return 1
    tries()
    return report.count()


def with_edits(crates: List[str]) -> List[str]:
    """These crates; where none is named, all that have edits here."""
    return crates or sorted(it.name for it in edits.BESIDE.iterdir() if it.is_dir())


def try_together(crates: List[str], keeps: bool) -> int:
    wanted, report = with_edits(crates), Report(keeps)
    return over_libraries(wanted, report, lambda: wrong_batches.try_crates(wanted, report.tell))


def try_all(crates: List[str], keeps: bool) -> int:
    wanted, report = with_edits(crates), Report(keeps)
    with tempfile.TemporaryDirectory(prefix="wrong-bodies-") as room:
        copy = pathlib.Path(room) / "copy"
        leave = shutil.ignore_patterns(".git", "bin", "must-fail", *(["out"] if kit.proves_by_name() else []))
        shutil.copytree(ROOT, copy, ignore=leave)
        (copy / ".git").mkdir()
        for crate in wanted:
            shutil.copytree(edits.BESIDE / crate, copy / "crates" / crate / "must-fail")
        env = {**os.environ, "RT_JOBS": str(os.cpu_count())}
        # (an rt ci that takes names takes what this machine has proved, which rt must-fail doesn't; else that takes what stands in out/)
        tries = ["rt", "ci", *wanted] if kit.proves_by_name() else ["rt", "must-fail", *wanted]
        ran = subprocess.Popen(tries, cwd=copy, env=env, stdout=subprocess.PIPE, text=True, errors="replace")
        for line in ran.stdout:
            read_try(line, report)
            if line.startswith(("must-fail ", "rt: ")) or "passed, " in line:
                print(line, end="", flush=True)
        ended = report.end()
        return ran.wait() or ended


def read_try(line: str, report: Report) -> None:
    """Reads what `rt` says of an edit: `must-fail CRATE/NAME.edit: refused, as it must be: GOAL`, or that it is bad."""
    label, refused, said = line.removeprefix("rt: ").rstrip("\n").partition(".edit: refused, as it must be")
    report.wrong += "BAD EDIT" in line
    if refused and label.startswith("must-fail "):
        report.refused(label.removeprefix("must-fail "), goal_of(said.partition(": ")[2]))


def main(words: List[str]) -> int:
    keeps = "--keep" in words
    words = [it for it in words if it != "--keep"]
    if words == ["fit"]:
        return fit()
    if words[:1] == ["turn"] and len(words) <= 2 and (words[1:] in ([], ["--dry"]) or words[1].isdecimal()):
        minutes = int(words[1]) if words[1:] and words[1].isdecimal() else None
        return take_turn("--dry" in words, wrong_turn.BUDGET if minutes is None else 60.0 * minutes, keeps)
    if words[:1] == ["try"]:
        return try_all(words[1:], keeps)
    if words[:1] == ["together"]:
        return try_together(words[1:], keeps)
    print(__doc__)
    return 2


if __name__ == "__main__":
    sys.exit(main(sys.argv[1:]))

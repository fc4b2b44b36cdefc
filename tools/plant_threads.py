#!/usr/bin/env python3
"""Makes the threads' code wrong where no contract can see it, one patch at a time, and says what a scene says to that:
tools/plant_threads.py [NAME..]

Each file of tools/plants/threads is a patch of code: a lock held too long, a wake that isn't made, a worker that doesn't
wait. In a copy of the repository it is applied, and the scenes of check_library are tried, unproved: one has to fail, or to
hang, for a minute. Some hangs are a matter of how threads happen to run, so it is tried up to three times.
Status 1 where no scene sees a change. Needs patch; a minute or more each.
"""
import pathlib
import shutil
import subprocess
import sys
import tempfile

ROOT = pathlib.Path(__file__).resolve().parent.parent
PLANTS = ROOT / "tools" / "plants" / "threads"
TRIES = 3
NOT_TRIED = "NOT TRIED"


def played(crate):
    """Plays the scenes. Returns what shows that something is wrong, or None where all is as it has to be."""
    ran = subprocess.run(["rt", "try"], cwd=crate, capture_output=True, text=True)
    said = ran.stdout + ran.stderr
    if "did not end within the time limit" in said:
        return f"hangs, the last line was: {next((it for it in reversed(said.splitlines()) if it.startswith('| ')), 'none')}"
    if "run=ended" not in said:
        return f"{NOT_TRIED}: {said.strip()[-400:]}"
    if ran.stdout == (crate / "stdout").read_text() and ran.returncode == 0:
        return None
    return "fails: " + next((it for it in said.splitlines() if it.startswith("Error")), "other output")


def seen(crate):
    """The same, tried several times."""
    for _ in range(TRIES):
        shown = played(crate)
        if shown:
            return shown
    return None


def main(names):
    plants = [it for it in sorted(PLANTS.glob("*.patch")) if not names or it.stem in names]
    unseen = 0
    with tempfile.TemporaryDirectory(prefix="plants-") as room:
        root = pathlib.Path(room) / "tirnouch"
        shutil.copytree(ROOT, root, ignore=shutil.ignore_patterns(".git", "out"))
        (root / ".git").mkdir()
        for plant in plants:
            patch = ["patch", "-p1", "--quiet", "-d", str(root), "-i", str(plant)]
            subprocess.run(patch, check=True)
            shown = seen(root / "crates" / "check_library")
            subprocess.run([*patch, "--reverse"], check=True)
            print(f"{plant.stem}: {shown or 'NO SCENE SEES IT'}", flush=True)
            unseen += shown is None or shown.startswith(NOT_TRIED)
    return 1 if unseen else 0


if __name__ == "__main__":
    sys.exit(main(sys.argv[1:]))

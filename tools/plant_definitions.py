#!/usr/bin/env python3
"""Makes definitions wrong, one at a time, and says which law or row refuses that: tools/plant_definitions.py [NAME..]

Each file of tools/plants is a patch of definitions. In a copy of the repository it is applied, and the crates that speak
of definitions alone are checked: worked rows, lemmas, laws. For each is printed what isn't proved, and at the end a
table. Of a crate that stands on a refused one nothing is tried, so lemmas that only follow the form of a definition may
hide a law; rows stand on the definitions alone, and are always tried.

The plain program isn't checked: its contracts are equations with the definitions, so a program that is made wrong along
with them is proved, and only laws and rows can refuse it. Status 1 where nothing refuses a change. Needs patch.
"""
import pathlib
import re
import shutil
import subprocess
import sys
import tempfile

ROOT = pathlib.Path(__file__).resolve().parent.parent
CRATES = ["usb_model", "proof_model", "proof_laws", "usb_core", "usb_plans"]


def libraries(root):
    """Returns the libraries of each crate, by the lines of crates.txt."""
    lines = (it.split("#")[0] for it in (root / "crates.txt").read_text().splitlines())
    return {name.strip(): below.split() for name, _, below in (it.partition(":") for it in lines if ":" in it)}


def refusals(root, crate):
    """Checks a crate and returns what of it isn't proved; none where all is."""
    ran = subprocess.run(["rt", "check"], cwd=root / "crates" / crate, capture_output=True, text=True)
    if ran.returncode == 0:
        return []
    said = ran.stdout + ran.stderr
    names = re.findall(r"^fn (\S+): (?:not proved|no proof)", said, re.M)
    names = names or re.findall(r"^\./(\S+?)\.antt:\d+:\d+: error", said, re.M)
    return sorted({*names}) or [said.strip().splitlines()[-1]]


def tried(plant, root):
    """Applies a patch, checks the crates, and takes it back. Returns what refuses it, by crate."""
    patch = ["patch", "-p1", "--quiet", "-d", str(root), "-i", str(plant)]
    subprocess.run(patch, check=True)
    below, found = libraries(root), {}
    for crate in CRATES:
        if not any(it in found for it in below[crate]):
            names = refusals(root, crate)
            if names:
                found[crate] = names
                print(f"  {crate}: {' '.join(names)}", flush=True)
    subprocess.run([*patch, "--reverse"], check=True)
    return found


def main(names):
    plants = sorted((ROOT / "tools" / "plants").glob("*.patch"))
    plants = [it for it in plants if not names or it.stem in names]
    told = {}
    with tempfile.TemporaryDirectory(prefix="plants-") as room:
        root = pathlib.Path(room) / "tirnouch"
        shutil.copytree(ROOT, root, ignore=shutil.ignore_patterns(".git"))
        (root / ".git").mkdir()
        for plant in plants:
            print(plant.stem, flush=True)
            told[plant.stem] = tried(plant, root)
    print()
    for name, found in told.items():
        print(f"{name}: {', '.join(found) if found else 'NOTHING REFUSES IT'}")
    return 0 if all(told.values()) else 1


if __name__ == "__main__":
    sys.exit(main(sys.argv[1:]))

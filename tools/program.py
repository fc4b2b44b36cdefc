#!/usr/bin/env python3
"""Crates that people use, built into bin/: the program usbtrace as bin/usbtrace, so that each scenario takes milliseconds.

    tools/program.py try [NAME ..]    builds usbtrace unproved, or other programs, or tirnouch_c, where their files changed: a minute or two each
    tools/program.py sanitized [NAME ..]  builds usbtrace, or other programs, as bin/NAME.sanitized, with the address sanitizer: it finds more
                                      than the checks of an unproved build, is hundreds of times slower, and can't run in little memory
    tools/program.py build            builds it proved, as the gate does, crate beside crate: what isn't kept on this machine is proved
    tools/program.py build NAME ..    the same of other crates: a program as bin/NAME, a static library as bin/libNAME.a
    tools/program.py keep             takes what the gate has just proved and built: usbtrace, check_library and check_parts; and notes the
                                      libraries over which `build tirnouch_c` then proves that crate alone
    tools/program.py state            says which usbtrace stands there, on standard error
    tools/program.py state NAME       how another crate was built that stands there, in a word: proved, unproved, trusted, or none

An unproved build has the same code with checks: it stops at an index out of bounds or an overflow, and says so. TRUST=1 takes them out of
an unproved tirnouch_c, which is `trusted` then: the compiler takes for granted that none can fail."""
import hashlib
import os
import pathlib
import shutil
import subprocess
import sys
import tempfile

import crate_graph
import progress
import unproved

ROOT = pathlib.Path(__file__).resolve().parent.parent
BIN = ROOT / "bin"
CRATES = ROOT / "crates"
# The programs that are taken from the gate, which tools/hostile tries.
KEPT = ("usbtrace", "check_library", "check_parts")
# The static libraries that are built over libraries of the gate.
OVER_THE_GATE = ("tirnouch_c",)
# The kit: the folder above that of `rt`.
KIT = pathlib.Path(shutil.which("rt") or "rt").resolve().parent.parent
# What the name of a build with the address sanitizer ends in.
SANITIZED = ".sanitized"
# Words with which a run of a program is short, by which it is built with the sanitizer; of others, without words.
SHORT = {"usbtrace": ("run",), "check_library": ("refusals",), "check_parts": ("refusals", "1")}


def sum_of_files(name):
    """A sum of all that a crate is made of."""
    known, made = crate_graph.lines(), hashlib.sha256()
    for it in sorted(crate_graph.below(name)):
        made.update(known[it].encode())
        for part in ("src", "specs", "proofs"):
            for path in sorted((CRATES / it / part).rglob("*")):
                if path.is_file():
                    made.update(str(path.relative_to(ROOT)).encode() + b"\0" + path.read_bytes())
    return made.hexdigest()


def place(name, kind=""):
    """Where a crate's build goes, and where it is noted how it was built: a word, and the sum of its files."""
    built = BIN / (f"lib{name}.a" if crate_graph.is_static(name) else f"{name}{kind}")
    return built, BIN / f"{built.name}.state"


def state(name, kind=""):
    """How the build that stands there was made, if it is that of today's files."""
    built, noted = place(name, kind)
    if not built.is_file() or not noted.is_file():
        return None
    how, _, made_of = noted.read_text().partition(" ")
    return how if made_of.strip() == sum_of_files(name) else None


def keep(name, file, how, made_of, kind=""):
    """Puts a build in its place, whole or not at all."""
    built, noted = place(name, kind)
    BIN.mkdir(exist_ok=True)
    new = BIN / f"{built.name}.new"
    shutil.copyfile(file, new)
    new.chmod(0o755)
    new.replace(built)
    noted.write_text(f"{how} {made_of}\n")


def build_unproved(name):
    """An unproved program, or tirnouch_c, where another isn't there already."""
    static = crate_graph.is_static(name)
    how = "trusted" if static and os.environ.get("TRUST") else "unproved"
    if state(name) in ("proved", how):
        return 0
    made_of = sum_of_files(name)
    with tempfile.TemporaryDirectory(prefix=f"{name}-") as folder:
        folder = pathlib.Path(folder)
        try:
            built = unproved_library(name, folder, how) if static else unproved.build_program(copy_of(name, folder), folder, KIT)
        except unproved.NotBuilt as why:
            print(f"{name} isn't built: {why}", file=sys.stderr)
            return 1
        keep(name, built, how, made_of)
    return 0


def build_sanitized(name):
    """A program with the address sanitizer, where one isn't there already."""
    if crate_graph.is_static(name):
        print(f"{name} isn't built: only programs are built with the sanitizer", file=sys.stderr)
        return 1
    if state(name, SANITIZED) == "sanitized":
        return 0
    made_of = sum_of_files(name)
    with tempfile.TemporaryDirectory(prefix=f"{name}-") as folder:
        try:
            built = sanitized_program(name, pathlib.Path(folder))
        except unproved.NotBuilt as why:
            print(f"{name} isn't built: {why}", file=sys.stderr)
            return 1
        keep(name, built, "sanitized", made_of, SANITIZED)
    return 0


def sanitized_program(name, folder):
    """The program that `rt try` makes and runs."""
    watch = unproved.Watch(folder, "program")
    watch.start()
    words = ["rt", "try", "--steps", "1", "--", *SHORT.get(name, ())]
    env = {**os.environ, "TMPDIR": str(folder)}
    ran = subprocess.run(words, cwd=CRATES / name, env=env, stdin=subprocess.DEVNULL, capture_output=True, text=True)
    watch.end()
    if ran.returncode or not watch.found:
        sys.stderr.write(ran.stdout + ran.stderr)
        raise unproved.NotBuilt("rt try made no program: see above")
    return watch.found[0][1]


def unproved_library(name, folder, how):
    """The static library, from a copy of its crates."""
    if name != "tirnouch_c":
        raise unproved.NotBuilt("of the static libraries only tirnouch_c is built unproved")
    return unproved.build(copy_of(name, folder), folder, KIT, how == "trusted")


def copy_of(name, folder):
    """A crate in a copy of its own, with those that it stands on."""
    copy_below(name, folder / "repository", set())
    return folder / "repository" / "crates" / name


def copy_below(name, folder, leaves_out):
    """Copies a crate and those that it stands on, without wrong bodies, into a repository of their own."""
    names = [it for it in crate_graph.below(name) if it not in leaves_out]
    for it in names:
        shutil.copytree(CRATES / it, folder / "crates" / it, ignore=shutil.ignore_patterns("out", "must-fail"))
    (folder / "crates.txt").write_text("".join(line + "\n" for it, line in crate_graph.lines().items() if it in names))
    shutil.copyfile(ROOT / "HANDLES", folder / "HANDLES")
    (folder / ".git").mkdir()


def library(name, folder):
    """Where the gate, run in a folder, leaves a library that it proved."""
    return folder / "crates" / name / "out" / "rlib" / f"{name}.rlib"


def sum_of_libraries(name):
    """A sum of the libraries below a crate that stand in this clone; None where one lacks."""
    made = hashlib.sha256()
    for it in crate_graph.below(name)[:-1]:
        files = [it for it in sorted([library(it, ROOT), *library(it, ROOT).rglob("*")]) if it.is_file()]
        if not files:
            return None
        for path in files:
            made.update(str(path.relative_to(ROOT)).encode() + b"\0" + hashlib.sha256(path.read_bytes()).digest())
    return made.hexdigest()


def noted_libraries(name):
    return BIN / f"{name}.libraries"


def note_libraries(name):
    """Notes which libraries the gate has just proved, and of which files."""
    if made := sum_of_libraries(name):
        noted_libraries(name).write_text(f"{sum_of_files(name)} {made}\n")


def stands_on_the_gate(name):
    """Whether the libraries below a crate are those that the gate proved, of today's files."""
    noted = noted_libraries(name)
    return noted.is_file() and noted.read_text().split() == [sum_of_files(name), sum_of_libraries(name)]


def prove_static(name, folder, to):
    """Proves and builds a static library over the libraries that were built below a folder: 0, or the prover's status."""
    known, used = crate_graph.lines(), crate_graph.named(name)
    all_below = [it for it in crate_graph.below(name) if it != name]
    words = [KIT / "bin" / "rattle", "build", "--crate-name", name, "--crate-type", "staticlib", "src/lib.rt"]
    for it in ["std", *(it for it in used if it not in known)]:
        words += ["--extern", f"{it}={KIT}/rlibs/{it}.rlib"]
    for it in used:
        words += ["--extern", f"{it}={library(it, folder)}"] * (it in known)
    for it in [KIT / "rlibs", *(library(it, folder).parent for it in all_below)]:
        words += ["-L", f"dependency={it}"]
    words += ["--antt-project", KIT / "rattle" / "logic" / "antt-project.json", "--logic-built", KIT / "logic_built"]
    words += ["--links", f"{name}=", "--jobs", "1", "--toolchain", KIT / "toolchain", "-o", to / f"lib{name}.a"]
    return progress.prove(name, [name], words, sys.stderr, cwd=CRATES / name, quiet=True)


def build(name):
    """A proved crate, where it isn't there already."""
    if state(name) == "proved":
        return 0
    made_of, static = sum_of_files(name), crate_graph.is_static(name)
    with tempfile.TemporaryDirectory(prefix=f"{name}-") as folder:
        folder = pathlib.Path(folder)
        if static and stands_on_the_gate(name):
            status = prove_static(name, ROOT, folder)
        else:
            status = prove_below(name, folder, static)
        if status:
            return status
        keep(name, folder / f"lib{name}.a" if static else folder / "crates" / name / "out" / name, "proved", made_of)
    print(f"{place(name)[0].relative_to(ROOT)} is proved", file=sys.stderr)
    return 0


def prove_below(name, folder, static):
    """Proves a crate and those below it in a folder, as the gate does."""
    copy_below(name, folder, {name} if static else set())
    env = {**os.environ, "RT_JOBS": str(os.cpu_count())}
    names = [it for it in crate_graph.below(name) if it != name or not static]
    status = progress.prove(name, names, ["rt", "ci"], sys.stderr, cwd=folder, quiet=True, environment=env)
    return status or (prove_static(name, folder, folder) if static else 0)


def take_from_gate(name):
    """A program that the gate has just built."""
    built = CRATES / name / "out" / name
    if not built.is_file():
        print(f"there is no crates/{name}/out/{name}: the gate builds it", file=sys.stderr)
        return 1
    keep(name, built, "proved", sum_of_files(name))
    return 0


def tell():
    how = state("usbtrace")
    if how == "unproved":
        print("bin/usbtrace is an unproved build; `make build` proves it", file=sys.stderr)
    elif how is None:
        print("there is no bin/usbtrace of these files; `make run` builds one", file=sys.stderr)
    return 0


def each(done, names):
    """Does this for each name, up to the first that it fails for."""
    return next((status for it in names if (status := done(it))), 0)


def main(words):
    word, names = (words or [""])[0], words[1:]
    if words == ["keep"]:
        status = each(take_from_gate, KEPT)
        for name in OVER_THE_GATE:
            note_libraries(name)
        return status
    if words == ["state"]:
        return tell()
    if word not in ("try", "sanitized", "build", "state"):
        print(__doc__)
        return 2
    strange = [it for it in names if it not in crate_graph.lines()]
    if strange:
        print(f"crates.txt has no {strange[0]}", file=sys.stderr)
        return 2
    if word == "state":
        print("\n".join(state(it) or "none" for it in names))
        return 0
    return each({"try": build_unproved, "sanitized": build_sanitized, "build": build}[word], names or ["usbtrace"])


sys.exit(main(sys.argv[1:]))

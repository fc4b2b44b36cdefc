#!/usr/bin/env python3
"""Runs the scenes of c/tests/usb on libusb itself, and compares: tools/c_compare.py [--root DIR] [--show] [NAME ..].

The same sources are built against libusb's own shared library, which runs unchanged over a USB bus that is faked in the process
(c/compare): the devices' text is the same, and the kernel's answers are those of Linux. Each call of a program's `main` is a process of its
own, so that one that doesn't end stops no other. Devices answer when events are handled, as with Tirnouch; and once more at once, as a
fast one does: `NAME (fast)` is what differs in that run alone.

What differs from an .expected file must stand in c/compare/differences.txt, with the row of docs/C.md, "What differs", that says why;
`--show` prints what differs in the form of that file. Each scene that docs/RACES.md names must be there.

DIR names a folder into which Debian's libusb-1.0-0 was unpacked (`apt-get download`, `dpkg -x`); without it the system's is taken."""
import argparse
import difflib
import os
import pathlib
import re
import subprocess
import sys
import tempfile
from concurrent.futures import ThreadPoolExecutor

ROOT = pathlib.Path(__file__).resolve().parent.parent
TESTS, FAKED = ROOT / "c" / "tests" / "usb", ROOT / "c" / "compare"
DIFFERENCES = FAKED / "differences.txt"
FLAGS = ["-std=c11", "-g", "-O1", "-Wall", "-Wextra", "-pedantic", "-Werror", "-D_GNU_SOURCE"]
NAME = "libusb-1.0.so.0"
FOLDERS = ["usr/lib/x86_64-linux-gnu", "lib/x86_64-linux-gnu", "usr/lib/aarch64-linux-gnu", "usr/lib64", "usr/lib"]
SECONDS = 40
# Programs that try what libusb has no part in, or leaves undefined.
LEFT_OUT = {
    **{name: "its devices compute their answers" for name in ("departures", "living", "sessions", "endless", "programs", "inside",
                                                              "together", "scarce", "unready")},
    **{name: "its buses begin and end by Tirnouch's calls" for name in ("bare", "buses", "functions", "kept", "outlive", "within")},
    "amid": "its log is Tirnouch's, and of calls from signals' handlers libusb promises nothing",
    "inserted": "the files that its texts name are Tirnouch's",
    "misuse": "what is wrong in it is undefined there",
    "expects": "what it expects of a driver is Tirnouch's",
    "environment": "its variables are Tirnouch's",
    "fork": "libusb says nothing of a child of fork",
    "memory": "it refuses Tirnouch's own allocations",
    "races": "it releases, resets and closes in flight, which libusb leaves undefined",
    "reports": "what it asks of a run is Tirnouch's",
    "seeds": "its seeds are Tirnouch's",
    "speaks": "its messages are Tirnouch's",
    "texts": "its refusals are Tirnouch's",
}
# Programs that call what an older libusb lacks: they are run where it has this function.
SINCE = {"capabilities": "libusb_get_platform_descriptor", "discovery": "libusb_init_context", "lifetimes": "libusb_init_context"}
# Programs of which these scenes alone are libusb's too, by their calls; the others' subject is Tirnouch's own.
ALONE = {
    "late": {"slow_callback();": "another thread's callback takes longer than a timeout"},
    "told": {"logs();": "log callbacks", "streams();": "a stream's number"},
    "unwritten": {"without_a_seed();": "without a seed"},
}
# Calls that libusb's manual forbids, so that anything may come of them.
NOT_RUN = {"exit": {"exit_amid_events(1);", "exit_amid_events(THREADS);", "open_at_exit();"}, "hotplug": {"exit_within();"}}


def find_library(root):
    """libusb's own shared library, or None."""
    for folder in FOLDERS:
        file = (root or pathlib.Path("/")) / folder / NAME
        if file.exists() and b"tirnouch_plug" not in file.read_bytes():
            return file.resolve()
    return None


def has_functions(library, name):
    """Whether a program's functions are all there."""
    return name not in SINCE or SINCE[name].encode() in library.read_bytes()


def header_folders(root):
    """Where libusb.h is looked for: libusb's own first, where it is there."""
    folders = [(root or pathlib.Path("/")) / "usr" / "include" / "libusb-1.0", ROOT / "c" / "include"]
    return [f"-I{folder}" for folder in folders if folder.is_dir()]


def calls_of(name):
    """The calls that a program's `main` makes."""
    body = re.search(r"^int main\(void\)\n\{\n(.*?)^\}", (TESTS / f"{name}.c").read_text(), re.S | re.M)
    return [line.strip() for line in body[1].splitlines() if line.strip() != "return 0;"]


def split_source(name, folder):
    """A source whose `main` makes one of those calls, by its number."""
    cases = "".join(f"    case {i}: {call} break;\n" for i, call in enumerate(calls_of(name)))
    source = folder / f"{name}.c"
    source.write_text(
        f'#define main every_call\n#include "{TESTS}/{name}.c"\n#undef main\n#include <stdlib.h>\n#include <stdio.h>\n\n'
        "int main(int count, char **words)\n{\n    setvbuf(stdout, NULL, _IOLBF, 0);\n"
        f"    switch (count > 1 ? atoi(words[1]) : -1) {{\n{cases}    default: return 2;\n    }}\n    return 0;\n}}\n")
    return source


def lacking_source(folder):
    """A source with those functions of tirnouch.h that the faked bus lacks: one that is called says so, and ends its process."""
    declared = re.findall(r"^\w+ (tirnouch_\w+)\(", (ROOT / "c" / "include" / "tirnouch.h").read_text(), re.M)
    defined = re.findall(r"^\w+ (tirnouch_\w+)\(", "".join(it.read_text() for it in FAKED.glob("*.c")), re.M)
    source = folder / "lacking.c"
    functions = "".join(f'void {it}(void)\n{{\n    lacks("{it}");\n}}\n' for it in declared if it not in defined)
    source.write_text(
        "#include <stdio.h>\n#include <stdlib.h>\n\nstatic void lacks(const char *name)\n"
        f'{{\n    printf("  (the faked bus has no %s)\\n", name);\n    exit(3);\n}}\n{functions}')
    return source


class Builder:
    """Builds programs against libusb over the faked bus."""

    def __init__(self, library, root, folder):
        self.library, self.folder = library, folder
        self.words = [os.environ.get("CC", "cc"), *FLAGS, *header_folders(root), f"-I{TESTS}"]
        with ThreadPoolExecutor(os.cpu_count()) as pool:
            self.objects = list(pool.map(self.compile, [*sorted(FAKED.glob("*.c")), TESTS / "scene.c", lacking_source(folder)]))

    def compile(self, source):
        built = self.folder / f"{source.stem}.o"
        subprocess.run([*self.words, "-c", source, "-o", built], check=True)
        return built

    def build(self, name):
        program = self.folder / name
        links = [self.library, "-Wl,--allow-shlib-undefined", "-rdynamic", "-pthread"]
        source = split_source(name, self.folder)
        if subprocess.run([*self.words, source, *self.objects, *links, "-o", program]).returncode:
            sys.exit(f"c/tests/usb/{name}.c isn't built on {self.library}, for the reasons above: where this libusb lacks a function, "
                     "SINCE of tools/c_compare.py names it; where the scenes are Tirnouch's own, LEFT_OUT")
        return program


def environment_of(library, is_fast):
    words = {name: value for name, value in os.environ.items() if not name.startswith(("TIRNOUCH_", "LIBUSB_", "LD_", "FAKED_"))}
    return {**words, "LD_LIBRARY_PATH": str(library.parent), **({"FAKED_BUS": "fast"} if is_fast else {})}


def run(program, call, library, is_fast):
    """The lines that one process prints; one more where it doesn't end well."""
    with tempfile.TemporaryFile("w+") as out:
        try:
            status = subprocess.run([program, str(call)], cwd=TESTS, env=environment_of(library, is_fast), stdout=out,
                                    stderr=subprocess.DEVNULL, timeout=SECONDS).returncode
            last = [f"  (ends with status {status})"] if status else []
        except subprocess.TimeoutExpired:
            last = ["  (doesn't end)"]
        out.seek(0)
        return out.read().splitlines() + last


def scenes_of(lines):
    """Lines by scenes: a title, and what stands behind it."""
    scenes = []
    for line in lines:
        if line.startswith("  ") and scenes:
            scenes[-1][1].append(line[2:])
        else:
            scenes.append((line, []))
    return scenes


def expected_scenes(name):
    return scenes_of((TESTS / f"{name}.expected").read_text().splitlines())


def compared_scenes(name):
    """Those of them that aren't Tirnouch's own."""
    return [scene for scene in expected_scenes(name) if name not in ALONE or scene[0] in ALONE[name].values()]


def is_run(name, call):
    return call not in NOT_RUN.get(name, ()) and (name not in ALONE or call in ALONE[name])


def count_scenes(names):
    return sum(len(compared_scenes(name)) for name in names)


def compare(name, told):
    """What differs of a program, by titles: the expected lines with -, libusb's with +."""
    here, there = compared_scenes(name), scenes_of(told)
    titles = difflib.SequenceMatcher(None, [it[0] for it in here], [it[0] for it in there], autojunk=False)
    partner = {block.a + i: block.b + i for block in titles.get_matching_blocks() for i in range(block.size)}
    for i, (title, lines) in enumerate(here):
        differing = ["+ (isn't run)"]
        if i in partner:
            differing = [f"{it[0]} {it[2:]}" for it in difflib.ndiff(lines, there[partner[i]][1]) if it[0] in "-+"]
        if differing:
            yield title, differing


def run_programs(library, root, names, folder):
    """What differs of all programs, by heads: `NAME: TITLE`, and `NAME (fast): TITLE` for what only a fast device has."""
    builder = Builder(library, root, folder)
    with ThreadPoolExecutor(os.cpu_count()) as pool:
        programs = dict(zip(names, pool.map(builder.build, names)))
    jobs = [(name, i, is_fast) for is_fast in (False, True) for name in names for i, call in enumerate(calls_of(name))
            if is_run(name, call)]
    told = {(name, is_fast): [] for name in names for is_fast in (False, True)}
    with ThreadPoolExecutor(32) as pool:
        for (name, _, is_fast), lines in zip(jobs, pool.map(lambda it: run(programs[it[0]], it[1], library, it[2]), jobs)):
            told[name, is_fast] += lines
    differing = {}
    for name in names:
        slow = dict(compare(name, told[name, False]))
        fast = {title: lines for title, lines in compare(name, told[name, True]) if slow.get(title) != lines}
        differing.update({f"{name}: {title}": lines for title, lines in slow.items()})
        differing.update({f"{name} (fast): {title}": lines for title, lines in fast.items()})
    return differing


def read_differences():
    """The file's: what stands under each head, and its reasons."""
    found, reasons, head = {}, {}, None
    for line in DIFFERENCES.read_text().splitlines():
        if line[:2] in ("- ", "+ "):
            found[head].append(line)
        elif line.startswith("= "):
            reasons[head].append(line[2:])
        elif line and not line.startswith("#"):
            head = line
            found[head], reasons[head] = [], []
    return found, reasons


def reasons_of_page():
    """The first cells of docs/C.md's table of what differs, without their marks."""
    page = (ROOT / "docs" / "C.md").read_text().split("\n## What differs\n")[1].split("\n## ")[0]
    return {line.split("|")[1].strip().replace("`", "") for line in page.splitlines() if line.startswith("|")}


def judge(differing, names):
    """What is wrong, in sentences: a difference that the file lacks or has otherwise, and a reason that the page lacks."""
    found, reasons = read_differences()
    for head, lines in differing.items():
        if found.get(head) != lines:
            yield "\n".join([f"{head}: c/compare/differences.txt has {'other' if head in found else 'no such'} lines", *lines])
    for head in found:
        if re.split(r" \(fast\)|:", head)[0] in names and head not in differing:
            yield f"{head}: differs no more"
    for head, some in reasons.items():
        if not some:
            yield f"{head}: has no reason"
        for reason in sorted(set(some) - reasons_of_page()):
            yield f"{head}: docs/C.md has no row {reason!r}"


def judge_names():
    """Scenes that docs/RACES.md names and that aren't there."""
    page = " ".join((ROOT / "docs" / "RACES.md").read_text().split())
    for name, titles in re.findall(r'scenes? `(\w+)`, ((?:"[^"]*"(?:, | and )?)+)', page):
        file = TESTS / f"{name}.expected"
        known = [it[0] for it in expected_scenes(name)] if file.exists() else []
        for title in re.findall(r'"([^"]*)"', titles):
            if title not in known:
                yield f'docs/RACES.md names a scene of {name} that isn\'t there: "{title}"'


def judge_tables():
    """Programs, calls and titles of the tables above that aren't there."""
    for name in [*LEFT_OUT, *SINCE, *ALONE, *NOT_RUN]:
        if not (TESTS / f"{name}.expected").exists():
            yield f"tools/c_compare.py names a program that isn't there: {name}"
    for name, call in [(name, call) for table in (ALONE, NOT_RUN) for name, calls in table.items() for call in calls]:
        if call not in calls_of(name):
            yield f"tools/c_compare.py names a call of {name} that isn't there: {call}"
    for name, title in [(name, title) for name, scenes in ALONE.items() for title in scenes.values()]:
        if title not in [it[0] for it in expected_scenes(name)]:
            yield f'tools/c_compare.py names a scene of {name} that isn\'t there: "{title}"'


def arguments():
    parser = argparse.ArgumentParser(description=__doc__.splitlines()[0])
    parser.add_argument("--root", type=pathlib.Path, metavar="DIR", help="a folder into which libusb-1.0-0 was unpacked")
    parser.add_argument("--show", action="store_true", help="prints what differs")
    parser.add_argument("names", nargs="*", metavar="NAME")
    return parser.parse_args()


def main():
    words = arguments()
    faults = [*judge_names(), *judge_tables()]
    print("".join(f"{it}\n" for it in faults), end="")
    library = find_library(words.root)
    names = words.names or sorted(it.stem for it in TESTS.glob("*.expected") if it.stem not in LEFT_OUT)
    if not library and words.root:
        print(f"{words.root} has no {NAME} of libusb's: Debian's libusb-1.0-0 is unpacked there by `dpkg -x`")
        return 1
    if not library:
        print(f"skipped: libusb isn't installed, so {count_scenes(names)} scenes of {len(names)} programs aren't compared with it "
              "(`apt-get install libusb-1.0-0`, or --root DIR)")
        return 1 if faults else 0
    print("".join(f"{it}: isn't run, since this libusb lacks {SINCE[it]}\n" for it in names if not has_functions(library, it)), end="")
    names = [it for it in names if has_functions(library, it)]
    with tempfile.TemporaryDirectory(prefix="c-compare-") as folder:
        differing = run_programs(library, words.root, names, pathlib.Path(folder))
    if words.show:
        print("\n\n".join("\n".join([head, *lines]) for head, lines in differing.items()))
        return 0
    wrong = list(judge(differing, names))
    print("".join(f"{it}\n" for it in wrong), end="")
    print(f"{count_scenes(names)} scenes of {len(names)} programs, on {library}: {len(differing)} differ; {len(faults + wrong)} faults")
    return 1 if faults or wrong else 0


if __name__ == "__main__":
    sys.exit(main())

#!/usr/bin/env python3
"""Tries make install, uninstall, dist and deb: tools/install_test.py [NAME ..], where a NAME is that of a trial below.

It installs what stands in bin/ into folders of its own, and uses it there without the repository: programs are built by pkg-config, CMake
and meson with an environment that is cleared, and run by the installed tirnouch-run, plainly, statically, from an archive, from a
package, and in a root folder that has nothing else. What a tool that isn't installed here would try is skipped, and reported."""
import hashlib
import os
import pathlib
import re
import shutil
import subprocess
import sys
import tarfile
import tempfile
from concurrent.futures import ThreadPoolExecutor
from typing import Callable, Dict, List, Sequence, Union

ROOT = pathlib.Path(__file__).resolve().parent.parent
EXAMPLE = ROOT / "c" / "example"
EXPECTED = (EXAMPLE / "expected").read_text()
VERSION = (ROOT / "VERSION").read_text().strip()
SECONDS = 300
Word = Union[str, pathlib.Path]
Ran = subprocess.CompletedProcess[str]
# What docs/INSTALL.md promises, below the prefix.
PROMISED = """bin/tirnouch-run bin/tirnouch-record bin/tirnouch-replay bin/usbtrace lib/tirnouch/libtirnouch-record.so
    share/man/man1/tirnouch-record.1 share/bash-completion/completions/tirnouch-record share/zsh/site-functions/_tirnouch-record
    share/fish/vendor_completions.d/tirnouch-record.fish
    lib/tirnouch/libusb-1.0.so.0 lib/tirnouch/libusb-1.0.so lib/tirnouch/libusb-1.0.a
    lib/tirnouch/libtirnouch_core.a lib/pkgconfig/tirnouch-libusb.pc lib/pkgconfig/tirnouch-core.pc include/tirnouch/libusb-1.0/libusb.h
    include/tirnouch/tirnouch/tirnouch.h include/tirnouch/tirnouch/tirnouch_core.h share/man/man1/usbtrace.1
    share/man/man1/tirnouch-run.1 share/man/man1/tirnouch-replay.1 share/bash-completion/completions/usbtrace
    share/bash-completion/completions/tirnouch-run share/zsh/site-functions/_usbtrace share/zsh/site-functions/_tirnouch-run
    share/fish/vendor_completions.d/usbtrace.fish share/fish/vendor_completions.d/tirnouch-run.fish share/doc/tirnouch/INSTALL.md
    share/doc/tirnouch/C.md share/doc/tirnouch/LICENSE share/doc/tirnouch/BUILD share/doc/tirnouch/examples/driver/driver.c""".split()
# Each include that is promised, each in a file of its own.
INCLUDES = {"libusb.h": "libusb_init(NULL)", "libusb-1.0/libusb.h": "libusb_init(NULL)", "tirnouch/tirnouch.h": "tirnouch_show(0)"}
CMAKE = """cmake_minimum_required(VERSION 3.10)
project(driver C)
find_package(PkgConfig REQUIRED)
pkg_check_modules(USB REQUIRED IMPORTED_TARGET tirnouch-libusb)
add_executable(driver driver.c)
target_link_libraries(driver PkgConfig::USB)
"""
MESON = """project('driver', 'c')
executable('driver', 'driver.c', dependencies: dependency('tirnouch-libusb'))
"""
# What bash, zsh and fish are to offer behind words: some of what they offer, by what stands before.
OFFERED = {
    "usbtrace dr": ["draw"],
    "usbtrace de": ["describe", "device", "devices"],
    "usbtrace draw --h": ["--help", "--html"],
    "usbtrace live --r": ["--rounds"],
    "tirnouch-record --de": ["--device"],
    "tirnouch-record -o oth": ["other.txt"],
    "tirnouch-record -o run.pcap -- dirna": ["dirname"],
    "tirnouch-run devices.txt --se": ["--seed", "--seeds"],
    "tirnouch-run dev": ["devices.txt"],
    "tirnouch-run devices.txt --trace oth": ["other.txt"],
    "tirnouch-run devices.txt -- ./dri": ["./driver"],
    "tirnouch-run devices.txt -- ./driver oth": ["other.txt"],
    "tirnouch-run devices.txt -- dirna": ["dirname"],
    "tirnouch-run devices.txt -- usbtrace dr": ["draw"],
}
# With it bash completes the words of the program behind --; without it files alone.
BASH_COMPLETION = pathlib.Path("/usr/share/bash-completion/bash_completion")


class Trial:
    """A folder of its own, what was wrong, and what couldn't be tried."""

    def __init__(self, shared: pathlib.Path, folder: pathlib.Path) -> None:
        self.prefix, self.folder = shared / "prefix", folder
        self.faults: List[str] = []
        self.skipped: List[str] = []

    def check(self, is_so: bool, sentence: str) -> None:
        if not is_so:
            self.faults.append(sentence)

    def run(self, *words: Word, cwd: pathlib.Path = ROOT, **env: str) -> Ran:
        """Runs a program with a cleared environment."""
        clear = {"PATH": "/usr/local/bin:/usr/bin:/bin", "LC_ALL": "C.UTF-8", "HOME": str(self.folder), "TMPDIR": str(self.folder)}
        return subprocess.run([str(it) for it in words], cwd=cwd, env={**clear, **env}, capture_output=True, text=True, timeout=SECONDS,
                              check=False)

    def here(self, *words: Word, **env: str) -> Ran:
        return self.run(*words, cwd=self.folder, **env)

    def expect(self, ran: Ran, status: int, *sentences: str) -> None:
        """The status; and each sentence stands in what was printed."""
        said = f"{ran.args[0]} printed {ran.stdout[-600:]!r} {ran.stderr[-600:]!r}"
        self.check(ran.returncode == status, f"status {ran.returncode}, not {status}: {said}")
        for sentence in sentences:
            self.check(sentence in ran.stdout + ran.stderr, f"{sentence!r} isn't there: {said}")

    def has(self, *programs: str) -> bool:
        """Whether they are installed here; else that is reported."""
        missing = [it for it in programs if not shutil.which(it, path="/usr/local/bin:/usr/bin:/bin")]
        self.skipped += [f"there is no {it}" for it in missing]
        return not missing

    def install(self, *more: str) -> Ran:
        return self.run(sys.executable, "tools/install", "install", *more)

    def build(self, source: pathlib.Path, program: str, *more: str, prefix: pathlib.Path, package: str = "tirnouch-libusb") -> pathlib.Path:
        """Builds a program, of a file or of a folder's files, outside of the repository, by pkg-config."""
        asked = self.here("pkg-config", "--cflags", "--libs", *(["--static"] if "-static" in more else []), package,
                          PKG_CONFIG_PATH=str(prefix / "lib" / "pkgconfig"))
        self.expect(asked, 0)
        copied = pathlib.Path(shutil.copytree(source, self.folder / f"{program}.of") if source.is_dir() else
                              shutil.copy(source, self.folder / f"{program}.c"))
        sources = sorted(copied.glob("*.c")) if copied.is_dir() else [copied]
        words = [it.replace("\0", " ") for it in asked.stdout.replace("\\ ", "\0").split()]
        self.expect(self.here("cc", "-Wall", "-Werror", *sources, *words, "-pthread", *more, "-o", program), 0)
        return self.folder / program

    def drive(self, prefix: pathlib.Path, driver: pathlib.Path) -> None:
        """The example's driver, by tirnouch-run and plainly, does what the repository's page says (c/example/expected)."""
        devices = shutil.copy(EXAMPLE / "devices.txt", self.folder)
        for ran in (self.here(prefix / "bin" / "tirnouch-run", devices, "--", driver), self.here(driver, TIRNOUCH_DEVICES=str(devices))):
            self.expect(ran, 0)
            self.check(ran.stdout == EXPECTED, f"{ran.args}: {ran.stdout!r} isn't {EXPECTED!r}")


def files_of(folder: pathlib.Path) -> List[str]:
    return sorted(str(it.relative_to(folder)) for it in folder.rglob("*") if it.is_symlink() or not it.is_dir())


def files_are_where_the_page_says(trial: Trial) -> None:
    for make in range(2):
        trial.expect(trial.run("make", "--no-print-directory", "install", "PREFIX=/opt/a b", f"DESTDIR={trial.folder}/dest"), 0)
    root = trial.folder / "dest" / "opt" / "a b"
    files = files_of(root)
    trial.check(set(PROMISED) <= set(files), f"these aren't there: {sorted(set(PROMISED) - set(files))}")
    trial.check(files_of(trial.folder) == [f"dest/opt/a b/{it}" for it in files], "something is elsewhere")
    # The system's own names: what a loader, a linker, a compiler or pkg-config would find in these folders without being asked.
    taken = [it for it in files if re.fullmatch(r"lib/[^/]*libusb.*|lib/pkgconfig/libusb.*|include/libusb.*", it)]
    trial.check(not taken, f"these stand in the place of the system's: {taken}")
    for name, place in {"libusb-1.0.so.0": "lib/tirnouch/libusb-1.0.so.0", "usbtrace": "bin/usbtrace"}.items():
        trial.check((root / place).read_bytes() == (ROOT / "bin" / name).read_bytes(), f"{place} isn't bin/{name}")
    trial.check(os.readlink(root / "lib/tirnouch/libusb-1.0.so") == "libusb-1.0.so.0", "libusb-1.0.so is another link")
    modes = {it: oct((root / it).stat().st_mode & 0o7777) for it in files}
    wrong = [it for it, mode in modes.items() if mode != ("0o755" if it.startswith("bin/") else "0o644")]
    trial.check(not wrong, f"these have other modes: {wrong}")
    own = root / "share" / "doc" / "tirnouch" / "mine.txt"
    own.write_text("kept")
    trial.expect(trial.run("make", "--no-print-directory", "uninstall", "PREFIX=/opt/a b", f"DESTDIR={trial.folder}/dest"), 0, "removed ")
    trial.check(files_of(trial.folder) == [str(own.relative_to(trial.folder))], f"these are left: {files_of(trial.folder)}")


def an_older_installation_leaves_nothing(trial: Trial) -> None:
    prefix = trial.folder / "prefix"
    trial.expect(trial.install("--prefix", str(prefix)), 0)
    old = prefix / "share" / "tirnouch" / "older" / "old.py"
    old.parent.mkdir()
    old.write_text("")
    with (prefix / "share" / "tirnouch" / "installed").open("a") as listed:
        listed.write("file share/tirnouch/older/old.py\nfolder share/tirnouch/older\n")
    before = files_of(prefix)
    trial.expect(trial.install("--prefix", str(prefix)), 0)
    trial.check(files_of(prefix) == [it for it in before if not it.endswith("/old.py")], "the files aren't those of one installation")
    trial.check(not old.parent.exists(), "a folder of the older one is left")
    trial.expect(trial.run(sys.executable, "tools/install", "uninstall", "--prefix", str(prefix)), 0)
    trial.check(not prefix.exists(), f"uninstall left {files_of(prefix)}")


def what_is_wrong_is_said(trial: Trial) -> None:
    empty, file = trial.folder / "bin", trial.folder / "file"
    empty.mkdir()
    file.write_text("")
    prefix = trial.folder / "prefix"
    at = ["--prefix", str(prefix)]
    trial.expect(trial.install(*at, "--bin", str(empty)), 1, "libusb-1.0.so.0: build it by make c-try", "make c-usb",
                 "usbtrace: build it by make run", "nothing was installed")
    trial.expect(trial.install("--prefix", "opt"), 1, "PREFIX is 'opt': it is to be an absolute path", "nothing was installed")
    trial.expect(trial.install("--prefix", ""), 1, "it is to be an absolute path")
    trial.expect(trial.install("--prefix", f"{prefix}:b"), 1, "no path with a colon")
    trial.expect(trial.install("--destdir", str(file)), 1, f"{file}", "can't be written", "nothing was installed")
    trial.expect(trial.run(sys.executable, "tools/install", "uninstall", *at), 1, f"nothing is installed below {prefix}")
    trial.check(not prefix.exists(), "a prefix was made")
    (prefix / "bin").mkdir(parents=True)
    (prefix / "bin" / "usbtrace").write_text("another's")
    trial.expect(trial.install(*at), 1, "bin/usbtrace is there, and no `make install` put it there", "nothing was installed")
    trial.check(files_of(prefix) == ["bin/usbtrace"], f"files were written: {files_of(prefix)}")
    (prefix / "bin" / "usbtrace").unlink()
    if os.geteuid():
        (prefix / "bin").chmod(0o555)
        trial.expect(trial.install(*at), 1, f"{prefix}/bin", "can't be written: Permission denied", "nothing was installed")
        (prefix / "bin").chmod(0o755)
    # The installation fails at its last folder: what it wrote before is gone.
    (prefix / "share").write_text("")
    trial.expect(trial.install(*at), 1, "can't be written", "nothing was installed")
    trial.check(files_of(prefix) == ["share"], f"files were left: {files_of(prefix)}")


def programs_are_built_with_it(trial: Trial) -> None:
    driver = trial.build(EXAMPLE / "driver.c", "driver", prefix=trial.prefix)
    trial.drive(trial.prefix, driver)
    for at, (header, call) in enumerate(INCLUDES.items()):
        source = trial.folder / f"include_{at}.c"
        source.write_text(f"#include <{header}>\n#include <stddef.h>\nint main(void) {{ return {call} == 99; }}\n")
        trial.expect(trial.here(trial.build(source, f"with_{at}", prefix=trial.prefix)), 0)
    version = trial.here("pkg-config", "--modversion", "tirnouch-libusb", PKG_CONFIG_PATH=str(trial.prefix / "lib" / "pkgconfig"))
    told = trial.here(trial.prefix / "bin" / "tirnouch-run", "--version")
    trial.expect(told, 0, f" libusb {version.stdout.strip()}.", f"{trial.prefix}/lib/tirnouch/libusb-1.0.so.0\n", f"version {VERSION}\n")
    system = trial.here("pkg-config", "--variable=pcfiledir", "libusb-1.0", PKG_CONFIG_PATH=str(trial.prefix / "lib" / "pkgconfig"))
    trial.check(str(trial.prefix) not in system.stdout, "libusb-1.0 of pkg-config is ours")


def a_static_program_runs(trial: Trial) -> None:
    driver = trial.build(EXAMPLE / "driver.c", "driver", "-static", prefix=trial.prefix)
    ran = trial.here(driver, TIRNOUCH_DEVICES=str(EXAMPLE / "devices.txt"))
    trial.expect(ran, 0)
    trial.check(ran.stdout == EXPECTED, f"it printed {ran.stdout!r}")
    trial.check("NEEDED" not in trial.here("readelf", "-d", driver).stdout, "it isn't static")


def the_core_is_used_alone(trial: Trial) -> None:
    """c/tests/core, whose expected text says where it comes from."""
    tried = trial.here(trial.build(ROOT / "c" / "tests" / "core", "core", prefix=trial.prefix, package="tirnouch-core"))
    trial.expect(tried, 0)
    trial.check(tried.stdout == (ROOT / "c" / "tests" / "core" / "expected").read_text(), f"it printed {tried.stdout[-300:]!r}")


def other_builders_find_it(trial: Trial) -> None:
    shutil.copy(EXAMPLE / "driver.c", trial.folder)
    env = {"PKG_CONFIG_PATH": str(trial.prefix / "lib" / "pkgconfig")}
    if trial.has("cmake", "make"):
        (trial.folder / "CMakeLists.txt").write_text(CMAKE)
        trial.expect(trial.here("cmake", "-G", "Unix Makefiles", "-B", "by_cmake", **env), 0)
        trial.expect(trial.here("cmake", "--build", "by_cmake"), 0)
        trial.drive(trial.prefix, trial.folder / "by_cmake" / "driver")
    if trial.has("meson", "ninja"):
        (trial.folder / "meson.build").write_text(MESON)
        trial.expect(trial.here("meson", "setup", "by_meson", **env), 0)
        trial.expect(trial.here("meson", "compile", "-C", "by_meson"), 0)
        trial.drive(trial.prefix, trial.folder / "by_meson" / "driver")


def runs_are_watched(trial: Trial) -> None:
    """A seed that fails keeps its trace and its picture, and tirnouch-replay agrees; a limit ends a run."""
    run = trial.prefix / "bin" / "tirnouch-run"
    tests = ROOT / "c" / "tests" / "run"
    program = trial.build(tests / "program.c", "program", "-D_GNU_SOURCE", prefix=trial.prefix)
    devices = shutil.copy(tests / "devices.txt", trial.folder)
    ran = trial.here(run, devices, "--seeds", "1-40", "--", program, "race")
    trial.expect(ran, 1, " failed: status 3\n", "its picture: ./tirnouch-seed-")
    kept = sorted(trial.folder.glob("tirnouch-seed-*.trace"))
    trial.check(len(kept) == 1, f"the traces that were kept are {kept}")
    for trace in kept:
        trial.check("<svg" in trace.with_suffix(".html").read_text(), "there is no picture")
        trial.expect(trial.here(trial.prefix / "bin" / "tirnouch-replay", trace), 0, ": 0 differences")
        trial.expect(trial.here(trial.prefix / "bin" / "usbtrace", "run", trace), 0)
    trial.expect(trial.here(run, devices, "--limit", "300ms", "--", program, "events"), 124, "didn't end within 300ms")


def it_is_found_by_any_name(trial: Trial) -> None:
    """By a link, by a relative path, in PATH; and where it was moved. It names what is there, and nothing of a repository."""
    driver = trial.build(EXAMPLE / "driver.c", "driver", prefix=trial.prefix)
    moved = trial.folder / "moved here"
    shutil.copytree(trial.prefix, moved, symlinks=True)
    (trial.folder / "link").symlink_to(moved / "bin" / "tirnouch-run")
    path = f"{moved / 'bin'}:/usr/bin:/bin"
    for name in ("./link", "moved here/bin/tirnouch-run", "tirnouch-run"):
        ran = trial.here("sh", "-c", f"exec '{name}' '{EXAMPLE}/devices.txt' -- '{driver}'", PATH=path)
        trial.check(ran.stdout == EXPECTED, f"{name}: {ran.stdout!r} {ran.stderr!r}")
    trial.drive(moved, trial.build(EXAMPLE / "driver.c", "built_there", prefix=moved))
    (moved / "lib" / "tirnouch" / "libusb-1.0.so.0").unlink()
    told = trial.here("tirnouch-run", "--help", PATH=path)
    told.stderr += trial.here("tirnouch-run", EXAMPLE / "devices.txt", "--", driver, PATH=path).stderr
    trial.expect(told, 0, f"{moved}/share/doc/tirnouch/DEVICES.md", "install Tirnouch again")
    trial.check("make " not in told.stdout + told.stderr and "tools/" not in told.stdout + told.stderr, "it speaks of the repository")


def pages_fit(trial: Trial) -> None:
    folder = trial.prefix / "share" / "doc" / "tirnouch"
    for page in sorted(folder.glob("*.md")):
        text = page.read_text()
        for target in re.findall(r"\]\(([^)\s#]+)[^)]*\)", text):
            trial.check("://" in target or (folder / target).exists(), f"{page.name} has a link to {target}")
        for line in text.splitlines():
            is_shown = line.startswith("    ") and not re.match(r"\s+(\$ )?make ", line)
            found = re.search(r"\b(tools/tirnouch-run|tools/replay.py|bin/usbtrace)\b", line)
            trial.check(not (is_shown and found), f"{page.name} has the repository's names: {line}")


def man_pages_are_in_order(trial: Trial) -> None:
    folder = trial.prefix / "share" / "man" / "man1"
    for page in sorted(folder.glob("*.1")):
        shown = trial.here("man", "--warnings", "-l", page, MANWIDTH="300", MAN_KEEP_FORMATTING="") if trial.has("man") else None
        if shown:
            trial.check(shown.returncode == 0 and not shown.stderr, f"{page.name}: {shown.stderr}")
            told = trial.here(trial.prefix / "bin" / page.stem, "--help").stdout
            names = set(re.findall(r"(?:^|\s)(--[a-z]+)\b", told)) | set(re.findall(r"^  ([a-z]+)  +[A-Z]", told, re.M))
            lacking = [it for it in names if it not in shown.stdout]
            trial.check(not lacking, f"{page.name} lacks {lacking}")
        if trial.has("mandoc"):
            linted = trial.here("mandoc", "-T", "lint", page)
            trial.check(not linted.stdout + linted.stderr, f"{page.name}: {linted.stdout[:600]}")


def offered_by_bash(trial: Trial, words: str) -> List[str]:
    if words.endswith("-- usbtrace dr") and not BASH_COMPLETION.exists():
        trial.skipped.append("there is no bash-completion")
        return OFFERED[words]
    name = words.split()[0]
    folder = trial.prefix / "share" / "bash-completion" / "completions"
    first = f"source {BASH_COMPLETION}" if BASH_COMPLETION.exists() else ":"
    # compopt is for a shell that is at it.
    sources = "".join(f"source '{folder}/{it}'; " for it in ("usbtrace", "tirnouch-run", "tirnouch-record"))
    text = f"""{first}; compopt() {{ :; }}; {sources}COMP_LINE='{words}'; COMP_POINT={len(words)}; COMP_WORDS=({words}); COMP_CWORD=$((${{#COMP_WORDS[@]}} - 1))
        "$(complete -p {name} | sed 's/.*-F \\([^ ]*\\).*/\\1/')"; printf '%s\\n' "${{COMPREPLY[@]}}" """
    ran = trial.here("bash", "--norc", "-c", text)
    trial.check(ran.returncode == 0 and not ran.stderr, f"bash, {words}: {ran.stderr}")
    return ran.stdout.split("\n")


def offered_by_fish(trial: Trial, words: str) -> List[str]:
    folder = trial.prefix / "share" / "fish" / "vendor_completions.d"
    sources = "".join(f"source '{folder}/{it}.fish'; " for it in ("usbtrace", "tirnouch-run", "tirnouch-record"))
    ran = trial.here("fish", "--no-config", "-c", f"{sources}complete -C '{words}'")
    trial.check(ran.returncode == 0 and not ran.stderr, f"fish, {words}: {ran.stderr}")
    return [line.split("\t")[0] for line in ran.stdout.split("\n")]


def offered_by_zsh(trial: Trial, words: str) -> List[str]:
    """What zsh lists, in a terminal of its own: the words on the screen, in their full length."""
    text = f"""zmodload zsh/zpty
        zpty it zsh -f -i
        zpty -w it "PROMPT=; unsetopt zle_bracketed_paste list_types; fpath=({trial.prefix}/share/zsh/site-functions \\$fpath)"
        zpty -w it "autoload -Uz compinit; compinit -u -D; LISTMAX=1000; bindkey '^X' list-choices"
        zpty -w it "echo re''ady"; zpty -r it shown '*ready*'
        zpty -w -n it "{words}"$'\\x18'; sleep $SECONDS_TO_LIST
        zpty -w it $'\\x15'; zpty -w it "echo en''ded"
        zpty -r it shown '*ended*'; print -r -- $shown"""
    at = words.split()[-1].rpartition("/")
    found: List[str] = []
    for seconds in ("0.5", "4", "16"):  # a busy machine takes its time to list them
        ran = trial.here("zsh", "-f", "-c", text, TERM="dumb", COLUMNS="200", SECONDS_TO_LIST=seconds)
        found = [f"{at[0]}{at[1]}{it}" for it in re.findall(r"[^\s\x1b]+", ran.stdout)]
        if set(OFFERED[words]) <= set(found):
            break
    return found


def shells_complete(trial: Trial) -> None:
    for name in ("devices.txt", "other.txt", "driver"):
        shutil.copy(EXAMPLE / "devices.txt", trial.folder / name)
    (trial.folder / "driver").chmod(0o755)
    for shell, ask in {"bash": offered_by_bash, "fish": offered_by_fish, "zsh": offered_by_zsh}.items():
        for words, offered in OFFERED.items() if trial.has(shell) else ():
            found = ask(trial, words)
            trial.check(set(offered) <= set(found), f"{shell} doesn't offer {offered} behind {words!r}, but {found}")


def archives_are_whole(trial: Trial) -> None:
    for out in ("one", "two"):
        trial.expect(trial.run("make", "--no-print-directory", "dist", f"OUT={trial.folder}/{out}"), 0)
    made = list((trial.folder / "one").iterdir())
    trial.check(len(made) == 1 and re.fullmatch(rf"tirnouch-{VERSION}-\w+-linux\.tar\.gz", made[0].name) is not None, f"{made} were made")
    trial.check(made[0].read_bytes() == (trial.folder / "two" / made[0].name).read_bytes(), "two archives differ")
    at = trial.folder / "unpacked"
    with tarfile.open(made[0]) as tar:
        trial.check([it.name for it in tar] == sorted(it.name for it in tar), "it isn't sorted")
        trial.check(len({(it.uid, it.gid, it.mtime) for it in tar}) == 1, "owners and times differ")
        tar.extractall(at)
    root = at / made[0].name.removesuffix(".tar.gz")
    summed = {line[66:]: line[:64] for line in (root / "SHA256SUMS").read_text().splitlines()}
    true = {it: hashlib.sha256((root / it).read_bytes()).hexdigest() for it in files_of(root) if not (root / it).is_symlink()}
    true.pop("SHA256SUMS")
    trial.check(summed == true, "the sums aren't true")
    build = (root / "BUILD").read_text()
    told = trial.here(root / "bin" / "tirnouch-run", "--version").stdout
    core = re.match(r"tirnouch, (\w+) core", told)
    said = core is not None and re.search(f"^lib/tirnouch/libusb-1.0.so.0 +{core[1]} core$", build, re.M)
    trial.check(bool(said), f"BUILD says another core than {told!r}")
    trial.check(set(PROMISED) <= set(true) | {"lib/tirnouch/libusb-1.0.so"}, "it has fewer files than an installation")
    trial.drive(root, trial.build(EXAMPLE / "driver.c", "driver", prefix=root))


def packages_are_in_order(trial: Trial) -> None:
    if not trial.has("dpkg-deb", "objdump", "strip"):
        return
    for out in ("one", "two"):
        trial.expect(trial.run("make", "--no-print-directory", "deb", f"OUT={trial.folder}/{out}"), 0)
    made = next((trial.folder / "one").iterdir())
    trial.check(made.read_bytes() == (trial.folder / "two" / made.name).read_bytes(), "two packages differ")
    trial.expect(trial.here("dpkg-deb", "--field", made), 0, "Package: tirnouch\n", f"Version: {VERSION}\n", "Depends: libc6 (>= 2.",
                 "Recommends: python3\n")
    listed = trial.here("dpkg-deb", "--contents", made).stdout.splitlines()
    names = [re.split(r"\s+", line, maxsplit=5)[5].split(" -> ")[0] for line in listed]
    trial.check(all(it.startswith("./usr/") or it == "./" for it in names), "it has files elsewhere than in /usr")
    trial.check(all(line.split()[1] == "root/root" for line in listed), "files have other owners")
    # Those of libusb-1.0-0 and libusb-1.0-0-dev
    theirs = [it for it in names if re.search(r"linux-gnu/|usr/include/libusb|usr/lib/libusb|doc/libusb|pkgconfig/libusb", it)]
    trial.check(not theirs, f"it has files of libusb's packages: {theirs}")
    # Debian's policy, 12.1, 12.5 and 12.7
    asked = {f"./usr/share/{it}" for it in ("man/man1/usbtrace.1.gz", "doc/tirnouch/copyright", "doc/tirnouch/changelog.gz")}
    trial.check(asked <= set(names), f"it lacks {asked - set(names)}")
    trial.expect(trial.here("dpkg-deb", "--extract", made, "unpacked"), 0)
    trial.drive(trial.folder / "unpacked" / "usr", trial.build(EXAMPLE / "driver.c", "driver", prefix=trial.folder / "unpacked" / "usr"))
    if trial.has("lintian"):
        trial.expect(trial.here("lintian", "--fail-on", "error,warning", made), 0)


def put_program(root: pathlib.Path, name: str) -> None:
    """Copies a program of the machine's, with what it needs."""
    path = shutil.which(name, path="/usr/bin:/bin")
    needed = subprocess.run(["ldd", path or name], capture_output=True, text=True, check=False).stdout
    for file in [f"/bin/{name}", *re.findall(r"(/\S+) \(0x", needed)]:
        source = path if file == f"/bin/{name}" else file
        (root / file[1:]).parent.mkdir(parents=True, exist_ok=True)
        shutil.copy(os.path.realpath(source or name), root / file[1:])


def it_runs_alone(trial: Trial) -> None:
    """In a root folder that has the installation, four programs for its script, and nothing else."""
    if trial.here("unshare", "-r", "true").returncode:
        trial.skipped.append("no root folder of its own: unshare is refused")
        return
    root = trial.folder / "root"
    shutil.copytree(trial.prefix, root / "usr" / "local", symlinks=True)
    for name in ("sh", "cat", "dirname", "grep"):
        put_program(root, name)
    shutil.copy(trial.build(EXAMPLE / "driver.c", "driver", prefix=trial.prefix), root)
    shutil.copy(EXAMPLE / "devices.txt", root)
    inside: List[Word] = ["unshare", "-r", shutil.which("chroot") or "/usr/sbin/chroot", root]
    run = "/usr/local/bin/tirnouch-run"
    ran = trial.here(*inside, run, "/devices.txt", "--", "/driver")
    trial.check(ran.stdout == EXPECTED, f"tirnouch-run: {ran.stdout!r} {ran.stderr!r}")
    ran = trial.here(*inside, "/driver", TIRNOUCH_DEVICES="/devices.txt", LD_LIBRARY_PATH="/usr/local/lib/tirnouch")
    trial.check(ran.stdout == EXPECTED, f"plainly: {ran.stdout!r} {ran.stderr!r}")
    ran = trial.here(*inside, run, "/devices.txt", "--seeds", "1-2", "--", "/driver")
    trial.expect(ran, 127, "there is no python3, which --seeds needs")
    trial.expect(trial.here(*inside, run, "--help"), 0, "/usr/local/share/doc/tirnouch/DEVICES.md")


def versions_agree(trial: Trial) -> None:
    """That of the file VERSION is usbtrace's, and that of CHANGELOG.md."""
    trial.expect(trial.here(trial.prefix / "bin" / "usbtrace", "--version"), 0, f"usbtrace {VERSION}\n")
    trial.check(f"Version {VERSION}" in (ROOT / "CHANGELOG.md").read_text(), "CHANGELOG.md is of another version")


TRIALS = [
    files_are_where_the_page_says, an_older_installation_leaves_nothing, what_is_wrong_is_said, programs_are_built_with_it,
    a_static_program_runs, the_core_is_used_alone, other_builders_find_it, runs_are_watched, it_is_found_by_any_name, pages_fit,
    man_pages_are_in_order, shells_complete, archives_are_whole, packages_are_in_order, it_runs_alone, versions_agree,
]


def uninstalled_all_is_gone(trial: Trial) -> None:
    """The installation that the others used: its programs left nothing there."""
    trial.expect(trial.run(sys.executable, "tools/install", "uninstall", "--prefix", str(trial.prefix)), 0, "removed ")
    trial.check(not trial.prefix.exists(), f"these are left: {files_of(trial.prefix)}")


def attempt(trial_of: Callable[[Trial], None], shared: pathlib.Path) -> Dict[str, Sequence[str]]:
    with tempfile.TemporaryDirectory(prefix="tirnouch-install-test-") as folder:
        trial = Trial(shared, pathlib.Path(folder).resolve())
        try:
            trial_of(trial)
        except (subprocess.TimeoutExpired, OSError, ValueError, LookupError) as error:
            trial.faults.append(f"{type(error).__name__}: {error}")
    name = trial_of.__name__.replace("_", " ")
    skipped = [f"{name}: skipped: {it}" for it in dict.fromkeys(trial.skipped)]
    return {"faults": [f"{name}: {it}" for it in trial.faults], "skipped": skipped}


def main(names: Sequence[str]) -> int:
    strange = set(names) - {it.__name__ for it in TRIALS}
    if strange:
        print(f"there is no trial {strange.pop()}; there are {', '.join(it.__name__ for it in TRIALS)}", file=sys.stderr)
        return 2
    with tempfile.TemporaryDirectory(prefix="tirnouch-install-test-") as folder:
        shared = pathlib.Path(folder).resolve()
        made = subprocess.run([sys.executable, ROOT / "tools" / "install", "install", "--prefix", shared / "prefix"], capture_output=True,
                              text=True, check=False)
        if made.returncode:
            print(made.stderr, end="")
            return 1
        with ThreadPoolExecutor(4) as pool:
            found = list(pool.map(lambda it: attempt(it, shared), [it for it in TRIALS if not names or it.__name__ in names]))
        found.append(attempt(uninstalled_all_is_gone, shared))
    for it in found:
        print("".join(f"{line}\n" for line in [*it["faults"], *it["skipped"]]), end="")
    failed = sum(1 for it in found if it["faults"])
    print(f"{len(found) - failed} passed, {failed} failed")
    return 1 if failed else 0


if __name__ == "__main__":
    sys.exit(main(sys.argv[1:]))

"""Builds without a proof, in a minute or two from nothing: a program, and the core for C as a static library.

The LLVM module that `rt try` makes of a program is taken before it goes away, and compiled without the address sanitizer, in parts side by
side (module_parts.py). `rt try` compiles programs alone, so for the library a program is written that calls each export of tirnouch_c; the
exports get C's names in the module.

A build has checks that the proved one has no need of: alignment, overflow, casts, values that can't be. Where one fails,
the program ends and says so (CHECK_FAILED; of the library c/unproved.c). With `trust` they are taken out of the library, as they are in the
proved build, and the compiler takes for granted that none can fail."""
import os
import pathlib
import re
import signal
import subprocess
import sys
import threading
import time

import c_header
import module_parts

TARGET = "--target=x86_64-unknown-linux-gnu"
# How often, in seconds, the folder of a build is looked at: what is made there goes away with the build.
LOOK = 0.002
# The module of the program has some megabytes; another that `rt try` makes has some hundred bytes.
LEAST = 1 << 20
# A value of each type of parameter that an export has; a number is 0.
GIVEN = {
    "Global": "alloc",
    "&mut Slot": "&mut slot",
    "&mut LentMemory": "&mut lent",
    "&[u8; 8]": "&setup",
    "&[u8]": "&setup",
    "&mut [u8]": "&mut data",
    "bool": "false",
}
# The functions that a program needs and that no other module of the crate sees.
SEEN = ("fn empty() -> Slot", "fn into_box(self, alloc: Global) -> Option<Box<Session>>")
MAIN = """//! A program that calls each export of `tirnouch_c`, so that they are compiled. Made by tools/unproved.py.

#![tactic(auto)]

{modules}
use crate::held::Slot;
use crate::lent_memory::LentMemory;
{uses}use std::io;
use std::ptr::null_mut;

fn main(rt: HostRuntime) -> io::Result<()> {{
    let alloc = rt.alloc();
    let mut slot = Slot::empty();
{answers}    let mut data = [0u8; 8];
    let setup = [0u8; 8];
    let mut lent = LentMemory {{ at: null_mut(), len: 0, filled: 0 }};
{calls}    let _ = slot.into_box(alloc);
    let LentMemory {{ at: _, len: _, filled: _ }} = lent;
    Ok(())
}}
"""


# What a program does where a check fails.
CHECK_FAILED = """\
@checks.sentence = private constant [{size} x i8] c"{sentence}"
define internal void @rattle_check_failed(ptr %check) cold noreturn nounwind {{
  %told = call i32 (i32, ptr, ...) @dprintf(i32 2, ptr @checks.sentence, ptr %check)
  call void @abort()
  unreachable
}}
"""
SENTENCE = "{name}: a check failed in this unproved build: %s. The program is at fault, not its input: please report it, with the input\n\0"
# What a definition of that calls, where the module doesn't declare it.
DECLARED = {"dprintf": "declare i32 @dprintf(i32, ptr, ...)", "abort": "declare void @abort()"}


class NotBuilt(Exception):
    """Why there is no build, for a person."""


class Watch(threading.Thread):
    """Gives each file of some name that a build makes below a folder a second name there, before the build removes it: `found` has
    the two paths of each."""

    def __init__(self, folder, name):
        super().__init__(daemon=True)
        self.folder, self.name, self.found, self.is_over = pathlib.Path(folder), name, [], threading.Event()
        self._seen = set()

    def run(self):
        while not self.is_over.wait(LOOK):
            for at, _, names in os.walk(self.folder):
                if self.name in names and at not in self._seen:
                    self._take(pathlib.Path(at) / self.name)

    def _take(self, path):
        to = self.folder / f"kept-{len(self.found)}"
        try:
            os.link(path, to)
        except OSError:
            return
        self._seen.add(str(path.parent))
        self.found.append((path, to))

    def end(self):
        self.is_over.set()
        self.join()


def exports(text):
    """The exports of a file: the name of each, and the types of its parameters."""
    for found in re.finditer(r'#\[unsafe\(no_mangle\)\]\npub extern "C" fn (\w+)\(([^)]*)\)', text):
        parts = [part.strip().rstrip(",") for part in re.split(r",\s*(?![^\[]*\])", found[2])]
        yield found[1], [part.split(": ", 1)[1] for part in parts if part]


def make_program(crate):
    """Makes the library of a copy of the crate a program."""
    source = crate / "src"
    modules = re.findall(r"^(?:pub )?mod (\w+);", (source / "lib.rt").read_text(), re.M)
    given = {**GIVEN, **{f"&mut {kind}": f"&mut {word}" for kind, word in c_header.ANSWERS.items()}}
    calls = "".join(
        f"    let _ = {file.removesuffix('.rt')}::{name}({', '.join(given.get(kind, '0') for kind in kinds)});\n"
        for file in c_header.EXPORTS for name, kinds in exports((source / file).read_text())
    )
    found = {kind: c_header.declared(kind) for kind in c_header.ANSWERS}
    uses = "".join(f"use crate::{module}::{kind};\n" for kind, (module, _, _) in found.items())
    answers = "".join(
        f"    let mut {c_header.ANSWERS[kind]} = {kind} {{ {', '.join(f'{name}: 0' for _, name, _ in fields)} }};\n"
        for kind, (_, _, fields) in found.items()
    )
    (source / "lib.rt").unlink()
    (source / "main.rt").write_text(MAIN.format(modules="".join(f"mod {it};\n" for it in modules), uses=uses, answers=answers, calls=calls))
    held = (source / "held.rt").read_text()
    for it in SEEN:
        held = held.replace(f"    {it}", f"    pub {it}")
    (source / "held.rt").write_text(held)
    lines = crate.parent.parent / "crates.txt"
    text = re.sub(r"^tirnouch_c staticlib:(.*)$", lambda found: "tirnouch_c:" + found[1].replace(" core ", " "), lines.read_text(), flags=re.M)
    lines.write_text(text)


def whole_module(watch):
    """The program's module, once clang has begun to compile it, and so it is whole."""
    for path, kept in watch.found:
        if kept.stat().st_size >= LEAST and any(path.parent.glob("module-*.o.tmp")):
            return kept
    return None


def module_of(crate, folder):
    """The LLVM module of a program, by `rt try`. What that would make of it is not waited for."""
    work, log = folder / "work", folder / "log"
    work.mkdir()
    watch = Watch(work, "module.bc")
    watch.start()
    with log.open("wb") as out:
        build = subprocess.Popen(["rt", "try", "--steps", "1"], cwd=crate, env={**os.environ, "TMPDIR": str(work)},
                                 stdin=subprocess.DEVNULL, stdout=out, stderr=subprocess.STDOUT, start_new_session=True)
        try:
            while (module := whole_module(watch)) is None and build.poll() is None:
                time.sleep(LOOK)
        finally:
            watch.end()
            end_group(build)
    if module is None:
        sys.stderr.write(log.read_text(errors="replace"))
        raise NotBuilt(f"rt try made no module of {crate.name}: see above")
    return module


def end_group(process):
    """Ends a process and those that it began."""
    try:
        os.killpg(process.pid, signal.SIGTERM)
    except ProcessLookupError:
        pass
    process.wait()


def without_sanitizer(text):
    """The text of a module that the compiler adds no checks to."""
    return text.replace(" sanitize_address", "").replace(' "frame-pointer"="all"', "").replace("= { }", "= { nounwind }")


def as_library(text, trust):
    """The text of a module with the exports under C's names, and the program's own `main` hidden, for the linker to drop."""
    for name in set(re.findall(r'@"(tirnouch_c::(?:exports|questions)::tirnouch_\w+)"', text)):
        text = text.replace(f'@"{name}"', f"@{name.rsplit('::', 1)[1]}")
    text = re.sub(r"^define internal ([^\n]*@tirnouch_\w+\()", r"define \1", text, flags=re.M)
    text = re.sub(r"^define ([^\n]*@main\()", r"define internal \1", text, flags=re.M)
    if trust:
        return text.replace("  call void @llvm.trap()\n", "")
    return tell_checks(text) + "declare void @rattle_check_failed(ptr) cold noreturn nounwind\n"


def as_program(text, name):
    """The text of a module whose checks say that they failed, and end the program."""
    sentence = SENTENCE.format(name=name).replace("\n", "\\0A").replace("\0", "\\00")
    told = CHECK_FAILED.format(size=len(SENTENCE.format(name=name)), sentence=sentence)
    lacking = "".join(f"{line}\n" for it, line in DECLARED.items() if f"@{it}(" not in text)
    return f"{tell_checks(text)}{told}{lacking}"


def tell_checks(text):
    """A check that fails calls `rattle_check_failed` with its name. What traps elsewhere calls the check Unreachable behind that."""
    start = text.index('define internal void @"rattle-llvm-checks::')
    names = re.findall(r'^define internal void @"rattle-llvm-checks::(\w+)"', text[start:], re.M)
    body, checks = text[:start].replace("  call void @llvm.trap()\n", ""), text[start:]
    for name in names:
        checks = checks.replace("  call void @llvm.trap()\n", f'  call void @rattle_check_failed(ptr @"checks.{name}")\n', 1)
    told = "".join(f'@"checks.{name}" = private constant [{len(name) + 1} x i8] c"{name}\\00"\n' for name in names)
    return body + told + checks


def text_of(module, folder, clang):
    """The text of a module, without the sanitizer."""
    text = folder / "module.ll"
    subprocess.run([clang, TARGET, "-S", "-emit-llvm", "-x", "ir", module, "-o", text, "-O0", "-Xclang", "-disable-llvm-passes"], check=True)
    return without_sanitizer(text.read_text())


def objects(text, folder, clang, level):
    """The objects of a module's text."""
    words = [clang, TARGET, "-march=x86-64", level, "-fPIC", "-ffunction-sections", "-fdata-sections"]
    return module_parts.compiled(text, folder, words)


def build(crate, folder, kit, trust):
    """The static library of a copy of tirnouch_c, made below a folder: its path. The copy is changed."""
    clang, library = kit / "toolchain" / "bin" / "clang", folder / "libtirnouch_c.a"
    make_program(crate)
    made = objects(as_library(text_of(module_of(crate, folder), folder, clang), trust), folder, clang, "-O3")
    subprocess.run([kit / "toolchain" / "bin" / "llvm-ar", "rcs", library, *made], check=True)
    return library


def build_program(crate, folder, kit):
    """The program of a crate, made below a folder: its path."""
    clang, libraries, program = kit / "toolchain" / "bin" / "clang", kit / "toolchain" / "lib", folder / crate.name
    made = objects(as_program(text_of(module_of(crate, folder), folder, clang), crate.name), folder, clang, "-O2")
    words = [kit / "toolchain" / "bin" / "ld.lld", "-pie", "--gc-sections", "-dynamic-linker", "/lib64/ld-linux-x86-64.so.2", "-o", program]
    words += [*(libraries / it for it in ("Scrt1.o", "crti.o", "crtbeginS.o")), *made]
    words += [*(kit / "c" / it for it in ("libos_c.a", "liblibc_c.a")), "-L", libraries, "--as-needed"]
    words += [*(f"-l:{it}" for it in ("libc.so.6", "libm.so.6", "libgcc_s.so.1", "libc_nonshared.a", "libgcc.a"))]
    words += [*(libraries / it for it in ("crtendS.o", "crtn.o"))]
    subprocess.run(words, check=True)
    return program

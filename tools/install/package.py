"""A package for Debian, made by dpkg-deb of the same tree."""
import gzip
import hashlib
import os
import pathlib
import re
import shutil
import subprocess
import tempfile
from typing import Dict, List, Tuple

from build import ROOT, Build, Fault, answer_of, changes, day, moment, version
from tree import File, Tree

NAME = "tirnouch"
MAINTAINER = "Tirnouch maintainers <maintainers@users.noreply.tirnouch.example>"
# Where the shared libraries stand that a binary may need, by package.
PACKAGES = {"libc.so.6": "libc6", "libm.so.6": "libc6", "ld-linux-x86-64.so.2": "libc6", "libgcc_s.so.1": "libgcc-s1"}
# What a program that is recorded has: the system's libusb, or this package's own under tirnouch-run.
BROUGHT = "libusb-1.0.so.0"
CONTROL = """Package: {name}
Version: {version}
Architecture: {architecture}
Maintainer: {maintainer}
Installed-Size: {size}
Depends: {depends}
Recommends: python3
Suggests: gcc, pkgconf | pkg-config, libusb-1.0-0
Section: libdevel
Priority: optional
Description: libusb 1.0 over scripted USB devices, for tests of drivers
 Programs that use libusb 1.0 run unchanged against devices that a text file
 describes: tirnouch-run loads the library of this package in the place of the
 system's. No hardware, kernel module or root is needed, and a seed reproduces
 a race. usbtrace prints, explains and draws what happened.
 .
 The library stands in a folder of its own, beside the system's libusb and its
 header, which it doesn't replace. It rests on a core that is written in Rattle,
 Rust with contracts. This build: {label}.
"""
COPYRIGHT = """Format: https://www.debian.org/doc/packaging-manuals/copyright-format/1.0/
Upstream-Name: Tirnouch

Files: *
Copyright: {holder}
License: Expat

License: Expat
{text}
"""
OVERRIDES = """# The page says how the installed library is used.
tirnouch: package-contains-upstream-installation-documentation *
# The .pc files name no system folder: all paths in them are relative to their own.
tirnouch: pkg-config-unavailable-for-cross-compilation *
"""


def needed(path: pathlib.Path) -> Dict[str, Tuple[int, ...]]:
    """The packages of the shared libraries that a binary needs; of libc6 also the version of its newest symbol."""
    dynamic, symbols = answer_of("objdump", "-p", str(path)), answer_of("objdump", "-T", str(path))
    if dynamic is None or symbols is None:
        raise Fault(f"objdump can't read {path}: the package binutils has it")
    libraries = [it for it in re.findall(r"NEEDED\s+(\S+)", dynamic) if it != BROUGHT]
    strange = [it for it in libraries if it not in PACKAGES]
    if strange:
        raise Fault(f"{path.name} needs {', '.join(strange)}, of which tools/install/package.py doesn't know the package")
    newest = max((tuple(map(int, it.split("."))) for it in re.findall(r"GLIBC_(\d+\.\d+)", symbols)), default=())
    return {package: newest if package == "libc6" else () for package in (PACKAGES[it] for it in libraries)}


def depends(tree: Tree, folder: pathlib.Path) -> str:
    """What all binaries need: one entry a package, with the highest version."""
    found: Dict[str, Tuple[int, ...]] = {}
    for name, it in tree.items():
        if it.data.startswith(b"\x7fELF"):
            for package, least in needed(folder / name).items():
                found[package] = max(found.get(package, ()), least)
    return ", ".join(f"{package} (>= {'.'.join(map(str, found[package]))})" if found[package] else package for package in sorted(found))


def zipped(data: bytes) -> bytes:
    return gzip.compress(data, 9, mtime=0)


def changelog() -> bytes:
    """Debian's form of CHANGELOG.md: the headings, as changes of the version."""
    items = "".join(f"  * {it[0].upper()}{it[1:]}.\n" for it in changes())
    return f"{NAME} ({version()}) unstable; urgency=medium\n\n{items}\n -- {MAINTAINER}  {day():%a, %d %b %Y %H:%M:%S +0000}\n".encode()


def copyright_text() -> bytes:
    """Debian's form of LICENSE."""
    _, holder, *rest = (ROOT / "LICENSE").read_text().strip().split("\n\n")
    lines = [f" {line}" if line else " ." for line in "\n\n".join(rest).split("\n")]
    return COPYRIGHT.format(holder=holder.replace("Copyright (c) ", ""), text="\n".join(lines)).encode()


def as_packaged(tree: Tree) -> Tree:
    """The tree as Debian has it: below /usr, with compressed man pages, its own folder of zsh, copyright and changelog."""
    found: Tree = {}
    for name, it in tree.items():
        data = it.data.replace(b"#!/usr/bin/env python3\n", b"#!/usr/bin/python3\n", 1) if it.data.startswith(b"#!") else it.data
        path = name.replace("share/zsh/site-functions/", "share/zsh/vendor-completions/")
        is_page = path.startswith("share/man/")
        if path != "share/doc/tirnouch/LICENSE":
            found[f"usr/{path}{'.gz' if is_page else ''}"] = it._replace(data=zipped(data) if is_page else data)
    found["usr/share/doc/tirnouch/copyright"] = File(copyright_text())
    found["usr/share/doc/tirnouch/changelog.gz"] = File(zipped(changelog()))
    found["usr/share/lintian/overrides/tirnouch"] = File(OVERRIDES.encode())
    return found


def unpack(tree: Tree, folder: pathlib.Path) -> None:
    for name, it in tree.items():
        path = folder / name
        path.parent.mkdir(parents=True, exist_ok=True)
        if it.link:
            path.symlink_to(it.link)
        else:
            path.write_bytes(it.data)
            path.chmod(it.mode)


def strip(tree: Tree, folder: pathlib.Path) -> None:
    """Takes away what only a debugger reads."""
    for name, it in tree.items():
        words = ["--strip-unneeded"] if it.data.startswith(b"\x7fELF") else ["--strip-debug", "--enable-deterministic-archives"]
        if it.data.startswith((b"\x7fELF", b"!<arch>\n")) and answer_of("strip", *words, str(folder / name)) is None:
            raise Fault(f"strip refused {folder / name}: the package binutils has it")


def set_times(folder: pathlib.Path) -> None:
    for path in [*folder.rglob("*"), folder]:
        if path.is_dir() and not path.is_symlink():
            path.chmod(0o755)
        os.utime(path, (moment(), moment()), follow_symlinks=False)


def sums(folder: pathlib.Path) -> str:
    files = sorted(it for it in folder.rglob("*") if it.is_file() and not it.is_symlink())
    return "".join(f"{hashlib.md5(it.read_bytes()).hexdigest()}  {it.relative_to(folder)}\n" for it in files)


def control(tree: Tree, folder: pathlib.Path, architecture: str, label: str) -> str:
    size = sum(-(-it.lstat().st_size // 1024) if it.is_file() else 1 for it in folder.rglob("*"))
    return CONTROL.format(name=NAME, version=version(), architecture=architecture, maintainer=MAINTAINER, size=size,
                          depends=depends(tree, folder), label=label)


def package(tree: Tree, build: Build, out: pathlib.Path) -> pathlib.Path:
    """Makes the package in a folder: its file."""
    architecture = answer_of("dpkg", "--print-architecture")
    if architecture is None or not shutil.which("dpkg-deb"):
        raise Fault("there is no dpkg-deb, which makes the package: Debian's package dpkg has it")
    whole = as_packaged(tree)
    with tempfile.TemporaryDirectory(prefix="tirnouch-package-") as name:
        folder = pathlib.Path(name) / "tree"
        unpack(whole, folder)
        strip(whole, folder)
        about: List[str] = [control(whole, folder, architecture, build.labels["libusb-1.0.so.0"]), sums(folder)]
        (folder / "DEBIAN").mkdir()
        for file, text in zip(("control", "md5sums"), about):
            (folder / "DEBIAN" / file).write_text(text)
            (folder / "DEBIAN" / file).chmod(0o644)
        set_times(folder)
        made = pathlib.Path(name) / f"{NAME}_{version()}_{architecture}.deb"
        env = {**os.environ, "SOURCE_DATE_EPOCH": str(moment())}
        ran = subprocess.run(["dpkg-deb", "--build", "--root-owner-group", "-Zgzip", folder, made], env=env, capture_output=True, text=True,
                             check=False)
        if ran.returncode:
            raise Fault(f"dpkg-deb refused the package: {ran.stderr.strip()}")
        return pathlib.Path(shutil.copyfile(made, out / made.name))

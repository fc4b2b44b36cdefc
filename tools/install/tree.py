"""What is installed: the files by their paths below the prefix."""
from typing import Dict, NamedTuple

from build import BINARIES, ROOT, Build, libusb_version, version
from completions import completions
from helps import all_helps
from manual import manuals
from pages import pages

# What a program that is built with the library needs. Paths stand relative to the .pc file, so that the tree may be moved.
PKGCONFIG = """prefix=${{pcfiledir}}/../..
libdir=${{prefix}}/lib/tirnouch
includedir=${{prefix}}/include/tirnouch
tirnouch_version={tirnouch}

Name: {name}
Description: {description}
Version: {version}
"""
LIBUSB = """Cflags: -I${includedir} -I${includedir}/libusb-1.0 -I${includedir}/tirnouch
Libs: -L${libdir} -Wl,-rpath,${libdir} -lusb-1.0
Libs.private: -pthread
"""
CORE = """Cflags: -I${includedir} -I${includedir}/tirnouch
Libs: -L${libdir} -ltirnouch_core
"""
SCRIPTS = {"tirnouch-run": "tirnouch-run", "tirnouch-record": "tirnouch-record", "replay.py": "tirnouch-replay"}


class File(NamedTuple):
    """A file; or a link, where `link` says where to."""

    data: bytes
    mode: int = 0o644
    link: str = ""


Tree = Dict[str, File]


def binaries(build: Build) -> Tree:
    found = {it.place: File(build.data(it), 0o755 if it.place.startswith("bin/") else 0o644) for it in BINARIES}
    found["lib/tirnouch/libusb-1.0.so"] = File(b"", link="libusb-1.0.so.0")
    return found


def headers() -> Tree:
    """libusb.h where libusb has it, and ours beside."""
    found = {("libusb-1.0/" if it.name == "libusb.h" else "tirnouch/") + it.name: it for it in (ROOT / "c" / "include").glob("*.h")}
    return {f"include/tirnouch/{name}": File(path.read_bytes()) for name, path in found.items()}


def pkgconfig() -> Tree:
    libusb = PKGCONFIG.format(name="tirnouch-libusb", description="libusb 1.0 over scripted USB devices, for tests of drivers",
                              version=libusb_version(), tirnouch=version())
    core = PKGCONFIG.format(name="tirnouch-core", description="The core below tirnouch-libusb, for another host library",
                            version=version(), tirnouch=version())
    return {"lib/pkgconfig/tirnouch-libusb.pc": File((libusb + LIBUSB).encode()),
            "lib/pkgconfig/tirnouch-core.pc": File((core + CORE).encode())}


def scripts() -> Tree:
    """tirnouch-run and tirnouch-record, with the modules that watch their programs, and tirnouch-replay."""
    found = {f"bin/{it}": File((ROOT / "tools" / name).read_bytes(), 0o755) for name, it in SCRIPTS.items()}
    for path in sorted((ROOT / "tools" / "runs").glob("*.py")):
        found[f"share/tirnouch/runs/{path.name}"] = File(path.read_bytes())
    found["share/tirnouch/VERSION"] = File((ROOT / "VERSION").read_bytes())
    return found


def examples() -> Tree:
    """The driver of C.md with its devices, and scenarios with what is expected of them."""
    top = ROOT / "c" / "example"
    found = {f"driver/{it.relative_to(top)}": it for it in top.rglob("*") if it.is_file() and "__pycache__" not in it.parts}
    found.update({f"scenarios/{it.name}": it for it in (ROOT / "scenarios").iterdir()})
    return {f"share/doc/tirnouch/examples/{name}": File(path.read_bytes()) for name, path in sorted(found.items())}


def whole(build: Build) -> Tree:
    """All of it. Man pages and completions are made from what the programs, as they are installed, say of themselves."""
    found = {**binaries(build), **headers(), **pkgconfig(), **scripts(), **examples()}
    helps = all_helps({name: found[f"bin/{name}"].data for name in ("usbtrace", *SCRIPTS.values())})
    texts = {**manuals(helps), **completions(helps), "share/doc/tirnouch/BUILD": build.text()}
    found.update({name: File(text.encode()) for name, text in texts.items()})
    found.update({f"share/doc/tirnouch/{name}": File(data) for name, data in pages().items()})
    return dict(sorted(found.items()))

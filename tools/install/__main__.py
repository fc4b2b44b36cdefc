"""Takes the library away from the repository: into a prefix, an archive, or a package for Debian. The rules are in tools/install.mk.

    python3 tools/install install [--prefix DIR] [--destdir DIR]
    python3 tools/install uninstall [--prefix DIR] [--destdir DIR]
    python3 tools/install archive [--out DIR]
    python3 tools/install package [--out DIR]

It takes what stands in bin/, and builds nothing. docs/INSTALL.md says what goes where.

The modules, from below: build (what stands in bin/); helps (what the programs say of themselves), manual and completions (what is made
of that); pages (the documentation); tree (all files by their paths); place (a prefix), archive, package."""
import argparse
import pathlib
import sys
from typing import Sequence

sys.dont_write_bytecode = True

from archive import archive, name_of  # noqa: E402
from build import BIN, BINARIES, ROOT, Build, Fault  # noqa: E402
from package import package  # noqa: E402
from place import install, root_of, uninstall  # noqa: E402
from tree import whole  # noqa: E402


def arguments(words: Sequence[str]) -> argparse.Namespace:
    parser = argparse.ArgumentParser(prog="tools/install", description="takes the library away from the repository")
    kinds = parser.add_subparsers(dest="kind", required=True)
    for kind, said in (("install", "puts it below a prefix"), ("uninstall", "removes what `install` put there")):
        it = kinds.add_parser(kind, help=said)
        it.add_argument("--prefix", default="/usr/local", help="where it is used, an absolute path (%(default)s)")
        it.add_argument("--destdir", default="", help="what is put before the prefix, for those who make packages")
    for kind, said in (("archive", "makes a tar.gz that works wherever it is unpacked"), ("package", "makes a package for Debian")):
        it = kinds.add_parser(kind, help=said)
        it.add_argument("--out", type=pathlib.Path, default=ROOT / "dist", help="the folder in which it is made (dist/)")
    for name in ("install", "archive", "package"):
        kinds.choices[name].add_argument("--bin", type=pathlib.Path, default=BIN, help="the folder of the binaries (bin/)")
    return parser.parse_args(words)


def put(build: Build, words: argparse.Namespace) -> None:
    root = root_of(words.prefix, words.destdir)
    done = install(whole(build), root)
    print(f"installed {len(done.files)} files below {root}")
    for it in BINARIES:
        print(f"    {it.place}: {build.labels[it.name]}")
    print(f"{root}/share/doc/tirnouch/INSTALL.md says how they are used; `make uninstall` with the same PREFIX and DESTDIR removes them")


def make(build: Build, words: argparse.Namespace) -> None:
    words.out.mkdir(parents=True, exist_ok=True)
    if words.kind == "package":
        made = package(whole(build), build, words.out)
    else:
        made = words.out / f"{name_of()}.tar.gz"
        made.write_bytes(archive(whole(build)))
    print(f"{made}: {build.labels['libusb-1.0.so.0']}, usbtrace {build.labels['usbtrace']}")


def main(words: Sequence[str]) -> int:
    asked = arguments(words)
    try:
        if asked.kind == "uninstall":
            root = root_of(asked.prefix, asked.destdir)
            print(f"removed {len(uninstall(root).files)} files below {root}")
            return 0
        if asked.kind == "install":
            root_of(asked.prefix, asked.destdir)
        build = Build(asked.bin.resolve())
        build.warn_of_old()
        (put if asked.kind == "install" else make)(build, asked)
        return 0
    except Fault as fault:
        sentences = [*fault.args, *(["nothing was installed"] if asked.kind == "install" else [])]
    except OSError as error:
        sentences = [f"{error.filename}: {error.strerror}"]
    for sentence in sentences:
        print(f"tools/install: {sentence}", file=sys.stderr)
    return 1


if __name__ == "__main__":
    sys.exit(main(sys.argv[1:]))

"""Puts a tree below a prefix, and takes it away again. A list of what was put there is kept there: share/tirnouch/installed."""
import os
import pathlib
import re
from typing import List, NamedTuple, Set

from build import Fault
from tree import File, Tree

LIST = "share/tirnouch/installed"
HEAD = "# What `make install` of Tirnouch put here, and `make uninstall` removes.\n"
NEW = ".tirnouch-new"


class Installed(NamedTuple):
    """Paths below a prefix: the files and links of an installation, and the folders that it made."""

    files: Set[str]
    folders: Set[str]


def root_of(prefix: str, destdir: str) -> pathlib.Path:
    """The folder that stands for the prefix: below DESTDIR, where that is said."""
    if not prefix.startswith("/"):
        raise Fault(f"PREFIX is {prefix!r}: it is to be an absolute path, as /usr/local")
    if re.search(r"[:\n]", prefix):
        raise Fault(f"PREFIX is {prefix!r}: the loader takes no path with a colon, nor with a line's end")
    path = os.path.normpath(prefix)
    return pathlib.Path(f"{os.path.abspath(destdir)}{path}" if destdir else path)


def read_list(root: pathlib.Path) -> Installed:
    """What is installed there; nothing where there is no list."""
    found = Installed(set(), set())
    try:
        lines = (root / LIST).read_text().splitlines()
    except (FileNotFoundError, NotADirectoryError):
        return found
    for line in lines:
        kind, _, name = line.partition(" ")
        if kind in ("file", "folder") and not (name.startswith("/") or ".." in name.split("/")):
            (found.files if kind == "file" else found.folders).add(name)
        elif not line.startswith("#"):
            raise Fault(f"{root / LIST} isn't a list that `make install` writes: it has the line {line!r}")
    return found


def list_text(it: Installed) -> bytes:
    lines = [*(f"file {name}\n" for name in sorted(it.files)), *(f"folder {name}\n" for name in sorted(it.folders))]
    return (HEAD + "".join(lines)).encode()


def missing_folders(root: pathlib.Path, names: Set[str]) -> Set[str]:
    """The folders that aren't there: the prefix, as `.`, and those below it."""
    above = {str(it) for name in names for it in pathlib.PurePosixPath(name).parents}
    return {it for it in above if not (root / it).is_dir()}


def remove_folders(root: pathlib.Path, names: Set[str]) -> None:
    """Those that are empty, the deepest first."""
    for name in sorted(names, key=lambda it: (it != ".", it.count("/")), reverse=True):
        try:
            (root / name).rmdir()
        except OSError:
            pass  # something else is in it, or it is gone


def make_folders(path: pathlib.Path) -> List[pathlib.Path]:
    """Makes a folder and those above it: the ones that weren't there."""
    made = [it for it in (path, *path.parents) if not it.exists()]
    for it in reversed(made):
        it.mkdir()
        it.chmod(0o755)
    return made


def write_new(root: pathlib.Path, name: str, it: File) -> None:
    """Writes a file beside its place."""
    at = root / f"{name}{NEW}"
    at.unlink(missing_ok=True)
    if it.link:
        at.symlink_to(it.link)
    else:
        at.write_bytes(it.data)
        at.chmod(it.mode)


def install(tree: Tree, root: pathlib.Path) -> Installed:
    """Writes all files beside their places first, and then puts them there: where that fails, all is as it was."""
    before = read_list(root)
    foreign = [name for name in tree if name not in before.files and os.path.lexists(root / name)]
    if foreign:
        more = f", and so are {len(foreign) - 1} more" if foreign[1:] else ""
        raise Fault(f"{root / foreign[0]} is there{more}, and no `make install` put it there: choose another PREFIX, or move it away")
    after = Installed({*tree, LIST}, before.folders | missing_folders(root, {*tree, LIST}))
    whole = {**tree, LIST: File(list_text(after))}
    made: List[pathlib.Path] = []
    try:
        for name in whole:
            made += make_folders((root / name).parent)
        for name, it in whole.items():
            write_new(root, name, it)
    except BaseException as error:
        for name in whole:
            if os.path.lexists(root / f"{name}{NEW}"):
                (root / f"{name}{NEW}").unlink()
        for path in reversed(sorted(set(made))):
            path.rmdir()
        if isinstance(error, OSError):
            raise Fault(f"{error.filename} can't be written: {error.strerror}") from error
        raise
    for name in sorted(whole, key=lambda it: it != LIST):
        (root / f"{name}{NEW}").replace(root / name)
    for name in before.files - after.files:
        (root / name).unlink(missing_ok=True)
    remove_folders(root, before.folders - {str(it) for name in whole for it in pathlib.PurePosixPath(name).parents})
    return after


def uninstall(root: pathlib.Path) -> Installed:
    """Removes what the list there names, and folders that are empty then."""
    found = read_list(root)
    if not found.files:
        raise Fault(f"nothing is installed below {root}: PREFIX and DESTDIR are to be those of `make install`")
    for name in sorted(found.files, key=lambda it: it == LIST):
        try:
            (root / name).unlink(missing_ok=True)
        except OSError as error:
            raise Fault(f"{error.filename} can't be removed: {error.strerror}") from error
    remove_folders(root, found.folders)
    return found

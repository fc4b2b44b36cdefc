"""The archive: the tree in one folder, with the sum of each file. The same tree makes the same bytes."""
import gzip
import hashlib
import io
import pathlib
import tarfile
from typing import Iterator

from build import machine, moment, version
from tree import File, Tree

BUILD = "share/doc/tirnouch/BUILD"


def name_of() -> str:
    return f"tirnouch-{version()}-{machine()}"


def with_sums(tree: Tree) -> Tree:
    """The tree with BUILD in front, and with a file of the sums, as sha256sum has them."""
    whole = {**tree, "BUILD": tree[BUILD]}
    lines = [f"{hashlib.sha256(it.data).hexdigest()}  {name}\n" for name, it in sorted(whole.items()) if not it.link]
    return {**whole, "SHA256SUMS": File("".join(lines).encode())}


def entries(tree: Tree) -> Iterator[tarfile.TarInfo]:
    """The heads of folders and files, in order of their names."""
    top = name_of()
    folders = {str(it) for name in tree for it in pathlib.PurePosixPath(f"{top}/{name}").parents} - {"."}
    for path in sorted([*folders, *(f"{top}/{name}" for name in tree)]):
        it = tarfile.TarInfo(path)
        it.mtime, it.uname, it.gname = moment(), "root", "root"
        if path in folders:
            it.type, it.mode = tarfile.DIRTYPE, 0o755
        else:
            file = tree[path[len(top) + 1:]]
            it.mode, it.size, it.linkname = file.mode, len(file.data), file.link
            it.type = tarfile.SYMTYPE if file.link else tarfile.REGTYPE
        yield it


def archive(tree: Tree) -> bytes:
    """The archive's bytes."""
    whole, unpacked = with_sums(tree), io.BytesIO()
    with tarfile.open(fileobj=unpacked, mode="w", format=tarfile.USTAR_FORMAT) as tar:
        for it in entries(whole):
            tar.addfile(it, io.BytesIO(whole[it.name[len(name_of()) + 1:]].data) if it.isreg() else None)
    return gzip.compress(unpacked.getvalue(), 6, mtime=moment())

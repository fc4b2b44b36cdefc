#!/usr/bin/env python3
"""Makes an initramfs for Linux: busybox, a script as its first process, and kernel modules with what they depend on.

    c/clients/initramfs.py --busybox FILE --modules DIR --init FILE OUT MODULE ..

--busybox FILE  a busybox that is linked statically (Debian's busybox-static)
--modules DIR   the modules of the kernel, as lib/modules/VERSION; depmod needn't have been run there
--init FILE     a script for busybox' sh, which becomes /init
OUT             the file that is written: an archive of cpio (newc), compressed by gzip
MODULE          a module's name, as xhci_pci. It and those before it in the order of their dependencies are put into /modules, and
                /modules/order names them, a file a line: `while read m; do insmod /modules/$m; done < /modules/order` loads them

A module that the kernel has built in needn't be named. One that isn't found ends the program with status 1."""
import argparse
import gzip
import lzma
import pathlib
import re
import struct
import sys

# What a module's file says of the modules that it needs (linux/module.h, MODULE_INFO).
DEPENDS = re.compile(rb"\0depends=([^\0]*)\0")
# A program header that names a loader for shared libraries (System V ABI, "Program Header"): PT_INTERP.
INTERPRETER, ELF_64 = 3, b"\x7fELF\x02"
DIRECTORY, FILE, DEVICE = 0o040755, 0o100755, 0o020600
# /dev/console, with which the kernel opens the first process' standard input and output (Linux, admin-guide/devices.txt).
CONSOLE = (5, 1)


def entry(number: int, name: str, mode: int, data: bytes = b"", device: tuple[int, int] = (0, 0)) -> bytes:
    """A file of an archive (Linux, driver-api/early-userspace/buffer-format)."""
    fields = [number, mode, 0, 0, 1, 0, len(data), 0, 0, *device, len(name) + 1, 0]
    head = b"070701" + b"".join(b"%08x" % field for field in fields) + name.encode() + b"\0"
    return head + bytes(-len(head) % 4) + data + bytes(-len(data) % 4)


def plain(name: str) -> str:
    """A module's name as the kernel compares it."""
    return name.partition(".ko")[0].replace("-", "_")


def is_static(program: bytes) -> bool:
    """Whether it is a program of ELF's 64-bit class that needs no loader."""
    if not program.startswith(ELF_64):
        return False
    at, size, count = struct.unpack_from("<Q", program, 0x20)[0], *struct.unpack_from("<HH", program, 0x36)
    return all(struct.unpack_from("<I", program, at + i * size)[0] != INTERPRETER for i in range(count))


class Modules:
    """The modules below a folder."""

    def __init__(self, folder: pathlib.Path) -> None:
        self.folder = folder
        self.files = {plain(path.name): path for path in folder.rglob("*.ko*")}

    def read(self, name: str) -> bytes:
        path = self.files.get(plain(name))
        if not path:
            sys.exit(f"initramfs.py: there is no module {name} below {self.folder}")
        return lzma.decompress(path.read_bytes()) if path.suffix == ".xz" else path.read_bytes()

    def closed(self, names: list[str], found: dict[str, bytes]) -> dict[str, bytes]:
        """The modules of these names, and before each the ones it depends on."""
        for name in names:
            if plain(name) not in found:
                data = self.read(name)
                depends = DEPENDS.search(data)
                self.closed(depends.group(1).decode().split(",") if depends and depends.group(1) else [], found)
                found[plain(name)] = data
        return found


def archive(busybox: bytes, init: bytes, modules: dict[str, bytes]) -> bytes:
    """The archive's bytes."""
    files = [(folder, DIRECTORY, b"", (0, 0)) for folder in ("bin", "dev", "modules", "proc", "sys")]
    files += [("dev/console", DEVICE, b"", CONSOLE), ("bin/busybox", FILE, busybox, (0, 0)), ("init", FILE, init, (0, 0))]
    files += [(f"modules/{name}.ko", FILE, data, (0, 0)) for name, data in modules.items()]
    files.append(("modules/order", FILE, "".join(f"{name}.ko\n" for name in modules).encode(), (0, 0)))
    entries = b"".join(entry(number, *file) for number, file in enumerate(files, 1))
    return entries + entry(0, "TRAILER!!!", 0)


def main() -> None:
    parser = argparse.ArgumentParser(usage=__doc__)
    parser.add_argument("--busybox", type=pathlib.Path, required=True)
    parser.add_argument("--modules", type=pathlib.Path, required=True)
    parser.add_argument("--init", type=pathlib.Path, required=True)
    parser.add_argument("out", type=pathlib.Path)
    parser.add_argument("names", nargs="+")
    options = parser.parse_args()
    if not options.modules.is_dir():
        sys.exit(f"initramfs.py: there is no folder {options.modules}")
    try:
        if not is_static(options.busybox.read_bytes()):
            sys.exit(f"initramfs.py: {options.busybox} is no program that is linked statically: take that of Debian's busybox-static")
        modules = Modules(options.modules).closed(options.names, {})
        made = archive(options.busybox.read_bytes(), options.init.read_bytes(), modules)
        options.out.write_bytes(gzip.compress(made, 1))
    except OSError as error:
        sys.exit(f"initramfs.py: {error}")


if __name__ == "__main__":
    main()

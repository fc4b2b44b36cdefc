"""A memory stick over a file (tirnouch/storage.py).

    stick.py FILE [BLOCK] [protected]    the file of its blocks; the bytes of a block, 512 where nothing else is said"""
from tirnouch import main
from tirnouch.storage import Storage


class Stick(Storage):
    """A stick with one unit, which may be protected."""

    product = 0x0007

    def __init__(self, path: str, block: str = "512", protected: str = "") -> None:
        if protected not in ("", "protected"):
            raise ValueError(f"a third word is `protected`, and not {protected!r}")
        self.block, self.is_protected = int(block), bool(protected)
        self.insert(path)


if __name__ == "__main__":
    main(Stick)

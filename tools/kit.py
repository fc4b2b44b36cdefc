"""What the kit's command `rt` can do, and its code: some kits have an `rt ci NAME ..`, which keeps what it proved; in others `rt ci` takes no
names, and proves all from nothing each time."""
import contextlib
import functools
import importlib.machinery
import importlib.util
import io
import pathlib
import re
import shutil
import subprocess
import sys
import threading
from typing import Any, Callable, Dict


@functools.lru_cache(maxsize=None)
def proves_by_name() -> bool:
    """Whether `rt ci` takes names."""
    ran = subprocess.run(["rt", "help"], capture_output=True, text=True, errors="replace")
    return re.search(r"^\s*rt ci \[?NAME", ran.stdout + ran.stderr, re.MULTILINE) is not None


def once_each(stamp: Callable[[Any], str]) -> Callable[[Any], str]:
    """A crate's sum, which has those of all below it, made of each of them once, and not once for each way that leads there."""
    local = threading.local()

    def of(crate: Any) -> str:
        known = getattr(local, "known", None)
        if known is None:
            local.known = {}
            try:
                return of(crate)
            finally:
                local.known = None
        if crate.name not in known:
            known[crate.name] = stamp(crate)
        return known[crate.name]

    return of


@functools.lru_cache(maxsize=None)
def code() -> Any:
    """The code of `rt`, which knows a crate's stamp, what earlier runs kept, and the prover's words. Its `rtlib` checks and builds crates; what
    other clones on this machine keep is taken where it serves, by kits that can."""
    path = pathlib.Path(shutil.which("rt") or "rt").resolve()
    loader = importlib.machinery.SourceFileLoader("rt", str(path))
    module = importlib.util.module_from_spec(importlib.util.spec_from_loader("rt", loader))
    was, sys.dont_write_bytecode = sys.dont_write_bytecode, True
    loader.exec_module(module)
    sys.dont_write_bytecode = was
    if hasattr(module, "share_work"):
        module.share_work(True)
    module.rtlib.guarded()
    module.rtlib.Crate.stamp = once_each(module.rtlib.Crate.stamp)
    return module


def keeps() -> bool:
    """Whether `rt ci` keeps what it proved for later runs on this machine."""
    return hasattr(code(), "Kept")


def crates(root: pathlib.Path) -> Dict[str, Any]:
    """The crates of a checkout as `rt` has them, lowest first."""
    with contextlib.chdir(root), contextlib.redirect_stdout(io.StringIO()):
        found = {it.name: it for it in code().rtlib.crates_below(str(root))}
    return dict(sorted(found.items(), key=lambda it: len(it[1].below())))

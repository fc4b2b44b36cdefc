"""How packages of Python find the library, and the handles that pyusb leaves open. The contexts that packages keep for the whole process
outlive a bus, and have the devices of the next one."""
from __future__ import annotations

import gc
import importlib
import importlib.util
import sys
import weakref
from typing import Any, Dict, Tuple

from tirnouch.library import Library

# What was looked for, and whether it is there.
FOUND: Dict[str, bool] = {}


def has(module: str) -> bool:
    """Whether a module can be imported."""
    if module not in FOUND:
        parent = module.rpartition(".")[0]
        FOUND[module] = (not parent or has(parent)) and importlib.util.find_spec(module) is not None
    return FOUND[module]


def introduce(library: Library) -> None:
    """pyusb and usb1 are told of the library, where a bus is there; hidapi and others ask the system's loader, which has it by its name."""
    if has("usb.backend.libusb1"):
        watch(importlib.import_module("usb.backend.libusb1").get_backend(find_library=lambda _name: library.path))
    if has("usb1"):
        usb1: Any = importlib.import_module("usb1")
        if getattr(usb1, "_tirnouch", None) is not library:
            usb1.loadLibrary(library.c)
            usb1._tirnouch = library


# The handles that pyusb has opened and not closed, with their backends, and the backends of which that is known.
OPENED: Dict[int, Tuple[Any, Any]] = {}
WATCHED: "weakref.WeakSet[Any]" = weakref.WeakSet()


def watch(backend: Any) -> None:
    """Which handles are open is known without a look at all objects."""
    if backend is None or backend in WATCHED:
        return
    opened, closed = backend.open_device, backend.close_device

    def open_device(device: Any) -> Any:
        handle = opened(device)
        OPENED[id(handle)] = backend, handle
        return handle

    def close_device(handle: Any) -> Any:
        OPENED.pop(id(handle), None)
        return closed(handle)

    backend.open_device, backend.close_device = open_device, close_device
    WATCHED.add(backend)


def close_lost() -> None:
    """Closes the handles of devices that the collector took: pyusb leaves these open, as its finalizers find the device gone."""
    for key in list(OPENED):
        backend, handle = OPENED.pop(key)
        if sys.getrefcount(handle) > 2:         # a device has it still
            OPENED[key] = backend, handle
        else:
            backend.close_device(handle)


def dispose_devices() -> None:
    """Closes pyusb's devices that are open still: those of a test that failed live on in its traceback, and others in what the collector
    hasn't seen yet."""
    if OPENED:
        gc.collect(1)       # of what the test alone had
        close_lost()
    if not OPENED:
        return
    kind: Any = getattr(importlib.import_module("usb.core"), "Device")
    for it in gc.get_objects():
        if type(it) is kind:
            importlib.import_module("usb.util").dispose_resources(it)

"""pytest's tests of the package stand in plugin/, and those that need nothing but Python beside this file. pyusb is imported here, so that
the runs of pytest within a test share one."""
import importlib.util
import pathlib
import sys

PYTHON = pathlib.Path(__file__).resolve().parent.parent
if str(PYTHON) not in sys.path:
    sys.path.insert(0, str(PYTHON))
if importlib.util.find_spec("usb"):
    import usb.backend.libusb1  # noqa: F401
    import usb.core  # noqa: F401

pytest_plugins = ["pytester", "tirnouch.plugin"]

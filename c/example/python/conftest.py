"""Where the package tirnouch is installed, pytest has its plugin by itself, and tests need no conftest.py. This one takes the package of
this repository where none is installed."""
import importlib.util
import pathlib
import sys

if not importlib.util.find_spec("tirnouch"):
    sys.path.insert(0, str(pathlib.Path(__file__).resolve().parents[3] / "python"))

pytest_plugins = ["tirnouch.plugin"]

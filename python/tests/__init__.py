"""Tests of the class of devices and of the devices beside it, which need nothing but Python: tools/device_test.py runs them."""
import pathlib
import sys

PYTHON = pathlib.Path(__file__).resolve().parent.parent
sys.path[:0] = [str(PYTHON), str(PYTHON / "devices")]

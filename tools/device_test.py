#!/usr/bin/env python3
"""Runs the tests of python/: the class of devices and the devices beside it.

    tools/device_test.py [WORD ..]    all tests, or those that python's unittest finds by these words, as tests.test_stick

They need nothing but Python, from 3.9 on. Those of devices in the process need bin/libusb-1.0.so.0, or the library that TIRNOUCH_LIBRARY
names: without it they are skipped. What is skipped is told, with its reason; the status is 1 where a test fails."""
import collections
import os
import pathlib
import sys
import unittest
from typing import Sequence

PYTHON = pathlib.Path(__file__).resolve().parent.parent / "python"
OLDEST = (3, 9)


def main(words: Sequence[str]) -> int:
    """The status."""
    if sys.version_info < OLDEST:
        print(f"skipped: the tests of python/ need Python {'.'.join(map(str, OLDEST))}, and {sys.executable} is {sys.version.split()[0]}")
        return 0
    os.chdir(PYTHON)
    sys.path.insert(0, str(PYTHON))
    sys.dont_write_bytecode = True
    loader = unittest.TestLoader()
    tests = loader.loadTestsFromNames(words) if words else loader.discover("tests", top_level_dir=".")
    result = unittest.TextTestRunner(stream=sys.stdout, verbosity=0).run(tests)
    for reason, count in collections.Counter(reason for _, reason in result.skipped).items():
        print(f"skipped: {count} tests: {reason}")
    if not result.testsRun:
        print(f"there is no test {' '.join(words)}")
    return 0 if result.wasSuccessful() and result.testsRun else 1


if __name__ == "__main__":
    sys.exit(main(sys.argv[1:]))

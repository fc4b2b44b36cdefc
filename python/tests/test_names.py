"""What `import tirnouch` has: the base classes and their modules by name, loaded when they are asked for."""
from __future__ import annotations

import os
import subprocess
import sys
import unittest

import tirnouch
from tests.harness import PYTHON

NAMES = {"dfu": "Dfu", "hid": "Hid", "scpi": "Scpi", "serial": "Serial", "storage": "Storage", "usbtmc": "Usbtmc"}


class Names(unittest.TestCase):
    def test_each_base_class_is_that_of_its_module(self) -> None:
        for module, name in NAMES.items():
            found = getattr(tirnouch, name)
            self.assertTrue(issubclass(found, tirnouch.Device))
            self.assertEqual((found.__module__, getattr(tirnouch, module).__name__), (f"tirnouch.{module}",) * 2)

    def test_all_that_it_says_it_has_is_there(self) -> None:
        self.assertEqual([it for it in tirnouch.__all__ if not hasattr(tirnouch, it) or it not in dir(tirnouch)], [])
        with self.assertRaisesRegex(AttributeError, "module 'tirnouch' has no attribute 'Modem'"):
            getattr(tirnouch, "Modem")

    def test_none_is_loaded_before_it_is_asked_for(self) -> None:
        code = ("import sys, tirnouch as t\nprint([it for it in sys.modules if it in sys.argv[1:]])\nclass A(t.Hid): pass\n"
                "print([it for it in sys.modules if it in sys.argv[1:]])")
        words = [sys.executable, "-c", code, *(f"tirnouch.{it}" for it in NAMES)]
        ran = subprocess.run(words, env={**os.environ, "PYTHONPATH": str(PYTHON)}, capture_output=True, text=True, check=True, timeout=60)
        self.assertEqual(ran.stdout.splitlines(), ["[]", "['tirnouch.hid']"])


if __name__ == "__main__":
    unittest.main()

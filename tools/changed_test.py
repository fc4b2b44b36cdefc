#!/usr/bin/env python3
"""Tries what tools/changed says of changes: tools/changed_test.py. It takes seconds."""
import importlib.machinery
import importlib.util
import pathlib
import re
import subprocess
import sys
import unittest

ROOT = pathlib.Path(__file__).resolve().parent.parent
loader = importlib.machinery.SourceFileLoader("changed", str(ROOT / "tools" / "changed"))
changed = importlib.util.module_from_spec(importlib.util.spec_from_loader("changed", loader))
sys.modules["changed"] = changed
loader.exec_module(changed)


class Changes(unittest.TestCase):
    """What is to be tried for files that differ."""

    def test_a_crate_is_proved_with_all_that_stand_on_it(self) -> None:
        it = changed.trials(["crates/usb_living/src/living.rt"])
        self.assertEqual(it.changed, ["usb_living"])
        self.assertEqual(it.proved, ["usb_living", "tirnouch_c", "example_drivers"])
        self.assertEqual(it.wrong_bodies, ["usb_living"])
        self.assertEqual(it.rows, [])
        self.assertIn("texts", it.scenes)

    def test_the_lowest_crate_comes_first(self) -> None:
        it = changed.trials(["crates/usb_trb/src/lib.rt", "crates/usb_model/src/lib.rt"])
        for below, above in [("usb_trb", "usb_rings"), ("usb_rings", "usb_xhc"), ("usb_model", "usb_core"), ("usb_core", "usb_library"),
                             ("usb_devicetext", "tirnouch_c"), ("trace_main", "usbtrace")]:
            self.assertLess(it.proved.index(below), it.proved.index(above), f"{below} stands below {above}")

    def test_rows_of_the_words_that_a_crate_has(self) -> None:
        it = changed.trials(["crates/trace_picture/src/lib.rt"])
        self.assertTrue(it.rows)
        self.assertEqual({(ROOT / "rows" / f"{name}.cmd").read_text().split()[0] for name in it.rows}, {"draw"})
        self.assertEqual(it.scenes, [])

    def test_rows_of_all_words_behind_a_crate_below(self) -> None:
        it = changed.trials(["crates/usb_model/specs/Setup.antt"])
        self.assertEqual(len(it.rows), len(list((ROOT / "rows").glob("*.cmd"))))

    def test_a_row_and_a_scene_of_their_own(self) -> None:
        it = changed.trials(["rows/again_without_a_place.out", "c/tests/usb/gates.c"])
        self.assertEqual((it.proved, it.rows, it.scenes), ([], ["again_without_a_place"], ["gates"]))

    def test_all_scenes_behind_the_library_for_c_and_what_scenes_share(self) -> None:
        every = sorted(it.stem for it in (ROOT / "c" / "tests" / "usb").glob("*.expected"))
        self.assertEqual(changed.trials(["c/usb/gates.c"]).scenes, every)
        self.assertEqual(changed.trials(["c/tests/usb/scene.h"]).scenes, every)

    def test_a_wrong_body_proves_nothing(self) -> None:
        it = changed.trials(["tools/wrong_bodies/usb_devicetext/a_gate_is_dropped.edit"])
        self.assertEqual((it.proved, it.wrong_bodies), ([], ["usb_devicetext"]))

    def test_tools_and_python(self) -> None:
        self.assertEqual(changed.trials(["tools/runs/limit.py", "python/tirnouch/bus.py"]).tests, sorted(["tools/python_test.py all", *changed.TESTS["tools/runs"].split("; ")]))
        self.assertEqual(changed.trials(["crates/trace_recorded/src/lib.rt"]).tests, ["make captures", "tools/usbtrace_test.py"])

    def test_whole_runs_of_the_program(self) -> None:
        for path in ("tools/usbtrace_tests/streams.py", "tools/usbtrace_test.py", "crates/usbtrace/src/main.rt", "crates/usb_model/src/lib.rt"):
            self.assertIn("tools/usbtrace_test.py", changed.trials([path]).tests)
        self.assertEqual(changed.trials(["crates/usb_living/src/living.rt"]).tests, [])

    def test_nothing(self) -> None:
        self.assertEqual(changed.lines(changed.trials([])), ["nothing that is tried differs"])

    def test_what_is_printed(self) -> None:
        told = changed.lines(changed.trials(["crates/usb_living/src/living.rt"]))
        self.assertRegex(told[0], r"^prove 3 crates; these differ: usb_living$")
        stay, change = (re.fullmatch(rf"    if {which}: some (\d+) processor minutes, (\d+) by the clock of \d+ processors?", line)
                        for which, line in (("contracts stay", told[1]), ("they change", told[2])))
        self.assertLess(int(stay[1]), int(change[1]), "over kept work a body costs less than from nothing")
        self.assertLessEqual(int(change[2]), int(change[1]), "several crates go side by side")
        self.assertEqual(told[3], "    tools/prove --since HEAD")
        self.assertIn("    tools/wrong_bodies.py together usb_living", told)
        self.assertIn("    make c-test", told)

    def test_each_crate_that_has_words_is_there(self) -> None:
        self.assertEqual(set(changed.WORDS) - set(changed.uses()), set())
        for path in changed.TESTS:
            self.assertTrue((ROOT / path).exists(), path)


class Revisions(unittest.TestCase):
    """The words of the command."""

    def test_who_reads_a_line_alone_is_no_error(self) -> None:
        ran = subprocess.run(f"set -o pipefail; {ROOT}/tools/changed HEAD~30 | head -1", shell=True, executable="/bin/bash", capture_output=True, text=True)
        self.assertEqual(ran.stderr, "")
        self.assertEqual(len(ran.stdout.splitlines()), 1)

    def test_a_revision_that_is_none_is_told(self) -> None:
        ran = subprocess.run([ROOT / "tools" / "changed", "no-such-revision"], capture_output=True, text=True)
        self.assertEqual((ran.returncode, ran.stdout), (2, ""))
        self.assertIn("no-such-revision", ran.stderr)

    def test_help_is_told_and_for_other_words_too(self) -> None:
        for words, status in [(["--help"], 0), (["--all"], 2), (["HEAD", "HEAD"], 2)]:
            ran = subprocess.run([ROOT / "tools" / "changed", *words], capture_output=True, text=True)
            self.assertEqual(ran.returncode, status)
            self.assertIn("tools/changed [REVISION]", ran.stdout)


if __name__ == "__main__":
    unittest.main()

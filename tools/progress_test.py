#!/usr/bin/env python3
"""Tries what long work says (tools/progress.py, tools/times.py), and how the core for C is built without a proof (tools/unproved.py):
tools/progress_test.py. The prover is a script that prints what the gate prints; whole builds are tried elsewhere."""
import contextlib
import io
import os
import pathlib
import signal
import subprocess
import sys
import tempfile
import unittest

sys.path.insert(0, str(pathlib.Path(__file__).resolve().parent))
import crate_graph
import progress
import times
import unproved

ROOT = pathlib.Path(__file__).resolve().parent.parent
KEPT = "rt: usb_rings is kept: an earlier run on this machine proved the same files over the same libraries"


class Proofs(unittest.TestCase):
    """A run of the prover, as a person sees it."""

    def setUp(self) -> None:
        self.folder = tempfile.TemporaryDirectory(prefix="progress-")
        self.addCleanup(self.folder.cleanup)
        os.environ["XDG_CACHE_HOME"] = self.folder.name
        self.addCleanup(os.environ.pop, "XDG_CACHE_HOME")

    def prove(self, script: str, quiet: bool = True, names: "list[str] | None" = None) -> "tuple[int, str, str]":
        """The status of a run of this script in the place of the prover, what it passed on, and what it told."""
        out, told = io.StringIO(), io.StringIO()
        with contextlib.redirect_stderr(told):
            status = progress.prove("make it", names or crate_graph.below("usb_descriptors"), ["sh", "-c", script], out, quiet=quiet)
        return status, out.getvalue(), told.getvalue()

    def test_crates_that_stood_and_crates_that_are_kept_are_counted(self) -> None:
        before, progress.LOGGED = progress.LOGGED, 0.2
        try:
            _, _, told = self.prove("echo 'rt: usb_model is kept: an earlier run'; sleep 0.5; echo 'rt: proof_model proved'; sleep 0.5")
        finally:
            progress.LOGGED = before
        self.assertIn("make it: 1 of 3 crates; now other work; 0 minutes gone, some ", told)
        self.assertIn("make it: 2 of 3 crates; ", told)

    def test_one_is_counted_as_one(self) -> None:
        _, _, told = self.prove("true", names=["usb_trb"])
        self.assertIn("proves 1 crate: some ", told)

    def test_the_first_line_says_what_is_to_be_done(self) -> None:
        _, _, told = self.prove("true")
        self.assertRegex(told, r"\Amake it: proves 3 crates: some \d+ minutes?, or less")

    def test_what_went_well_is_left_out_where_only_faults_are_wanted(self) -> None:
        script = "echo 'fn usb_trb::read: proved'; echo 'rt: usb_trb proved'; echo 'src/lib.rt:3:1: error: no'"
        self.assertEqual(self.prove(script)[1], "rt: usb_trb proved\nsrc/lib.rt:3:1: error: no\n")
        self.assertIn("fn usb_trb::read: proved\n", self.prove(script, quiet=False)[1])

    def test_a_run_that_fails_shows_all_of_its_end_and_has_its_status(self) -> None:
        status, out, _ = self.prove("echo 'fn usb_trb::read: proved'; exit 3")
        self.assertEqual((status, out), (3, "fn usb_trb::read: proved\n"))

    def test_dear_crates_are_waited_for_longer(self) -> None:
        proofs = progress.Proofs(["usb_trb", "usb_rings"], progress.Meter())
        proofs.cost = {"usb_trb": 2.0, "usb_rings": 40.0}
        self.assertEqual(proofs.minutes_left(), 42.0)  # usb_rings waits for usb_trb
        proofs.read(KEPT)
        self.assertEqual(proofs.minutes_left(), 2.0)


class Times(unittest.TestCase):
    """The one file of times, and its page."""

    def test_the_page_names_each_command(self) -> None:
        page = times.page()
        for command in times.COMMANDS:
            self.assertIn(f"| `make {command}` |", page)

    def test_the_crates_of_the_file_are_those_of_the_repository(self) -> None:
        self.assertLessEqual(set(times.read(times.FILE)["crates"]), set(crate_graph.uses()))

    def test_a_chain_is_as_long_as_its_crates(self) -> None:
        uses = {"low": [], "beside": [], "high": ["low"]}
        self.assertEqual(times.chain(list(uses), uses, {"low": 1.0, "beside": 2.5, "high": 2.0}), 3.0)

    def test_a_file_that_is_none_counts_as_empty(self) -> None:
        with tempfile.NamedTemporaryFile("w", suffix=".json") as file:
            file.write("no json")
            file.flush()
            self.assertEqual(times.read(pathlib.Path(file.name)), {"crates": {}, "commands": {}})


class Unproved(unittest.TestCase):
    """What is made of the core's module."""

    TEXT = (
        'define internal noundef i32 @"tirnouch_c::exports::tirnouch_call"(ptr noundef %a0) #0 {\n  call void @llvm.trap()\n'
        '  call void @"rattle-llvm-checks::Unreachable"(i8 0)\n  unreachable\n}\n\n'
        "define i32 @main() #0 {\n  ret i32 0\n}\n\n"
        'define internal void @"rattle-llvm-checks::Overflow"(i8 %a0) #7 {\nfalse:\n  call void @llvm.trap()\n  unreachable\n}\n'
        'define internal void @"rattle-llvm-checks::Unreachable"(i8 %a0) #7 {\nfalse:\n  call void @llvm.trap()\n  unreachable\n}\n'
    )

    def test_exports_have_the_names_of_c_and_main_is_hidden(self) -> None:
        text = unproved.as_library(self.TEXT, trust=False)
        self.assertIn("define noundef i32 @tirnouch_call(ptr noundef %a0)", text)
        self.assertIn("define internal i32 @main()", text)

    def test_each_check_tells_its_own_name(self) -> None:
        text = unproved.as_library(self.TEXT, trust=False)
        self.assertNotIn("llvm.trap", text)
        for name in ("Overflow", "Unreachable"):
            self.assertEqual(text.count(f'call void @rattle_check_failed(ptr @"checks.{name}")'), 1)

    def test_trust_leaves_no_check(self) -> None:
        text = unproved.as_library(self.TEXT, trust=True)
        self.assertNotIn("llvm.trap", text)
        self.assertNotIn("rattle_check_failed", text)

    def test_a_check_that_fails_says_which_and_ends_the_program(self) -> None:
        with tempfile.TemporaryDirectory(prefix="checks-") as folder:
            main = pathlib.Path(folder) / "main.c"
            main.write_text('void rattle_check_failed(const char *);\nint main(void) { rattle_check_failed("Overflow"); }\n')
            subprocess.run(["cc", "-std=c11", main, ROOT / "c" / "unproved.c", "-o", main.with_suffix("")], check=True)
            ran = subprocess.run([main.with_suffix("")], capture_output=True, text=True)
        self.assertEqual(ran.returncode, -signal.SIGABRT)
        self.assertIn("tirnouch: a check failed in the unproved core: Overflow.", ran.stderr)

    def test_every_export_of_the_header_is_called(self) -> None:
        source = (ROOT / "crates" / "tirnouch_c" / "src" / "exports.rt").read_text()
        header = (ROOT / "c" / "include" / "tirnouch_core.h").read_text()
        names = [name for name, _ in unproved.exports(source)]
        self.assertGreater(len(names), 10)
        for name in names:
            self.assertIn(f" {name}(", header)


if __name__ == "__main__":
    ran = unittest.main(exit=False, verbosity=0).result
    sys.exit(0 if ran.wasSuccessful() else 1)

"""Devices that are programs: started with a socket, asked by lines, as the library does it."""
import pathlib
import signal
import tempfile
import unittest

from tests.harness import ProgramHost

SOURCE = """
import os, subprocess, sys, time
from tirnouch import *
print("printed by the module")
class Thing(Device):
    reply = bulk_in(0x81)
    def __init__(self, mode="echo", count="0"):
        self.mode, self.count = mode, int(count)
    @bulk_out(0x02)
    def taken(self, packet):
        if self.mode == "print":
            print("printed", packet)
            sys.stdout.write("written" + chr(10))
            sys.stdout.flush()
            os.write(1, b"by number" + bytes((10,)))
            subprocess.run(["echo", "by a child"])
        if self.mode == "read":
            self.send(0x81, sys.stdin.read().encode() + b"nothing")
            return
        if self.mode == "end":
            sys.exit(3)
        if self.mode == "bug":
            raise ValueError("a bug")
        self.send(0x81, packet)
main(Thing)
"""


class Programs(unittest.TestCase):
    def setUp(self) -> None:
        folder = tempfile.TemporaryDirectory()
        self.addCleanup(folder.cleanup)
        self.source = pathlib.Path(folder.name) / "thing.py"
        self.source.write_text(SOURCE)

    def start(self, *words: str) -> ProgramHost:
        """The program, which is ended behind the test."""
        host = ProgramHost(str(self.source), *words)

        def end() -> None:
            host.socket.close()
            host.program.kill()
            host.program.communicate()

        self.addCleanup(end)
        return host

    def test_it_says_its_lines_and_then_ok(self) -> None:
        lines = self.start().hello(2)
        self.assertEqual([line.split(" ")[:2] for line in lines], [["device", "2"], ["ids", "2"], ["speed", "2"]])

    def test_it_answers_until_the_socket_is_closed(self) -> None:
        host = self.start()
        host.hello()
        self.assertEqual(host.ask("out 02 616263"), "a")
        host.tell("claimed 0")
        self.assertEqual(host.ask("in 81 512"), "d:616263")
        status, errors = host.end()
        self.assertEqual(status, 0)
        self.assertNotIn("Traceback", errors)

    def test_what_is_printed_goes_to_standard_error(self) -> None:
        host = self.start("print")
        host.hello()
        self.assertEqual(host.ask("out 02 61"), "a")
        self.assertEqual(host.ask("in 81 512"), "d:61")
        _, errors = host.end()
        for text in ("printed by the module", "printed b'a'", "written", "by number", "by a child"):
            self.assertIn(f"{text}\n", errors)

    def test_it_reads_no_question_by_itself(self) -> None:
        host = self.start("read")
        host.hello()
        self.assertEqual(host.ask("out 02 61"), "a")
        self.assertEqual(host.ask("in 81 512"), f"d:{b'nothing'.hex()}")

    def test_questions_in_pieces_and_many_at_once(self) -> None:
        host = self.start()
        host.hello()
        for piece in (b"out", b" 02 6", b"1\nout 02 62\nin 81 512\nin 8", b"1 512\n"):
            host.say(piece)
        self.assertEqual([host.hear() for _ in range(4)], ["a", "a", "d:61", "d:62"])

    def test_a_question_without_its_end_isnt_asked(self) -> None:
        host = self.start()
        host.hello()
        host.say(b"out 02 61")
        host.socket.shutdown(1)
        self.assertIsNone(host.hear())
        self.assertEqual(host.end()[0], 0)

    def test_the_library_may_end_before_it_hears_an_answer(self) -> None:
        host = self.start()
        host.hello()
        host.say(b"out 02 61\nin 81 512\n" * 2000)
        status, errors = host.end()
        self.assertEqual((status, errors.replace("printed by the module\n", "")), (0, ""))

    def test_what_isnt_a_question_ends_it_with_a_sentence(self) -> None:
        for line in ("huh", "", "in 81", "in 82 5", "in 02 5", "in 81 -1", "out 02 6", "out 02 zz", "control c001 00", "claimed", "reset 1",
                     "cleared zz", "out 02 61\0", "in 81 \u00e9", "in 81 5 5", "hello", "hello x", "hello 0 1"):
            host = self.start()
            host.hello()
            host.say(line.encode() + b"\n")
            self.assertIsNone(host.hear(), line)
            status, errors = host.end()
            self.assertEqual(status, 1, line)
            self.assertIn("Thing: this isn't a question of the protocol: b", errors)
            self.assertNotIn("Traceback", errors)

    def test_an_exception_goes_to_standard_error_and_the_program_goes_on(self) -> None:
        host = self.start("bug")
        host.hello()
        self.assertEqual([host.ask("out 02 61"), host.ask("out 02 61")], ["s", "s"])
        _, errors = host.end()
        self.assertEqual(errors.count("ValueError: a bug"), 2)

    def test_a_device_may_end_its_program(self) -> None:
        host = self.start("end")
        host.hello()
        self.assertIsNone(host.ask("out 02 61"))
        self.assertEqual(host.end()[0], 3)

    def test_words_that_dont_fit_the_class_are_told(self) -> None:
        host = self.start("echo", "1", "more")
        self.assertIsNone(host.hear())
        status, errors = host.end()
        self.assertEqual(status, 1)
        self.assertIn("too many positional arguments; its words are those of Thing(self, mode='echo', count='0')", errors)

    def test_an_exception_at_the_beginning_ends_it(self) -> None:
        host = self.start("echo", "many")
        self.assertIsNone(host.hear())
        status, errors = host.end()
        self.assertEqual((status, "ValueError: invalid literal for int()" in errors), (1, True))

    def test_a_device_that_cant_be_described_ends_it(self) -> None:
        self.source.write_text("from tirnouch import *\nclass Thing(Device):\n    strings = 'Works'\nmain(Thing)\n")
        host = self.start()
        host.say(b"hello 0\n")
        self.assertIsNone(host.hear())
        self.assertIn("TypeError: Thing: `strings` is a tuple", host.end()[1])

    def test_an_interrupt_is_the_other_programs(self) -> None:
        host = self.start()
        host.hello()
        host.program.send_signal(signal.SIGINT)
        self.assertEqual(host.ask("out 02 61"), "a")

    def test_main_takes_a_class(self) -> None:
        self.source.write_text("from tirnouch import *\nmain(5)\n")
        host = self.start()
        self.assertIsNone(host.hear())
        self.assertIn("TypeError: main takes a class of devices, as main(Echo), and not 5", host.end()[1])

    def test_main_takes_a_device_too(self) -> None:
        self.source.write_text("from tirnouch import *\nclass Thing(Device):\n    key = interrupt_in(0x81)\nmain(Thing())\n")
        host = self.start()
        self.assertEqual(len(host.hello()), 3)

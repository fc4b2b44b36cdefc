"""What a device's methods answer, and what becomes of each answer; the words are those of docs/DEVICES.md."""
import pathlib
import re
import threading
import unittest
from typing import Any

from tirnouch import AS_TEXT, BROKEN, GONE, NAK, STALL, Device, Request, bulk_in, bulk_out, control, interrupt_in, later
from tirnouch.questions import EVENTS

from tests.harness import Host, told


class Echo(Device):
    """It sends what it took, and answers as it is told."""

    reply = bulk_in(0x81)
    extra = bulk_out(0x04)

    def __init__(self) -> None:
        self.answer: Any = None
        self.events: list[Any] = []

    @bulk_out(0x02)
    def taken(self, packet: bytes) -> Any:
        if self.answer is None:
            self.send(0x81, packet)
        return self.answer

    @interrupt_in(0x83, 4)
    def computed(self, room: int) -> Any:
        return bytes((room,)) if self.answer is None else self.answer

    @control(0xC0, 1)
    def read(self, request: Request) -> Any:
        return bytes((request.value, request.index, request.length)) if self.answer is None else self.answer

    @control(0x40, 2, 7)
    def written(self, request: Request) -> Any:
        self.events.append(request.data)
        return self.answer

    @control(0x40, 3)
    @control(0x40, 4)
    def twice(self, request: Request) -> None:
        self.events.append(request.request)

    def on_reset(self) -> None:
        self.events.append("reset")

    def on_claimed(self, interface: int) -> None:
        self.events.append(("claimed", interface))

    def on_cleared(self, endpoint: int) -> None:
        self.events.append(("cleared", endpoint))


class Answers(unittest.TestCase):
    def setUp(self) -> None:
        self.device = Echo()
        self.host = Host(self.device)

    def test_bytes_that_were_taken_come_back(self) -> None:
        self.assertEqual(self.host.ask("out 02 6162"), "a")
        self.assertEqual(self.host.ask("in 81 512"), "d:6162")
        self.assertEqual(self.host.ask("in 81 512"), "n")

    def test_an_empty_packet(self) -> None:
        self.assertEqual(self.host.ask("out 02 "), "a")
        self.assertEqual(self.host.ask("out 02"), "a")
        self.assertEqual([self.host.ask("in 81 512") for _ in range(3)], ["d:", "d:", "n"])

    def test_an_endpoint_without_a_method_takes_everything(self) -> None:
        self.assertEqual(self.host.ask("out 04 00"), "a")

    def test_a_method_that_is_read_is_asked_with_the_room(self) -> None:
        self.assertEqual(self.host.ask("in 83 4"), "d:04")
        self.assertEqual(self.host.ask("in 83 64"), "d:40")

    def test_a_long_answer_is_cut_into_packets_of_the_endpoint(self) -> None:
        self.device.answer = b"123456789"
        self.assertEqual([self.host.ask("in 83 4") for _ in range(3)], ["d:31323334", "d:35363738", "d:39"])

    def test_no_answer_yet_is_not_ready(self) -> None:
        self.device.computed = lambda room: None  # type: ignore[method-assign]
        self.assertEqual(self.host.ask("in 83 4"), "n")

    def test_each_answer_has_its_word_everywhere(self) -> None:
        for answer, word in ((STALL, "s"), (NAK, "n"), (BROKEN, "b"), (GONE, "gone"), (later(20), "later 20"), (later(0), "later 0")):
            self.device.answer = answer
            for question in ("out 02 61", "in 83 4", "control c001000000000800", "control 4002070000000000"):
                self.assertEqual(self.host.ask(question), word, question)

    def test_an_answer_as_the_text_has_it_is_for_requests(self) -> None:
        self.device.answer = AS_TEXT
        self.assertEqual(self.host.ask("control c001000000000800"), "t")
        with told() as errors:
            self.assertEqual(self.host.ask("out 02 61"), "s")
        self.assertIn("Echo.taken returned AS_TEXT", errors.getvalue())

    def test_answers_of_a_wrong_type_are_told_and_stall(self) -> None:
        for answer, question, sentence in ((b"abc", "out 02 61", "Echo.taken returned b'abc': return None"),
                                           (5, "in 83 4", "Echo.computed returned 5: return bytes"), ("abc", "in 83 4", "return bytes"),
                                           (-1, "out 02 61", "return None"), ([1], "control c001000000000800", "return bytes"),
                                           (b"x", "control 4002070000000000", "return None")):
            self.device.answer = answer
            with told() as errors:
                self.assertEqual(self.host.ask(question), "s")
            self.assertIn(sentence, errors.getvalue())

    def test_a_request_that_reads_is_answered_by_bytes(self) -> None:
        self.device.read = lambda request: None  # type: ignore[method-assign]
        with told() as errors:
            self.assertEqual(self.host.ask("control c001000000000800"), "s")
        self.assertIn("Echo.read returned None: return bytes", errors.getvalue())

    def test_an_exception_is_told_with_its_traceback_and_a_stall(self) -> None:
        def fail(_packet: bytes) -> None:
            raise KeyError("a bug of the device")

        self.device.taken = fail  # type: ignore[assignment, method-assign]
        with told() as errors:
            self.assertEqual(self.host.ask("out 02 61"), "s")
        for text in ("Traceback", "in fail", "KeyError: 'a bug of the device'", "Echo: an exception at `out 02 61`"):
            self.assertIn(text, errors.getvalue())
        del self.device.taken
        self.assertEqual(self.host.ask("out 02 61"), "a")


class Requests(unittest.TestCase):
    def setUp(self) -> None:
        self.device = Echo()
        self.host = Host(self.device)

    def test_the_fields_of_a_setup_packet(self) -> None:
        """USB 2.0, table 9-2: words have their lower byte first."""
        self.assertEqual(self.host.control(0xC0, 1, 2, 3, 4), b"\2\3\4")

    def test_an_answer_is_cut_to_the_length_that_was_asked_for(self) -> None:
        self.assertEqual(self.host.ask("control c001020003000100 "), "d:02")
        self.assertEqual(self.host.ask("control c001020003000000"), "d:")

    def test_what_is_written_comes_with_the_request(self) -> None:
        self.assertEqual(self.host.control(0x40, 2, 7, 0, b"abc"), b"")
        self.assertEqual(self.device.events, [b"abc"])

    def test_a_request_that_no_method_answers_is_the_texts(self) -> None:
        """Here the value differs, then the type, then the request."""
        for setup in ("4002080000000000", "c002070000000000", "8006000100001200"):
            self.assertEqual(self.host.ask(f"control {setup}"), "t")

    def test_a_method_answers_several_requests(self) -> None:
        for request in (3, 4):
            self.host.control(0x40, request, 0, 0)
        self.assertEqual(self.device.events, [3, 4])

    def test_the_method_of_a_subclass_comes_before_its_bases(self) -> None:
        class Other(Echo):
            @control(0xC0, 1)
            def other(self, _request: Request) -> bytes:
                return b"other"

        self.assertEqual(Host(Other()).control(0xC0, 1, 0, 0, 8), b"other")


class Queues(unittest.TestCase):
    def setUp(self) -> None:
        self.device = Echo()
        self.host = Host(self.device)

    def packets(self) -> list[Any]:
        """What is read at 81, until there is no more."""
        found = []
        while (answer := self.host.ask("in 81 512")) != "n":
            found.append(len(answer) // 2 - 1 if answer and answer.startswith("d:") else answer)
        return found

    def test_data_goes_in_packets_of_the_endpoint(self) -> None:
        """USB 2.0, 5.8.3: all but the last are full; where that is full too, an empty one may end the transfer."""
        for length, zero, expected in ((1100, False, [512, 512, 76]), (1024, False, [512, 512]), (1024, True, [512, 512, 0]),
                                       (1100, True, [512, 512, 76]), (0, False, [0]), (0, True, [0])):
            self.device.send(0x81, bytes(length), zero)
            self.assertEqual(self.packets(), expected)

    def test_an_endpoint_may_be_named_by_its_attribute(self) -> None:
        self.device.send(self.device.reply, bytearray(b"a"))
        self.assertEqual(self.device.waiting(self.device.reply), 1)

    def test_a_stall_stands_behind_what_was_sent(self) -> None:
        self.device.send(0x81, b"abc")
        self.device.stall(0x81)
        self.device.send(0x81, b"d")
        self.assertEqual(self.packets(), [3, "s", 1])

    def test_an_out_endpoint_stalls_at_its_next_packet(self) -> None:
        self.device.stall(0x02)
        self.assertEqual([self.host.ask("out 02 61") for _ in range(2)], ["s", "a"])
        self.assertEqual(self.packets(), [1])

    def test_what_is_discarded_isnt_read(self) -> None:
        self.device.send(0x81, bytes(1024))
        self.device.discard(0x81)
        self.assertEqual((self.packets(), self.device.waiting(0x81)), ([], 0))

    def test_wrong_endpoints_and_data_are_refused(self) -> None:
        for words, error, sentence in (((0x82, b""), ValueError, "no endpoint 82; it has 02, 04, 81, 83"),
                                       ((0x02, b""), ValueError, "OUT endpoint"), ((0x81, "abc"), TypeError, "is bytes, and not str"),
                                       (("81", b""), TypeError, "an endpoint is its address, as 0x81, and not '81'")):
            with self.assertRaisesRegex(error, sentence):
                self.device.send(*words)
        self.assertEqual(self.packets(), [])


class Events(unittest.TestCase):
    def setUp(self) -> None:
        self.device = Echo()
        self.host = Host(self.device)

    def test_events_are_told_and_not_answered(self) -> None:
        for line in ("plugged", "claimed 1", "released 1", "cleared 81", "reset", "pulled"):
            self.host.tell(line)
        self.assertEqual(self.device.events, [("claimed", 1), ("cleared", 0x81), "reset"])

    def test_a_reset_and_a_plug_lose_what_was_to_be_read(self) -> None:
        for line, left in (("reset", "n"), ("plugged", "n"), ("cleared 81", "d:61"), ("claimed 0", "d:61")):
            self.device.send(0x81, b"a")
            self.host.tell(line)
            self.assertEqual(self.host.ask("in 81 512"), left, line)

    def test_an_exception_at_an_event_is_told(self) -> None:
        def fail() -> None:
            raise RuntimeError("no reset here")

        self.device.on_reset = fail  # type: ignore[method-assign]
        with told() as errors:
            self.host.tell("reset")
        self.assertIn("RuntimeError: no reset here", errors.getvalue())
        self.assertIn("Echo: an exception at `reset`", errors.getvalue())


class Numbers(unittest.TestCase):
    """What stands in c/include/tirnouch.h."""

    def setUp(self) -> None:
        self.header = (pathlib.Path(__file__).resolve().parents[2] / "c" / "include" / "tirnouch.h").read_text()

    def test_answers_have_the_headers_numbers(self) -> None:
        found = dict(re.findall(r"#define TIRNOUCH_(\w+) \((-\d+)\)", self.header))
        mine = {"STALL": STALL, "AS_TEXT": AS_TEXT, "NOT_READY": NAK, "BROKEN": BROKEN, "GONE": GONE}
        self.assertEqual(found, {name: str(answer.number) for name, answer in mine.items()})
        self.assertIn(f"({later(0).number} - (int)(", self.header)
        self.assertEqual(later(0).number - later(7).number, 7)

    def test_events_have_the_headers_numbers(self) -> None:
        found = re.findall(r"TIRNOUCH_EVENT_(\w+) = (\d+)", self.header)
        self.assertEqual([(name.lower(), int(number)) for name, number in found], list(zip(EVENTS, range(1, 7))))


class Waits(unittest.TestCase):
    def test_later_takes_whole_milliseconds(self) -> None:
        for value, error in ((1.5, TypeError), ("1", TypeError), (True, TypeError), (-1, ValueError), (10**9, ValueError)):
            with self.assertRaisesRegex(error, "milliseconds"):
                later(value)  # type: ignore[arg-type]
        self.assertEqual(later(5), later(5))
        self.assertEqual(repr(later(5)), "later(5)")

    def test_ready_needs_the_device_in_the_process(self) -> None:
        with self.assertRaisesRegex(RuntimeError, "returns later"):
            Echo().ready()

    def test_ready_isnt_called_from_a_method_that_is_asked(self) -> None:
        device = Echo()
        woken: list[int] = []
        device._wake = lambda: woken.append(threading.get_ident())
        device.taken = lambda packet: device.ready()  # type: ignore[assignment, method-assign]
        with told() as errors:
            self.assertEqual(Host(device).ask("out 02 61"), "s")
        self.assertIn("ready() is called from another thread", errors.getvalue())
        device.ready()
        self.assertEqual(len(woken), 1)

"""Faults in the place of packets and requests, and answers that come later: what docs/PYTHON.md says of each."""
import unittest
from typing import Any, List
from unittest import mock

from tirnouch import BROKEN, GONE, NAK, SILENT, STALL, UNPLUG, Device, Request, after, bulk_in, bulk_out, config, later
from tirnouch.answers import MOST_MILLISECONDS
from tirnouch.ports import Port

from tests.harness import Host, told


class Thing(Device):
    """It sends numbers from 0 on, and keeps what it takes."""

    config = config(bulk_out(0x02, 64), bulk_in(0x81, 64))

    def __init__(self) -> None:
        self.count, self.taken, self.answers = 0, [], []
        self.asked: List[int] = []

    taken: List[bytes]
    answers: List[Any]

    def out_02(self, packet: bytes) -> Any:
        self.taken.append(packet)
        return self.answers.pop(0) if self.answers else None

    def in_81(self, _room: int) -> Any:
        if self.answers:
            return self.answers.pop(0)
        self.count += 1
        return bytes((self.count - 1,))

    def control(self, setup: Request, _data: bytes) -> Any:
        self.asked.append(setup.request)
        return self.answers.pop(0) if self.answers else bytes((setup.request,))


class Asked(unittest.TestCase):
    def setUp(self) -> None:
        self.device = Thing()
        self.host = Host(self.device)
        self.port = Port(mock.Mock(), 0, self.device, "Thing")

    def read(self, count: int = 1) -> List[Any]:
        return [self.host.ask("in 81 64") for _ in range(count)]

    def ask(self, request: int) -> Any:
        return self.host.ask(f"control c0{request:02x}000000000800")


class Packets(Asked):
    def test_the_second_packet_stalls_and_comes_behind_it(self) -> None:
        """Packets are counted from 0. What the device would have sent isn't lost."""
        for kind, word in ((STALL, "s"), (BROKEN, "b"), (UNPLUG, "gone")):
            self.setUp()
            self.port.at(0x81, 1).fail(kind)
            self.assertEqual(self.read(4), ["d:00", word, "d:01", "d:02"])

    def test_an_endpoint_that_is_silent_says_nothing_until_it_is_plugged_in_again(self) -> None:
        for event in ("plugged", "reset"):
            self.setUp()
            self.port.at(0x81, 1).fail(SILENT)
            self.assertEqual(self.read(3), ["d:00", "n", "n"])
            self.assertEqual(self.host.ask("out 02 61"), "a")
            self.host.tell(event)
            self.assertEqual(self.read(2), ["d:02", "d:03"])

    def test_not_ready_is_no_packet(self) -> None:
        self.device.answers = [b"a", NAK, None, later(5), b"b"]
        self.port.at(0x81, 1).fail(STALL)
        self.assertEqual(self.read(6), ["d:61", "n", "n", "later 5", "s", "d:62"])

    def test_what_the_host_writes_at_a_fault_never_reaches_the_device(self) -> None:
        self.port.at(0x02, 1).fail(STALL)
        self.assertEqual([self.host.ask(f"out 02 {it:02x}") for it in range(4)], ["a", "s", "a", "a"])
        self.assertEqual(self.device.taken, [b"\0", b"\2", b"\3"])

    def test_packets_are_counted_anew_when_it_is_plugged_in(self) -> None:
        self.assertEqual(self.read(3), ["d:00", "d:01", "d:02"])
        self.host.tell("plugged")
        self.port.at(0x81, 1).fail(STALL)
        self.assertEqual(self.read(3), ["d:03", "s", "d:04"])

    def test_a_delay(self) -> None:
        self.port.at(0x81, 0).delay(250)
        self.assertEqual(self.read(2), ["later 250", "d:00"])

    def test_two_faults_of_a_packet_come_behind_each_other(self) -> None:
        self.port.at(0x81, 0).fail(STALL)
        self.port.at(0x81, 0).fail(BROKEN)
        self.assertEqual(self.read(3), ["s", "b", "d:00"])

    def test_what_cant_be(self) -> None:
        self.read(2)
        refused: Any = ((lambda: self.port.at(0x81, 1).fail(STALL), ValueError, "has had 2 packets .* packet 1 is past"),
                        (lambda: self.port.at(0x83, 1), ValueError, "no endpoint 83; it has 02, 81"),
                        (lambda: self.port.at(0x81, -1), ValueError, "the packet's index"),
                        (lambda: self.port.at(0x81, 2).fail(NAK), TypeError, "BROKEN, SILENT or UNPLUG, and not NAK"),
                        (lambda: self.port.at(0x81, 2).delay(-1), ValueError, "milliseconds"),
                        (lambda: self.port.rate(0x81, 1.5), ValueError, "from 0 to 1"),
                        (lambda: self.port.rate(0x81, True), ValueError, "from 0 to 1"))
        for call, error, sentence in refused:
            with self.assertRaisesRegex(error, sentence):
                call()
        self.assertEqual(self.read(2), ["d:02", "d:03"])

    def test_a_text_has_no_faults_of_its_port(self) -> None:
        port = Port(mock.Mock(), 1, None, "of x.txt")
        calls: List[Any] = [lambda: port.at(0x81, 0), lambda: port.rate(0x81, 0.5), lambda: port.at_control(0xC0, 1)]
        for call in calls:
            with self.assertRaisesRegex(TypeError, r"device 1, of x.txt, .* text\(..\).at\(0x81, 1\).fail\(STALL\)"):
                call()


class Rates(Asked):
    def run_of(self, seed: int, rate: float = 0.3) -> List[Any]:
        self.setUp()
        self.device._faults.begin(0, seed)
        self.port.rate(0x81, rate).fail(STALL)
        return self.read(200)

    def test_a_seed_is_the_same_run_again_and_another_is_another(self) -> None:
        self.assertEqual(self.run_of(3), self.run_of(3))
        self.assertNotEqual(self.run_of(3), self.run_of(4))

    def test_nothing_is_lost_and_the_rate_is_kept(self) -> None:
        got = self.run_of(3)
        stalls = got.count("s")
        self.assertTrue(30 <= stalls <= 90, stalls)
        self.assertEqual([it for it in got if it != "s"], [f"d:{it:02x}" for it in range(200 - stalls)])

    def test_never_and_always(self) -> None:
        self.assertNotIn("s", self.run_of(3, 0))
        self.assertEqual(set(self.run_of(3, 1)), {"s"})

    def test_another_bus_has_none_of_it(self) -> None:
        self.run_of(3, 1)
        self.device._faults.begin(0, 3)
        self.assertEqual(self.read(1), ["d:00"])


class Controls(Asked):
    def test_the_second_request_of_a_key(self) -> None:
        self.port.at_control(0xC0, 1, n=1).fail(STALL)
        self.assertEqual([self.ask(it) for it in (1, 2, 1, 1)], ["d:01", "d:02", "s", "d:01"])
        self.assertEqual(self.device.asked, [1, 2, 1])

    def test_any_request(self) -> None:
        self.port.at_control(None, None, n=2).fail(BROKEN)
        self.assertEqual([self.ask(it) for it in (1, 2, 3, 4)], ["d:01", "d:02", "b", "d:04"])

    def test_a_request_that_is_never_answered(self) -> None:
        self.port.at_control(0xC0, 1).fail(SILENT)
        self.assertEqual([self.ask(1), self.ask(1)], [f"later {MOST_MILLISECONDS}", "d:01"])

    def test_a_delay(self) -> None:
        self.port.at_control(0xC0, 1, 0, 0).delay(9)
        self.assertEqual([self.ask(1), self.ask(1), self.ask(1)], ["later 9", "d:01", "d:01"])

    def test_past_requests_and_wrong_fields(self) -> None:
        self.ask(1)
        with self.assertRaisesRegex(ValueError, "there were 1 such requests .* request 0 is past"):
            self.port.at_control(0xC0, 1).fail(STALL)
        for words, what in (((0x100, 1), "bmRequestType"), ((0, 1, 0x10000), "wValue"), ((0, 1, 0, 0, -1), "index")):
            with self.assertRaisesRegex(ValueError, what):
                self.port.at_control(*words)
        self.host.tell("plugged")
        self.port.at_control(0xC0, 1).fail(STALL)
        self.assertEqual(self.ask(1), "s")


class Later(Asked):
    def test_a_packet_comes_when_its_time_is_there(self) -> None:
        """The method is asked once."""
        self.device.answers = [after(30, b"ab"), b"c"]
        self.assertEqual(self.read(3), ["later 30", "d:6162", "d:63"])

    def test_another_answer_comes_later_too(self) -> None:
        for answer, word in ((STALL, "s"), (BROKEN, "b"), (GONE, "gone"), (SILENT, "n")):
            self.setUp()
            self.device.answers = [after(30, answer)]
            self.assertEqual(self.read(2), ["later 30", word])

    def test_a_packet_that_is_written_is_taken_once(self) -> None:
        self.device.answers = [after(30, None), after(5, STALL)]
        self.assertEqual([self.host.ask(f"out 02 {it}") for it in ("61", "61", "62", "62", "63")], ["later 30", "a", "later 5", "s", "a"])
        self.assertEqual(self.device.taken, [b"a", b"b", b"c"])

    def test_another_packet_in_its_place_is_another_question(self) -> None:
        self.device.answers = [after(30, STALL)]
        self.assertEqual([self.host.ask("out 02 61"), self.host.ask("out 02 62")], ["later 30", "a"])

    def test_a_request(self) -> None:
        self.device.answers = [after(30, b"0123456789")]
        self.assertEqual([self.ask(1), self.ask(1), self.ask(1)], ["later 30", "d:3031323334353637", "d:01"])

    def test_the_clock_says_whether_a_question_is_a_new_one(self) -> None:
        """A request that was given up before its time is asked once more: it waits anew."""
        now = [0]
        self.device._clock = lambda: now[0]
        self.device.answers = [after(30, b"a"), after(30, b"b")]
        self.assertEqual(self.ask(1), "later 30")
        now[0] = 10
        self.assertEqual(self.ask(1), "later 30")
        now[0] = 40
        self.assertEqual(self.ask(1), "d:62")

    def test_a_reset_leaves_nothing_of_it(self) -> None:
        self.device.answers = [after(30, b"a"), b"b"]
        self.assertEqual(self.read(1), ["later 30"])
        self.host.tell("reset")
        self.assertEqual(self.read(1), ["d:62"])

    def test_what_after_takes(self) -> None:
        for words, error in (((30, "a"), TypeError), ((30, NAK), TypeError), ((30, later(5)), TypeError), ((-1, b""), ValueError),
                             ((1.5, b""), TypeError)):
            with self.assertRaises(error):
                after(*words)  # type: ignore[arg-type]
        self.device.answers = [after(30, None)]
        with told() as errors:
            self.assertEqual(self.read(1), ["s"])
        self.assertIn("Thing.in_81 returned None: return bytes", errors.getvalue())

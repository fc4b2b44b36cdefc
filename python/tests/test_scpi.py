"""Instruments: headers and paths by SCPI-1999, volume 1, errors by volume 2, 21.8; parameters by IEEE 488.2, chapter 7."""
from __future__ import annotations

import unittest
from typing import Any, Callable, Dict, List, Tuple, Type

from tests.drivers import drive, lacking_driver
from tests.harness import Host, told
from tirnouch import bulk_in, bulk_out, control, interrupt_in
from tirnouch.messages import marks, parted, pattern, units
from tirnouch.scpi import Error, Scpi, command


class Supply(Scpi):
    """It keeps what it is told."""

    answers = {"*IDN?": "ACME,PM-1,0,1.0", "OUTPut ON": "", "MODE?": "all", "MODE? 1": "one", "TEXT?": "\xe9"}

    def __init__(self) -> None:
        self.got: List[Any] = []

    @command("[SOURce:]VOLTage[:LEVel]")
    def set_volts(self, volts: float, channel: int = 1) -> None:
        """Volts of a channel."""
        if volts > 30:
            raise Error(-222)
        if volts < 0:
            raise Error(301, 'below "0"')
        self.got.append((volts, channel))

    @command("[SOURce:]VOLTage[:LEVel]?", takes=20)
    def get_volts(self) -> float:
        """The last ones."""
        return float(self.got[-1][0])

    @command("[SOURce:]CURRent?", takes=5)
    def get_amperes(self) -> Any:
        """Several values."""
        return 1, 2.5, True, "x"

    @command("ROUTe#:NAME")
    @command("ROUTe#:LABel")
    def name(self, route: int, text: str, is_shown: bool = False) -> None:
        """A name of a route."""
        self.got.append((route, text, is_shown))

    @command("DATA")
    def store(self, data: bytes) -> None:
        """A block."""
        self.got.append(data)

    @command("DATA?")
    def fetch(self) -> bytes:
        """The last block."""
        return bytes(self.got[-1])

    def reset(self) -> None:
        self.got.clear()


class Supplies(unittest.TestCase):
    def setUp(self) -> None:
        self.device = Supply()
        self.host = Host(self.device)

    def tell(self, text: str) -> None:
        """A message in packets."""
        self.host.write(0x02, text.encode("latin-1"))

    def ask(self, text: str) -> str:
        """A message, and what is read behind it."""
        self.tell(text)
        return self.host.read(0x81, 4096).decode("latin-1")

    def error(self) -> str:
        """The next error."""
        return self.ask("SYST:ERR?\n")[:-1]


class Answers(Supplies):
    def test_texts(self) -> None:
        """Those with parameters come first."""
        for question, answer in (("*IDN?", "ACME,PM-1,0,1.0"), ("*idn?", "ACME,PM-1,0,1.0"), ("MODE? 1", "one"), ("MODE?", "all"),
                                 ("mode? 2", "all"), (":MODE?", "all"), ("TEXT?", "\xe9")):
            self.assertEqual(self.ask(question + "\n"), answer + "\n")
        self.tell("OUTP ON\n")
        self.assertEqual((self.host.ask("in 81 512"), self.error()), ("n", '0,"No error"'))

    def test_parameters_that_a_text_doesnt_have(self) -> None:
        self.tell("OUTP OFF\n")
        self.assertEqual(self.error(), '-224,"Illegal parameter value"')

    def test_commands_and_questions(self) -> None:
        self.tell("VOLT 2.5\n")
        self.assertEqual(self.ask("SOUR:VOLT:LEV?\n"), "2.5\n")
        self.assertEqual(self.ask("CURR?\n"), "1,2.5,1,x\n")
        self.assertEqual(self.device.got, [(2.5, 1)])

    def test_an_answer_takes_its_time_once(self) -> None:
        """20 milliseconds and 5; a message's answers are one, which takes as long as they do."""
        self.tell("VOLT 1\n")
        self.assertEqual((self.ask("VOLT?\n"), self.host.waited), ("1.0\n", 20))
        self.assertEqual((self.ask("VOLT?;CURR?\n"), self.host.waited), ("1.0;1,2.5,1,x\n", 45))
        self.assertEqual((self.ask("*OPC?\n"), self.host.waited), ("1\n", 45))

    def test_answers_are_read_in_their_order(self) -> None:
        self.tell("MODE?\n*OPC?\n")
        self.assertEqual([self.host.read(0x81, 512) for _ in range(2)], [b"all\n", b"1\n"])

    def test_an_answer_that_fills_a_packet_is_ended_by_an_empty_one(self) -> None:
        self.tell("DATA #3506" + "x" * 506 + "\n")
        self.assertEqual(self.ask("DATA?\n"), "#3506" + "x" * 506 + "\n")

    def test_a_question_that_isnt_answered_is_a_bug(self) -> None:
        class Bug(Scpi):
            @command("BUG?")
            def bug(self) -> None:
                """Nothing."""

            @command("LIST?")
            def list(self) -> Any:
                """What isn't an answer."""
                return {1: 2}

        for text, sentence in (("4255473f0a", r"Bug.bug returned None, and BUG\? is a question"),
                               ("4c4953543f0a", "{1: 2} is no answer: a str")):
            with told() as errors:
                Host(Bug()).ask(f"out 02 {text}")
            self.assertRegex(errors.getvalue(), sentence)


class Messages(Supplies):
    def test_a_message_in_packets_of_any_length(self) -> None:
        for packet in ("VO", "LT 1", "\r", "\nVOLT 2\nVOLT", " 3\n"):
            self.tell(packet)
        self.assertEqual(self.device.got, [(1.0, 1), (2.0, 1), (3.0, 1)])

    def test_another_end(self) -> None:
        for end, tail in (("\r", "\r"), ("\r\n", "\r\n"), ("", "")):
            device = type("Other", (Supply,), {"end": end})()
            host = Host(device)
            host.write(0x02, f"*IDN?{end}".encode())
            self.assertEqual(host.read(0x81, 512), b"ACME,PM-1,0,1.0" + tail.encode())

    def test_without_an_end_a_short_packet_ends_a_message(self) -> None:
        device = type("Other", (Supply,), {"end": ""})()
        Host(device).write(0x02, b"DATA #3600" + b"y" * 600)
        self.assertEqual(device.got, [b"y" * 600])

    def test_paths(self) -> None:
        """Volume 1, 6.2.4: a header goes on where the one before it stood, but behind a colon; common commands leave that as it is."""
        headers = [it.header for it in units("SOUR:VOLT:LEV 1;PROT 2;*CLS;STAT?;:OUTP ON;X:Y;;Z")]
        self.assertEqual(headers, [":SOUR:VOLT:LEV", ":SOUR:VOLT:PROT", "*CLS", ":SOUR:VOLT:STAT?", ":OUTP", ":X:Y", ":X:Z"])

    def test_signs_in_strings_and_blocks_dont_count(self) -> None:
        self.assertEqual(parted("a;'b;c';\"d;\";#13;;;;e", ";"), ["a", "'b;c'", '"d;"', "#13;;;", "e"])
        self.assertEqual(parted("'it''s;'; #H1;x", ";"), ["'it''s;'", "#H1", "x"])
        self.assertEqual(list(marks("'a;\n", ";", "\n")), [3])

    def test_a_block_may_have_ends_in_it(self) -> None:
        for packet in ("DATA #15a\n", ";,b", "\n"):
            self.tell(packet)
        self.assertEqual(self.device.got, [b"a\n;,b"])
        self.assertEqual(self.ask("DATA?\n"), "#15a\n;,b\n")

    def test_a_reset_forgets_half_a_message_and_answers(self) -> None:
        for event in ("reset", "plugged"):
            self.tell("*IDN?\nVOLT 9")
            self.host.tell(event)
            self.assertEqual(self.host.ask("in 81 512"), "n")
            self.tell("VOLT 1\n")
        self.assertEqual(self.device.got, [(1.0, 1), (1.0, 1)])


class Parameters(Supplies):
    def test_numbers(self) -> None:
        """7.7.2 and 7.7.4; whole numbers are rounded."""
        for text, expected in (("1", 1), ("+.5", 0.5), ("25e-1", 2.5), ("2.", 2), ("#H1E", 30), ("#q17", 15), ("#B101", 5)):
            self.tell(f"VOLT {text} , 2.4\n")
            self.assertEqual(self.device.got[-1], (expected, 2), text)
        self.assertEqual(self.error(), '0,"No error"')

    def test_texts_and_truths(self) -> None:
        """7.7.5: two quotes are one; volume 1, 7.3: ON, OFF, or a number."""
        for text, expected in (("abc", (1, "abc", False)), ("'it''s',ON", (1, "it's", True)), ('"a,b",off', (1, "a,b", False)),
                               ("a,0.4", (1, "a", False)), ("a,2", (1, "a", True)), ("''", (1, "", False))):
            self.tell(f"ROUT:NAME {text}\n")
            self.assertEqual(self.device.got[-1], expected, text)

    def test_numbers_in_headers(self) -> None:
        self.tell("ROUTE12:LABEL a;:ROUT:LAB b\n")
        self.assertEqual(self.device.got, [(12, "a", False), (1, "b", False)])

    def test_errors_of_parameters_leave_everything_as_it_was(self) -> None:
        """-109 missing, -108 not allowed, -104 data type, -222 out of range."""
        for text, number in (("VOLT", -109), ("VOLT 1,", -109), ("VOLT 1,2,3", -108), ("VOLT x", -104), ("VOLT 1 2", -104),
                             ("VOLT #HG", -104), ("VOLT 31", -222), ("VOLT 1e999", -222), ("VOLT 1,1e999", -222),
                             ("ROUT:NAME 'a", -104), ("ROUT:NAME a,maybe", -104), ("DATA abc", -104), ("DATA #2\xb96", -104),
                             ("DATA #1", -104), ("CURR? 1", -108),
                             ("*OPC? 1", -108), ("DATA #15ab", -104)):
            self.device.errors.clear()
            self.device.do(text)
            self.assertEqual([it.number for it in self.device.errors], [number], text)
        self.assertEqual(self.device.got, [])


class Errors(Supplies):
    def test_headers_that_arent_there(self) -> None:
        """-113; -102 where it is no header. What stands behind in a message is done."""
        for text, number in (("VOLTS 1", -113), ("VOL 1", -113), ("VOLTA 1", -113), ("SOUR 1", -113), ("*XYZ?", -113), ("VOLT::X 1", -102),
                             ("VO-LT", -102), ("ROUT0x:NAME a", -113)):
            self.tell(f"{text};:VOLT 1\n")
            self.assertEqual(self.error().split(",")[0], str(number), text)
        self.assertEqual(self.device.got, [(1.0, 1)] * 8)

    def test_the_queue(self) -> None:
        """In order; full, its last one is -350; *CLS empties it, and leaves the device."""
        self.tell("VOLT -1\nVOLT 40\n")
        self.assertEqual([self.error() for _ in range(3)], ['301,"below ""0"""', '-222,"Data out of range"', '0,"No error"'])
        for _ in range(25):
            self.tell("BAD\n")
        self.assertEqual([self.ask("SYSTEM:ERROR:NEXT?\n")[:4] for _ in range(21)], ["-113"] * 19 + ["-350", '0,"N'])
        self.tell("VOLT 1;BAD;*CLS\n")
        self.assertEqual((self.error(), self.device.got), ('0,"No error"', [(1.0, 1)]))

    def test_a_reset_of_the_instrument(self) -> None:
        self.tell("VOLT 1;*RST\n")
        self.assertEqual(self.device.got, [])

    def test_a_class_may_answer_them_itself(self) -> None:
        class Own(Supply):
            answers = {"SYST:ERR?": "none"}

            @command("*OPC?")
            def is_complete(self) -> bool:
                """Never."""
                return False

        self.device = Own()
        self.host = Host(self.device)
        self.assertEqual((self.error(), self.ask("*OPC?\n")), ("none", "0\n"))

    def test_errors_that_cant_be(self) -> None:
        for words, sentence in (((0,), "an error's number is -32768 to 32767, and not 0"), ((40000,), "to 32767"),
                                ((7,), "error 7 needs a text"), (("x",), "an error's number")):
            with self.assertRaisesRegex(ValueError, sentence):
                Error(*words)  # type: ignore[arg-type]


class Classes(unittest.TestCase):
    def test_headers(self) -> None:
        """Volume 1, 6.2.1: the long form or the short one, and nothing between; 5.1: what stands in brackets may be left out."""
        for header, yes, no in (("MEASure:VOLTage[:DC]?", ":MEAS:VOLT? :measure:voltage:dc? :MEASURE:VOLT:DC?",
                                 ":MEASU:VOLT? :MEAS:VOLT :MEAS?"),
                                ("[SOURce:]CURRent", ":CURR :SOUR:CURRENT", ":SOURCURR :SOUR"),
                                ("[:SOURce]:CURRent", ":CURR :SOUR:CURRENT", ":SOUR"), ("CH1:OUT", ":CH1:OUT", ":CH:OUT :CH2:OUT"),
                                ("*RST", "*RST *rst", "*RST? :RST")):
            for it in yes.split():
                self.assertTrue(pattern(header).fullmatch(it), it)
            for it in no.split():
                self.assertFalse(pattern(header).fullmatch(it), it)

    def test_what_is_no_header(self) -> None:
        for header in ("", "?", "volt?", "VOLT ?", "MEAS::VOLT", "MEAS:[VOLT", "VOLT]", "VOLT??", "*IDN ?", "MEAS VOLT?"):
            with self.assertRaisesRegex(ValueError, 'is no header: keywords stand there with their short form in capitals, as "MEASure'):
                command(header)

    def test_what_command_refuses(self) -> None:
        def wrong(_self: Any, value: complex) -> None:
            """Of no type."""

        def rest(_self: Any, *values: str) -> None:
            """Of no number."""

        def less(_self: Any) -> None:
            """Without the number of its header."""

        cases: List[Tuple[Callable[[], Any], Type[Exception], str]] = [
            (lambda: command(5),  # type: ignore[arg-type]
             TypeError, 'command takes a header, as @command\\("MEASure:VOLTage\\?"\\), and not 5'),
            (lambda: command("X")(wrong), TypeError, "`value` of wrong is of one of the types int, float, bool, str, bytes, and not"),
            (lambda: command("X")(rest), TypeError, "parameter `values` of rest is of"),
            (lambda: command("X#")(less), TypeError, "the first parameters of less are those of #, each an int"),
            (lambda: command("X")(5), TypeError, "command decorates a method, and not 5"),  # type: ignore[arg-type]
            (lambda: command("X", takes=-1), ValueError, "0 to 999999999 milliseconds, and not -1")]
        for call, error, sentence in cases:
            with self.assertRaisesRegex(error, sentence):
                call()

    def test_what_is_refused_where_a_class_is_made(self) -> None:
        wrong: List[Tuple[Dict[str, Any], Type[Exception], str]] = [
            ({"answers": ["*IDN?"]}, TypeError, "Wrong: `answers` is a dict of texts, as {.*}, and not"),
            ({"answers": {"*IDN?": 5}}, TypeError, "Wrong: `answers` has texts, as .*, and not '\\*IDN\\?': 5"),
            ({"answers": {"idn?": "x"}}, ValueError, "Wrong: `answers`: 'idn\\?' is no header"),
            ({"answers": {"*IDN?": "\u20ac"}}, ValueError, "Wrong: `answers`: 'latin-1'"),
            ({"end": ";"}, ValueError, r"Wrong: `end` is '\\n' or '\\r\\n' or '\\r' or '', and not ';'"),
            ({"replies": bulk_out(0x01)}, ValueError, r"`replies` is an endpoint as bulk_in\(0x81\), and bulk_out made 01"),
            ({"replies": interrupt_in(0x81)}, ValueError, "`replies` is an endpoint as bulk_in"),
            ({"packets": None}, TypeError, r"Wrong: `packets` is an endpoint, as bulk_out\(0x02\), and not None")]
        for words, error, sentence in wrong:
            with self.assertRaisesRegex(error, sentence):
                type("Wrong", (Scpi,), words)

    def test_other_endpoints_and_requests_of_a_class(self) -> None:
        class Other(Supply):
            replies = bulk_in(0x83, 64)
            packets = bulk_out(0x04, 64)

            @control(0xC0, 1)
            def version(self, _request: Any) -> bytes:
                """Its own request."""
                return b"1"

        host = Host(Other())
        host.write(0x04, b"*IDN?\n", 64)
        self.assertEqual((host.read(0x83, 512, 64), host.control(0xC0, 1, 0, 0, 8)), (b"ACME,PM-1,0,1.0\n", b"1"))

    def test_a_method_of_a_subclass_is_asked(self) -> None:
        class Other(Supply):
            def get_volts(self) -> float:
                return 7.5

        host = Host(Other())
        host.write(0x02, b"VOLT?\n")
        self.assertEqual(host.read(0x81, 512), b"7.5\n")


class Drivers(unittest.TestCase):
    @unittest.skipIf(lacking_driver("usb.core"), lacking_driver("usb.core") or "")
    def test_by_pyusb(self) -> None:
        drive("scpi_pyusb.py", "usb.core")

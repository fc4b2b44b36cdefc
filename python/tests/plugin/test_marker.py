"""The marker and the fixture: which devices a test has, which seeds, and what is said of words that are wrong."""
import fnmatch
from typing import Any


def test_a_class_alone_is_a_device_of_the_test(run: Any) -> None:
    """pytest takes a class that stands alone in a marker for what is marked: the test is there still."""
    result = run("""
        @pytest.mark.tirnouch(Meter)
        def test_asks(bus):
            assert driver.ask(21) == 42
            assert bus.took(0x02) == bytes([21])
        """)
    result.assert_outcomes(passed=1)


def test_each_test_has_an_object_of_its_own(run: Any) -> None:
    result = run("""
        class Counter(Meter):
            count = 0
            def out_02(self, packet):
                self.count += 1
                return super().out_02(packet)

        @pytest.mark.parametrize("turn", range(3))
        @pytest.mark.tirnouch(Counter, lambda: Other("second"))
        def test_counts(bus, turn):
            driver.ask(1)
            assert bus[0].device.count == 1
            assert (len(bus), bus[1].device.name) == (2, "second")

        class Other(t.Device):
            def __init__(self, name):
                self.name = name
        """)
    result.assert_outcomes(passed=3)


def test_without_devices_the_bus_is_empty(run: Any) -> None:
    result = run("""
        def test_nothing(bus):
            with pytest.raises(driver.Error, match="there is no meter"):
                driver.ask(1)
            assert len(bus) == 0
        """)
    result.assert_outcomes(passed=1)


def test_markers_of_a_class_and_a_test_add_up(run: Any) -> None:
    result = run("""
        @pytest.mark.tirnouch(Meter, time="virtual")
        class TestBoth:
            @pytest.mark.tirnouch(t.text("device 0 0902120001010080320904000000ff000000\\n"))
            def test_two(self, bus):
                assert [it.device is None for it in bus] == [False, True]
                bus.advance(60_000)
                assert bus.now() == 60_000
        """)
    result.assert_outcomes(passed=1)


def test_a_seed_is_an_item(run: Any) -> None:
    source = """
        @pytest.mark.tirnouch(Meter, seeds=range(1, 6))
        def test_asks(bus, tirnouch_seed):
            assert bus.seed == tirnouch_seed
            assert driver.ask(21) == 42
        """
    run(source).assert_outcomes(passed=5)
    result = run(source, "--tirnouch-seed", "3", "-v")
    result.assert_outcomes(passed=1)
    result.stdout.fnmatch_lines(["*test_asks[[]seed3[]] PASSED*"])


def test_one_seed_of_a_test(run: Any) -> None:
    source = """
        @pytest.mark.tirnouch(Meter, seed=7)
        def test_asks(bus, request):
            assert bus.seed == request.config.getoption("--tirnouch-seed") or bus.seed == 7
        """
    run(source).assert_outcomes(passed=1)
    run(source, "--tirnouch-seed", "9").assert_outcomes(passed=1)


def test_words_that_are_wrong_are_told(run: Any) -> None:
    for mark, sentence in (("Meter, seds=range(3)", "*has no word seds; its form is*"),
                           ("Meter, seeds=[]", "*seeds are whole numbers*none at all*"),
                           ("Meter, seeds=['a']", "*seeds are whole numbers*'a'*"), ("Meter, seeds=[1], seed=1", "*say one of them*"),
                           ("Meter, time='fast'", "*time is \"real\" or \"virtual\", and not 'fast'*"),
                           ("Meter, limit='soon'", "*a limit is \"500ms\", \"10s\" or \"2m\"*'soon'*"),
                           ("'meter.txt'", "*a bus takes devices*a file's name goes into file(..)*"),
                           ("Meter, library='/nowhere'", "*/nowhere isn't there*TIRNOUCH_LIBRARY*")):
        result = run(f"""
            @pytest.mark.tirnouch({mark})
            def test_it(bus):
                pass

            @pytest.mark.tirnouch(Meter)
            def test_another(bus):
                assert driver.ask(1) == 2
            """)
        lines = [*result.outlines, *result.errlines]
        assert any(fnmatch.fnmatchcase(line, sentence) for line in lines), (mark, lines)
        assert result.ret != 0, mark


def test_a_wrong_seed_of_the_command_is_told(run: Any) -> None:
    result = run("def test_it(bus): pass", "--tirnouch-seed", "-1")
    assert "--tirnouch-seed -1: a seed is a whole number" in "\n".join([*result.outlines, *result.errlines])
    assert result.ret == 4

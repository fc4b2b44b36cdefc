"""Several processes of pytest-xdist: each has a bus of its own."""
import os
import pathlib
import re
import subprocess
import sys
from typing import Any

import pytest

import tirnouch

pytest.importorskip("xdist")


def test_four_processes(run: Any, monkeypatch: pytest.MonkeyPatch) -> None:
    monkeypatch.setenv("PYTHONPATH", str(pathlib.Path(tirnouch.__file__).parent.parent))
    result = run("""
        @pytest.mark.tirnouch(Meter, seeds=range(1, 41), time="virtual")
        def test_asks(bus, tirnouch_seed):
            assert driver.ask(21) == 42
            assert tirnouch_seed != 17
        """, "-n", "4")
    result.assert_outcomes(passed=39, failed=1)
    result.stdout.fnmatch_lines(["seed 17", "play it again: * -m pytest 'test_it.py::test_asks[[]seed17[]]'", "*= tirnouch =*",
                                 "test_it.py::test_asks[[]seed[*][]]: 1 seed fails: 17"])


def test_what_pyusb_left_open_is_closed(run: Any, capfd: Any) -> None:
    """Devices in cycles that the collector took, in a traceback, and in a variable: the library warns of none that it had to close."""
    pytest.importorskip("usb.core")
    result = run("""
        import usb.core
        KEPT = []

        @pytest.mark.parametrize("turn", range(4))
        @pytest.mark.tirnouch(Meter, time="virtual")
        def test_leaves_it(bus, turn):
            meter = usb.core.find(idVendor=0x1209, idProduct=0x4d31)
            meter.write(0x02, b"a")
            cycle = [meter]
            cycle.append(cycle)
            if turn == 1:
                KEPT.append(meter)
            assert turn != 2
        """, "-s")
    result.assert_outcomes(passed=3, failed=1)
    told = capfd.readouterr().err
    assert not re.search(r"left some devices open|ends with .*[1-9][0-9]* handles? and", told), told


@pytest.mark.parametrize("package", ["usb1", "hid"])
def test_each_package_finds_the_devices_of_each_test(run: Any, package: str) -> None:
    pytest.importorskip(package)
    result = run("""
        import hid as package
        KEYBOARD = t.text(open("keyboard.txt").read())

        @pytest.mark.parametrize("turn", range(3))
        @pytest.mark.tirnouch(KEYBOARD)
        def test_finds_it(bus, turn):
            found = [(it["vendor_id"], it["product_id"]) for it in package.enumerate()]
            assert found == [(0x1209, 0x0005)]

        def test_finds_none(bus):
            assert package.enumerate() == []
        """ if package == "hid" else """
        import usb1 as package

        @pytest.mark.parametrize("turn", range(3))
        @pytest.mark.tirnouch(Meter)
        def test_finds_it(bus, turn):
            with package.USBContext() as context:
                assert context.getByVendorIDAndProductID(0x1209, 0x4d31)

        def test_finds_none(bus):
            with package.USBContext() as context:
                assert not context.getByVendorIDAndProductID(0x1209, 0x4d31)
        """)
    result.assert_outcomes(passed=4)


def test_a_context_that_is_left_open_has_the_devices_of_the_next_test(run: Any) -> None:
    """By tirnouch.h, `tirnouch_begin` and `tirnouch_end`."""
    pytest.importorskip("usb1")
    result = run("""
        import usb1
        CONTEXTS = []

        def is_there(context):
            return context.getByVendorIDAndProductID(0x1209, 0x4d31) is not None

        @pytest.mark.tirnouch(Meter)
        def test_leaves_it(bus):
            CONTEXTS.append(usb1.USBContext().open())
            assert is_there(CONTEXTS[0])

        def test_without_a_device(bus):
            assert not is_there(CONTEXTS[0])

        @pytest.mark.tirnouch(Meter)
        def test_another(bus):
            assert driver.ask(21) == 42
            assert is_there(CONTEXTS[0])

        def test_without_a_bus():
            assert not is_there(CONTEXTS[0])
            CONTEXTS[0].close()
        """)
    result.assert_outcomes(passed=4)


def test_a_context_that_is_open_before_a_test(run: Any) -> None:
    """A bus that has no devices makes room."""
    pytest.importorskip("usb1")
    result = run("""
        import usb1
        CONTEXT = usb1.USBContext().open()

        @pytest.mark.tirnouch(Meter)
        def test_takes_its_place(bus):
            assert CONTEXT.getByVendorIDAndProductID(0x1209, 0x4d31)
            CONTEXT.close()

        def test_by_plug():
            with t.plug(Meter()), usb1.USBContext() as context:
                with pytest.raises(t.LibraryError, match="another `with` began"):
                    t.bus(Meter())
                assert context.getByVendorIDAndProductID(0x1209, 0x4d31)

        @pytest.mark.tirnouch(Meter)
        def test_goes_on(bus):
            assert driver.ask(21) == 42
        """)
    result.assert_outcomes(passed=3)


def test_the_devices_of_the_environment_stay(run: Any, tmp_path: pathlib.Path) -> None:
    """One process, whose context has the devices of TIRNOUCH_DEVICES: a bus of a test is refused until that is closed."""
    pytest.importorskip("usb1")
    source = tmp_path / "it.py"
    source.write_text("import tirnouch as t, usb1\nfrom tirnouch.library import load\nusb1.loadLibrary(load().c)\n"
                      "with usb1.USBContext() as context:\n    assert context.getByVendorIDAndProductID(0x1209, 0x0005)\n    try:\n"
                      "        t.bus()\n    except t.LibraryError as error:\n        print(error)\nwith t.bus():\n    print('a bus')\n")
    run("def test_nothing(): pass")
    environment = {**os.environ, "TIRNOUCH_DEVICES": "keyboard.txt", "PYTHONPATH": str(pathlib.Path(tirnouch.__file__).parent.parent)}
    ran = subprocess.run([sys.executable, source], env=environment, capture_output=True, text=True, timeout=60, check=False)
    assert (ran.returncode, ran.stderr) == (0, "")
    told, begun = ran.stdout.splitlines()
    assert "which a context of libusb began with the devices that TIRNOUCH_DEVICES names" in told
    assert begun == "a bus"


def test_a_bus_isnt_ended_within_a_callback(run: Any) -> None:
    pytest.importorskip("usb1")
    result = run("""
        import usb1

        def test_ends_it():
            said = []
            with t.bus(Meter, limit="300ms") as bus, usb1.USBContext() as context:
                handle = context.openByVendorIDAndProductID(0x1209, 0x4d31)
                handle.claimInterface(0)

                def end(transfer):
                    try:
                        bus.close()
                    except t.LibraryError as error:
                        said.append(str(error))

                write = handle.getTransfer()
                write.setBulk(0x02, b"a", end)
                write.submit()
                while write.isSubmitted():
                    context.handleEvents()
                assert said and "isn't ended within a callback" in said[0]
                assert handle.bulkRead(0x81, 64) == bytes([2 * ord("a")])
                with pytest.raises(usb1.USBErrorNoDevice):  # by the limit, which goes on
                    handle.bulkRead(0x81, 64, 5000)
                assert bus.limit.told
                handle.close()
                bus.limit.told = ""
        """)
    result.assert_outcomes(passed=1)

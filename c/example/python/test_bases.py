"""Devices of base classes by pyusb: an instrument; and an application that takes firmware by a loader, by DFU 1.1: DFU_DETACH is request 0,
DNLOAD 1, GETSTATUS 3, and a status has its state at offset 4: dfuDNBUSY is 4, dfuDNLOAD-IDLE 5, dfuMANIFEST 7, dfuIDLE 2 (3, 6.1.2)."""
import pytest
import tirnouch as t
import usb.core

DETACH, DNLOAD, GETSTATUS = 0, 1, 3


class Supply(t.Scpi):
    ids = (0x1209, 0x0036)
    answers = {"*IDN?": "ACME,PS-2,0,1.0"}
    volts = 0.0

    @t.scpi.command("SOURce:VOLTage")
    def set_volts(self, volts: float):
        if volts > 30:
            raise t.scpi.Error(-222)
        self.volts = volts

    @t.scpi.command("MEASure:VOLTage?", takes=50)
    def measure(self):
        return self.volts


@pytest.mark.tirnouch(Supply, time="virtual")
def test_a_supply_is_set(bus):
    supply = usb.core.find(idVendor=0x1209, idProduct=0x0036)
    supply.write(0x02, b"SOUR:VOLT 12.5\n")
    supply.write(0x02, b"SOUR:VOLT 40\n")
    supply.write(0x02, b"SYST:ERR?\n")
    assert bytes(supply.read(0x81, 64)).startswith(b"-222,")
    supply.write(0x02, b"MEAS:VOLT?\n")
    assert bytes(supply.read(0x81, 64)) == b"12.5\n"
    assert bus.now() == 50


class Loader(t.Dfu):
    ids = (0x1209, 0x0033)
    will_detach = True

    def manifested(self, firmware):
        return t.dfu.Status.ERR_FIRMWARE if b"2" not in firmware else None


class Application(t.Scpi, t.dfu.Runtime):
    ids = (0x1209, 0x0037)


class Updated(Application):
    ids = (0x1209, 0x0037, 0x0200)


@pytest.mark.tirnouch(t.becomes(Application, Loader, Updated), time="virtual")
def test_an_application_is_updated(bus):
    application, = usb.core.find(find_all=True, idVendor=0x1209)
    assert application.bcdDevice == 0x0100
    with pytest.raises(usb.core.USBError):
        application.ctrl_transfer(0x21, DETACH, 1000, 1)
    loader = usb.core.find(idVendor=0x1209, idProduct=0x0033)
    states = []
    for block, data in enumerate([b"version 2", b""]):
        loader.ctrl_transfer(0x21, DNLOAD, block, 0, data)
        states += [loader.ctrl_transfer(0xA1, GETSTATUS, 0, 0, 6)[4] for _ in range(2)]
    assert states == [4, 5, 7, 2]
    loader.reset()
    with pytest.raises(usb.core.USBError):
        loader.ctrl_transfer(0xA1, GETSTATUS, 0, 0, 6)
    assert usb.core.find(idVendor=0x1209, idProduct=0x0037).bcdDevice == 0x0200

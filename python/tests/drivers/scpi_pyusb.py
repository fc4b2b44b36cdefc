"""An instrument by pyusb: lines over a pair of bulk endpoints; what takes time takes virtual time."""
import usb.core
import usb.util

from tirnouch import plug
from voltmeter import Voltmeter

with plug(Voltmeter()) as bus:
    meter = usb.core.find(idVendor=0x1209, idProduct=0x0034)

    def ask(text: str) -> str:
        """A question's answer."""
        assert meter.write(0x02, text.encode()) == len(text)
        return bytes(meter.read(0x81, 512)).decode()

    assert ask("*IDN?\n") == "ACME,PM-1,0,1.0\n"
    begin = bus.now()
    assert ask("MEAS:VOLT? 2\n") == "5.0\n"
    assert bus.now() >= begin + 30
    assert meter.write(0x02, "MEAS:VOLT? 3\nBEEP\n") == 18
    assert [ask("SYST:ERR?\n") for _ in range(3)] == ['-222,"Data out of range"\n', '-113,"Undefined header"\n', '0,"No error"\n']
    assert meter.write(0x02, "MEAS:VOLT?\n") == 11
    try:
        raise AssertionError(meter.read(0x81, 512, 20))
    except usb.core.USBTimeoutError:
        assert bytes(meter.read(0x81, 512, 20)) == b"2.3\n"
    usb.util.dispose_resources(meter)
print("done")

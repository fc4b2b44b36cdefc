"""An instrument by pyvisa with pyvisa-py, as a user of it asks; what each call returns is by pyvisa's manual."""
import pyvisa

from tirnouch import plug
from tirnouch.scpi import command
from tirnouch.usbtmc import Usbtmc


class Meter(Usbtmc):
    """A name, a setting, and a waveform."""

    product, strings = 0x0104, ("ACME", "PM-2", "S1")
    answers = {"*IDN?": "ACME,PM-2,0,1.0"}
    volts = 0.0

    @command("SOURce:VOLTage")
    def set_volts(self, volts: float) -> None:
        """Volts are set."""
        self.volts = volts

    @command("SOURce:VOLTage?")
    def get_volts(self) -> float:
        """They are asked for."""
        return self.volts

    @command("CURVe?")
    def curve(self) -> bytes:
        """Samples, and bytes that are signs of messages."""
        return bytes(range(256)) * 4


with plug(Meter()):
    manager = pyvisa.ResourceManager("@py")
    assert "USB0::4617::260::S1::0::INSTR" in manager.list_resources()
    meter = manager.open_resource("USB0::0x1209::0x0104::S1::INSTR")
    assert meter.query("*IDN?") == "ACME,PM-2,0,1.0\n"
    meter.write("SOUR:VOLT 2.5")
    assert float(meter.query("SOURCE:VOLTAGE?")) == 2.5
    assert meter.query_binary_values("CURV?", datatype="B", container=bytes) == bytes(range(256)) * 4
    meter.write("SOUR:CURR 1")
    assert meter.query("SYST:ERR?") == '-113,"Undefined header"\n'
    meter.close()
    manager.close()
print("done")

#!/usr/bin/env python3
"""A voltmeter with two channels (SCPI over a pair of bulk endpoints): a measurement takes 30 milliseconds."""
import tirnouch as t


class Voltmeter(t.Scpi):
    ids = (0x1209, 0x0034)
    answers = {"*IDN?": "ACME,PM-1,0,1.0"}
    volts = {1: 2.3, 2: 5.0}

    @t.scpi.command("MEASure:VOLTage[:DC]?", takes=30)
    def measure(self, channel: int = 1) -> float:
        if channel not in self.volts:
            raise t.scpi.Error(-222)
        return self.volts[channel]


if __name__ == "__main__":
    t.main(Voltmeter)

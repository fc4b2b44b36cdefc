"""A driver for the meter PM-1, by pyusb. It knows nothing of Tirnouch."""
import usb.core

COMMAND, ANSWER = 0x02, 0x81


class Error(Exception):
    """There is no meter, or it didn't answer."""


class Meter:
    """A meter. Each command has a number of its own, which comes back with the answer."""

    def __init__(self, device):
        self.device, self.number = device, 0

    def read(self, channel):
        """The values of a channel."""
        self.number = (self.number + 1) % 256
        command = bytes([0x01, self.number, channel])
        try:
            self.device.write(COMMAND, command + bytes([sum(command) & 255]))
            answer = bytes(self.device.read(ANSWER, 64))
        except usb.core.USBError as error:
            raise Error(str(error)) from error
        if sum(answer[:-1]) & 255 != answer[-1] or answer[1:3] != command[1:]:
            raise Error(f"that is no answer: {answer.hex()}")
        return [int.from_bytes(answer[at : at + 4], "little") for at in range(4, len(answer) - 1, 4)]


def open():
    """The first meter on the bus."""
    device = usb.core.find(idVendor=0x1209, idProduct=0x4D31)
    if device is None:
        raise Error("there is no meter")
    return Meter(device)

"""A packet of a capture of ours as Windows' recorder writes it (USBPcap, "USBPcap Capture format"; Windows, usb.h). It says less than
usbmon: neither how much a read asks for, nor how much of a write moved, nor the flags of a transfer."""
import struct

# headerLen, irpId, status, function, info, bus, device, endpoint, transfer, dataLength: the lowest byte of each comes first.
HEADER = "<HQIHBHHBBI"
HEADER_SIZE, CONTROL_HEADER_SIZE = 27, 28
# usbmon's fields, as far as they are needed: id, type, kind, ep, device, bus, status, how much is kept, setup.
USBMON = "<QBBBBHBBqiiII8s"
FROM_DEVICE = 1
SETUP_STAGE, COMPLETE_STAGE = 0, 3
CONTROL, IRP_INFO = 2, 0xFE
SELECT_CONFIGURATION, SELECT_INTERFACE, ABORT_PIPE, CONTROL_TRANSFER, BULK_OR_INTERRUPT_TRANSFER, GET_DESCRIPTOR, RESET_PIPE = (
    0x00, 0x01, 0x02, 0x08, 0x09, 0x0B, 0x1E)
# The statuses (USBD_STATUS) that say what a status of Linux says, each in its turn: a stall and a halted endpoint; CRC, bit stuffing, data
# toggle, no response, PID check, unexpected PID, transaction error; overrun and babble; short transfer and underrun; canceled; gone.
STATUSES = {
    0: (0,), -32: (0xC0000004, 0xC0000030),
    -71: (0xC0000001, 0xC0000002, 0xC0000003, 0xC0000005, 0xC0000006, 0xC0000007, 0xC0000011),
    -75: (0xC0000008, 0xC0000012), -121: (0x80000900, 0xC0000009), -2: (0xC0010000,), -108: (0xC0007000,)}
# A driver withdraws what it has at an endpoint: a packet that is no transfer's.
NO_TRANSFER = struct.pack(HEADER, HEADER_SIZE, 0xFFFF_8000_0000_0001, 0, ABORT_PIPE, 0, 1, 1, 0x81, IRP_INFO, 0)


class Windows:
    """Writes packets. The function of a control transfer is that of its setup data, which its end has too."""

    def __init__(self):
        self.functions, self.written = {}, 0

    def packet(self, packet):
        """Ours, written so."""
        number, letter, kind, ep, device, bus, _, _, _, _, status, _, kept, setup = struct.unpack_from(USBMON, packet)
        data, is_submission = packet[64 : 64 + kept], letter == ord("S")
        self.written += 1
        if kind != CONTROL:
            body = data if is_submission != (ep >= 0x80) else b""
            return self.head(number, status, BULK_OR_INTERRUPT_TRANSFER, letter, bus, device, ep, kind, len(body)) + body
        if is_submission:
            self.functions[number] = function_of(setup)
        function, at = self.functions.get(number, (CONTROL_TRANSFER, None))
        if function == RESET_PIPE:
            return self.head(number, status, function, letter, bus, device, at, IRP_INFO, 0)
        body = setup + data if is_submission else data
        head = self.head(number, status, function, letter, bus, device, ep, CONTROL, len(body), CONTROL_HEADER_SIZE)
        return head + bytes([SETUP_STAGE if is_submission else COMPLETE_STAGE]) + body

    def head(self, number, status, function, letter, bus, device, ep, transfer, length, size=HEADER_SIZE):
        same = STATUSES.get(status, STATUSES[-108])
        windows = 0 if letter == ord("S") else same[self.written % len(same)]
        info = 0 if letter == ord("S") else FROM_DEVICE
        return struct.pack(HEADER, size, number, windows, function, info, bus, device, ep, transfer, length)


def function_of(setup):
    """The function by which Windows makes a request; of one that ends a halt the endpoint too, since it has no setup data."""
    functions = {b"\x80\x06": GET_DESCRIPTOR, b"\x00\x09": SELECT_CONFIGURATION, b"\x01\x0b": SELECT_INTERFACE}
    if setup[:4] == b"\x02\x01\x00\x00":
        return RESET_PIPE, setup[4]
    return functions.get(setup[:2], CONTROL_TRANSFER), None

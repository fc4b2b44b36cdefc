"""Part `umockdev`: libusb itself, over umockdev that replays a capture of ours, tells its callbacks what `usbtrace run` prints.

umockdev stands in the place of the kernel, and answers libusb's requests with what a capture has. It ends a cancelled transfer by itself,
at once and without bytes, so the ends of cancelled transfers are taken out of the capture."""
import random
import subprocess

from machine import need
from scenes import random_scenario
from told import CONTROL, Told

VENDOR, PRODUCT = "1209", "0001"
# A device descriptor: USB 2.0, packets of 64 bytes on endpoint 0, these numbers, one configuration (USB 2.0, 9.6.1).
DEVICE = bytes.fromhex("120100020000004009120100000100000001")
ROOT_OF_BUS = "/devices/pci0000:00/0000:00:14.0/usb1"
WITHDRAWN = ("CANCELLED", "TIMED_OUT")
# libusb's types and flags, by usbmon's and Linux's.
TYPES = {1: 3, 3: 2}
LIBUSB_FLAGS = {0x1: 1, 0x40: 8}
# What tshark keeps of a capture where it takes out the ends of cancelled transfers; their status.
KEPT, ENOENT = "!(usb.urb_status == -2)", -2


def described(device):
    """A device as umockdev wants it described."""
    number, descriptors = device.number + 1, (DEVICE + device.raw).hex().upper()
    lines = [
        f"P: {ROOT_OF_BUS}/1-{number}", f"N: bus/usb/001/{number:03}={descriptors}", f"E: DEVNAME=/dev/bus/usb/001/{number:03}",
        "E: DEVTYPE=usb_device", "E: DRIVER=usb", f"E: PRODUCT={VENDOR}/{PRODUCT}/100", "E: TYPE=0/0/0", "E: BUSNUM=001",
        f"E: DEVNUM={number:03}", "E: MAJOR=189", f"E: MINOR={number - 1}", "E: SUBSYSTEM=usb",
        f"A: bConfigurationValue={device.value}", "A: bDeviceClass=00", "A: bNumConfigurations=1",
        f"A: bNumInterfaces={device.raw[4]:2}", "A: busnum=1", f"H: descriptors={descriptors}", f"A: dev=189:{number - 1}",
        f"A: devnum={number}", f"A: devpath={number}", f"A: idProduct={PRODUCT}", f"A: idVendor={VENDOR}", "A: speed=480",
        "A: version= 2.00",
    ]
    return "".join(line + "\n" for line in lines).encode()


def orders(told, device):
    """What the driver is told to do: what to submit to a device, to wait for and to cancel there; and each transfer's number."""
    withdrawn = {it.id for it in told.callbacks if it.status in WITHDRAWN}
    numbers, lines = {}, []
    for event in told.events:
        if event.device != device:
            continue
        if event.kind == CONTROL:
            if event.setup and event.setup[:2] == b"\2\1":
                lines.append(f"clear {event.setup[4]:02x}")
        elif event.type == "S":
            number = numbers[event.id] = len(numbers)
            flags = sum(it for bit, it in LIBUSB_FLAGS.items() if event.flags & bit)
            lines.append(f"submit {number} {event.ep:02x} {TYPES[event.kind]} {event.length} {flags} {event.data.hex() or '-'}")
        else:
            lines.append(f"{'cancel' if event.id in withdrawn else 'wait'} {numbers[event.id]}")
    return "".join(line + "\n" for line in lines).encode(), numbers


def without_cancels(capture):
    """A capture without the ends of cancelled transfers."""
    out, at = [capture[:24]], 24
    while at < len(capture):
        behind = at + 16 + int.from_bytes(capture[at + 8 : at + 12], "little")
        if int.from_bytes(capture[at + 44 : at + 48], "little", signed=True) != ENOENT:
            out.append(capture[at:behind])
        at = behind
    return b"".join(out)


def kept_by_tshark(machine, capture):
    """What tshark keeps, which is the same but for the file header."""
    kept = machine.folder / "kept.pcap"
    words = [need("tshark"), "-r", machine.file("whole.pcap", capture), "-Y", KEPT, "-F", "pcap", "-w", kept]
    subprocess.run(words, capture_output=True, check=True)
    return kept.read_bytes()


def replay(machine, driver, device, capture, given, most):
    """How the driver ends over this capture and these orders."""
    kept = machine.file("kept.pcap", capture)
    described_as = machine.file("device.umockdev", described(device))
    words = [need("umockdev-run"), "--device", described_as, "--pcap", f"/sys{ROOT_OF_BUS}/1-{device.number + 1}={kept}", "--"]
    return machine.ran([*words, driver, VENDOR, PRODUCT, str(most)], machine.file("orders", given))


def line_of(callback):
    """What the driver has to print of a callback, behind the transfer's number."""
    status = "CANCELLED" if callback.status in WITHDRAWN else callback.status
    return [f"{callback.request.ep:02x}", status, str(callback.actual), callback.data.hex() or "-"]


def compared(callback, told_by_libusb):
    """What comes of a callback: `alike` and its status, `not comparable`, or None where libusb told another thing."""
    ep, status, *_ = wanted = line_of(callback)
    if status == "CANCELLED" and callback.actual and told_by_libusb == [ep, status, "0", "-"]:
        return "not comparable"
    return f"alike {status}" if told_by_libusb == wanted else None


def umockdev(machine, asked, count):
    need("tshark")
    need("umockdev-run")
    driver = machine.built_driver()
    for seed in range(asked.seed, asked.seed + asked.count):
        scenario = random_scenario(random.Random(seed))
        told = Told(scenario, machine.usbtrace("run --steps", scenario).out)
        whole = machine.usbtrace("capture", scenario).out
        capture = without_cancels(whole)
        if seed == asked.seed and kept_by_tshark(machine, whole)[24:] != capture[24:]:
            yield f"seed {seed}: tshark keeps other packets where it takes out cancelled transfers"
        for device in told.devices.values():
            given, numbers = orders(told, device.number)
            it = replay(machine, driver, device, capture, given, len(numbers))
            count["replays"] += 1
            name = f"seed {seed}, device {device.number}"
            if it.status:
                yield f"{name}: the driver ends with status {it.status}: {it.err.decode(errors='replace').strip()}"
            lines = {int(line.split()[0]): line.split()[1:] for line in it.out.decode().splitlines()}
            for callback in (it for it in told.callbacks if it.device == device.number):
                number = numbers[callback.id]
                kind = compared(callback, lines.get(number))
                count[kind or "differing"] += 1
                if not kind:
                    yield f"{name}, transfer {number}: libusb tells {lines.get(number)}, and not {line_of(callback)}"

"""Parts `tshark` and `random`: what usbtrace writes of a run, and what tshark reads of that, are what its steps come to."""
import random
import subprocess

from machine import need
from scenes import random_scenario, row_scenarios
from told import CONTROL, FILE_HEADER, Told, data_flag

# What tshark is asked for of each frame.
FIELDS = (
    "frame.time_epoch", "usb.bus_id", "usb.device_address", "usb.endpoint_address", "usb.transfer_type", "usb.urb_type", "usb.urb_status",
    "usb.urb_len", "usb.data_len", "usb.urb_id", "usb.request_in", "usb.response_in", "usb.setup_flag", "usb.data_flag", "usb.interval",
    "usb.copy_of_transfer_flags", "usb.bmRequestType", "usb.setup.bRequest", "usb.setup.wLength", "usb.setup.wInterface",
    "usb.setup.wFeatureSelector", "usb.setup.wEndpoint", "usb.setup.wIndex", "usb.capdata", "_ws.expert", "_ws.malformed",
)
# These may come again among the descriptors of an answer, so they are looked at in requests alone.
OF_SUBMISSIONS = ("usb.bmRequestType", "usb.setup.bRequest", "usb.setup.wLength", "usb.setup.wInterface", "usb.setup.wFeatureSelector",
                  "usb.setup.wEndpoint", "usb.setup.wIndex")
SET_CONFIGURATION, SET_INTERFACE, CLEAR_FEATURE = 9, 11, 1
# How many captures tshark reads at once.
BATCH = 25
# The status of a run that wrote something else than its scenario expects: it was made, and its capture is as of any other.
UNEXPECTED = 3


def character(value):
    return "'\\0'" if value == 0 else f"'{chr(value)}'"


def setup_fields(setup):
    """What tshark shows of eight bytes of setup data: wValue and wIndex have a name of their own in each request."""
    request, index = setup[1], int.from_bytes(setup[4:6], "little")
    shown = {"usb.bmRequestType": f"0x{setup[0]:02x}", "usb.setup.bRequest": str(request),
             "usb.setup.wLength": str(int.from_bytes(setup[6:], "little"))}
    if request == SET_INTERFACE:
        shown["usb.setup.wInterface"] = str(index)
    elif request == CLEAR_FEATURE:
        shown.update({"usb.setup.wEndpoint": str(index), "usb.setup.wFeatureSelector": "0"})
    elif request == SET_CONFIGURATION:
        shown["usb.setup.wIndex"] = "0"
    return shown


def frames_of(told):
    """What tshark has to show of each event, by the field's name; what isn't named is empty."""
    sent = {event.id: number for number, event in enumerate(told.events, 1) if event.type == "S"}
    ended = {event.id: number for number, event in enumerate(told.events, 1) if event.type == "C"}
    for event in told.events:
        is_submission = event.type == "S"
        flag = 0 if event.setup is not None else 0x2D
        yield {
            "frame.time_epoch": f"{event.line // 1_000_000}.{event.line % 1_000_000:06}000", "usb.bus_id": "1",
            "usb.device_address": str(event.device + 1), "usb.endpoint_address": f"0x{event.ep:02x}",
            "usb.transfer_type": f"0x{event.kind:02x}", "usb.urb_type": f"'{event.type}'", "usb.urb_status": str(event.status),
            "usb.urb_len": str(event.length), "usb.data_len": str(len(event.data)), "usb.urb_id": f"0x{event.id:016x}",
            "usb.request_in": "" if is_submission else str(sent[event.id]),
            "usb.response_in": str(ended.get(event.id, "")) if is_submission else "", "usb.setup_flag": character(flag),
            "usb.data_flag": character(data_flag(event)), "usb.interval": "0", "usb.copy_of_transfer_flags": f"0x{event.flags:08x}",
            "usb.capdata": event.data.hex() if event.kind != CONTROL else "", **(setup_fields(event.setup) if event.setup else {}),
        }


def shown_by(path):
    """What tshark shows of each frame of a file, by the field's name. It goes through the file twice, to know what is answered where."""
    words = [need("tshark"), "-2", "-r", path, "-T", "fields", "-E", "separator=|", *(it for name in FIELDS for it in ("-e", name))]
    ran = subprocess.run(words, capture_output=True, text=True, check=True)
    for line in ran.stdout.splitlines():
        frame = dict(zip(FIELDS, line.split("|"), strict=True))
        if frame["usb.urb_type"] != "'S'":
            frame.update(dict.fromkeys(OF_SUBMISSIONS, ""))
        yield frame


def difference(wanted, shown):
    """The first field of a frame that isn't as it has to be."""
    for name in FIELDS:
        if wanted.get(name, "") != shown[name]:
            return f"{name} is {shown[name] or 'empty'}, and not {wanted.get(name, '') or 'empty'}"
    return None


class Batch:
    """Captures that tshark reads as one file, since it takes longer to begin than to read. It finds an S by the last of its id."""

    def __init__(self, machine, count):
        self.machine, self.count, self.names, self.wanted, self.records = machine, count, [], [], []

    def add(self, name, told, capture):
        """A capture more: its records, and what tshark has to show of them behind the frames before."""
        before = len(self.wanted)
        for frame in frames_of(told):
            for field in ("usb.request_in", "usb.response_in"):
                frame[field] = str(int(frame[field]) + before) if frame[field] else ""
            self.names.append(name)
            self.wanted.append(frame)
        self.records.append(capture[len(FILE_HEADER) :])

    def faults(self):
        """What tshark shows otherwise, once for each capture."""
        shown = list(shown_by(self.machine.file("shown.pcap", FILE_HEADER + b"".join(self.records))))
        self.count["frames"] += len(shown)
        if len(shown) != len(self.wanted):
            yield f"{self.names[0]} to {self.names[-1]}: tshark shows {len(shown)} frames of {len(self.wanted)}"
        told_of = set()
        for number, (name, wanted, frame) in enumerate(zip(self.names, self.wanted, shown), 1):
            it = difference(wanted, frame)
            if it and name not in told_of:
                told_of.add(name)
                yield f"{name}, frame {number - self.names.index(name)}: {it}"


def written_faults(machine, name, scenario, batch):
    """What is wrong with the bytes of a scenario's capture, which tshark is shown then; what is right is counted."""
    printed, written = machine.usbtrace("run --steps", scenario), machine.usbtrace("capture", scenario)
    if printed.status not in (0, UNEXPECTED):
        batch.count["refused"] += 1
        if (written.status, written.out, written.err) != (printed.status, b"", printed.err):
            yield f"{name}: `run` refuses it, and `capture` ends with status {written.status}: {written.err!r}"
        return
    if written.status or written.err:
        yield f"{name}: `capture` ends with status {written.status}: {written.err!r}"
        return
    batch.count["scenarios"] += 1
    told = Told(scenario, printed.out)
    capture = told.capture()
    if written.out != capture:
        same = next((at for at, (a, b) in enumerate(zip(written.out, capture)) if a != b), min(len(written.out), len(capture)))
        yield f"{name}: other bytes than those of the format's rules, from byte {same} on"
    batch.add(name, told, written.out)


def faults_of(machine, scenarios, count):
    """What is wrong with the captures of scenarios, by name."""
    need("tshark")
    batch = Batch(machine, count)
    for name, scenario in scenarios:
        yield from written_faults(machine, name, scenario, batch)
        if len(batch.records) == BATCH:
            yield from batch.faults()
            batch = Batch(machine, count)
    if batch.wanted:
        yield from batch.faults()


def tshark(machine, asked, count):
    return faults_of(machine, ((f"rows/{name}.in", it) for name, it in row_scenarios().items()), count)


def random_scenarios(machine, asked, count):
    seeds = range(asked.seed, asked.seed + asked.count)
    return faults_of(machine, ((f"seed {seed}", random_scenario(random.Random(seed))) for seed in seeds), count)

"""Part `large`: captures of nearly 67,108,864 bytes, and one that is longer: how long `usbtrace devices` takes, and how much memory.

A build with checks takes many times as long as a proved one, so it is given captures of an eighth of that."""
import struct

from forms import FORMS, LOCAL_BLOCK, block
from told import BULK, CONTROL, FILE_HEADER, IN_PROGRESS, Event, record

LONGEST = 67_108_864
TOO_LONG = b"usbtrace: the input is longer than %d bytes\nusbtrace: input or output failed\n" % LONGEST
# How long a run may take, in seconds of processor time; by a build with checks, of how much less.
SECONDS, SECONDS_WITH_CHECKS, LESS = 10, 50, 8
# Interface 0 with the bulk endpoints 81 and 02, packets of 64 bytes.
CONFIG = bytes.fromhex("0902200001010080320904000002ff0000000705810240000007050202400000")
MOST_ANSWERS = 65_536


def control():
    """The records of the configuration that is read of a device."""
    setup = bytes((0x80, 6, 0, 2, 0, 0, len(CONFIG), 0))
    sent = Event(1, "S", CONTROL, 0x80, 0, 1, IN_PROGRESS, len(CONFIG), b"", setup, 0x200)
    return [record(sent), record(sent._replace(type="C", status=0, length=len(CONFIG), data=CONFIG, setup=None))]


def read_of(asked, data):
    """The records of a read at endpoint 81, and of its end."""
    sent = Event(2, "S", BULK, 0x81, 0, 1, IN_PROGRESS, asked, b"", None, 0x200)
    return [record(sent), record(sent._replace(type="C", status=0, length=len(data), data=data))]


# What each capture of one device begins with.
HEAD = FILE_HEADER + b"".join(control())


def numbered(records, at=16):
    """These records again and again, each time with the next id, which has this place in each."""
    pieces = [(it[:at], it[at + 8 :]) for it in records]
    for number in range(2, LONGEST):
        yield b"".join(head + struct.pack("<Q", number) + rest for head, rest in pieces)


def of_device(records, bus, device):
    """The same records of another device."""
    where = struct.pack("<BH", device, bus)
    return b"".join(it[:27] + where + it[30:] for it in records)


def filled(path, most, first, pieces):
    """A file of a beginning and as many pieces as fit into so many bytes; how many those are."""
    with path.open("wb") as out:
        size, count = out.write(first), 0
        for piece in pieces:
            if size + len(piece) > most:
                break
            size, count = size + out.write(piece), count + 1
    return count


def text_of(answers, answer, behind):
    """The text of a device with so many answers, of which the frame of this number has the first that a script has no room for."""
    note = f"# ep 81: the first {MOST_ANSWERS} of {answers} answers (the next is in frame {behind})\n" if answers > MOST_ANSWERS else ""
    script = " ".join([answer] * min(answers, MOST_ANSWERS))
    return f"# device 0 was bus 1 device 1\n{note}device 0 {CONFIG.hex()}\nlasts 0\nscript 0 81 {script}\n"


def end_of_read(number, frames=2):
    """The frame of a read's end: the configuration has two frames before the reads, and each read so many. Reads are counted from 1 on."""
    return 2 + frames * number


def of_one_endpoint(path, most):
    """Reads of 8 bytes, one behind the other."""
    count = filled(path, most, HEAD, numbered(read_of(8, bytes(8))))
    return f"{count:,} reads of 8 bytes", 0, text_of(count, "d:" + "00" * 8, end_of_read(MOST_ANSWERS + 1))


def of_windows(path, most):
    """The same reads as Windows' recorder writes them: the id stands behind the length of the header."""
    written = FORMS["pcap of Windows"]
    both = written(FILE_HEADER + b"".join(read_of(8, bytes(8))))[len(FILE_HEADER) :]
    sent = 16 + int.from_bytes(both[8:12], "little")
    count = filled(path, most, written(HEAD), numbered([both[:sent], both[sent:]], 18))
    return f"{count:,} reads of 8 bytes on Windows", 0, text_of(count, "d:" + "00" * 8, end_of_read(MOST_ANSWERS + 1))


def of_long_reads(path, most):
    """Reads of 262,144 bytes, each of 4,096 packets."""
    count = filled(path, most, HEAD, numbered(read_of(262_144, bytes(262_144))))
    return f"{count:,} reads of 262,144 bytes", 0, text_of(count * 4096, "d:" + "00" * 64, end_of_read(MOST_ANSWERS // 4096 + 1))


def of_empty_packets(path, most):
    """Reads of no bytes: the most answers that a file can have."""
    count = filled(path, most, HEAD, numbered(read_of(0, b"")[1:]))
    return f"{count:,} ends of empty reads", 0, text_of(count, "d:", end_of_read(MOST_ANSWERS + 1, 1))


def of_many_devices(path, most):
    """As many devices as fit, each with a read; the first four are kept."""
    records = control() + read_of(8, bytes(8))
    count = filled(path, most, FILE_HEADER, (of_device(records, 1 + it // 127, 1 + it % 127) for it in range(LONGEST)))
    left_out = [f"# bus {1 + it // 127} device {1 + it % 127} is left out: the fifth device (first in frame {len(records) * it + 1})\n"
                for it in range(4, count)]
    kept = [f"# device {it} was bus 1 device {it + 1}\ndevice {it} {CONFIG.hex()}\nlasts {it}\nscript {it} 81 d:{'00' * 8}\n" for it in range(4)]
    return f"{count:,} devices", 0, "".join(left_out + kept)


def of_transfers_in_flight(path, most):
    """Submissions of which none ends."""
    count = filled(path, most, HEAD, numbered(read_of(8, b"")[:1]))
    return f"{count:,} reads that don't end", 1, "# bus 1 device 1 is left out: no answers (first in frame 1)\n"


def of_blocks(path, most):
    """A pcapng file of the shortest blocks."""
    empty = block("<", LOCAL_BLOCK, b"") * 1000
    first = block("<", 0x0A0D0D0A, struct.pack("<IHHq", 0x1A2B3C4D, 1, 0, -1)) + block("<", 1, struct.pack("<HHI", 220, 0, 0))
    count = filled(path, most, first, (empty for _ in range(LONGEST)))
    return f"{1000 * count:,} blocks without a packet", 1, ""


def too_long(path, most):
    """A byte more than may be."""
    path.write_bytes(FILE_HEADER)
    with path.open("r+b") as out:
        out.truncate(LONGEST + 1)
    return "a byte too many", 1, None


MADE = (of_one_endpoint, of_windows, of_long_reads, of_empty_packets, of_many_devices, of_transfers_in_flight, of_blocks, too_long)


def large(machine, asked, count):
    path = machine.folder / "large.pcap"
    most, seconds = (LONGEST, SECONDS) if machine.is_proved else (LONGEST // LESS, SECONDS_WITH_CHECKS)
    for make in MADE:
        name, status, text = make(path, most)
        it = machine.ran([machine.program, "devices"], path)
        count["captures"] += 1
        print(f"large: {name}: {path.stat().st_size:,} bytes, {it.seconds:.1f} seconds, {it.memory // 1024:,} MB", flush=True)
        err = b"" if text is not None else TOO_LONG
        if (it.status, it.err) != (status, err):
            yield f"{name}: ends with status {it.status}: {it.err[:200]!r}"
        if it.out.decode(errors="replace") != (text or ""):
            yield f"{name}: prints {len(it.out):,} other bytes: {it.out[:200]!r}"
        if it.out and machine.usbtrace("check", machine.ran([machine.program, "devices", "--scenario"], path).out).status:
            yield f"{name}: `check` doesn't take what it prints as a scenario"
        if it.seconds > seconds:
            yield f"{name}: takes {it.seconds:.1f} seconds"

"""Part `round`: what `usbtrace devices --scenario` reads of a run's capture are the answers that the run's callbacks used, in each form."""
import collections
import random

from forms import FORMS
from scenes import random_scenario, row_scenarios
from told import HUB, Told, is_in

MOST_ANSWERS = 65_536


def packets_of(request, size, form):
    """How many packets a write has. Without the flags of a transfer an empty one behind whole ones isn't known of."""
    has_empty_one = form.has_flags and request.flags & 0x40 and request.length and request.length % size == 0
    return max(1, -(-request.length // size)) + bool(has_empty_one)


def written_answers(callback, size, form):
    """Where it isn't known how much of a write moved, that is all or, where it was at fault, nothing."""
    acknowledged, last = callback.answers.count("a") if form.has_lengths else 0, [it for it in callback.answers if it in "sb"]
    packets = packets_of(callback.request, size, form)
    taken = packets if callback.status == "COMPLETED" else min(acknowledged, packets - 1)
    return ["a:" + callback.request.data[it * size : (it + 1) * size].hex() for it in range(taken)] + last


def read_answers(callback, size, form):
    """Where it isn't known how much a read asked for, that is what moved: no empty packet is behind it. For a packet that is too long there
    was room for a whole one then."""
    answers = callback.answers
    if callback.status == "OVERFLOW":
        room = min(size, callback.request.length - callback.actual) if form.has_lengths else size
        return answers[:-1] + ["d:" + bytes(room + 1).hex()]
    return answers[:-1] if answers[-1:] == ["d:"] and callback.actual and not form.has_lengths else answers


def answers_of(callback, size, form, count):
    """The answers that a callback used, as far as a capture has them."""
    if callback.status == "NO_DEVICE" and callback.answers[-1:] == ["b"]:
        count["broken, not told of a device that is gone"] += 1
        callback = callback._replace(answers=callback.answers[:-1])
    return read_answers(callback, size, form) if is_in(callback.request.ep) else written_answers(callback, size, form)


class Endpoint:
    """What is to be told of an endpoint: its answers, and the frames of some."""

    def __init__(self):
        self.answers, self.too_long, self.next = [], [], 0

    def add(self, answers, is_too_long, frame):
        """The answers of a transfer that ended in this frame."""
        if len(self.answers) <= MOST_ANSWERS < len(self.answers) + len(answers):
            self.next = frame
        self.answers += answers
        self.too_long += [frame] if is_too_long else []


def device_lines(number, device, scripts):
    """The lines of a device that is kept."""
    yield f"# device {number} was bus 1 device {device.number + 1}"
    for ep, it in ((ep, scripts[ep]) for ep in device.endpoints):
        if it.too_long:
            yield f"# ep {ep:02x}: {len(it.too_long)} packets were too long; their bytes are 00 here (first in frame {it.too_long[0]})"
        if it.next:
            yield f"# ep {ep:02x}: the first {MOST_ANSWERS} of {len(it.answers)} answers (the next is in frame {it.next})"
    yield f"device {number} {device.raw.hex()}"
    for ep in device.endpoints:
        if scripts[ep].answers:
            yield f"script {number} {ep:02x} {' '.join(scripts[ep].answers[:MOST_ANSWERS])}"


def wanted_text(told, form, count):
    """What `usbtrace devices --scenario` has to print, and how it has to end."""
    left_out, kept, number = [], [], 0
    for device in told.devices.values():
        scripts = collections.defaultdict(Endpoint)
        for callback in (it for it in told.callbacks if it.device == device.number):
            answers = answers_of(callback, device.packet_size(callback.request.ep), form, count)
            scripts[callback.request.ep].add(answers, callback.status == "OVERFLOW", form.frame(callback.number))
        count["answers"] += sum(len(it.answers) for it in scripts.values())
        why = "a hub" if set(device.classes) == {HUB} else None if any(it.answers for it in scripts.values()) else "no answers"
        if why:
            first = form.frame(next(at for at, it in enumerate(told.events, 1) if it.device == device.number))
            left_out.append(f"# bus 1 device {device.number + 1} is left out: {why} (first in frame {first})")
        else:
            kept += device_lines(number, device, scripts)
            number += 1
    return "".join(line + "\n" for line in left_out + kept), 0 if number else 1


def faults_of(machine, name, scenario, form, count):
    """What is wrong with what is read of a scenario's capture in a form."""
    printed = machine.usbtrace("run --steps", scenario)
    if printed.status:
        return
    told = Told(scenario, printed.out)
    read = machine.usbtrace("devices --scenario", FORMS[form](machine.usbtrace("capture", scenario).out))
    text, status = wanted_text(told, FORMS[form], count)
    count["captures"] += 1
    if (read.status, read.err) != (status, b""):
        yield f"{name}, {form}: `devices` ends with status {read.status}, and not {status}: {read.err!r}"
    if read.out.decode() != text:
        pairs = zip([*read.out.decode().splitlines(), "(the end)"], [*text.splitlines(), "(the end)"])
        there, wanted = next(it for it in pairs if it[0] != it[1])
        yield f"{name}, {form}: `devices` prints {there!r}, and not {wanted!r}"
    check = machine.usbtrace("check", read.out)
    if check.status:
        yield f"{name}, {form}: `check` doesn't take what `devices` prints: {check.out[:200]!r}"


def round_trips(machine, asked, count):
    """Each row and each random scenario, in one form or another."""
    names = [*FORMS]
    scenarios = {f"rows/{name}.in": it for name, it in row_scenarios().items()}
    scenarios.update((f"seed {seed}", random_scenario(random.Random(seed))) for seed in range(asked.seed, asked.seed + 4 * asked.count))
    for number, (name, scenario) in enumerate(scenarios.items()):
        yield from faults_of(machine, name, scenario, names[number % len(names)], count)

"""Faults of a device that computes: in the place of a packet, or of a request, something fails. What the device would have sent stays, and
is sent behind the fault; what the host wrote there never reaches the device."""
from __future__ import annotations

import collections
import random
from typing import Counter, Deque, Dict, List, NamedTuple, Optional, Tuple, Union

from tirnouch.answers import BROKEN, GONE, SILENT, STALL, Answer, later
from tirnouch.endpoints import Fields, Request, whole

KINDS = (STALL, BROKEN, SILENT, GONE)
MOST_PACKETS = (1 << 32) - 1
# So many faults that happened are kept.
MOST_TOLD = 10
Key = Tuple[int, int, int, int]


class Fault:
    """What is to happen: once, or by dice for as long as the bus is there."""

    def __init__(self, answer: Answer, index: Optional[int], rate: float = 0, dice: Optional[random.Random] = None) -> None:
        self.answer, self.index, self.rate, self.dice = answer, index, rate, dice
        self.is_used = False

    def falls(self, index: int) -> bool:
        """Whether it falls on the packet or request of this index."""
        if self.dice:
            return self.dice.random() < self.rate
        if self.is_used or index != self.index:
            return False
        self.is_used = True
        return True


class OfRequests(NamedTuple):
    """Which requests a fault is of."""

    fields: Fields
    fault: Fault


def kind_of(kind: object) -> Answer:
    """A kind of fault, which is an answer of a device's."""
    if not isinstance(kind, Answer) or kind not in KINDS:
        raise TypeError(f"a fault is STALL, BROKEN, SILENT or UNPLUG, and not {kind!r}; `delay(milliseconds)` is one of time")
    return kind


class Faults:
    """The faults of a device, and how many packets and requests there were since it was plugged in."""

    def __init__(self) -> None:
        self.seed, self.number = 0, 0
        self.of_packets: Dict[int, List[Fault]] = collections.defaultdict(list)
        self.of_requests: List[OfRequests] = []
        self.moved: Counter[int] = collections.Counter()
        self.asked: Counter[Key] = collections.Counter()
        # What happened, the last ones
        self.fell: Deque[str] = collections.deque(maxlen=MOST_TOLD)

    def begin(self, number: int, seed: int) -> None:
        """The device is of a bus: its number there, and the run's seed. Nothing is to happen."""
        self.seed, self.number = seed, number
        self.of_packets.clear()
        self.of_requests.clear()
        self.fell.clear()
        self.renew()

    def renew(self) -> None:
        """The device is plugged in: packets and requests are counted from 0."""
        self.moved.clear()
        self.asked.clear()

    def add_packet(self, address: int, fault: Fault) -> None:
        """A fault of an endpoint. ValueError where its packet is past."""
        if fault.index is not None and fault.index < self.moved[address]:
            raise ValueError(f"endpoint {address:02x} has had {self.moved[address]} packets since it was plugged in: packet {fault.index} "
                             "is past")
        self.of_packets[address].append(fault)

    def dice(self, address: int) -> random.Random:
        """Dice of the run's seed, another for each fault of the bus."""
        return random.Random(f"{self.seed} {self.number} {address} {len(self.of_packets[address])}")

    def at_packet(self, address: int) -> Optional[Answer]:
        """What happens in the place of a packet that is to move now; None where it moves."""
        faults, index = self.of_packets.get(address), self.moved[address]
        answer = next((it.answer for it in faults if it.falls(index)), None) if faults else None
        if answer:
            self.fell.append(f"packet {index} at {address:02x}: {answer}")
        return answer

    def count_packet(self, address: int) -> None:
        """A packet moved."""
        self.moved[address] += 1

    def at_request(self, request: Request) -> Optional[Answer]:
        """What happens in the place of a request."""
        for fields, fault in self.of_requests:
            index = self.requests(fields)
            if fields.fit(request) and fault.falls(index):
                self.fell.append(f"request {request.type:02x} {request.request:02x}, {index} of its kind: {fault.answer}")
                return fault.answer
        return None

    def requests(self, fields: Fields) -> int:
        """How many requests of these fields were answered, by a fault or otherwise."""
        return sum(count for key, count in self.asked.items() if all(want is None or want == got for want, got in zip(fields, key)))

    def count_request(self, request: Request) -> None:
        """A request was answered."""
        self.asked[request[:4]] += 1


class Packet:
    """The packet of an endpoint that a fault is to take the place of."""

    def __init__(self, faults: Faults, address: int, index: int) -> None:
        self.faults, self.address, self.index = faults, address, whole("the packet's index", index, MOST_PACKETS)

    def fail(self, kind: Answer) -> None:
        """It fails once, by STALL, BROKEN, SILENT or UNPLUG."""
        self.faults.add_packet(self.address, Fault(kind_of(kind), self.index))

    def delay(self, milliseconds: int) -> None:
        """It comes so many milliseconds later."""
        self.faults.add_packet(self.address, Fault(later(milliseconds), self.index))


class Rate:
    """Packets of an endpoint that a fault takes the place of by dice."""

    def __init__(self, faults: Faults, address: int, rate: Union[int, float]) -> None:
        if isinstance(rate, bool) or not isinstance(rate, (int, float)) or not 0 <= rate <= 1:
            raise ValueError(f"a rate is a number from 0 to 1, as 0.01 for one packet in a hundred, and not {rate!r}")
        self.faults, self.address, self.rate = faults, address, float(rate)

    def _add(self, answer: Answer) -> None:
        self.faults.add_packet(self.address, Fault(answer, None, self.rate, self.faults.dice(self.address)))

    def fail(self, kind: Answer) -> None:
        """Each fails at this rate, by the dice of the run's seed."""
        self._add(kind_of(kind))

    def delay(self, milliseconds: int) -> None:
        """Each comes so many milliseconds later, at this rate."""
        self._add(later(milliseconds))


class Requests:
    """The request that a fault is to take the place of."""

    def __init__(self, faults: Faults, fields: Fields, index: int) -> None:
        self.faults, self.fields, self.index = faults, fields, whole("the request's index", index, MOST_PACKETS)

    def _add(self, answer: Answer) -> None:
        count = self.faults.requests(self.fields)
        if self.index < count:
            raise ValueError(f"there were {count} such requests since the device was plugged in: request {self.index} is past")
        self.faults.of_requests.append(OfRequests(self.fields, Fault(answer, self.index)))

    def fail(self, kind: Answer) -> None:
        """It fails once, by STALL, BROKEN, SILENT or UNPLUG."""
        self._add(kind_of(kind))

    def delay(self, milliseconds: int) -> None:
        """It is answered so many milliseconds later."""
        self._add(later(milliseconds))

"""What a device is asked: each question is passed to the method that answers it, and its answer is judged. An exception of a method is told
to whoever watches the device, else on standard error, and is a stall."""
from __future__ import annotations

import sys
import threading
import traceback
from typing import Any, Callable, Optional, TypeVar, Union

from tirnouch.answers import ACK, AS_TEXT, BROKEN, MOST_MILLISECONDS, NAK, SILENT, STALL, After, Answer, later
from tirnouch.device import ASKED, ASKING, Device, Waiting
from tirnouch.endpoints import ANY, IN, Request

Read = Union[bytes, Answer]
Taken = Optional[Answer]
Kind = TypeVar("Kind")
Moved = Union[bytes, Answer, None]
# The events, in the order of the numbers that tirnouch.h gives them, from 1 on; these have a number of their own.
EVENTS = ("claimed", "released", "reset", "cleared", "plugged", "pulled")
NUMBERED = ("claimed", "released", "cleared")
# Behind these, nothing is left of what was to be read.
RENEWING = ("reset", "plugged")


def guarded(device: Device, what: str, ask: Callable[..., Kind], *words: Any) -> Union[Kind, Answer]:
    """The answer to a question; STALL where there is an exception, which is told."""
    ASKED.is_asked, ASKING[threading.get_ident()] = True, f"{device} at `{what}`"
    try:
        return ask(device, *words)
    except Exception as error:  # pylint: disable=broad-except
        if device._watcher:
            device._watcher(device, what, error)
        else:
            traceback.print_exc()
            print(f"{device}: an exception at `{what}`, which is a stall", file=sys.stderr, flush=True)
        return STALL
    finally:
        ASKED.is_asked = False
        ASKING.pop(threading.get_ident(), None)


def judged(device: Device, method: str, answer: Any, inward: bool, is_request: bool = False) -> Union[Moved, After]:
    """An answer that a method may give: an Answer; bytes where the host reads; None where it writes."""
    if isinstance(answer, After):
        judged(device, method, answer.answer, inward, is_request)
        return answer
    if answer is ACK and not inward:
        return None
    if isinstance(answer, Answer) and answer is not ACK:
        if answer is AS_TEXT and not is_request:
            raise TypeError(f"{device}.{method} returned AS_TEXT, which is for requests on endpoint 0")
        return answer
    if inward and isinstance(answer, (bytes, bytearray, memoryview)):
        return bytes(answer)
    if not inward and answer is None:
        return None
    expected = "bytes" if inward else "None or ACK"
    raise TypeError(f"{device}.{method} returned {answer!r}: return {expected}, or STALL, NAK, BROKEN, GONE, SILENT, later(ms) or "
                    "after(ms, answer)")


def said(device: Device, address: int, answer: Answer) -> Answer:
    """An answer of an endpoint's, which may say nothing from then on."""
    if answer is SILENT:
        device._silent.add(address)
    return answer


def waits(device: Device, key: Any, question: Any, answer: After) -> Answer:
    """An answer that is given later: the question is known when it is asked again."""
    due = device._clock() + answer.milliseconds if device._clock else None
    device._waiting[key] = Waiting(question, due, answer.answer)
    return later(answer.milliseconds)


def waited(device: Device, key: Any, question: Any) -> Optional[Waiting]:
    """What was to be answered later, where its time is there. Another question in its place begins anew."""
    waiting = device._waiting.pop(key, None)
    if waiting is None or waiting.question != question:
        return None
    return None if device._clock and waiting.due is not None and device._clock() < waiting.due else waiting


def ask_out(device: Device, address: int, data: bytes) -> Taken:
    """A packet that the host sent: None takes it."""
    queue, endpoint = device._queues[address], device.endpoints[address]
    if address in device._silent:
        return NAK
    if queue:                                   # an OUT endpoint has nothing but stalls there
        stall = queue.popleft()
        return stall if isinstance(stall, Answer) else BROKEN
    waiting = waited(device, address, data)
    fault = None if waiting else device._faults.at_packet(address)
    if fault:
        return said(device, address, fault)
    method = device._method(endpoint)
    answer = judged(device, endpoint.name, waiting.answer if waiting else method(data), False) if method or waiting else None
    if isinstance(answer, After):
        return waits(device, address, data, answer)
    if isinstance(answer, Answer):
        return said(device, address, answer)
    device._faults.count_packet(address)
    return None


def fill(device: Device, address: int, room: int) -> Optional[Answer]:
    """Where nothing is to be read, the endpoint's method is asked: what it says in place of bytes."""
    endpoint = device.endpoints[address]
    method = device._method(endpoint)
    answer = method(room) if method else None
    if answer is None:
        return None if device._queues[address] else NAK     # the method may have sent something
    answer = judged(device, endpoint.name, answer, True)
    if isinstance(answer, Answer):
        return said(device, address, answer)
    given = answer.answer if isinstance(answer, After) else answer
    if isinstance(given, Answer):
        device._queues[address].append(given)
    else:
        device.send(address, given or b"")
    return later(answer.milliseconds) if isinstance(answer, After) else None


def ask_in(device: Device, address: int, room: int) -> Read:
    """The next packet that the host reads."""
    queue = device._queues[address]
    if address in device._silent:
        return NAK
    other = None if queue else fill(device, address, room)
    if other:
        return other
    if isinstance(queue[0], Answer):
        return said(device, address, queue.popleft())  # type: ignore[arg-type]
    fault = device._faults.at_packet(address)
    if fault:
        return said(device, address, fault)
    device._faults.count_packet(address)
    return queue.popleft()


def answer_of(device: Device, request: Request) -> Union[Moved, After]:
    """What a method answers to a request: AS_TEXT where none does."""
    inward = bool(request.type & IN)
    for fields, name in device.controls:
        if fields.fit(request):
            method = getattr(device, name)
            answer = judged(device, name, method(request, request.data) if fields is ANY else method(request), inward, True)
            return answer[: request.length] if isinstance(answer, bytes) else answer
    return AS_TEXT


def ask_request(device: Device, request: Request) -> Moved:
    """A request on endpoint 0. What is read is cut to the length that the host asked for."""
    waiting = waited(device, "control", request)
    fault = None if waiting else device._faults.at_request(request)
    answer = fault or (waiting.answer if waiting else answer_of(device, request))
    if isinstance(answer, After):
        return waits(device, "control", request, answer)
    if answer is not NAK and not (isinstance(answer, Answer) and answer.word.startswith("later")):
        device._faults.count_request(request)
    if answer is SILENT:
        return later(MOST_MILLISECONDS)
    if waiting and isinstance(answer, bytes):
        return answer[: request.length]
    return None if answer is ACK else answer


def tell(device: Device, word: str, number: int) -> None:
    """What happened to the device."""
    if word in RENEWING:
        device._queues.clear()
        device._renew()
    if word == "plugged":
        device._faults.renew()
    getattr(device, f"on_{word}")(*(number,) if word in NUMBERED else ())


def packet_out(device: Device, address: int, data: bytes) -> Taken:
    """The answer to a packet at an OUT endpoint."""
    return guarded(device, f"out {address:02x} {data.hex()}", ask_out, address, data)


def packet_in(device: Device, address: int, room: int) -> Read:
    """The answer where a packet is read."""
    return guarded(device, f"in {address:02x} {room}", ask_in, address, room)


def request(device: Device, setup: bytes, data: bytes) -> Moved:
    """The answer to a request: a setup packet of 8 bytes (USB 2.0, 9.3), and what the host writes."""
    value, index, length = (int.from_bytes(setup[at : at + 2], "little") for at in (2, 4, 6))
    asked = Request(setup[0], setup[1], value, index, length, data)
    return guarded(device, f"control {setup.hex()} {data.hex()}", ask_request, asked)


def event(device: Device, word: str, number: int = 0) -> None:
    """A device is told what happened."""
    guarded(device, word, tell, word, number)

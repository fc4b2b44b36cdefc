"""By which number a call is refused, if it is: the first row that applies of the table of docs/MODEL.md, read in words."""
from typing import Callable, Iterable, Optional

from followed import CALLBACK, RESULT, Endpoint, Request, Step, World, request_of

# How many places an endpoint has, and how many bytes a transfer.
PLACES, MOST_BYTES = 16, 262_144
BAD, GONE, MISSING, BUSY, HELD, UNSUPPORTED = 1, 2, 3, 4, 5, 7
# Whether a row of the table applies, and the number by which it refuses.
Row = tuple[bool, int]


def first_of(rows: Iterable[Row]) -> Optional[int]:
    return next((number for holds, number in rows if holds), None)


def is_quiet(world: World, handle: int, endpoints: Iterable[Endpoint]) -> bool:
    """Whether nothing is under way at these endpoints: no line, no result that waits, no callback, no errand."""
    those = list(endpoints)
    late = [it for it in world.transfers.values() if it.handle == handle and it.stage in (RESULT, CALLBACK) and it.endpoint in those]
    return not late and not any(it.line or it.errand for it in those)


def of_open(world: World, step: Step) -> Iterable[Row]:
    yield step.number not in world.interfaces, MISSING
    yield step.number in world.gone, GONE
    yield step.caller in world.opened, BUSY


def of_close(world: World, step: Step) -> Iterable[Row]:
    yield step.caller not in world.opened, MISSING
    yield not is_quiet(world, step.caller, world.held_by(step.caller)), BUSY


def of_claim(world: World, step: Step) -> Iterable[Row]:
    yield step.caller not in world.opened, MISSING
    device = world.opened[step.caller]
    yield device in world.gone, GONE
    yield step.number not in world.interfaces[device], MISSING
    yield world.holders.get((device, step.number), step.caller) != step.caller, HELD


def of_release(world: World, step: Step) -> Iterable[Row]:
    device = world.opened.get(step.caller, -1)
    yield world.holders.get((device, step.number)) != step.caller, MISSING
    yield not is_quiet(world, step.caller, (it for it in world.held_by(step.caller) if it.interface == step.number)), BUSY


def of_reset(world: World, step: Step) -> Iterable[Row]:
    yield step.caller not in world.opened, MISSING
    device = world.opened[step.caller]
    yield device in world.gone, GONE
    yield not is_quiet(world, step.caller, world.held_by(step.caller)), BUSY
    yield any(of == device and holder != step.caller for (of, _), holder in world.holders.items()), HELD


def own(world: World, handle: int, address: str) -> Optional[Endpoint]:
    """The endpoint with this address that a handle holds."""
    return next((it for it in world.held_by(handle) if it.address == address), None)


def of_clear(world: World, step: Step) -> Iterable[Row]:
    at = own(world, step.caller, step.words[1].lower())
    yield at is None, MISSING
    yield at is not None and at.device in world.gone, GONE
    yield at is not None and bool(at.line), BUSY


def of_submit(world: World, step: Step) -> Iterable[Row]:
    yield from of_request(world, own(world, step.caller, step.words[1].lower()), request_of(step.words[2:]))


def of_request(world: World, at: Optional[Endpoint], request: Request) -> Iterable[Row]:
    if at is None:
        yield True, MISSING
        return
    yield at.device in world.gone, GONE
    yield at.kind in ("control", "isochronous"), UNSUPPORTED
    yield request.kind != at.kind or request.is_read != at.is_in or request.length > MOST_BYTES, BAD
    yield len(at.line) + sum(it.endpoint is at for it in world.results) >= PLACES, BUSY


def of_ask(world: World, step: Step) -> Iterable[Row]:
    it = world.transfer(step.caller, step.number)
    yield it is None or not it.is_in_progress or it.ask is not None, MISSING
    yield step.verb == "expire" and it is not None and it.request.timeout == 0, MISSING


def of_return(world: World, step: Step) -> Iterable[Row]:
    """A callback answers Again if its status is one of its rule's and its round is below the rule's, and stops otherwise."""
    it = world.transfer(step.caller, step.number)
    yield it is None or it.stage != CALLBACK, MISSING
    if it and it.submits_again:
        yield from of_request(world, own(world, it.handle, it.endpoint.address), it.request)


def of_unplug(world: World, step: Step) -> Iterable[Row]:
    yield step.number not in world.interfaces, MISSING
    yield step.number in world.gone, GONE


TABLE: dict[str, Callable[[World, Step], Iterable[Row]]] = {
    "open": of_open, "close": of_close, "claim": of_claim, "release": of_release, "reset": of_reset, "clear": of_clear, "submit": of_submit,
    "cancel": of_ask, "expire": of_ask, "return": of_return, "unplug": of_unplug,
}


def fault_of(world: World, step: Step, reply: str) -> Optional[str]:
    """What is wrong of a reply, by the table: it is refused, and by this number, just if a row applies."""
    number = first_of(TABLE[step.verb](world, step)) if step.verb in TABLE else None
    wanted = f"refused {number}" if number else None
    if (reply if reply.startswith("refused") else None) == wanted:
        return None
    return f"it has to be {wanted}" if wanted else "it isn't to be refused"

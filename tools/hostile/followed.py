"""What the entries of a run tell of its devices, handles, endpoints and transfers: a state that is kept from them alone, by the rules of
docs/MODEL.md in words. An entry that it can't be is told."""
import re
from dataclasses import dataclass, field
from typing import Iterable, NamedTuple, Optional, TypeVar, Union

import descriptors

KINDS = ("control", "isochronous", "bulk", "interrupt")
SUBMITTED = {"bulk": "bulk", "int": "interrupt"}
# Codes of ends, and those of them behind which an endpoint is halted.
SUCCESS, BABBLE, BROKEN, STALL, SHORT = 1, 3, 4, 6, 13
HALTING = (BABBLE, BROKEN, STALL)
# What becomes of a transfer, in its order. In progress are those that wait or ended.
WAITS, ENDED, RESULT, CALLBACK, RETURNED = range(5)


class Unfit(Exception):
    """An entry can't be, as far as the entries before it tell."""


Thing = TypeVar("Thing")


def need(holds: bool, text: str) -> None:
    if not holds:
        raise Unfit(text)


def known(it: Optional[Thing], text: str) -> Thing:
    """What has to be there."""
    if it is None:
        raise Unfit(text)
    return it


@dataclass
class Request:
    """What a transfer asks for, and what its callback does."""
    kind: str
    is_read: bool
    length: int
    flags: set[str]
    timeout: int
    again: set[str]
    rounds: int


def request_of(words: list[str]) -> Request:
    """The request of a submission, of which these are the words behind its endpoint."""
    kind, body, *options = words
    told = dict(it.split("=") for it in options)
    is_read = not body.startswith("x:")
    rule = told.get("then", "stop").split(":")
    again, rounds = (set(rule[1].split("+")), int(rule[2])) if rule[0] == "again" else (set(), 0)
    length = int(body) if is_read else len(body[2:]) // 2
    return Request(SUBMITTED[kind], is_read, length, set(told.get("flags", "").split("+")), int(told.get("timeout", 0)), again, rounds)


@dataclass(eq=False)
class Endpoint:
    """An endpoint of a device: what its device does, and how it stands at the controller."""
    device: int
    address: str
    interface: int
    kind: str
    size: int
    script: list[str] = field(default_factory=list)
    line: list["Transfer"] = field(default_factory=list)
    used: int = 0
    device_halted: bool = False
    state: str = "running"
    errand: Optional[str] = None

    @property
    def is_in(self) -> bool:
        return int(self.address, 16) > 127

    @property
    def next_answer(self) -> Optional[str]:
        """What its device answers next, if it does."""
        return self.script[self.used] if self.used < len(self.script) and not self.device_halted else None

    @property
    def in_progress(self) -> list["Transfer"]:
        return [it for it in self.line if it.is_in_progress]

    @property
    def blanks(self) -> list["Transfer"]:
        """The withdrawn transfers that keep a place in the line."""
        return [it for it in self.line if not it.is_in_progress]

    @property
    def first(self) -> Optional["Transfer"]:
        """The first transfer that waits."""
        return next((it for it in self.line if it.stage == WAITS), None)

    def renew(self) -> None:
        self.line, self.used, self.device_halted, self.state, self.errand = [], 0, False, "running", None

    def drop_blanks(self) -> None:
        """Withdrawn transfers that lead the line leave it."""
        while self.line and not self.line[0].is_in_progress:
            del self.line[0]


@dataclass(eq=False)
class Transfer:
    """A transfer that was accepted."""
    handle: int
    number: int
    endpoint: Endpoint
    request: Request
    round: int
    moved: int = 0
    has_moved: bool = False
    ask: Optional[str] = None
    stage: int = WAITS
    code: Optional[int] = None
    status: Optional[str] = None

    @property
    def is_in_progress(self) -> bool:
        return self.stage in (WAITS, ENDED)

    @property
    def submits_again(self) -> bool:
        """Whether its callback, which was called with a status, submits it again."""
        return self.status in self.request.again and self.round < self.request.rounds


class Order(NamedTuple):
    """An order at an endpoint, which waits, or was carried out and is to be told of."""
    errand: str
    endpoint: Endpoint
    is_ok: bool = True

    def told(self, verb: str) -> str:
        return f"{verb} {self.errand} {self.endpoint.address} {'ok' if self.is_ok else 'fail'}"


class News(NamedTuple):
    """A transfer that finished or was paused."""
    what: str
    transfer: Transfer


class Step(NamedTuple):
    """A line of the scenario that is a step. A number that it hasn't is -1."""
    verb: str
    words: list[str]

    def number_at(self, at: int) -> int:
        return int(self.words[at]) if self.words and self.words[at].isdecimal() else -1

    @property
    def caller(self) -> int:
        """The handle whose call it is; of a serve the device."""
        return self.number_at(0)

    @property
    def number(self) -> int:
        """The number of a transfer, an interface or a device, which comes last."""
        return self.number_at(-1)


class World:
    """The devices of a scenario, and what the entries so far tell."""

    def __init__(self, text: str) -> None:
        self.interfaces: dict[int, list[int]] = {}
        self.endpoints: dict[int, dict[str, Endpoint]] = {}
        self.opened: dict[int, int] = {}
        self.holders: dict[tuple[int, int], int] = {}
        self.given: dict[int, int] = {}
        self.gone: set[int] = set()
        self.transfers: dict[tuple[int, int], Transfer] = {}
        self.orders: list[Order] = []
        self.news: list[Union[Order, News]] = []
        self.results: list[Transfer] = []
        for line in text.splitlines():
            self.set_up(line.split())

    def set_up(self, words: list[str]) -> None:
        """A device, or answers of an endpoint."""
        if words[:1] == ["device"]:
            reader = descriptors.Reader(bytes.fromhex(words[2]))
            need(not reader.fault, "a descriptor is bad")
            self.interfaces[int(words[1])] = reader.interfaces
            self.endpoints[int(words[1])] = {
                f"{address:02x}": Endpoint(int(words[1]), f"{address:02x}", interface, KINDS[kind], size)
                for address, (kind, interface, size) in reader.endpoints.items()
            }
        elif words[:1] in (["script"], ["feed"]):
            self.endpoints[int(words[1])][words[2].lower()].script += words[3:]

    # What a step may be about.

    def transfer(self, handle: int, number: int) -> Optional[Transfer]:
        return self.transfers.get((handle, number))

    def endpoint_of_device(self, handle: int, address: str) -> Optional[Endpoint]:
        """The endpoint with this address of the device that a handle has open."""
        return self.endpoints[self.opened[handle]].get(address) if handle in self.opened else None

    def holder(self, at: Endpoint) -> Optional[int]:
        return self.holders.get((at.device, at.interface))

    def held_by(self, handle: int) -> list[Endpoint]:
        """The endpoints of the interfaces that a handle holds."""
        return [it for own in self.endpoints.values() for it in own.values() if self.holder(it) == handle]

    # What an entry tells.

    def follow(self, step: Step, reply: str) -> None:
        """Takes in what a step's entry tells."""
        if not re.fullmatch(r"refused \d|idle", reply):
            if step.verb in ("open", "close", "claim", "release", "reset", "clear", "cancel", "expire", "unplug"):
                need(reply == "done", "it says something else than done")
            getattr(self, f"after_{step.verb}")(step, reply)

    def after_open(self, step: Step, _: str) -> None:
        self.opened[step.caller] = step.number

    def after_close(self, step: Step, _: str) -> None:
        del self.opened[step.caller]
        self.holders = {what: handle for what, handle in self.holders.items() if handle != step.caller}

    def after_claim(self, step: Step, _: str) -> None:
        what = self.opened[step.caller], step.number
        if self.holders.get(what) != step.caller:
            self.holders[what] = step.caller
            self.renew(it for it in self.held_by(step.caller) if it.interface == step.number)

    def after_release(self, step: Step, _: str) -> None:
        del self.holders[self.opened[step.caller], step.number]

    def after_reset(self, step: Step, _: str) -> None:
        self.renew(self.held_by(step.caller))

    def renew(self, endpoints: Iterable[Endpoint]) -> None:
        for it in endpoints:
            it.renew()

    def after_clear(self, step: Step, _: str) -> None:
        known(self.endpoint_of_device(step.caller, step.words[1].lower()), "there is no such endpoint").device_halted = False

    def after_unplug(self, step: Step, _: str) -> None:
        self.gone.add(step.number)

    def after_submit(self, step: Step, reply: str) -> None:
        at = known(self.endpoint_of_device(step.caller, step.words[1].lower()), "there is no such endpoint")
        self.accept(reply, Transfer(step.caller, self.given.get(step.caller, 0), at, request_of(step.words[2:]), 0))

    def accept(self, reply: str, it: Transfer) -> None:
        """A transfer gets the next number, and stands at its line's end."""
        need(reply == f"number {it.number}", f"the next number is {it.number}")
        self.given[it.handle] = it.number + 1
        self.transfers[it.handle, it.number] = it
        it.endpoint.line.append(it)

    def after_cancel(self, step: Step, _: str) -> None:
        it = known(self.transfer(step.caller, step.number), "it was never given this number")
        need(it.is_in_progress and it.ask is None, "there is no such transfer to ask")
        it.ask = step.verb
        if it.endpoint.errand is None:
            self.order("stop", it.endpoint)

    after_expire = after_cancel

    def after_return(self, step: Step, reply: str) -> None:
        it = known(self.transfer(step.caller, step.number), "it was never given this number")
        need(it.stage == CALLBACK, "it isn't in its callback")
        it.stage = RETURNED
        if reply != "done":
            need(it.submits_again, "its callback stops")
            self.accept(reply, Transfer(it.handle, self.given[it.handle], it.endpoint, it.request, it.round + 1))

    # What a device, the controller and the event loop did.

    def order(self, errand: str, at: Endpoint) -> None:
        at.errand = errand
        self.orders.append(Order(errand, at))

    def after_serve(self, step: Step, reply: str) -> None:
        at = self.endpoints[int(step.words[0])][step.words[1].lower()]
        it, words = known(at.first, "nothing waits there"), reply.split()
        need(it.number == int(words[1]) and at.state == "running", "another transfer is the first that waits there")
        took = at.next_answer if at.device not in self.gone else None
        at.used += took is not None
        if words[0] == "moved":
            need(took is not None, "the device has no answer")
            it.moved, it.has_moved = it.moved + int(words[2]), True
        elif words[0] == "ended":
            self.end(it, int(words[3]), took)
        else:
            need(words[0] == "nak", "nothing of this kind is known")

    def end(self, it: Transfer, code: int, took: Optional[str]) -> None:
        """A transfer ended with this code by the answer that its device gave."""
        it.stage, it.code = ENDED, code
        if code in (SUCCESS, SHORT):
            packet = known(took, "the device has no answer")
            it.moved = it.moved + len(packet[2:]) // 2 if it.endpoint.is_in else it.request.length
        if took == "s":
            it.endpoint.device_halted = True
        if code in HALTING:
            it.endpoint.state = "halted"
        self.news.append(News("finished", it))

    def after_command(self, _: Step, reply: str) -> None:
        need(bool(self.orders), "no order waits")
        order = self.orders.pop(0)._replace(is_ok=not reply.endswith("fail"))
        need(reply == order.told("ran"), f"the first order is {order.errand} at {order.endpoint.address}")
        at = order.endpoint
        if order.is_ok and order.errand == "stop" and at.first and at.first.has_moved:
            self.news.append(News("paused", at.first))
        if order.is_ok:
            at.state = "stopped"
        self.news.append(order)

    def after_deliver(self, _: Step, reply: str) -> None:
        need(bool(self.news), "no event waits")
        first = self.news.pop(0)
        told = first.told("settled") if isinstance(first, Order) else f"{first.what} {first.transfer.number}"
        need(reply == told, f"the first event is {told}")
        if isinstance(first, Order):
            self.settle(first)
        elif first.what == "finished":
            self.finish(first.transfer)

    def finish(self, it: Transfer) -> None:
        """An end is handled: the transfer leaves the line with the blanks before it, and without a halt with those behind it."""
        at = it.endpoint
        del at.line[: at.line.index(it) + 1]
        self.make_result(it)
        if it.code not in HALTING:
            at.drop_blanks()
        elif at.errand is None:
            self.order("reset", at)

    def make_result(self, it: Transfer) -> None:
        it.stage = RESULT
        self.results.append(it)

    def settle(self, order: Order) -> None:
        """The event of an order is handled."""
        at = order.endpoint
        if not order.is_ok:
            self.order("reset", at)
            return
        if order.errand == "move":
            at.drop_blanks()
        for it in [it for it in at.line if it.stage == WAITS and it.ask]:
            self.make_result(it)
        if order.errand == "reset" or (at.line and not at.line[0].is_in_progress):
            self.order("move", at)
        else:
            at.errand, at.state = None, "running"

    def after_take(self, _: Step, reply: str) -> None:
        need(bool(self.results), "no result waits")
        it = self.results.pop(0)
        words = reply.split()
        need(words[:6] == ["called", str(it.number), "ep", it.endpoint.address, "round", str(it.round)], "the oldest result is another one")
        need(int(words[7]) == it.moved, f"{it.moved} bytes moved")
        it.stage, it.status = CALLBACK, words[6]

"""The sentences of `explain`: what each says of the state that the entries before it tell, and of the step that it stands below."""
import re
from typing import Callable, Iterator, NamedTuple, Optional

from followed import BABBLE, BROKEN, CALLBACK, RESULT, SHORT, STALL, SUCCESS, Step, Transfer, World
from refusals import MOST_BYTES, PLACES
from told import Told

# How many endpoints a sentence names, and the number that no transfer gets.
MOST_NAMED, LAST_NUMBER = 32, 2**64 - 1
# In which state an order can be carried out.
NEEDED = {"stop": "running", "reset": "halted", "move": "stopped"}
# What stands in a sentence's form, and how it is read.
PARTS = {
    "d": r"\d+", "h": r"\d+", "i": r"\d+", "n": r"\d+", "m": r"\d+", "ep": "[0-9a-f]{2}", "kind": "control|isochronous|bulk|interrupt",
    "asked": "bulk|interrupt", "state": "running|stopped|halted", "list": r"none|[0-9a-f]{2}(?:, [0-9a-f]{2})*(?: and [0-9a-f]{2})?",
    "full": "[0-9a-z, ]+",
}
# The parts of a sentence that says why an endpoint has no place.
KEPT = ("in progress", "withdrawn until move", "not taken")


# What isn't there.


def no_device(it: Told) -> bool:
    named = int(it.step.words[0]) if it.is_verb("serve") else it.step.number
    return it.is_verb("open", "serve", "unplug") and it.number("d") == named and named not in it.world.interfaces


def unplugged(it: Told) -> bool:
    named = it.step.number if it.is_verb("open", "unplug") else it.opened
    return it.number("d") == named and named in it.world.gone


def not_open(it: Told) -> bool:
    return it.is_caller() and it.opened is None


def no_interface(it: Told) -> bool:
    is_it = it.is_verb("claim", "release") and it.number("i") == it.step.number and it.number("d") == it.opened
    return is_it and it.number("i") not in it.world.interfaces[it.number("d")]


def is_list(it: Told, device: int) -> bool:
    """Whether the sentence lists the endpoints of a device."""
    listed = [] if it.words["list"] == "none" else re.split(", | and ", it.words["list"])
    return listed == [*it.world.endpoints[device]][:MOST_NAMED]


def no_endpoint(it: Told) -> bool:
    device = it.opened
    is_it = device is not None and it.number("d") == device and it.words["ep"] == it.address
    return is_it and it.address not in it.world.endpoints[device] and is_list(it, device)


def no_served_endpoint(it: Told) -> bool:
    device = int(it.step.words[0])
    is_it = it.is_verb("serve") and it.number("d") == device and it.words["ep"] == it.address and device in it.world.endpoints
    return is_it and it.address not in it.world.endpoints[device] and is_list(it, device)


def not_held(it: Told) -> bool:
    what = it.opened, it.number("i")
    is_it = it.is_verb("release") and it.is_caller() and it.number("i") == it.step.number and it.opened is not None
    return is_it and it.number("i") in it.world.interfaces[it.opened] and it.world.holders.get(what) != it.caller


def not_held_for(it: Told) -> bool:
    at = it.of_device
    return bool(at) and it.is_caller() and it.number("i") == at.interface and it.world.holder(at) != it.caller


def never_given(it: Told) -> bool:
    return it.is_caller() and it.is_number() and it.world.given.get(it.caller, 0) <= it.number("n")


def not_in_progress(it: Told) -> bool:
    return it.is_number() and it.transfer is not None and not it.transfer.is_in_progress


def asked_already(it: Told) -> bool:
    return it.is_number() and it.transfer is not None and it.transfer.is_in_progress and it.transfer.ask is not None


def no_timeout(it: Told) -> bool:
    is_it = it.is_verb("expire") and it.is_number() and it.transfer is not None
    return is_it and it.transfer.is_in_progress and it.transfer.request.timeout == 0


def not_in_callback(it: Told) -> bool:
    return it.is_verb("return") and it.is_number() and (it.transfer is None or it.transfer.stage != CALLBACK)


# What is in the way.


def open_already(it: Told) -> bool:
    return it.is_verb("open") and it.is_caller() and it.opened == it.number("d")


def in_line(it: Told) -> bool:
    named = it.world.transfer(it.caller, it.number("n"))
    return bool(it.own) and named is not None and named.is_in_progress and named in it.own.line


def keeps_place(it: Told) -> bool:
    return bool(it.own and it.own.blanks)


def under_way(it: Told) -> bool:
    return bool(it.own and it.own.errand)


def stands_at(it: Told, stage: int) -> bool:
    """Whether the transfer of the sentence is the caller's, of its endpoint, and in this stage."""
    named = it.world.transfer(it.caller, it.number("n"))
    return bool(it.own) and named is not None and named.endpoint is it.own and named.stage == stage


def not_taken(it: Told) -> bool:
    return stands_at(it, RESULT)


def in_callback(it: Told) -> bool:
    return stands_at(it, CALLBACK)


def full(it: Told) -> bool:
    at = it.own
    if not at:
        return False
    counts = (len(at.in_progress), len(at.blanks), sum(x.endpoint is at for x in it.world.results))
    told = ", ".join(f"{count} {what}" for count, what in zip(counts, KEPT) if count)
    return sum(counts) >= PLACES and it.words["full"] == told


def no_number(it: Told) -> bool:
    return it.is_caller() and it.world.given.get(it.caller, 0) == LAST_NUMBER


def held_elsewhere(it: Told) -> bool:
    is_it = it.number("i") == it.step.number if it.is_verb("claim") else it.is_verb("reset")
    return is_it and it.number("h") != it.caller and it.world.holders.get((it.opened, it.number("i"))) == it.number("h")


# What is wrong of a request.


def wrong_kind(it: Told) -> bool:
    return bool(it.own) and (it.own.kind, it.asked.kind) == (it.words["kind"], it.words["asked"]) and it.own.kind != it.asked.kind


def reads(it: Told) -> bool:
    return bool(it.own) and not it.own.is_in and it.asked.is_read


def writes(it: Told) -> bool:
    return bool(it.own) and it.own.is_in and not it.asked.is_read


def too_long(it: Told) -> bool:
    return it.is_verb("submit", "return") and it.number("n") == it.asked.length > MOST_BYTES


def not_supported(it: Told) -> bool:
    return bool(it.own) and it.own.kind == it.words["kind"] and it.own.kind in ("control", "isochronous")


# Nothing is to be done.


def no_holder(it: Told) -> bool:
    return bool(it.served) and it.number("d") == it.served.device and it.world.holder(it.served) is None


def stands(it: Told) -> bool:
    return bool(it.served) and it.world.holder(it.served) is not None and it.served.state == it.words["state"] != "running"


def nothing_waits(it: Told) -> bool:
    return bool(it.served) and it.world.holder(it.served) is not None and it.served.state == "running" and it.served.first is None


def no_order(it: Told) -> bool:
    return it.is_verb("command") and not it.world.orders


def no_event(it: Told) -> bool:
    return it.is_verb("deliver") and not it.world.news


def no_result(it: Told) -> bool:
    return it.is_verb("take") and not it.world.results


def lost(it: Told) -> bool:
    """No order and no event is of an endpoint that isn't held."""
    return False


def fails(it: Told) -> bool:
    """The first order fails in this state of its endpoint."""
    order = it.world.orders[0] if it.is_verb("command") and it.world.orders else None
    return order is not None and (order.endpoint.address, order.endpoint.state) == (it.words["ep"], it.words["state"]) and \
        order.endpoint.state != NEEDED[order.errand]


# What a device answers, and how a transfer ends.


def not_ready(it: Told) -> bool:
    return it.answered is not None and it.answer == "n"


def at_end(it: Told) -> bool:
    return it.answered is not None and not it.served.device_halted and it.served.used == len(it.served.script)


def halted_at_device(it: Told) -> bool:
    return it.answered is not None and it.served.device_halted and it.served.device not in it.world.gone


def stalls(it: Told) -> bool:
    return it.answered is not None and it.answer == "s"


def broken(it: Told) -> bool:
    return it.answered is not None and it.answer == "b"


def bytes_of(answer: Optional[str]) -> Optional[int]:
    """How many bytes a packet has that a device sends."""
    return len(answer[2:]) // 2 if answer and answer.startswith("d:") else None


def whole(it: Told) -> bool:
    """The packet that fills the room, or the last one of a write, is acknowledged."""
    one, came = it.answered, bytes_of(it.answer)
    if one is None or it.number("n") != one.request.length:
        return False
    if one.request.is_read:
        return came is not None and came <= it.served.size and one.moved + came == one.request.length
    return it.answer is not None and it.answer[0] == "a" and one.request.length - one.moved <= it.served.size


def short(it: Told) -> bool:
    one, came = it.answered, bytes_of(it.answer)
    if one is None or came is None:
        return False
    is_it = (it.number("m"), it.number("n")) == (one.moved + came, one.request.length)
    return is_it and came < it.served.size and it.number("m") < it.number("n")


def too_many(it: Told) -> bool:
    one, came = it.answered, bytes_of(it.answer)
    return one is not None and came is not None and came > min(it.served.size, one.request.length - one.moved)


def ended_unplugged(it: Told) -> bool:
    return it.answered is not None and it.number("d") == it.served.device and it.served.device in it.world.gone


# What a callback is told.


def called(it: Told) -> Optional[Transfer]:
    """The transfer whose result is the oldest, if the bytes of the sentence are those that moved of it and that it asked for."""
    one = it.world.results[0] if it.is_verb("take") and it.world.results else None
    names = {"m": one.moved, "n": one.request.length} if one else {}
    return one if one and all(it.number(name) == value for name, value in names.items() if name in it.words) else None


def did(it: Told) -> bool:
    one = called(it)
    return one is not None and one.code == SUCCESS and one.moved == one.request.length


def ended_short(it: Told) -> bool:
    one = called(it)
    return one is not None and one.code == SHORT and one.moved < one.request.length and "SHORT_NOT_OK" not in one.request.flags


def failed(it: Told) -> bool:
    one = called(it)
    return one is not None and one.code == BROKEN


def failed_or_short(it: Told) -> bool:
    one = called(it)
    is_short = one is not None and one.request.is_read and one.moved < one.request.length and "SHORT_NOT_OK" in one.request.flags
    return is_short and one.code in (BROKEN, SHORT)


def ended_by(ask: str) -> Callable[[Told], bool]:
    """A transfer was withdrawn, and this was the first ask."""
    def judged(it: Told) -> bool:
        one = called(it)
        return one is not None and one.code is None and one.ask == ask
    return judged


def stalled(it: Told) -> bool:
    one = called(it)
    return one is not None and one.code == STALL


def device_gone(it: Told) -> bool:
    one = called(it)
    return one is not None and one.code == BROKEN and one.endpoint.device in it.world.gone


def overflowed(it: Told) -> bool:
    one = called(it)
    return one is not None and one.code == BABBLE


class Form(NamedTuple):
    """A form of sentences: below which replies it stands, its words, and whether it is true."""
    sort: str
    text: str
    is_true: Callable[[Told], bool]

    @property
    def named(self) -> str:
        return f"{self.sort}: {self.text}"

    def read(self, sentence: str) -> Optional[dict[str, str]]:
        """The words of a sentence of this form."""
        found = READERS[self.text].fullmatch(sentence)
        return found.groupdict() if found else None


NO_ENDPOINT = "device {d} has no endpoint {ep}; it has {list}"
FORMS = (
    Form("refused 3", "there is no device {d}", no_device),
    Form("refused 3", "h{h} has no device open", not_open),
    Form("refused 3", "device {d} has no interface {i}", no_interface),
    Form("refused 3", NO_ENDPOINT, no_endpoint),
    Form("refused 3", "h{h} doesn't hold interface {i}", not_held),
    Form("refused 3", "h{h} doesn't hold interface {i}, which endpoint {ep} belongs to", not_held_for),
    Form("refused 3", "h{h} was never given number {n}", never_given),
    Form("refused 3", "transfer {n} isn't in progress any more", not_in_progress),
    Form("refused 3", "transfer {n} was asked to end already", asked_already),
    Form("refused 3", "transfer {n} has no timeout", no_timeout),
    Form("refused 3", "transfer {n} isn't in its callback", not_in_callback),
    Form("refused 2", "device {d} was unplugged", unplugged),
    Form("refused 4", "h{h} has device {d} open already", open_already),
    Form("refused 4", "transfer {n} is in the line of {ep}", in_line),
    Form("refused 4", "a withdrawn transfer keeps its place at {ep}", keeps_place),
    Form("refused 4", "an order is under way at {ep}", under_way),
    Form("refused 4", "the result of transfer {n} at {ep} isn't taken", not_taken),
    Form("refused 4", "transfer {n} of {ep} is in its callback", in_callback),
    Form("refused 4", "{ep} has no place left: {full}", full),
    Form("refused 4", "h{h} has no number left for a transfer", no_number),
    Form("refused 5", "h{h} holds interface {i}", held_elsewhere),
    Form("refused 1", "endpoint {ep} is {kind}, and the request {asked}", wrong_kind),
    Form("refused 1", "endpoint {ep} is OUT, and the request reads", reads),
    Form("refused 1", "endpoint {ep} is IN, and the request writes", writes),
    Form("refused 1", "{n} bytes are more than the 262144 of a transfer", too_long),
    Form("refused 7", "endpoint {ep} is {kind}, and only bulk and interrupt transfers are submitted", not_supported),
    Form("unplug refused 3", "there is no device {d}", no_device),
    Form("unplug refused 2", "device {d} was unplugged", unplugged),
    Form("idle", "there is no device {d}", no_device),
    Form("idle", NO_ENDPOINT, no_served_endpoint),
    Form("idle", "no handle holds endpoint {ep} of device {d}", no_holder),
    Form("idle", "{ep} is {state}", stands),
    Form("idle", "nothing waits at {ep}", nothing_waits),
    Form("idle", "no order waits", no_order),
    Form("idle", "no event waits", no_event),
    Form("idle", "no result waits", no_result),
    Form("idle", "h{h} doesn't hold endpoint {ep} any more", lost),
    Form("nak", "the device isn't ready at {ep}", not_ready),
    Form("nak", "the script of {ep} is at its end", at_end),
    Form("nak", "the device's endpoint {ep} is halted", halted_at_device),
    Form("code 1", "all {n} bytes moved", whole),
    Form("code 13", "a short packet ends the read: {m} of {n} bytes", short),
    Form("code 6", "the device stalls at {ep}", stalls),
    Form("code 6", "the device's endpoint {ep} is halted", halted_at_device),
    Form("code 4", "the packet at {ep} was broken", broken),
    Form("code 3", "the packet at {ep} has more bytes than there is room for", too_many),
    Form("code 4", "device {d} was unplugged", ended_unplugged),
    Form("fail", "{ep} is {state}", fails),
    Form("COMPLETED", "it did what was asked", did),
    Form("COMPLETED", "a short packet ended it: {m} of {n} bytes", ended_short),
    Form("ERROR", "it failed", failed),
    Form("ERROR", "it failed, or was read short where that is an error: {m} of {n} bytes", failed_or_short),
    Form("TIMED_OUT", "it ended since its time was over", ended_by("expire")),
    Form("CANCELLED", "it ended since it was cancelled", ended_by("cancel")),
    Form("STALL", "the device stalled", stalled),
    Form("NO_DEVICE", "its device was unplugged", device_gone),
    Form("OVERFLOW", "the device sent more than there was room for", overflowed),
)


def reader_of(text: str) -> re.Pattern[str]:
    """Reads the sentences of a form."""
    words = re.split(r"\{(\w+)\}", text)
    return re.compile("".join(f"(?P<{it}>{PARTS[it]})" if at % 2 else re.escape(it) for at, it in enumerate(words)))


READERS = {form.text: reader_of(form.text) for form in FORMS}


def sort_of(step: Step, reply: str) -> Optional[str]:
    """Which sentences stand below this reply, or None where none does."""
    words = reply.split()
    if words[0] == "refused":
        return f"unplug {reply}" if step.verb == "unplug" else reply
    if words[0] == "ran":
        return "fail" if words[-1] == "fail" else None
    return {"idle": "idle", "nak": "nak", "ended": " ".join(words[2:]), "called": words[6] if words[0] == "called" else ""}.get(words[0])


def judged(world: World, step: Step, reply: str, sentence: Optional[str]) -> Iterator[tuple[str, Optional[str]]]:
    """The form of a step's sentence, if it is one of this reply's, and what is wrong about it, if something is."""
    sort = sort_of(step, reply)
    if sort is None or sentence is None:
        if (sort is None) != (sentence is None):
            yield "", "it has no reason" if sentence is None else "it has a reason, and needs none"
        return
    for form in FORMS:
        words = form.read(sentence) if form.sort == sort else None
        if words is not None:
            yield form.named, None if form.is_true(Told(world, step, reply, words)) else "it isn't so"
            return
    yield "", "no sentence of this reply has this form"

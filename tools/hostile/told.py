"""A sentence of `explain` in its place: the step that it stands below, and what of the state it may be about."""
from typing import Optional

from followed import Endpoint, Request, Step, Transfer, World, request_of


class Told:
    """A sentence in its place: the state before the step, the step, its reply, and the words in the places of the form."""

    def __init__(self, world: World, step: Step, reply: str, words: dict[str, str]) -> None:
        self.world, self.step, self.reply, self.words = world, step, reply, words

    def number(self, name: str) -> int:
        return int(self.words[name])

    def is_verb(self, *verbs: str) -> bool:
        return self.step.verb in verbs

    # What the step is about.

    @property
    def caller(self) -> int:
        return self.step.caller

    @property
    def opened(self) -> Optional[int]:
        """The device that the caller has open."""
        return self.world.opened.get(self.caller)

    @property
    def transfer(self) -> Optional[Transfer]:
        """The transfer whose number the step names."""
        return self.world.transfer(self.caller, self.step.number)

    @property
    def address(self) -> Optional[str]:
        """The address of the endpoint that the step names, or its callback."""
        if self.is_verb("submit", "clear", "serve"):
            return self.step.words[1].lower()
        return self.transfer.endpoint.address if self.is_verb("return") and self.transfer else None

    @property
    def asked(self) -> Request:
        """What the step submits, or its callback."""
        return self.transfer.request if self.is_verb("return") and self.transfer else request_of(self.step.words[2:])

    @property
    def own(self) -> Optional[Endpoint]:
        """The endpoint of the sentence, if the caller holds it and the step is about it."""
        held = [it for it in self.world.held_by(self.caller) if it.address == self.words["ep"]]
        if self.is_verb("release"):
            held = [it for it in held if it.interface == self.step.number]
        elif not self.is_verb("close", "reset"):
            held = [it for it in held if it.address == self.address]
        return held[0] if held else None

    @property
    def of_device(self) -> Optional[Endpoint]:
        """The endpoint that the step names, of the device that the caller has open, if it is that of the sentence."""
        is_it = self.words.get("ep", self.address) == self.address and self.address is not None
        return self.world.endpoint_of_device(self.caller, self.address) if is_it else None

    @property
    def served(self) -> Optional[Endpoint]:
        """The endpoint that a `serve` names, if there is one, and if it is that of the sentence."""
        at = self.world.endpoints.get(int(self.step.words[0]), {}).get(self.step.words[1].lower()) if self.is_verb("serve") else None
        return at if at and self.words.get("ep", at.address) == at.address else None

    @property
    def answered(self) -> Optional[Transfer]:
        """The first transfer that waits where a `serve` is."""
        return self.served.first if self.served and self.served.state == "running" else None

    @property
    def answer(self) -> Optional[str]:
        """What the device answers there, if it is asked."""
        return self.served.next_answer if self.served and self.served.device not in self.world.gone else None

    def is_caller(self) -> bool:
        return self.number("h") == self.caller

    def is_number(self) -> bool:
        return self.number("n") == self.step.number

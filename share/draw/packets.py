"""The taking of packets: the table *Taking a packet* of docs/KERNEL.md."""

from __future__ import annotations

from typing import TYPE_CHECKING

from event import Event
from state import FORWARDED, SENT, Destroyed, Here, Left, Packet, Value, opposite
from transcript import Entry

if TYPE_CHECKING:
    from run import World

FORWARDS = ("want", "unwant", "gone", "moved")


class PacketEvent(Event):
    """A kernel takes a packet."""

    def __init__(self, world: World, number: int, entry: Entry, packet: Packet):
        super().__init__(world, number, entry)
        self.packet = packet

    def happens(self) -> None:
        packet = self.packet
        words = packet.text.split(" ")
        name, end = words[0], words[1]
        entry = self.table.get(end)
        if name in FORWARDS and isinstance(entry, Left):
            self.send(entry.to, packet.text, FORWARDED)
        elif name == "parcel":
            self.take_parcel(entry, words, packet.cargo)
        elif name == "back":
            self.take_back(entry, words, packet.cargo)
        elif name == "forget":
            if isinstance(entry, Left) and entry.hops <= int(words[2]):
                del self.table[end]
        elif isinstance(entry, Here):
            self.take_here(name, entry, words)
        elif isinstance(entry, Destroyed):
            self.take_destroyed(name, entry, words)

    def take_here(self, name: str, here: Here, words: list[str]) -> None:
        numbers = [int(word) for word in words[2:]]
        match name:
            case "want" | "unwant" if not here.value.dead:
                self.take_want(name, here, *numbers)
            case "unwanted" if here.withdrawing and here.value.asked == numbers[0]:
                self.end_receive(here)
                self.step(f"free {here.value.end}")
                if self.learn(here, *numbers[1:]):
                    self.resend(here)
            case "taken" if here.matched and here.value.sent == numbers[0]:
                here.matched = False
                self.step(f"complete {here.value.end} {numbers[0]}")
                self.report(here.owner, here.value.end, "out", "done")
                if self.learn(here, *numbers[1:]):
                    self.resend(here)
            case "moved" if not here.value.dead:
                if self.learn(here, *numbers):
                    self.resend(here)
                self.send(numbers[0], f"known {opposite(here.value.end)} {numbers[1]}")
            case "known" if not here.value.dead and here.value.hops == numbers[0]:
                self.send_forgets(here.value)
            case "gone":
                self.take_gone(here, numbers[0])

    def take_want(self, name: str, here: Here, number: int, kernel: int, hops: int) -> None:
        rose = self.learn(here, kernel, hops)
        value = here.value
        if number > value.served and name == "want":
            value.want = number
            if here.waiting:
                self.match(here)
        elif number > value.served:
            value.served, value.want = number, 0
            self.send(kernel, f"unwanted {opposite(value.end)} {number} {self.kernel} {value.hops}")
            self.step(f"withdraw {opposite(value.end)}")
        if rose:
            self.resend(here)

    def take_gone(self, here: Here, kernel: int) -> None:
        if not here.value.dead:
            self.step(f"notice {here.value.end}" + (" dead" if here.withdrawing else ""))
            self.notice(here)
        self.send(kernel, f"goneseen {opposite(here.value.end)}")

    def take_destroyed(self, name: str, mark: Destroyed, words: list[str]) -> None:
        end = mark.value.end
        if name == "moved":
            kernel, hops = int(words[2]), int(words[3])
            if hops > mark.value.hint[1]:
                mark.value.hint = (kernel, hops)
            self.send(kernel, f"gone {opposite(end)} {self.kernel}")
            return
        if name == "gone":
            self.send(int(words[2]), f"goneseen {opposite(end)}")
        if name in ("gone", "goneseen"):
            self.send_forgets(mark.value)
            del self.table[end]

    def take_parcel(self, entry: Here | Left | Destroyed | None, words: list[str], cargo: list[Value]) -> None:
        end, number, receive, kernel, hops = words[1], *map(int, words[2:6])
        meets = isinstance(entry, Here) and (entry.posted or entry.withdrawing) and entry.value.asked == receive
        if not meets:
            gone_back = [self.leave(value, kernel) for value in cargo]
            text = " ".join([f"back {opposite(end)} {number}"] + [value.text() for value in gone_back])
            self.send(kernel, text, cargo=gone_back)
            return
        self.step(f"take {opposite(end)} {number} p{entry.owner}" + (" late" if entry.withdrawing else ""))
        rose = self.learn(entry, kernel, hops)
        for value in cargo:
            self.arrive(value, entry.owner)
        self.end_receive(entry)
        self.report(entry.owner, end, "in", f"done {words[6]}", [value.end for value in cargo])
        self.send(kernel, f"taken {opposite(end)} {number} {self.kernel} {entry.value.hops}")
        self.send_arrived(cargo)
        if rose:
            self.resend(entry)

    def send_arrived(self, cargo: list[Value]) -> None:
        for value in cargo:
            if not value.dead:
                self.send_moved(value, SENT)

    def take_back(self, entry: Here | Left | Destroyed | None, words: list[str], cargo: list[Value]) -> None:
        end, number = words[1], int(words[2])
        if not isinstance(entry, Here):
            self.step(f"back {end} {number}")
        if not isinstance(entry, Here) or not entry.matched or entry.value.sent != number:
            for value in cargo:
                self.table[value.end] = Here(value, None)
                self.end(value.end)
            return
        self.step(f"back {end} {number}" + (" dead" if entry.withdrawing else ""))
        entry.matched = False
        self.report(entry.owner, end, "out", "destroyed", [value.end for value in cargo])
        for value in cargo:
            self.arrive(value, entry.owner)
        if not entry.value.dead:
            self.notice(entry)
            self.send(self.entry.sender, f"goneseen {opposite(end)}")
        self.send_arrived(cargo)

"""What kernels keep, what they send each other, and what is found out of a run. The words are those of docs/KERNEL.md."""

from collections import deque
from dataclasses import dataclass, field

SENT, FORWARDED, RESENT = "sent", "forwarded", "resent"


@dataclass(slots=True)
class Value:
    """What a kernel knows of an end that lives at it; what a message carries of an end that moves."""
    end: str
    hops: int
    hint: tuple[int, int]
    sent: int = 0
    asked: int = 0
    served: int = 0
    want: int = 0
    dead: bool = False
    trail: int = 0

    def text(self) -> str:
        numbers = (self.hops, *self.hint, self.sent, self.asked, self.served, self.want, int(self.dead), self.trail)
        return f"+{self.end}:" + ":".join(map(str, numbers))


@dataclass(slots=True)
class Message:
    """A send that no receive has asked for yet."""
    bytes: str
    enclosed: list[str]


@dataclass(slots=True)
class Here:
    """An end that lives at a kernel. `owner` is None while a message encloses it. Outward it has a send that is waiting or
    matched, inward a receive that is posted or withdrawing; `unreported` has the ways whose activity is over but not reported."""
    value: Value
    owner: int | None
    waiting: Message | None = None
    matched: bool = False
    posted: bool = False
    withdrawing: bool = False
    unreported: set[str] = field(default_factory=set)

    def is_started(self, way: str) -> bool:
        return bool(self.waiting) or self.matched if way == "out" else self.posted or self.withdrawing

    def is_busy(self, way: str) -> bool:
        return self.is_started(way) or way in self.unreported

    def is_idle(self) -> bool:
        return not self.is_busy("out") and not self.is_busy("in")


@dataclass(slots=True)
class Left:
    to: int
    hops: int


@dataclass(slots=True)
class Destroyed:
    value: Value


@dataclass(slots=True)
class Packet:
    """A packet on its way: its text, the event that sent it, and how."""
    text: str
    tail: int
    manner: str
    cargo: list[Value] = field(default_factory=list)


@dataclass(slots=True)
class Report:
    """What Wait will tell of an activity."""
    end: str
    way: str
    text: str


@dataclass(slots=True)
class Process:
    """`waits` and `cancels` tell that its Wait or its Cancel of a receive is not answered yet. All its ends with a started
    activity stand in `used`."""
    reports: deque[Report] = field(default_factory=deque)
    used: set[str] = field(default_factory=set)
    waits: bool = False
    cancels: bool = False
    exited: bool = False

    def runs(self) -> bool:
        return not (self.waits or self.cancels or self.exited)


@dataclass(slots=True)
class Arrow:
    """A packet from the event `tail` to the event `head`, or to no event where it was never taken."""
    text: str
    manner: str
    sender: int
    target: int
    tail: int
    head: int | None
    cargo: list[str]


@dataclass(slots=True)
class Change:
    """From this event on the end is held so: `p3`, `0.0a 2` (in message 2 of 0.0a), `destroyed`, or `dead` where its owner's
    kernel learnt in this event that the opposite end was destroyed. The event is -1 for what stands at the start."""
    event: int
    end: str
    holder: str


@dataclass
class Story:
    """What is found out of a run, as far as it is one: of its first events, so many as `happened`. `fault` tells what is wrong behind them."""
    arrows: list[Arrow] = field(default_factory=list)
    changes: list[Change] = field(default_factory=list)
    happened: int = 0
    fault: Exception | None = None


def opposite(end: str) -> str:
    return end[:-1] + ("b" if end[-1] == "a" else "a")


def order_of(end: str) -> tuple[int, int, str]:
    maker, count = end[:-1].split(".")
    return int(maker), int(count), end[-1]

"""What a transcript tells, found in a second way: who holds an end comes from the service lines alone."""

from dataclasses import dataclass, field



@dataclass
class Event:
    line: int
    stamp: int
    kernel: int
    sender: int | None
    words: list[str]
    steps: list[list[str]] = field(default_factory=list)

    def has(self, *step: str) -> bool:
        return any(tuple(words[:len(step)]) == step for words in self.steps)

    def took(self, *words: str) -> bool:
        return self.sender is not None and tuple(self.words[:len(words)]) == words


@dataclass
class Told:
    """What a transcript tells: its events, and after each event the holder of each end and the ends that are known to be dead."""
    events: list[Event]
    holders: list[dict[str, str]]
    dead: list[set[str]]
    asked: list[dict[str, int]]
    last: str


def other(end: str) -> str:
    return end[:-1] + {"a": "b", "b": "a"}[end[-1]]


def told_by(text: str) -> Told:
    homes: list[int] = []
    service = Service()
    told = Told([], [], [], [], "")
    for number, line in enumerate(text.splitlines(), 1):
        words = line.split(" ")
        if words[0] == "process":
            homes.append(int(words[3]))
        elif words[0] == "wire":
            service.wire(int(words[1]), int(words[2]), homes)
        elif words[0] == ".":
            told.events[-1].steps.append(words[1:])
            service.step(words[1:], told.events[-1])
        elif words[1:] and words[1].startswith("k"):
            told.events.append(event_of(number, words))
        told.last = line
        if told.events and words[0] in (".", str(told.events[-1].stamp)):
            service.note(told)
    return told


def event_of(number: int, words: list[str]) -> Event:
    stamp, kernel = int(words[0]), int(words[1][1:])
    if words[2] == "from":
        return Event(number, stamp, kernel, int(words[3]), words[4:])
    return Event(number, stamp, kernel, None, words[2:])


class Service:
    """The holders of ends, by the table of service steps in docs/WORLD.md."""

    def __init__(self) -> None:
        self.holder: dict[str, str] = {}
        self.waiting: dict[str, list[str]] = {}
        self.matched: dict[tuple[str, str], list[str]] = {}
        self.dead: set[str] = set()
        self.asked: dict[str, int] = {}
        self.made: dict[int, int] = {}

    def wire(self, first: int, second: int, homes: list[int]) -> None:
        maker = homes[first]
        link = f"{maker}.{self.made.get(maker, 0)}"
        self.made[maker] = self.made.get(maker, 0) + 1
        self.holder[link + "a"], self.holder[link + "b"] = f"p{first}", f"p{second}"

    def note(self, told: Told) -> None:
        """Notes what holds after the last event, in place of what held after its earlier lines."""
        at = len(told.events) - 1
        told.holders[at:] = [dict(self.holder)]
        told.dead[at:] = [set(self.dead)]
        told.asked[at:] = [dict(self.asked)]

    def step(self, words: list[str], event: Event) -> None:
        name, on = words[0], words[1]
        if name == "make":
            self.holder[on] = self.holder[words[2]] = event.words[0]
        elif name == "destroy":
            self.destroy(on)
        elif name == "exit":
            for end in [end for end, holder in self.holder.items() if holder == on]:
                self.destroy(end)
        elif name == "send":
            self.waiting[on] = [word[1:] for word in words[3:]]
            self.give(self.waiting[on], f"{on} {words[2]}")
        elif name == "receive":
            self.asked[on] = self.asked.get(on, 0) + 1
        elif name == "cancel" and words[2] == "out":
            self.give(self.waiting.pop(on), self.holder[on])
        elif name == "match":
            self.matched[on, words[2]] = self.waiting.pop(on)
        elif name == "take":
            self.give(self.matched.pop((on, words[2])), words[3])
        elif name == "notice":
            self.notice(on)
        elif name == "back":
            self.give(self.matched.pop((on, words[2])), self.holder[on])
            if self.holder[on] != "destroyed":
                self.notice(on)

    def give(self, ends: list[str], holder: str) -> None:
        for end in ends:
            self.holder[end] = holder

    def destroy(self, end: str) -> None:
        self.holder[end] = "destroyed"
        self.give(self.waiting.pop(end, []), "destroyed")

    def notice(self, end: str) -> None:
        self.dead.add(end)
        self.give(self.waiting.pop(end, []), self.holder[end])

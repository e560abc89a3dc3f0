"""What processes do and what is under way on their ends, and how that changes from event to event."""

from __future__ import annotations

import re
from dataclasses import dataclass, field
from typing import TYPE_CHECKING

from state import Here, Process

if TYPE_CHECKING:
    from event import Event

ENDS = re.compile(r"[0-9]+\.[0-9]+[ab]")
# What is under way on an end: outward and inward, each with the number of its message or receive.
WAITING, MATCHED, POSTED, WITHDRAWING, OUT_UNREPORTED, IN_UNREPORTED = "w", "m", "p", "x", "o", "i"
# What a process does; behind it stands how many reports are ready for it.
RUNS, WAITS, CANCELS, EXITED = "r", "w", "c", "x"


@dataclass(slots=True)
class Turn:
    """From this event on it is so with an end or a process."""
    event: int
    who: str | int
    state: str


@dataclass
class Waits:
    """The turns of ends and of processes, in the order of the events. At the start nothing is under way, and all processes run without a report."""
    ends: list[Turn] = field(default_factory=list)
    processes: list[Turn] = field(default_factory=list)
    under_way: dict[str, str] = field(default_factory=dict)
    doing: dict[int, str] = field(default_factory=dict)

    def look(self, event: Event) -> None:
        """Notes what an event that has happened changed: of the ends that its lines name, and of whom these concern."""
        world, entry = event.world, event.entry
        concerned = set(event.reported)
        if entry.process is not None:
            concerned.add(entry.process)
        for end in dict.fromkeys(ENDS.findall(" ".join([entry.what, *event.steps]))):
            here = event.table.get(end)
            if isinstance(here, Here):
                self.turn_end(event.number, end, state_of_end(here))
                concerned.add(here.owner)
        for end in ended_in(event):
            self.turn_end(event.number, end, "")
        for process in concerned - {None}:
            self.turn_process(event.number, process, state_of_process(world.processes[process]))

    def turn_end(self, event: int, end: str, state: str) -> None:
        if self.under_way.get(end, "") != state:
            self.under_way[end] = state
            self.ends.append(Turn(event, end, state))

    def turn_process(self, event: int, process: int, state: str) -> None:
        if self.doing.get(process, RUNS + "0") != state:
            self.doing[process] = state
            self.processes.append(Turn(event, process, state))


def ended_in(event: Event) -> list[str]:
    """The ends that this event destroyed: its changes are the last ones."""
    found = []
    for change in reversed(event.world.story.changes):
        if change.event != event.number:
            break
        if change.holder == "destroyed":
            found.append(change.end)
    return found


def state_of_end(here: Here) -> str:
    value, found = here.value, []
    if here.waiting:
        found.append(f"{WAITING}{value.sent}")
    if here.matched:
        found.append(f"{MATCHED}{value.sent}")
    if here.posted:
        found.append(f"{POSTED}{value.asked}")
    if here.withdrawing:
        found.append(f"{WITHDRAWING}{value.asked}")
    if "out" in here.unreported:
        found.append(f"{OUT_UNREPORTED}{value.sent}")
    if "in" in here.unreported:
        found.append(f"{IN_UNREPORTED}{value.asked}")
    return " ".join(found)


def state_of_process(process: Process) -> str:
    phase = EXITED if process.exited else WAITS if process.waits else CANCELS if process.cancels else RUNS
    return f"{phase}{len(process.reports)}"

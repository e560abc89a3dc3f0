"""What all events have in common, and the actions that events share: those of docs/KERNEL.md, *Actions*."""

from __future__ import annotations

from typing import TYPE_CHECKING

from state import RESENT, SENT, Change, Destroyed, Here, Left, Packet, Process, Report, Value, opposite
from transcript import Entry, Refused
from wrong import missing_step, other_step, too_many_steps

if TYPE_CHECKING:
    from run import World


class Event:
    """One event at one kernel."""

    def __init__(self, world: World, number: int, entry: Entry):
        self.world = world
        self.number = number
        self.entry = entry
        self.kernel = entry.kernel
        self.table = world.tables[entry.kernel]
        self.steps: list[str] = []
        self.reported: list[int] = []

    def send(self, to: int, text: str, manner: str = SENT, cargo: list[Value] | None = None) -> None:
        self.world.lists[self.kernel, to].append(Packet(text, self.number, manner, cargo or []))

    def held(self, end: str, holder: str) -> None:
        self.world.story.changes.append(Change(self.number, end, holder))

    def step(self, text: str) -> None:
        self.steps.append(text)

    def report(self, owner: int, end: str, way: str, text: str, ends: list[str] | None = None) -> None:
        words = [f"report p{owner} {end} {way} {text}"] + ["+" + moved for moved in ends or []]
        self.world.processes[owner].reports.append(Report(end, way, " ".join(words)))
        self.table[end].unreported.add(way)
        self.reported.append(owner)

    def answer_waits(self) -> None:
        """The first report of a process that is in a Wait answers it."""
        for owner in self.reported:
            process = self.world.processes[owner]
            if process.waits:
                self.answer_wait(process)

    def answer_wait(self, process: Process) -> None:
        report = process.reports.popleft()
        process.waits = False
        here = self.table.get(report.end)
        if isinstance(here, Here):
            here.unreported.discard(report.way)
        self.step(report.text)

    def compare_steps(self) -> None:
        """The service lines are those that this event has."""
        entry, printed, due = self.entry, self.entry.steps, self.steps
        for place, (step, wanted) in enumerate(zip(printed, due)):
            if step.text != wanted:
                raise Refused(step.line, f"the service line of this event is `. {wanted}`", other_step(entry, step.text, due, place))
        if len(printed) > len(due):
            more = printed[len(due)]
            raise Refused(more.line, "this event has no such service line", too_many_steps(entry, more.text, due))
        if len(printed) < len(due):
            behind, wanted = entry.line + len(printed) + 1, due[len(printed)]
            raise Refused(behind, f"the service line `. {wanted}` of the event above is missing", missing_step(entry, wanted))

    def send_want(self, here: Here, name: str, manner: str) -> None:
        value = here.value
        self.send(value.hint[0], f"{name} {opposite(value.end)} {value.asked} {self.kernel} {value.hops}", manner)

    def send_moved(self, value: Value, manner: str) -> None:
        self.send(value.hint[0], f"moved {opposite(value.end)} {self.kernel} {value.hops}", manner)

    def match(self, here: Here) -> None:
        value, message, to = here.value, here.waiting, here.value.hint[0]
        value.served, value.want = value.want, 0
        here.waiting, here.matched = None, True
        cargo = [self.leave(self.table[end].value, to) for end in message.enclosed]
        fields = f"{value.sent} {value.served} {self.kernel} {value.hops} {message.bytes}"
        text = " ".join([f"parcel {opposite(value.end)} {fields}"] + [moving.text() for moving in cargo])
        self.send(to, text, cargo=cargo)
        self.step(f"match {value.end} {value.sent}")

    def leave(self, value: Value, to: int) -> Value:
        value.hops += 1
        value.trail |= 1 << self.kernel
        if value.dead:
            self.table.pop(value.end, None)
        else:
            self.table[value.end] = Left(to, value.hops)
        return value

    def arrive(self, value: Value, owner: int) -> None:
        self.world.install(self.kernel, Here(value, owner), self.number)

    def end(self, end: str) -> None:
        here = self.table[end]
        if here.value.dead:
            del self.table[end]
        else:
            self.table[end] = Destroyed(here.value)
        self.held(end, "destroyed")
        for inner in here.waiting.enclosed if here.waiting else []:
            self.end(inner)
        if not here.value.dead:
            self.send(here.value.hint[0], f"gone {opposite(end)} {self.kernel}")

    def give_back(self, here: Here) -> None:
        for end in here.waiting.enclosed:
            self.table[end].owner = here.owner
            self.held(end, f"p{here.owner}")
        here.waiting = None

    def notice(self, here: Here) -> None:
        value = here.value
        value.dead, value.want = True, 0
        self.held(value.end, "dead")
        if here.waiting:
            enclosed = here.waiting.enclosed
            self.give_back(here)
            self.report(here.owner, value.end, "out", "destroyed", enclosed)
        if here.is_started("in"):
            self.end_receive(here)
            self.report(here.owner, value.end, "in", "destroyed")
        self.send_forgets(value)

    def end_receive(self, here: Here) -> None:
        """A receive is over; where its Cancel waits, that is answered too."""
        if here.withdrawing:
            self.world.processes[here.owner].cancels = False
        here.posted = here.withdrawing = False

    def send_forgets(self, value: Value) -> None:
        for kernel in range(self.world.kernels):
            if value.trail >> kernel & 1 and kernel != self.kernel:
                self.send(kernel, f"forget {value.end} {value.hops}")
        value.trail = 0

    def learn(self, here: Here, kernel: int, hops: int) -> bool:
        """Whether the hint rose."""
        if hops <= here.value.hint[1]:
            return False
        here.value.hint = (kernel, hops)
        return True

    def resend(self, here: Here) -> None:
        """Sends the live packets of an end again, whose hint rose."""
        if here.posted:
            self.send_want(here, "want", RESENT)
        if here.withdrawing:
            self.send_want(here, "unwant", RESENT)
        if here.value.trail:
            self.send_moved(here.value, RESENT)

"""Finds which event sent each packet of a transcript, and who holds each end after each event.

No line of a transcript shows a sending. But docs/KERNEL.md fixes which packets an event sends, and the packets from one kernel
to another are taken in the order in which they were sent. So the kernels' rules are followed here, event by event: what an event
sends goes to the end of a list, and the taking of a packet takes the first one of its list, which knows its sender.

The text of a packet is kept as a transcript would print it. Where the first packet of a list is another than the line says, or a
stamp or a service line is another than the event has, the text is not the transcript of a run, and is refused at that line.
"""

from collections import deque

from calls import CallEvent
from packets import PacketEvent
from state import Arrow, Change, Destroyed, Here, Left, Packet, Process, Story, Value
from transcript import Entry, Refused, Transcript, read, there_is_no
from waits import Waits
from wrong import NOT_OPEN, not_quiet, wrong_entry


def follow(transcript: Transcript, waits: Waits | None = None) -> Story:
    """What happens in a run: its arrows in the order of their heads, and the changes of holders in order. Where an event can't be, what
    happens before it, and why it can't. Where `waits` is there, it notes besides what processes wait for."""
    world = World(transcript)
    world.waits = waits
    try:
        for number, entry in enumerate(transcript.entries):
            world.happens(number, entry)
            world.story.happened = number + 1
        if transcript.last:
            world.compare_last(transcript)
    except Refused as refused:
        world.story.fault = refused
    world.stop()
    return world.story


def fault_of(data: bytes) -> Refused | None:
    """Where this text is not the transcript of a run: the line that is named, and why. A line that no transcript has comes first."""
    transcript = read(data)
    return transcript.fault or follow(transcript).fault


class World:
    """All kernels and the packets between them."""

    def __init__(self, transcript: Transcript):
        self.story = Story()
        self.kernels = transcript.kernels
        self.homes = transcript.homes
        self.entries = transcript.entries
        self.tables: list[dict[str, Here | Left | Destroyed]] = [{} for _ in range(self.kernels)]
        self.processes = [Process() for _ in self.homes]
        self.stamps = [0] * self.kernels
        self.made = [0] * self.kernels
        self.lists = {(j, k): deque() for j in range(self.kernels) for k in range(self.kernels)}
        self.stamp_of: list[int] = []
        self.latest = (0, -1)
        self.waits: Waits | None = None
        for first, second in transcript.wires:
            self.wire(first, second)

    def wire(self, first: int, second: int) -> None:
        maker, other = self.homes[first], self.homes[second]
        link = f"{maker}.{self.made[maker]}"
        self.made[maker] += 1
        self.install(maker, Here(Value(link + "a", 0, (other, 0)), first), -1)
        self.install(other, Here(Value(link + "b", 0, (maker, 0)), second), -1)

    def install(self, kernel: int, here: Here, event: int) -> None:
        self.tables[kernel][here.value.end] = here
        self.story.changes.append(Change(event, here.value.end, f"p{here.owner}"))

    def happens(self, number: int, entry: Entry) -> None:
        self.check_place(entry)
        packet = self.first_packet(entry) if entry.is_packet() else None
        before = max(self.stamps[entry.kernel], self.stamp_of[packet.tail] if packet else 0)
        if entry.stamp != before + 1:
            raise self.refused(entry, f"the stamp of this event is {before + 1}")
        self.stamps[entry.kernel] = entry.stamp
        self.latest = (entry.stamp, entry.kernel)
        self.stamp_of.append(entry.stamp)
        event = self.taking(number, entry, packet) if packet else CallEvent(self, number, entry)
        event.happens()
        event.answer_waits()
        event.compare_steps()
        if self.waits:
            self.waits.look(event)

    def check_place(self, entry: Entry) -> None:
        """An event is one of a kernel and a process that are there, and stands in its order."""
        for kernel in (entry.kernel, entry.sender or 0):
            if kernel >= self.kernels:
                raise self.refused(entry, f"there is no kernel {kernel}")
        if not entry.is_packet():
            if entry.process >= len(self.homes):
                raise self.refused(entry, f"there is no process {entry.process}")
            if self.homes[entry.process] != entry.kernel:
                raise self.refused(entry, f"process {entry.process} is at home on kernel {self.homes[entry.process]}")
        if (entry.stamp, entry.kernel) <= self.latest:
            raise self.refused(entry, "events stand in the order of their stamps, and then of their kernels")

    def refused(self, entry: Entry, why: str) -> Refused:
        return Refused(entry.line, why, wrong_entry(self, entry))

    def taking(self, number: int, entry: Entry, packet: Packet) -> PacketEvent:
        self.lists[entry.sender, entry.kernel].popleft()
        cargo = [value.end for value in packet.cargo]
        self.story.arrows.append(Arrow(packet.text, packet.manner, entry.sender, entry.kernel, packet.tail, number, cargo))
        return PacketEvent(self, number, entry, packet)

    def first_packet(self, entry: Entry) -> Packet:
        waiting = self.lists[entry.sender, entry.kernel]
        if not waiting:
            raise self.refused(entry, f"no packet is under way from kernel {entry.sender} to kernel {entry.kernel}")
        if waiting[0].text != entry.what:
            raise self.refused(entry, f"the first packet from kernel {entry.sender} is `{waiting[0].text}`")
        return waiting[0]

    def compare_last(self, transcript: Transcript) -> None:
        packets = sum(map(len, self.lists.values()))
        if transcript.spent is not None and transcript.spent >= self.kernels:
            raise Refused(transcript.last_line, f"there is no kernel {transcript.spent}", there_is_no("kernel", transcript.spent, self.kernels))
        if transcript.last == "quiet" and packets:
            raise Refused(transcript.last_line, "a packet is under way: the last line is not `quiet`", not_quiet(packets))
        if transcript.last == "open" and not packets:
            raise Refused(transcript.last_line, "no packet is under way: the last line is not `open`", NOT_OPEN)

    def stop(self) -> None:
        """Leaves of the story what happened, and the packets that are under way then."""
        story, last = self.story, self.story.happened
        story.changes = [change for change in story.changes if change.event < last]
        for arrow in story.arrows:
            if arrow.head == last:
                arrow.head = None
        story.arrows += [arrow for arrow in self.under_way() if arrow.tail < last]

    def under_way(self) -> list[Arrow]:
        return [Arrow(packet.text, packet.manner, j, k, packet.tail, None, [value.end for value in packet.cargo])
                for (j, k), packets in self.lists.items() for packet in packets]

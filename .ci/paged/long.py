#!/usr/bin/env python3
"""Makes the transcript of a long run: `long.py EVENTS [KERNELS]` prints one with at least so many events. Messages go round between processes, and half
of them carry ends, made, moved and destroyed; it needs no program, since the kernels of share/draw perform the calls."""

import random
import sys
from pathlib import Path

TOP = Path(__file__).resolve().parent.parent.parent
sys.dont_write_bytecode = True
sys.path.insert(0, str(TOP / "share/draw"))

from calls import CallEvent  # noqa: E402
from packets import PacketEvent  # noqa: E402
from run import World  # noqa: E402
from transcript import Entry, Transcript  # noqa: E402


class Performed:
    """Kernels that perform calls, and the lines of what happened."""

    def __init__(self, kernels: int, seed: int = 7):
        homes = [process % kernels for process in range(2 * kernels)]
        wires = [(process, (process + 1) % len(homes)) for process in range(len(homes))]
        self.setting = Transcript(1, kernels, homes, wires)
        self.world = World(self.setting)
        self.number = 0
        self.lines: list[tuple[int, int, str]] = []
        self.choice = random.Random(seed)

    def happens(self, entry: Entry, make) -> None:
        world, packet = self.world, None
        if entry.is_packet():
            packet = world.lists[entry.sender, entry.kernel].popleft()
        entry.stamp = max(world.stamps[entry.kernel], world.stamp_of[packet.tail] if packet else 0) + 1
        world.stamps[entry.kernel] = entry.stamp
        world.stamp_of.append(entry.stamp)
        event = make(world, self.number, entry, packet) if packet else make(world, self.number, entry)
        event.happens()
        event.answer_waits()
        actor = f"from {entry.sender}" if packet else f"p{entry.process}"
        text = f"{entry.stamp} k{entry.kernel} {actor} {entry.what}\n" + "".join(f". {step}\n" for step in event.steps)
        self.lines.append((entry.stamp, entry.kernel, text))
        self.number += 1

    def call(self, process: int, what: str) -> None:
        self.happens(Entry(0, 0, self.setting.homes[process], process, None, what), CallEvent)

    def take(self, sender: int, kernel: int) -> None:
        packet = self.world.lists[sender, kernel][0]
        self.happens(Entry(0, 0, kernel, None, sender, packet.text), PacketEvent)

    def settle(self) -> None:
        while pairs := [pair for pair, packets in self.world.lists.items() if packets]:
            self.take(*self.choice.choice(pairs))

    def round(self) -> None:
        """A message on a link; every other one carries an end of a link that its sender made, and that is destroyed where it arrives."""
        sender = self.choice.randrange(len(self.setting.homes))
        taker, maker = (sender + 1) % len(self.setting.homes), self.setting.homes[sender]
        link = self.link_of(sender)
        carried = ""
        if self.choice.random() < 0.5:
            made = f"{maker}.{self.world.made[maker]}"
            self.call(sender, "make")
            carried = made + "b"
        self.call(taker, f"receive {link}b")
        self.call(sender, f"send {link}a ball" + (f" +{carried}" if carried else ""))
        if self.choice.random() < 0.5:
            self.call(sender, "wait")
        self.settle()
        if self.world.processes[sender].reports:
            self.call(sender, "wait")
        self.call(taker, "wait")
        if carried:
            self.call(taker, f"destroy {carried}")
            self.call(sender, f"destroy {carried[:-1]}a")

    def link_of(self, process: int) -> str:
        """The link of the wire from this process to the next one."""
        homes = self.setting.homes
        return f"{homes[process]}.{sum(home == homes[process] for home in homes[:process])}"

    def text(self) -> str:
        setting = self.setting
        head = [f"transcript {setting.version}", f"kernels {setting.kernels}"]
        head += [f"process {process} on {home}" for process, home in enumerate(setting.homes)]
        head += [f"wire {first} {second}" for first, second in setting.wires]
        return "\n".join(head) + "\n" + "".join(text for _, _, text in sorted(self.lines)) + "quiet\n"


def long_run(events: int, kernels: int = 4) -> str:
    performed = Performed(kernels)
    while performed.number < events:
        performed.round()
    performed.settle()
    return performed.text()


if __name__ == "__main__":
    sys.stdout.write(long_run(*map(int, sys.argv[1:])))

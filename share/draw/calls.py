"""The calls of processes: when they are refused (docs/LINKS.md, *The causes*), and what they do else (docs/KERNEL.md)."""

from event import Event
from state import SENT, Here, Message, Process, Value, order_of
from transcript import Refused
from wrong import no_call

MOST_LINKS = 65_536


class CallEvent(Event):
    """A process calls its kernel."""

    def happens(self) -> None:
        words, process = self.entry.what.split(" "), self.world.processes[self.entry.process]
        if not process.runs():
            why = "has exited" if process.exited else "waits for an answer"
            raise Refused(self.entry.line, f"process {self.entry.process} {why}", no_call(self.world, self.entry.process))
        if cause := self.cause(words, process):
            self.step(f"refuse p{self.entry.process} {cause}")
        else:
            self.perform(words, process)

    def perform(self, words: list[str], process: Process) -> None:
        match words[0]:
            case "make":
                self.make()
            case "destroy":
                self.step(f"destroy {words[1]}")
                self.end(words[1])
            case "send":
                process.used.add(words[1])
                self.start_send(self.table[words[1]], words[2], [word[1:] for word in words[3:]])
            case "receive":
                process.used.add(words[1])
                self.step(f"receive {words[1]}")
                self.receive(self.table[words[1]])
            case "cancel":
                self.step(f"cancel {words[1]} {words[2]}")
                self.cancel(self.table[words[1]], words[2], process)
            case "wait":
                self.step(f"wait p{self.entry.process}")
                process.waits = True
                if process.reports:
                    self.answer_wait(process)
            case "exit":
                self.exit(process)

    # Causes of refusals, in the order in which docs/LINKS.md has them

    def cause(self, words: list[str], process: Process) -> str | None:
        match words[0]:
            case "make":
                return "LinksFull" if self.world.made[self.kernel] == MOST_LINKS else None
            case "wait":
                return None if process.reports or self.has_started(process) else "NoActivity"
            case "print" | "exit":
                return None
        here = self.owned(words[1])
        if not here:
            return "NoEnd"
        if words[0] == "destroy":
            return None
        if words[0] == "cancel":
            return self.cause_of_cancel(here, words[2])
        way = "out" if words[0] == "send" else "in"
        if here.is_busy(way):
            return "Busy"
        if here.value.dead:
            return "Dead"
        return self.cause_of_enclosing(here, [word[1:] for word in words[3:]]) if way == "out" else None

    def cause_of_cancel(self, here: Here, way: str) -> str | None:
        if here.value.dead:
            return "Dead"
        if way in here.unreported or way == "out" and here.matched:
            return "Late"
        return None if here.is_started(way) else "NoActivity"

    def cause_of_enclosing(self, here: Here, ends: list[str]) -> str | None:
        owned = [self.owned(end) for end in ends]
        if not all(owned):
            return "EncloseNoEnd"
        if not all(end.is_idle() for end in owned):
            return "EncloseBusy"
        if any(end[:-1] == here.value.end[:-1] for end in ends):
            return "EncloseSame"
        return "EncloseTwice" if len(set(ends)) < len(ends) else None

    def has_started(self, process: Process) -> bool:
        """Whether an activity is started on an end that the process owns."""
        while process.used:
            end = next(iter(process.used))
            here = self.owned(end)
            if here and (here.is_started("out") or here.is_started("in")):
                return True
            process.used.remove(end)
        return False

    def owned(self, end: str) -> Here | None:
        here = self.table.get(end)
        return here if isinstance(here, Here) and here.owner == self.entry.process else None

    # Effects of calls

    def make(self) -> None:
        made = self.world.made
        link = f"{self.kernel}.{made[self.kernel]}"
        made[self.kernel] += 1
        for side in "ab":
            self.world.install(self.kernel, Here(Value(link + side, 0, (self.kernel, 0)), self.entry.process), self.number)
        self.step(f"make {link}a {link}b")

    def start_send(self, here: Here, text: str, enclosed: list[str]) -> None:
        here.value.sent += 1
        here.waiting = Message(text, enclosed)
        message = f"{here.value.end} {here.value.sent}"
        self.step(" ".join([f"send {message}"] + ["+" + end for end in enclosed]))
        for end in enclosed:
            self.table[end].owner = None
            self.held(end, message)
        if here.value.want:
            self.match(here)

    def receive(self, here: Here) -> None:
        here.value.asked += 1
        here.posted = True
        self.send_want(here, "want", SENT)

    def cancel(self, here: Here, way: str, process: Process) -> None:
        if way == "out":
            self.give_back(here)
        else:
            here.posted, here.withdrawing = False, True
            process.cancels = True
            self.send_want(here, "unwant", SENT)

    def exit(self, process: Process) -> None:
        process.exited = True
        process.reports.clear()
        self.step(f"exit p{self.entry.process}")
        mine = [end for end, here in self.table.items() if isinstance(here, Here) and here.owner == self.entry.process]
        for end in sorted(mine, key=order_of):
            self.end(end)

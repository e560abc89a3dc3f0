"""What processes wait for after each event, found in a second way: from the service lines alone, by the table of service steps in docs/WORLD.md."""

from told import Event, Service, event_of, other


class Waited(Service):
    """The activities of ends, and what each process does. The letters are those of share/draw/waits.py: an end has a letter and a number for its
    message, and one for its receive; a process has a letter, and how many reports are ready for it."""

    def __init__(self) -> None:
        super().__init__()
        self.out: dict[str, str] = {}
        self.inward: dict[str, str] = {}
        self.phase: dict[str, str] = {}
        self.reports: dict[str, int] = {}

    def step(self, words: list[str], event: Event) -> None:
        before = dict(self.holder)
        super().step(words, event)
        name, on = words[0], words[1]
        if name in ("send", "match"):
            self.out[on] = f"{name.replace('send', 'w').replace('match', 'm')}{words[2]}"
        elif name == "receive":
            self.inward[on] = f"p{self.asked[on]}"
        elif name == "cancel":
            self.cancel(on, words[2], before[on])
        elif name == "complete":
            self.finish_send(on, before[on])
        elif name == "take":
            self.finish_receive(other(on), words[3], words[-1] == "late")
        elif name == "free":
            self.inward.pop(on)
            self.phase[before[on]] = "r"
        elif name in ("notice", "back"):
            self.end_link(name, on, before[on], words[-1] == "dead")
        elif name in ("wait", "exit"):
            self.phase[on] = name.replace("wait", "w").replace("exit", "x")
            self.reports[on] = 0 if name == "exit" else self.reports.get(on, 0)
        elif name == "report":
            self.report(on, words[2], words[3])
        self.forget_destroyed()

    def cancel(self, end: str, way: str, owner: str) -> None:
        if way == "out":
            self.out.pop(end)
        else:
            self.inward[end] = "x" + self.inward[end][1:]
            self.phase[owner] = "c"

    def finish_send(self, end: str, owner: str) -> None:
        self.out[end] = "o" + self.out[end][1:]
        self.reports[owner] = self.reports.get(owner, 0) + 1

    def finish_receive(self, end: str, owner: str, answers: bool) -> None:
        self.inward[end] = "i" + self.inward[end][1:]
        self.reports[owner] = self.reports.get(owner, 0) + 1
        if answers:
            self.phase[owner] = "r"

    def end_link(self, name: str, end: str, owner: str, answers: bool) -> None:
        """A send that waits ends with its link, one that is matched where its message comes back; a receive ends with the link."""
        if owner == "destroyed":
            return
        if self.out.get(end, "-")[0] == ("w" if name == "notice" else "m"):
            self.finish_send(end, owner)
        if self.inward.get(end, "-")[0] in "px":
            self.finish_receive(end, owner, answers)

    def report(self, process: str, end: str, way: str) -> None:
        activities = self.out if way == "out" else self.inward
        if activities.get(end, "-")[0] in "oi":
            activities.pop(end)
        self.reports[process] -= 1
        if self.phase.get(process) == "w":
            self.phase[process] = "r"

    def forget_destroyed(self) -> None:
        for activities in (self.out, self.inward):
            for end in [end for end in activities if self.holder[end] == "destroyed"]:
                activities.pop(end)

    def now(self, processes: int) -> tuple[dict[str, set[str]], dict[int, str]]:
        """The activities of each end that has some, and what each process does."""
        ends = {end: {self.out.get(end), self.inward.get(end)} - {None} for end in {**self.out, **self.inward}}
        return ends, {process: f"{self.phase.get(f'p{process}', 'r')}{self.reports.get(f'p{process}', 0)}" for process in range(processes)}


def waited_by(text: str) -> list[tuple[dict[str, set[str]], dict[int, str]]]:
    """The activities and what processes do after each event of a transcript."""
    homes: list[int] = []
    service, found, event = Waited(), [], None
    for number, line in enumerate(text.splitlines(), 1):
        words = line.split(" ")
        if words[0] == "process":
            homes.append(int(words[3]))
        elif words[0] == "wire":
            service.wire(int(words[1]), int(words[2]), homes)
        elif words[0] == ".":
            service.step(words[1:], event)
            found[-1] = service.now(len(homes))
        elif words[1:] and words[1].startswith("k"):
            event = event_of(number, words)
            found.append(service.now(len(homes)))
    return found

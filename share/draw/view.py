"""What of a run is drawn: which events, in which boxes, and which ends."""

from dataclasses import dataclass, field

from state import Arrow, Story, order_of
from texts import FAMILIES, shape_of
from transcript import Entry, Transcript

# Events that are alike so often one after the other share a box.
LEAST_REPEATS = 3
# So many ends have wide columns; of those that move, so many are shown where nobody chose.
MOST_WIDE, MOST_MOVING = 12, 40


@dataclass(slots=True)
class Fault:
    """Where a text is wrong: the line, as it stands and with the event line above it where it is a service line, what it has to be, and the sentence of
    `why` where that says something else."""
    line: int
    texts: list[str]
    why: str
    sentence: str


@dataclass(slots=True)
class Group:
    """The events of a box, by their numbers: those of one kernel, one after the other. Each is like the one `unit` before it."""
    events: list[int]
    unit: int = 1


@dataclass(slots=True)
class Bundle:
    """Packets that one arrow shows: from one box to another, of one family and in one manner."""
    arrows: list[Arrow]

    @property
    def first(self) -> Arrow:
        return self.arrows[0]

    def family(self) -> str:
        return FAMILIES[self.first.text.split(" ")[0]]


@dataclass
class View:
    """`events` are the numbers of the events that are drawn, `faults` where the text is wrong; `is_cut` tells that the run goes on
    behind the last event that is drawn."""
    transcript: Transcript
    story: Story
    events: range
    ends: list[str]
    left_out: int
    groups: list[Group]
    is_cut: bool = False
    faults: list[Fault] = field(default_factory=list)

    def entry(self, number: int) -> Entry:
        return self.transcript.entries[number]

    def kernel_of(self, group: Group) -> int:
        return self.entry(group.events[0]).kernel

    def arrows(self) -> list[Arrow]:
        """The packets that are sent or taken in an event that is drawn, or are under way in all of them."""
        last = self.events.stop
        return [arrow for arrow in self.story.arrows
                if arrow.tail < last and (arrow.head is None or arrow.head >= self.events.start)]

    def bundles(self) -> list[Bundle]:
        """Packets whose boxes are folded share an arrow, where they are alike."""
        group_of = {event: number for number, group in enumerate(self.groups) for event in group.events}
        found: dict[tuple, Bundle] = {}
        for number, arrow in enumerate(self.arrows()):
            boxes = group_of.get(arrow.tail), group_of.get(arrow.head)
            is_folded = any(box is not None and len(self.groups[box].events) > 1 for box in boxes)
            likeness = (*boxes, arrow.sender, arrow.target, FAMILIES[arrow.text.split(" ")[0]], arrow.manner) if is_folded and not arrow.cargo else number
            found.setdefault(likeness, Bundle([])).arrows.append(arrow)
        return list(found.values())


def changing_ends(story: Story, events: range) -> list[str]:
    """The ends that go to another owner in these events, or into a message: at most MOST_MOVING, those that do so most often. Those that are destroyed, or
    whose opposite end is, come to them where there is room for all."""
    moves: dict[str, int] = {}
    dying = set()
    for change in story.changes:
        if change.event in events and " " in change.holder:
            moves[change.end] = moves.get(change.end, 0) + 1
        elif change.event in events and not change.holder.startswith("p"):
            dying.add(change.end)
    moving = sorted(moves, key=lambda end: -moves[end])[:MOST_MOVING]
    both = moves.keys() | dying
    return sorted(both if len(both) <= MOST_WIDE else moving, key=order_of)


def all_ends(story: Story, events: range) -> list[str]:
    return sorted({change.end for change in story.changes if change.event < events.stop}, key=order_of)


def alone(events: range) -> list[Group]:
    return [Group([number]) for number in events]


def folded(transcript: Transcript, story: Story, events: range) -> list[Group]:
    """Events that say nothing to the links share a box, where one, or two in turn, come again and again at a kernel."""
    changed = {change.event for change in story.changes}
    groups = []
    for kernel in range(transcript.kernels):
        mine = [number for number in events if transcript.entries[number].kernel == kernel]
        shapes = [None if number in changed else shape_of(transcript.entries[number]) for number in mine]
        at = 0
        while at < len(mine):
            length, unit = longest_repeat(shapes, at)
            groups.append(Group(mine[at:at + length], unit))
            at += length
    return sorted(groups, key=lambda group: group.events[0])


def longest_repeat(shapes: list[str | None], at: int) -> tuple[int, int]:
    """How many shapes from here on are one shape, or two in turn, again and again, and of how many it is; (1, 1) where none is."""
    best = (1, 1)
    for unit in (1, 2):
        stop = at
        while stop < len(shapes) and shapes[stop] and (stop < at + unit or shapes[stop] == shapes[stop - unit]):
            stop += 1
        length = (stop - at) // unit * unit
        if length >= LEAST_REPEATS * unit and length > best[0]:
            best = (length, unit)
    return best

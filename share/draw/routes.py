"""The ways of arrows: between the boxes of the lanes that they cross, and beside each other."""

from dataclasses import dataclass, field

# How far the arcs of a kernel's packets to itself stand apart, and lines that cross a lane in one gap.
TRACK = 6
APART = 3

Point = tuple[float, float]


@dataclass(slots=True)
class Gap:
    """A place between two boxes of a lane, and the heights at which lines cross the lane there already."""
    top: float
    bottom: float
    taken: list[float] = field(default_factory=list)

    def free(self, wanted: float, low: float, high: float) -> float | None:
        """The height nearest to the wanted one at which another line can cross here, not above `low` and not below `high`."""
        top, bottom = max(self.top + APART, low), min(self.bottom - APART, high)
        if top > bottom:
            return None
        best = min(max(wanted, top), bottom)
        for count in range(int((bottom - top) / APART) + 2):
            for height in (best + count * APART, best - count * APART):
                if top <= height <= bottom and all(abs(height - other) >= APART for other in self.taken):
                    return height
        return None


def tracks_of(spans: list[tuple[int, int]]) -> list[int]:
    """For each span the least number that no span which it meets has; short spans get theirs first, so that they lie within longer ones."""
    tracks = [0] * len(spans)
    taken: list[list[tuple[int, int]]] = []
    for number in sorted(range(len(spans)), key=lambda number: spans[number][1] - spans[number][0]):
        first, last = spans[number]
        track = 0
        while track < len(taken) and any(first < other[1] and other[0] < last for other in taken[track]):
            track += 1
        if track == len(taken):
            taken.append([])
        taken[track].append(spans[number])
        tracks[number] = track
    return tracks


def height_at(start: Point, stop: Point, x: float) -> float:
    return start[1] + (stop[1] - start[1]) * (x - start[0]) / (stop[0] - start[0])


def route(start: Point, stop: Point, lanes: list[tuple[float, float, list[Gap]]]) -> list[Point]:
    """A way from one point to the other over these lanes, each with the places where it is entered and left. Where the straight line
    would meet a box of a lane, it crosses the lane level in a gap. Where there is none, it goes over the box."""
    points = [start]
    for enter, leave, gaps in lanes:
        here = points[-1]
        first, last = height_at(here, stop, enter), height_at(here, stop, leave)
        if any(gap.top <= first and last <= gap.bottom for gap in gaps):
            continue
        middle = (first + last) / 2
        found = [(abs(height - middle), height, gap) for gap in gaps if (height := gap.free(middle, here[1], stop[1])) is not None]
        if found:
            _, height, gap = min(found, key=lambda one: one[:2])
            gap.taken.append(height)
            points += [(enter, height), (leave, height)]
    return points + [stop]


def arc(right: float, top: float, bottom: float, track: int) -> str:
    """A kernel's packet to itself turns round at the right."""
    bend = right + 14 + TRACK * track
    radius = min(8, (bottom - top) / 2, bend - right)
    return (f"M{right:g} {top:g} H{bend - radius:g} Q{bend:g} {top:g} {bend:g} {top + radius:g} V{bottom - radius:g} "
            f"Q{bend:g} {bottom:g} {bend - radius:g} {bottom:g} H{right:g}")

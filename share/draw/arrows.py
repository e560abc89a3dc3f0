"""Where each arrow of a drawing begins and ends, and the way that it takes."""

from layout import LINE, PAD, Card, Layout
from routes import Gap, Point, arc, route
from state import Arrow
from view import Bundle

# Arrows that leave a box at one side begin this far apart, where the box is high enough.
LEAVING = 4


class Ways:
    def __init__(self, layout: Layout):
        self.layout = layout
        self.gaps: dict[int, list[Gap]] = {kernel: layout.gaps(kernel) for kernel in range(len(layout.lanes))}
        self.lines_taken: dict[int, int] = {}
        self.stops = [self.stop_of(bundle.first) for bundle in layout.bundles]
        self.starts = self.find_starts()

    def paths(self) -> list[str]:
        """The path of each arrow, in the order of the bundles; the short ones choose their ways first."""
        layout, found = self.layout, [""] * len(self.layout.bundles)
        by_length = sorted(range(len(found)), key=lambda number: abs(layout.bundles[number].first.sender - layout.bundles[number].first.target))
        for number in by_length:
            found[number] = self.path(layout.bundles[number], self.starts[number], self.stops[number], layout.tracks[number])
        return found

    def path(self, bundle: Bundle, start: float, stop: float, track: int) -> str:
        lanes, sender, target = self.layout.lanes, bundle.first.sender, bundle.first.target
        if sender == target:
            return arc(lanes[sender].right, start, stop, track)
        if sender < target:
            between = [(lanes[kernel].x, lanes[kernel].right, self.gaps[kernel]) for kernel in range(sender + 1, target)]
            points = route((lanes[sender].right, start), (lanes[target].x, stop), between)
        else:
            between = [(lanes[kernel].right, lanes[kernel].x, self.gaps[kernel]) for kernel in range(sender - 1, target, -1)]
            points = route((lanes[sender].x, start), (lanes[target].right, stop), between)
        return line_of(points)

    def stop_of(self, arrow: Arrow) -> float:
        """The height at which an arrow meets the box of its head."""
        layout = self.layout
        if layout.is_rest(arrow):
            number = self.lines_taken.get(arrow.target, 0)
            self.lines_taken[arrow.target] = number + 1
            return layout.rest_cards[arrow.target].y + PAD + 7 + number * LINE
        return self.in_row(layout.card_of[arrow.head], arrow.head, PAD + 4)

    def in_row(self, card: Card, event: int, down: float) -> float:
        """A height in the row of this event that the box has too."""
        top = max(card.y, self.layout.row_top(event))
        return min(top + down, card.bottom - 2)

    def find_starts(self) -> list[float]:
        """Arrows that leave one side of a box begin below each other in the order in which they end."""
        layout = self.layout
        starts = [layout.rows_top - 8] * len(layout.bundles)
        sides: dict[tuple[int, bool], list[int]] = {}
        for number, bundle in enumerate(layout.bundles):
            arrow = bundle.first
            if arrow.tail >= layout.view.events.start:
                sides.setdefault((arrow.tail, arrow.sender <= arrow.target), []).append(number)
        for (tail, _), numbers in sides.items():
            card = layout.card_of[tail]
            top = self.in_row(card, tail, PAD + 9)
            apart = min(LEAVING, (card.bottom - 2 - top) / max(1, len(numbers) - 1))
            for place, number in enumerate(sorted(numbers, key=lambda number: self.stops[number])):
                starts[number] = top + place * apart
        return starts


def line_of(points: list[Point]) -> str:
    return "M" + " L".join(f"{x:g} {y:g}" for x, y in points)

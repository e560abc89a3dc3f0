"""Where everything stands in a drawing: lanes side by side, a row for each stamp, a column for each end."""

from dataclasses import dataclass

from legend import Item, legend_items
from routes import TRACK, Gap, tracks_of
from state import Arrow, opposite
from texts import Line, cut, holder_label, lines_of, lines_of_all, short, wrapped
from view import MOST_WIDE, Group, View

MARGIN, LEFT, RIGHT = 24, 58, 34
LINE, PAD, GAP = 14, 5, 12
CHAR, SMALL_CHAR, SANS_CHAR = 6.7, 5.8, 6.3
CHIP = 34
# The lanes of a drawing have about this width together, where that leaves FEWEST_LETTERS for each line of a box.
LANES, FEWEST_LETTERS, MOST_LETTERS = 1_400, 18, 46
WIDE_GUTTER, NARROW_GUTTER = 64, 36
LOW_ROW = 6
# The names of kernels and ends stand once more behind so many points.
NAMES_EVERY, NAMES, SLIM_NAMES = 620, 26, 52
SLIM = 15
# The heading of the columns is so wide.
HEADING = 140
# What is held before the first row stands in so much room above it.
ROOM_ABOVE = 22
LEAST_WIDTH = 640
FAULT_LETTERS = 100


@dataclass(slots=True)
class Card:
    """The box of an event or of several, or of the packets that a kernel did not take."""
    x: float
    y: float
    width: float
    height: float
    lines: list[Line]

    @property
    def right(self) -> float:
        return self.x + self.width

    @property
    def bottom(self) -> float:
        return self.y + self.height


@dataclass(slots=True)
class Lane:
    x: float
    width: float
    gutter: float

    @property
    def right(self) -> float:
        return self.x + self.width


@dataclass(slots=True)
class Band:
    """Rows that are named together: one row with the box of an event, or several with folded boxes alone."""
    first: int
    last: int
    y: float
    height: float

    def label(self) -> str:
        return str(self.first) if self.first == self.last else f"{self.first}–{self.last}"


class Layout:
    def __init__(self, view: View):
        self.view = view
        self.bundles = view.bundles()
        kernels = view.transcript.kernels
        self.base_gutter = WIDE_GUTTER if kernels <= 4 else NARROW_GUTTER
        self.letters = max(FEWEST_LETTERS, min(MOST_LETTERS, int((LANES / kernels - self.base_gutter - 4 * PAD) / CHAR)))
        self.texts = [self.group_lines(group) for group in view.groups]
        self.rests = self.rest_lines()
        self.place_lanes()
        self.place_columns()
        self.width = max(self.right + MARGIN + (RIGHT if self.columns else 0), LEAST_WIDTH)
        self.place_heads()
        self.place_rows()
        self.place_cards()
        self.place_fault()

    def group_lines(self, group: Group) -> list[Line]:
        entries = [self.view.entry(number) for number in group.events]
        return lines_of(entries[0], self.letters) if len(entries) == 1 else lines_of_all(entries, group.unit, self.letters)

    def rest_lines(self) -> dict[int, list[Line]]:
        """The packets that nobody took, by the kernel that would."""
        found: dict[int, list[Line]] = {}
        for bundle in self.bundles:
            for arrow in bundle.arrows if self.is_rest(bundle.first) else []:
                found.setdefault(arrow.target, []).append(Line(cut(short(arrow.text), self.letters), "step"))
        return found

    def is_rest(self, arrow: Arrow) -> bool:
        return arrow.head is None or arrow.head >= self.view.events.stop

    # Across

    def place_lanes(self) -> None:
        longest = [8] * self.view.transcript.kernels
        for group, lines in zip(self.view.groups, self.texts):
            kernel = self.view.kernel_of(group)
            longest[kernel] = max([longest[kernel]] + [len(line.text) for line in lines])
        for kernel, lines in self.rests.items():
            longest[kernel] = max([longest[kernel]] + [len(line.text) for line in lines])
        self.tracks = self.place_tracks()
        self.lanes, x = [], MARGIN + LEFT
        for kernel, letters in enumerate(longest):
            width = round(letters * CHAR + 4 * PAD)
            own = [track for bundle, track in zip(self.bundles, self.tracks) if bundle.first.sender == kernel == bundle.first.target]
            gutter = max(self.base_gutter, 24 + TRACK * (1 + max(own, default=-1)))
            self.lanes.append(Lane(x, width, gutter))
            x += width + gutter
        self.after_lanes = x

    def place_tracks(self) -> list[int]:
        """For each packet of a kernel to itself how far its arc goes out, so that no two arcs lie on each other."""
        tracks = [0] * len(self.bundles)
        for kernel in range(self.view.transcript.kernels):
            own = [number for number, bundle in enumerate(self.bundles) if bundle.first.sender == kernel == bundle.first.target]
            spans = [(self.bundles[number].first.tail, self.end_of(self.bundles[number].first)) for number in own]
            for number, track in zip(own, tracks_of(spans)):
                tracks[number] = track
        return tracks

    def end_of(self, arrow: Arrow) -> int:
        return self.view.events.stop if self.is_rest(arrow) else arrow.head

    def place_columns(self) -> None:
        """One column for each end, the two of a link side by side. Where they are many, they are slim, and their labels stand upright."""
        shown = set(self.view.ends)
        labels = [holder_label(change.holder) for change in self.view.story.changes if change.end in shown]
        self.is_slim = len(shown) > MOST_WIDE
        self.column_width = SLIM if self.is_slim else round(max(map(len, self.view.ends + labels), default=4) * SMALL_CHAR + 8)
        self.names_height = SLIM_NAMES if self.is_slim else NAMES
        self.columns: dict[str, float] = {}
        x = self.after_lanes
        for end in self.view.ends:
            if self.columns and opposite(end) not in self.columns:
                x += 10
            self.columns[end] = x
            x += self.column_width + 3
        self.right = max(x, self.after_lanes + HEADING) if self.columns else x

    # Down

    def place_heads(self) -> None:
        self.legend_top = MARGIN + 54
        self.legend = self.legend_places(legend_items(self.view, self.bundles))
        self.heads_top = (self.legend[-1][1] if self.legend else self.legend_top) + 30
        most = 1
        for kernel, lane in enumerate(self.lanes):
            chips = self.view.transcript.homes.count(kernel)
            most = max(most, -(-chips // self.chips_in(lane)))
        self.body_top = self.heads_top + 24 + 24 * most

    def chips_in(self, lane: Lane) -> int:
        return max(1, int(lane.width) // CHIP)

    def legend_places(self, items: list[Item]) -> list[tuple[float, float, Item]]:
        places, x, y = [], MARGIN, self.legend_top
        for item in items:
            width = 34 + len(item.words) * SANS_CHAR + 18
            if x > MARGIN and x + width > self.width - MARGIN:
                x, y = MARGIN, y + 20
            places.append((x, y, item))
            x += width
        return places

    def place_rows(self) -> None:
        """A row for each stamp, high enough for its boxes; rows of which all boxes are folded are low."""
        heights = self.row_heights()
        left = sum(heights.values())
        alone = {self.view.entry(group.events[0]).stamp for group in self.view.groups if len(group.events) == 1}
        y = self.body_top + (16 + self.names_height if self.columns else 14)
        self.rows_top = named = y
        self.rows: dict[int, tuple[float, float]] = {}
        self.bands: list[Band] = []
        self.names: list[float] = []
        for stamp, height in heights.items():
            if y - named > NAMES_EVERY and left > NAMES_EVERY / 2:
                self.names.append(y)
                named, y = y, y + self.names_height
            self.rows[stamp] = (y, height)
            if stamp not in alone and self.bands and self.bands[-1].last not in alone and y != named + self.names_height:
                self.bands[-1].last, self.bands[-1].height = stamp, self.bands[-1].height + height
            else:
                self.bands.append(Band(stamp, stamp, y, height))
            y, left = y + height, left - height
        self.body_end = y

    def row_heights(self) -> dict[int, float]:
        heights: dict[int, float] = {self.view.entry(number).stamp: LOW_ROW for number in self.view.events}
        stamps = list(heights)
        folded = []
        for group, lines in zip(self.view.groups, self.texts):
            first, last = self.view.entry(group.events[0]).stamp, self.view.entry(group.events[-1]).stamp
            needed = len(lines) * LINE + 2 * PAD + GAP
            if first == last:
                heights[first] = max(heights[first], needed)
            else:
                folded.append((stamps.index(first), stamps.index(last), needed))
        for first, last, needed in folded:
            there = sum(heights[stamp] for stamp in stamps[first:last + 1])
            heights[stamps[first]] += max(0, needed - there)
        return heights

    def place_cards(self) -> None:
        self.cards: list[Card] = []
        self.card_of: dict[int, Card] = {}
        for group, lines in zip(self.view.groups, self.texts):
            lane = self.lanes[self.view.kernel_of(group)]
            top = self.rows[self.view.entry(group.events[0]).stamp][0]
            last, height = self.rows[self.view.entry(group.events[-1]).stamp]
            needed = len(lines) * LINE + 2 * PAD
            tall = needed if len(group.events) == 1 else last + height - top - GAP
            card = Card(lane.x, top + GAP / 2, lane.width, max(needed, tall), lines)
            self.cards.append(card)
            self.card_of |= dict.fromkeys(group.events, card)
        self.rest_cards: dict[int, Card] = {}
        for kernel, lines in self.rests.items():
            lane = self.lanes[kernel]
            self.rest_cards[kernel] = Card(lane.x, self.body_end + 18 + GAP / 2, lane.width, len(lines) * LINE + 2 * PAD, lines)
        self.bottom = max([self.body_end] + [card.bottom for card in self.rest_cards.values()]) + 10

    def place_fault(self) -> None:
        """Below all rows: the lines that are wrong, and why."""
        self.fault_cards: list[Card] = []
        y = self.bottom + 6
        letters = min(FAULT_LETTERS, int((self.width - 2 * MARGIN) / CHAR) - 4)
        for fault in self.view.faults:
            lines = [Line(part, "quiet") for text in fault.texts[:-1] for part in wrapped(text, letters)]
            lines += [Line(part, "wrongly") for part in wrapped(f"✗ {fault.texts[-1]}", letters)]
            lines += [Line(part, "") for text in (fault.why, fault.sentence) if text for part in wrapped(text, letters)]
            width = max(len(line.text) for line in lines) * CHAR + 4 * PAD
            self.fault_cards.append(Card(MARGIN, y, width, len(lines) * LINE + 2 * PAD, lines))
            y += self.fault_cards[-1].height + 10
            self.bottom = y

    # What stands where

    def row_top(self, event: int) -> float:
        """Where the row of an event begins; above all rows for what was before them."""
        if event < self.view.events.start:
            return self.rows_top - ROOM_ABOVE
        return self.rows[self.view.entry(event).stamp][0]

    def gaps(self, kernel: int) -> list[Gap]:
        """What is free between the boxes of a lane."""
        mine = sorted((card.y, card.bottom) for card in [*self.cards, *self.rest_cards.values()] if card.x == self.lanes[kernel].x)
        tops = [self.body_top] + [bottom for _, bottom in mine]
        bottoms = [top for top, _ in mine] + [self.bottom]
        return [Gap(top, bottom) for top, bottom in zip(tops, bottoms)]

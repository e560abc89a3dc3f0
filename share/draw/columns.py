"""The columns of a drawing: who holds each end, row by row."""

from dataclasses import dataclass

from layout import ROOM_ABOVE, SMALL_CHAR, Layout
from looks import fill_of, ink_on
from state import Change, opposite
from svg import Svg, attributes
from texts import holder_label

# The edge of a column whose opposite end was destroyed.
EDGE = 6
LABEL = 14


@dataclass(slots=True)
class Hold:
    """An end is held so from one height to another; `since` is the event in which that began."""
    holder: str
    since: int
    top: float
    bottom: float


def draw_columns(svg: Svg, layout: Layout) -> None:
    by_end: dict[str, list[Change]] = {end: [] for end in layout.columns}
    for change in layout.view.story.changes:
        if change.end in by_end and change.event < layout.view.events.stop:
            by_end[change.end].append(change)
    for end, changes in by_end.items():
        for hold in holds_of(layout, [change for change in changes if change.holder != "dead"]):
            if hold.holder == "destroyed":
                svg.cross(layout.columns[end] + layout.column_width / 2, hold.top + LABEL)
            else:
                draw_hold(svg, layout, end, hold)
        draw_edge(svg, layout, end, changes)


def holds_of(layout: Layout, changes: list[Change]) -> list[Hold]:
    """What is seen of these changes: of those before the first row only the last one."""
    start = layout.view.events.start
    before = [change for change in changes if change.event < start]
    seen = before[-1:] + [change for change in changes if change.event >= start]
    if before and before[-1].holder == "destroyed":
        return []
    stops = [layout.row_top(change.event) for change in seen[1:]] + [layout.body_end]
    return [Hold(change.holder, change.event, layout.row_top(change.event), stop) for change, stop in zip(seen, stops)]


def draw_hold(svg: Svg, layout: Layout, end: str, hold: Hold) -> None:
    x, width, label = layout.columns[end], layout.column_width, holder_label(hold.holder)
    if " " in hold.holder:
        fill, look, kind = "url(#enclosed)", "", "label on inside"
    else:
        process = int(hold.holder[1:])
        fill, look, kind = fill_of(process), f' style="{ink_on(process)}"', "label on"
    line = 0 if hold.since < 0 else layout.view.entry(hold.since).line
    marks = attributes(end=end, holder=hold.holder, since=line) + f' fill="{fill}"'
    svg.box("hold", x, hold.top + 1, width, hold.bottom - hold.top - 1, marks, f"{end} is {'' if ' ' in hold.holder else 'owned by '}{label}"
            + (f" from line {line} on" if line else ""))
    for top in [hold.top] + [names + layout.names_height for names in layout.names if hold.top < names]:
        room = LABEL + 3 if not layout.is_slim else len(label) * SMALL_CHAR + 6
        if top + room <= hold.bottom:
            put_label(svg, layout, x + width / 2, top + (LABEL if not layout.is_slim else room - 2), label, kind, look)


def put_label(svg: Svg, layout: Layout, x: float, bottom: float, label: str, kind: str, look: str = "") -> None:
    """A label in the middle of a column, or upright in a slim one."""
    if layout.is_slim:
        svg.text(x + 3.5, bottom, label, kind, f' transform="rotate(-90 {x + 3.5:g} {bottom:g})"{look}')
    else:
        svg.text(x, bottom, label, kind, f' text-anchor="middle"{look}')


def draw_edge(svg: Svg, layout: Layout, end: str, changes: list[Change]) -> None:
    """A barred edge from the event in which the owner's kernel learnt that the opposite end was destroyed."""
    died = next((change.event for change in changes if change.holder == "dead"), None)
    ended = next((change.event for change in changes if change.holder == "destroyed"), None)
    if died is None or ended is not None and ended < layout.view.events.start:
        return
    top, bottom = layout.row_top(died), layout.body_end if ended is None else layout.row_top(ended)
    svg.box("dead", layout.columns[end] + layout.column_width - EDGE, top + 1, EDGE, bottom - top - 1, attributes(end=end) + ' fill="url(#dead)"',
            f"{opposite(end)}, the opposite end of {end}, was destroyed")


def draw_names(svg: Svg, layout: Layout) -> None:
    """The names of kernels and ends, above all rows and again behind some of them."""
    middle = layout.column_width / 2
    for end, x in layout.columns.items():
        put_label(svg, layout, x + middle, layout.rows_top - ROOM_ABOVE - 4, end, "label")
    for y in layout.names:
        svg.box("strip", 0, y, layout.width, layout.names_height)
        for kernel, lane in enumerate(layout.lanes):
            svg.text(lane.x, y + layout.names_height / 2 + 4, f"kernel {kernel}", "sans quiet")
        for end, x in layout.columns.items():
            put_label(svg, layout, x + middle, y + layout.names_height - 8, end, "label quiet")

"""The samples of the legend: each is drawn as what it stands for."""

from looks import fill_of
from svg import Svg

WIDE, HIGH = 26, 14


def draw_sample(svg: Svg, x: float, y: float, kind: str) -> None:
    match kind:
        case "call" | "taking" | "refusal" | "folded" | "wrong":
            draw_box(svg, x, y - HIGH / 2, kind)
        case "owned" | "enclosed" | "dead" | "destroyed":
            draw_end(svg, x, y, kind)
        case _:
            draw_line(svg, f"M{x:g} {y:g} H{x + WIDE:g}", kind)


def draw_box(svg: Svg, x: float, top: float, kind: str) -> None:
    svg.add(f'<g class="{"call" if kind == "folded" else kind}">')
    if kind == "folded":
        svg.box("box", x + 3, top + 3, WIDE - 3, HIGH - 1, ' rx="3"')
        svg.box("box", x, top, WIDE - 3, HIGH - 1, ' rx="3"')
    else:
        svg.box("box", x, top, WIDE, HIGH, ' rx="3"')
    if kind in ("call", "refusal"):
        svg.add(f'<rect x="{x:g}" y="{top:g}" width="6" height="{HIGH}" rx="2" fill="{fill_of(0)}"/>')
    svg.add("</g>")


def draw_end(svg: Svg, x: float, y: float, kind: str) -> None:
    top = y - HIGH / 2
    if kind == "destroyed":
        svg.cross(x + WIDE / 2, y)
        return
    fill = "url(#enclosed)" if kind == "enclosed" else fill_of(0)
    svg.add(f'<rect x="{x:g}" y="{top:g}" width="{WIDE}" height="{HIGH}" fill="{fill}"/>')
    if kind == "dead":
        svg.add(f'<rect x="{x + WIDE - 6:g}" y="{top:g}" width="6" height="{HIGH}" fill="url(#dead)"/>')


def draw_line(svg: Svg, line: str, kind: str) -> None:
    """An arrow. What is no family is shown by an arrow of a message."""
    family = kind if kind in ("ask", "move", "death") else "message"
    if kind == "cargo":
        svg.path("cargo", line, ' stroke-width="8"')
    look = {"again": " forwarded", "untaken": " untaken", "bundle": " bundle"}.get(kind, "")
    svg.add(f'<path class="sample packet {family}{look}" d="{line}" marker-end="url(#to-{family})"/>')

"""Puts the page together: what it holds, its looks and its code, all in one file of HTML that needs no other."""

import json
import os
from dataclasses import asdict
from html import escape

from legend import event_items, packet_items
from looks import DARK, LIGHT, Palette, definitions, style
from samples import draw_sample
from svg import Svg
from view import Bundle, View

FOLDER = os.path.dirname(os.path.abspath(__file__))
# The parts of the page's code, in the order in which they stand.
PARTS = ("run", "moment", "causes", "reasons", "story", "layout", "arrows", "picture", "said", "panel", "search", "keys", "start")
SAMPLE = 30


def sheet_of(record: dict, view: View) -> str:
    parts = {
        "TITLE": escape(f"{record['name']} - a run of lynx"),
        "NAME": escape(record["name"]),
        "HEADING": escape(record["heading"]),
        "LOOKS": f"{colours_of(LIGHT)}\n@media (prefers-color-scheme: dark) {{\n{colours_of(DARK)}\n}}\n{style()}\n{text_of('page.css')}",
        "DEFINITIONS": definitions(list(range(len(record["homes"])))),
        "LEGEND": legend_of(view),
        "RUN": json.dumps(record, separators=(",", ":")).replace("<", "\\u003c"),
        "CODE": "\n".join(text_of(f"{part}.js") for part in PARTS),
    }
    sheet = ""
    for piece in text_of("page.html").split("{{"):
        name, is_part, rest = piece.partition("}}")
        sheet += parts[name] + rest if is_part else piece
    return sheet


def text_of(name: str) -> str:
    with open(os.path.join(FOLDER, name), encoding="utf-8") as file:
        return file.read()


def colours_of(palette: Palette) -> str:
    """The colours of a drawing, for what is no part of one."""
    return ":root { " + " ".join(f"--{name}: {colour};" for name, colour in asdict(palette).items()) + " }"


def legend_of(view: View) -> str:
    """What boxes and arrows mean, as in a drawing."""
    items = event_items(view) + packet_items(view, [Bundle([arrow]) for arrow in view.arrows()])
    found = []
    for item in items:
        svg = Svg()
        draw_sample(svg, 2, 9, item.kind)
        found.append(f'<li><svg width="{SAMPLE}" height="18" aria-hidden="true">{"".join(svg.parts)}</svg> {escape(item.words)}</li>')
    return "\n".join(found)

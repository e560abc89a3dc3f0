"""A drawing as it is seen: the places, colours and shapes of what stands in it."""

import re
import xml.etree.ElementTree as ElementTree
from dataclasses import dataclass

SVG = "{http://www.w3.org/2000/svg}"
SIZES = {"title": 16, "head": 12, "label": 9.5, "step": 10.5}


@dataclass
class Box:
    x: float
    y: float
    width: float
    height: float
    fill: str = ""

    def covers(self, y: float) -> bool:
        return self.y <= y <= self.y + self.height


@dataclass
class Arrow:
    """A packet. `places` are the corners of its line; `line` is where it is taken."""
    places: list[tuple[float, float]]
    tail: int
    line: int | None
    manner: str
    family: str
    words: list[str]
    is_own: bool


class Drawing:
    """The boxes and lines of a drawing."""

    def __init__(self, svg: bytes):
        self.root = ElementTree.fromstring(svg)
        self.cards: dict[int, Box] = {}
        self.lanes: dict[int, int] = {}
        for group in self.find("g", "card"):
            box = box_of(boxes_in(group)[-1])
            for line in map(int, (group.get("data-line") or "").split()):
                self.cards[line], self.lanes[line] = box, int(group.get("data-kernel"))
        self.colours = {"p" + chip.get("data-process"): chip.get("fill") for chip in self.find("rect", "owner")}
        self.holds = [(rect.get("data-end"), rect.get("data-holder"), box_of(rect)) for rect in self.find("rect", "hold")]
        self.dead = [(rect.get("data-end"), box_of(rect)) for rect in self.find("rect", "dead")]
        self.arrows = [arrow for path in self.find("path", "packet") if path.get("data-tail") for arrow in arrows_of(path)]
        self.texts = [(text.text, text_box(text)) for text in self.root.iter(SVG + "text") if text.text]
        self.width = float(self.root.get("width"))
        self.height = float(self.root.get("height"))

    def find(self, tag: str, kind: str) -> list[ElementTree.Element]:
        return [one for one in self.root.iter(SVG + tag) if kind in (one.get("class") or "").split(" ")]

    def shape(self, name: str) -> tuple:
        """What a pattern or the head of an arrow looks like, but for its own name."""
        one = next(one for one in self.root.iter() if one.get("id") == name)
        return tuple((part.tag, part.get("d"), part.get("fill")) for part in one)


def boxes_in(group: ElementTree.Element) -> list[ElementTree.Element]:
    return [rect for rect in group.findall(SVG + "rect") if rect.get("class") == "box"]


def box_of(rect: ElementTree.Element) -> Box:
    return Box(*(float(rect.get(name)) for name in ("x", "y", "width", "height")), rect.get("fill") or "")


def text_box(text: ElementTree.Element) -> Box:
    """About the place that a text takes. Letters of these fonts have at most this width, in parts of their size."""
    look = (text.get("class") or "").split(" ")
    size = next((size for kind, size in SIZES.items() if kind in look), 11)
    width = len(text.text) * size * (0.56 if "sans" in look else 0.603)
    x, y = float(text.get("x")), float(text.get("y"))
    if text.get("transform"):
        return Box(x - size * 0.75, y - width, size * 0.9, width)
    start = {"middle": width / 2, "end": width}.get(text.get("text-anchor") or "", 0)
    return Box(x - start, y - size * 0.75, width, size * 0.9)


def meet(one: Box, two: Box) -> bool:
    return (one.x < two.x + two.width and two.x < one.x + one.width
            and one.y < two.y + two.height and two.y < one.y + one.height)


def places_of(line: str) -> list[tuple[float, float]]:
    """The corners of a path of straight lines and bends."""
    places = [(0.0, 0.0)]
    for letter, numbers in re.findall(r"([MLHVQ])([^MLHVQ]*)", line):
        values = [float(number) for number in numbers.split()]
        x, y = places[-1]
        places.append((values[0], y) if letter == "H" else (x, values[0]) if letter == "V" else (values[-2], values[-1]))
    return places[1:]


def arrows_of(path: ElementTree.Element) -> list[Arrow]:
    tails = path.get("data-tail").split(" ")
    lines = (path.get("data-line") or "").split() or [None] * len(tails)
    _, manner, family = path.get("class").split(" ")[:3]
    places, is_own = places_of(path.get("d")), path.get("data-from") == path.get("data-to")
    return [Arrow(places, int(tail), int(line) if line else None, manner, family, packet.split(" "), is_own)
            for tail, line, packet in zip(tails, lines, path.get("data-packets").split(";"), strict=True)]


def touches(place: tuple[float, float], box: Box) -> bool:
    x, y = place
    return box.covers(y) and min(abs(x - box.x), abs(x - box.x - box.width)) < 0.01

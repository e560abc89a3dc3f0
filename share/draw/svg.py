"""The elements of an SVG, put one after the other."""

from xml.sax.saxutils import escape, quoteattr


class Svg:
    def __init__(self) -> None:
        self.parts: list[str] = []

    def add(self, text: str) -> None:
        self.parts.append(text)

    def text(self, x: float, y: float, text: str, kind: str = "", more: str = "") -> None:
        look = f' class="{kind}"' if kind else ""
        self.add(f'<text x="{x:g}" y="{y:g}"{look}{more} xml:space="preserve">{escape(text)}</text>')

    def box(self, kind: str, x: float, y: float, width: float, height: float, more: str = "", tip: str = "") -> None:
        inner = f"><title>{escape(tip)}</title></rect>" if tip else "/>"
        self.add(f'<rect class="{kind}" x="{x:g}" y="{y:g}" width="{width:g}" height="{height:g}"{more}{inner}')

    def path(self, kind: str, line: str, more: str = "", tip: str = "") -> None:
        inner = f"><title>{escape(tip)}</title></path>" if tip else "/>"
        self.add(f'<path class="{kind}" d="{line}"{more}{inner}')

    def cross(self, x: float, y: float) -> None:
        self.path("cross", f"M{x - 4:g} {y - 4:g} L{x + 4:g} {y + 4:g} M{x + 4:g} {y - 4:g} L{x - 4:g} {y + 4:g}")


def attributes(**named: object) -> str:
    """Attributes that tell of what an element is: `data-NAME`."""
    return "".join(f" data-{name}={quoteattr(str(value))}" for name, value in named.items())

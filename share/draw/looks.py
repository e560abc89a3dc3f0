"""The colours, patterns and strokes of a drawing, for a light page and for a dark one."""

from dataclasses import dataclass

from texts import FAMILIES

COLOURS = ("#0072b2", "#d55e00", "#009e73", "#cc79a7", "#e69f00", "#56b4e9", "#7b5ea7", "#8c6d31")
DARK_LABELS = ("#d55e00", "#009e73", "#cc79a7", "#e69f00", "#56b4e9")
# What tells processes of one colour apart: plain for the first of them, for each further one these strokes in a square of PATTERN points.
PATTERNS = ("", "M0 8 L8 0 M-2 2 L2 -2 M6 10 L10 6", "M0 4 H8", "M4 0 V8", "M0 0 L8 8 M-2 6 L2 10 M6 -2 L10 2", "M0 4 H8 M4 0 V8",
            "M0 0 L8 8 M0 8 L8 0", "M3 4 H5")
PATTERN = 8


@dataclass(frozen=True)
class Palette:
    """The colours of a page."""
    paper: str
    ink: str
    quiet: str
    stripe: str
    line: str
    call: str
    taking: str
    edge: str
    cargo: str
    enclosed: str
    ask: str
    message: str
    death: str
    move: str


LIGHT = Palette(paper="#ffffff", ink="#1a1a1a", quiet="#555b63", stripe="#f6f7f9", line="#d5dae0", call="#ffffff", taking="#eef1f5", edge="#8a929c",
                cargo="#d9b95c", enclosed="#fbf6e3", ask="#5b7083", message="#1a1a1a", death="#b3261e", move="#00796b")
DARK = Palette(paper="#14171b", ink="#e8eaed", quiet="#a9b0b8", stripe="#1a1e23", line="#333a42", call="#23282f", taking="#1a1e23", edge="#6c757f",
               cargo="#8f7530", enclosed="#2e2917", ask="#9db2c7", message="#e8eaed", death="#ff7b72", move="#3fc9b4")

SHAPE = """
text { font: 11px ui-monospace, Menlo, Consolas, 'DejaVu Sans Mono', monospace; }
.sans { font-family: system-ui, 'Helvetica Neue', Arial, 'DejaVu Sans', sans-serif; }
.title { font-size: 16px; font-weight: 600; }
.head { font-size: 12px; font-weight: 600; }
.step { font-size: 10.5px; }
.label { font-size: 9.5px; }
.on { paint-order: stroke; stroke-width: 3px; stroke-linejoin: round; }
.refusal > .box { stroke-width: 2.5; }
.rest > .box { stroke-dasharray: 2 3; }
.wrong > .box { stroke-width: 2.5; stroke-dasharray: 7 4; }
.packet, .cargo, .cross, .again, .edge { fill: none; }
.packet { stroke-width: 1.3; stroke-linejoin: round; }
.bundle { stroke-width: 3; }
.forwarded, .resent { stroke-dasharray: 6 4; }
.untaken { stroke-dasharray: 1.5 3.5; }
.cargo { stroke-opacity: .8; stroke-linejoin: round; }
.cross { stroke-width: 1.8; }
""".strip()


def page_rules(palette: Palette) -> str:
    """The colours of all that is drawn, but for those of processes, which are the same on both pages."""
    of = palette
    rules = {"text, .tip": f"fill: {of.ink}", ".quiet, .step": f"fill: {of.quiet}", ".wrongly": f"fill: {of.death}",
             ".paper, .strip": f"fill: {of.paper}", ".stripe": f"fill: {of.stripe}", ".lifeline": f"stroke: {of.line}",
             ".box": f"fill: {of.call}; stroke: {of.edge}", ".taking > .box": f"fill: {of.taking}; stroke: {of.line}",
             ".refusal > .box, .wrong > .box": f"stroke: {of.death}", ".cargo": f"stroke: {of.cargo}",
             ".enclosed-ground": f"fill: {of.enclosed}", ".enclosed-stripe": f"fill: {of.cargo}", ".hold": f"stroke: {of.paper}",
             ".inside": f"stroke: {of.enclosed}", ".dead-ground": f"fill: {of.paper}", ".dead-bar": f"fill: {of.death}", ".cross": f"stroke: {of.ink}"}
    for family in sorted(set(FAMILIES.values())):
        ink = getattr(of, family)
        rules[f".{family}, .open-{family}"] = f"stroke: {ink}"
        rules[f".tip-{family}"] = f"fill: {ink}"
    return "\n".join(f"{what} {{ {look}; }}" for what, look in rules.items())


def style() -> str:
    return f"{SHAPE}\n{page_rules(LIGHT)}\n@media (prefers-color-scheme: dark) {{\n{page_rules(DARK)}\n}}"


def colour_of(process: int) -> str:
    return COLOURS[process % len(COLOURS)]


def pattern_of(process: int) -> int:
    return process // len(COLOURS) % len(PATTERNS)


def fill_of(process: int) -> str:
    """The colour of a process, and its pattern where another process has the colour too."""
    return f"url(#p{process})" if pattern_of(process) else colour_of(process)


def ink_on(process: int) -> str:
    """The look of a text on the colour of a process: the letters, and round them the colour where there is a pattern."""
    colour = colour_of(process)
    ink = "#1a1a1a" if colour in DARK_LABELS else "#ffffff"
    return f"fill:{ink};stroke:{colour}" if pattern_of(process) else f"fill:{ink}"


# What stands at the head of an arrow: no two families have the same shape.
TIPS = {
    "message": '<path class="tip-message" d="M0 1 L10 5 L0 9 z"/>',
    "ask": '<path class="open-ask" fill="none" stroke-width="1.6" d="M1 1 L9 5 L1 9"/>',
    "move": '<path class="tip-move" d="M0 1 L5 5 L0 9 z M5 1 L10 5 L5 9 z"/>',
    "death": '<path class="open-death" fill="none" stroke-width="2" d="M2 1 L10 9 M10 1 L2 9"/>',
}


def definitions(processes: list[int]) -> str:
    """The heads of arrows, and the patterns of ends in messages, of dead ends, and of those processes that have one."""
    tips = "".join(f'<marker id="to-{family}" viewBox="-1 -1 12 12" refX="9.5" refY="5" markerWidth="11.5" markerHeight="11.5" '
                   f'markerUnits="userSpaceOnUse" orient="auto">{tip}</marker>' for family, tip in TIPS.items())
    patterns = "".join(f'<pattern id="p{process}" width="{PATTERN}" height="{PATTERN}" patternUnits="userSpaceOnUse">'
                       f'<rect width="{PATTERN}" height="{PATTERN}" fill="{colour_of(process)}"/>'
                       f'<path d="{PATTERNS[pattern_of(process)]}" stroke="#ffffff" stroke-opacity=".75" stroke-width="2" fill="none"/></pattern>'
                       for process in processes if pattern_of(process))
    return ('<defs><pattern id="enclosed" width="7" height="7" patternUnits="userSpaceOnUse" patternTransform="rotate(45)">'
            '<rect class="enclosed-ground" width="7" height="7"/><rect class="enclosed-stripe" width="2.2" height="7"/></pattern>'
            '<pattern id="dead" width="6" height="6" patternUnits="userSpaceOnUse">'
            '<rect class="dead-ground" width="6" height="6"/><rect class="dead-bar" width="6" height="3"/></pattern>'
            f"{patterns}{tips}</defs>")

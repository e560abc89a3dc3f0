"""Makes the drawing of a run: an SVG of lanes, events, packets and ends. How to read it is told in docs/DRAWINGS.md."""

from xml.sax.saxutils import escape

from arrows import Ways
from columns import draw_columns, draw_names
from layout import CHIP, GAP, LINE, MARGIN, PAD, Card, Layout
from looks import definitions, fill_of, ink_on, style
from samples import draw_sample
from summary import counted, heading, story_told
from svg import Svg, attributes
from texts import told_of
from view import Bundle, Group, View

MOST_NOTES = 10
# The names of stamps end so far behind the margin.
LEFT_OF_LANES = 46


class Drawing:
    def __init__(self, view: View, name: str):
        self.view = view
        self.name = name
        self.layout = Layout(view)
        self.svg = Svg()

    def draw(self) -> str:
        self.draw_background()
        self.draw_legend()
        self.draw_heads()
        draw_columns(self.svg, self.layout)
        draw_names(self.svg, self.layout)
        self.draw_cards()
        self.draw_arrows()
        end = self.draw_foot()
        width, told = self.layout.width, f"{self.name}: {heading(self.view)}"
        processes = list(range(len(self.view.transcript.homes)))
        heads = [f'<svg xmlns="http://www.w3.org/2000/svg" width="{width:g}" height="{end:g}" viewBox="0 0 {width:g} {end:g}" role="img" '
                 'aria-labelledby="what story">',
                 f'<title id="what">{escape(told)}</title>', f'<desc id="story">{escape(story_told(self.view))}</desc>',
                 f"<style>\n{style()}\n</style>", definitions(processes), f'<rect class="paper" width="{width:g}" height="{end:g}"/>']
        return "\n".join(heads + self.svg.parts + ["</svg>", ""])

    def draw_background(self) -> None:
        svg, layout = self.svg, self.layout
        svg.text(MARGIN, MARGIN + 8, self.name, "sans title")
        svg.text(MARGIN, MARGIN + 27, heading(self.view), "sans quiet")
        for number, band in enumerate(layout.bands):
            if number % 2 == 0:
                svg.box("stripe", MARGIN, band.y, layout.right - MARGIN, band.height)
            if band.height >= LINE:
                y = band.y + min(GAP / 2 + PAD + 10, band.height / 2 + 4)
                svg.text(MARGIN + LEFT_OF_LANES, y, band.label(), "label quiet", ' text-anchor="end"')
                if layout.columns and len(layout.bands) > 12:
                    svg.text(layout.right + 4, y, band.label(), "label quiet")

    def draw_legend(self) -> None:
        for x, y, item in self.layout.legend:
            draw_sample(self.svg, x, y, item.kind)
            self.svg.text(x + 34, y + 4, item.words, "sans")

    def draw_heads(self) -> None:
        svg, layout, y = self.svg, self.layout, self.layout.heads_top
        svg.text(MARGIN, y + 12, "stamp", "sans quiet")
        for kernel, lane in enumerate(layout.lanes):
            svg.text(lane.x, y + 12, f"kernel {kernel}", "sans head")
            self.draw_chips(kernel, y + 22)
            middle = lane.x + lane.width / 2
            svg.path("lifeline", f"M{middle:g} {layout.body_top + 8:g} V{layout.bottom - 4:g}")
        if layout.columns:
            svg.text(layout.after_lanes, y + 12, "who holds each end", "sans head")

    def draw_chips(self, kernel: int, y: float) -> None:
        lane = self.layout.lanes[kernel]
        mine = [process for process, home in enumerate(self.view.transcript.homes) if home == kernel]
        for number, process in enumerate(mine):
            row, place = divmod(number, self.layout.chips_in(lane))
            x, top = lane.x + place * CHIP, y + row * 24
            self.svg.box("owner", x, top, CHIP - 5, 18, attributes(process=process) + f' rx="9" fill="{fill_of(process)}"')
            self.svg.text(x + (CHIP - 5) / 2, top + 13, f"p{process}", "label on", f' text-anchor="middle" style="{ink_on(process)}"')

    def draw_arrows(self) -> None:
        for bundle, path in zip(self.layout.bundles, Ways(self.layout).paths()):
            self.draw_arrow(bundle, path)

    def draw_arrow(self, bundle: Bundle, path: str) -> None:
        arrow, family = bundle.first, bundle.family()
        is_rest = self.layout.is_rest(arrow)
        kind = f"packet {arrow.manner} {family}" + (" untaken" if is_rest else "") + (" bundle" if len(bundle.arrows) > 1 else "")
        tails = " ".join(str(self.view.entry(one.tail).line) for one in bundle.arrows)
        marks = {"tail": tails, "from": arrow.sender, "to": arrow.target, "packets": ";".join(one.text for one in bundle.arrows)}
        if not is_rest:
            marks["line"] = " ".join(str(self.view.entry(one.head).line) for one in bundle.arrows)
        if arrow.cargo:
            self.svg.path("cargo", path, f' stroke-width="{min(5 + 3 * len(arrow.cargo), 20)}"')
        told = [f"from kernel {arrow.sender} to kernel {arrow.target}, {arrow.manner}"] + [one.text for one in bundle.arrows]
        self.svg.path(kind, path, attributes(**marks) + f' marker-end="url(#to-{family})"', "\n".join(told))

    def draw_cards(self) -> None:
        for group, card in zip(self.view.groups, self.layout.cards):
            self.draw_card(group, card)
        for kernel, card in self.layout.rest_cards.items():
            self.svg.add(f'<g class="card rest"{attributes(kernel=kernel)}>')
            self.draw_box(card)
            self.svg.add("</g>")
        if self.layout.rest_cards:
            words = "under way" if self.view.is_cut or self.view.faults else "not taken"
            self.svg.text(MARGIN - 6, self.layout.body_end + 36, words, "sans quiet")
        for fault, card in zip(self.view.faults, self.layout.fault_cards):
            self.svg.add(f'<g class="wrong"{attributes(line=fault.line)}>')
            self.draw_box(card)
            self.svg.add("</g>")

    def draw_card(self, group: Group, card: Card) -> None:
        entries = [self.view.entry(number) for number in group.events]
        entry = entries[0]
        is_refused = any(step.text.startswith("refuse ") for step in entry.steps)
        kind = "card" + (" taking" if entry.is_packet() else "") + (" refusal" if is_refused else "") + (" folded" if len(entries) > 1 else "")
        marks = attributes(line=" ".join(str(one.line) for one in entries), kernel=entry.kernel, stamp=entry.stamp)
        told = "\n".join(told_of(one) for one in entries)
        self.svg.add(f'<g class="{kind}"{marks}><title>{escape(told)}</title>')
        if len(entries) > 1:
            self.svg.box("box", card.x + 3, card.y + 3, card.width, card.height - 1, ' rx="4"')
        self.draw_box(card)
        if not entry.is_packet():
            self.svg.add(f'<rect x="{card.x:g}" y="{card.y:g}" width="6" height="{card.height:g}" rx="2" fill="{fill_of(entry.process)}"/>')
        self.svg.add("</g>")

    def draw_box(self, card: Card) -> None:
        self.svg.box("box", card.x, card.y, card.width, card.height, ' rx="4"')
        for number, line in enumerate(card.lines):
            self.svg.text(card.x + 2 * PAD + 2, card.y + PAD + 10 + number * LINE, line.text, line.look)

    def draw_foot(self) -> float:
        transcript, y = self.view.transcript, self.layout.bottom + 16
        lines = [f"last line: {transcript.last}"] if transcript.last and not self.view.is_cut and not self.view.faults else []
        notes = [] if self.view.is_cut else transcript.notes
        lines += notes[:MOST_NOTES] + ([f"and {len(notes) - MOST_NOTES} more notes"] if len(notes) > MOST_NOTES else [])
        if self.view.left_out:
            lines.append(f"{counted(self.view.left_out, 'end')} without a change left out: --all shows all")
        for line in lines:
            self.svg.text(MARGIN, y, line, "sans quiet")
            y += 16
        return y + 8

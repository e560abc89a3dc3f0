"""What is wrong with a drawing, beside its transcript and beside what docs/DRAWINGS.md promises."""

import re
import xml.etree.ElementTree as ElementTree

from seen import SVG, Arrow, Drawing, meet, touches
from told import Event, Told, other, told_by

LEARNING = ("want", "unwant", "unwanted", "parcel", "taken", "moved")


def faults_of(svg: bytes, text: str, every_end: bool = False) -> list[str]:
    """What is wrong with a drawing of this transcript. Empty where nothing is."""
    try:
        drawing = Drawing(svg)
    except ElementTree.ParseError as fault:
        return [f"no well-formed XML: {fault}"]
    told = told_by(text)
    return (faults_of_cards(drawing, told) + faults_of_arrows(drawing, told) + faults_of_holders(drawing, told, every_end)
            + faults_of_texts(drawing) + faults_of_looks(drawing))


def faults_of_cards(drawing: Drawing, told: Told) -> list[str]:
    """Each event stands in one box, in the lane of its kernel, lower for a greater stamp."""
    if sorted(drawing.cards) != sorted(event.line for event in told.events):
        return ["there is not one card for each entry line"]
    faults, leading = [], leading_events(drawing, told)
    for one, two in zip(leading, leading[1:]):
        if (drawing.cards[one.line].y < drawing.cards[two.line].y) != (one.stamp < two.stamp):
            faults.append(f"the cards of lines {one.line} and {two.line} do not stand in the order of their stamps")
    kernels = {event.kernel: drawing.cards[event.line] for event in told.events}
    for event in told.events:
        if drawing.lanes[event.line] != event.kernel or drawing.cards[event.line].x != kernels[event.kernel].x:
            faults.append(f"the card of line {event.line} does not stand in the lane of its kernel")
    lanes = [kernels[kernel] for kernel in sorted(kernels)]
    faults += ["two lanes overlap" for one, two in zip(lanes, lanes[1:]) if one.x + one.width >= two.x]
    return faults + faults_of_folds(drawing, told, leading)


def leading_events(drawing: Drawing, told: Told) -> list[Event]:
    """Of each box the first event."""
    first: dict[int, Event] = {}
    for event in told.events:
        first.setdefault(id(drawing.cards[event.line]), event)
    return list(first.values())


def faults_of_folds(drawing: Drawing, told: Told, leading: list[Event]) -> list[str]:
    """Events share a box only where they say nothing to the links, and one box does not lie on another."""
    faults, led = [], {event.line for event in leading}
    for number, event in enumerate(told.events):
        if event.line not in led and (event.steps or told.holders[number] != told.holders[number - 1]):
            faults.append(f"line {event.line} says something to the links, and shares its box")
    for kernel in {event.kernel for event in leading}:
        mine = [drawing.cards[event.line] for event in leading if event.kernel == kernel]
        faults += [f"two boxes of kernel {kernel} lie on each other" for one, two in zip(mine, mine[1:]) if one.y + one.height > two.y]
    return faults


def faults_of_arrows(drawing: Drawing, told: Told) -> list[str]:
    wanted = sorted(event.line for event in told.events if event.sender is not None)
    drawn = sorted(arrow.line for arrow in drawing.arrows if arrow.line)
    if wanted != drawn:
        return [f"arrows to lines {drawn}, and packets at lines {wanted}"]
    numbers = {event.line: number for number, event in enumerate(told.events)}
    if any(arrow.tail not in numbers for arrow in drawing.arrows):
        return ["an arrow begins at no event"]
    faults = []
    for arrow in drawing.arrows:
        tail = told.events[numbers[arrow.tail]]
        place = f"arrow from line {arrow.tail} to line {arrow.line}"
        if not touches(arrow.places[0], drawing.cards[tail.line]):
            faults.append(f"{place}: it does not begin at the card of its tail")
        if not may_send(told, numbers[arrow.tail], arrow.words, arrow.manner):
            faults.append(f"{place}: that event does not send `{' '.join(arrow.words)}` ({arrow.manner})")
        if arrow.line:
            faults += [f"{place}: {fault}" for fault in faults_of_head(drawing, arrow, tail, told.events[numbers[arrow.line]])]
    return faults + faults_of_order(drawing, told, numbers) + faults_of_counts(drawing, told)


def faults_of_head(drawing: Drawing, arrow: Arrow, tail: Event, head: Event) -> list[str]:
    faults = []
    if not touches(arrow.places[-1], drawing.cards[head.line]):
        faults.append("it does not end at the card of its head")
    if arrow.words != head.words:
        faults.append("it names another packet than its head")
    if tail.kernel != head.sender:
        faults.append(f"its tail is at kernel {tail.kernel}, and the packet came from kernel {head.sender}")
    if tail.stamp >= head.stamp:
        faults.append("its tail is not earlier than its head")
    return faults


def faults_of_order(drawing: Drawing, told: Told, numbers: dict[int, int]) -> list[str]:
    """From one kernel to another, packets are taken in the order in which they were sent."""
    latest: dict[tuple[int, int], int] = {}
    faults = []
    for arrow in sorted((arrow for arrow in drawing.arrows if arrow.line), key=lambda arrow: arrow.line):
        head = told.events[numbers[arrow.line]]
        pair = (head.sender, head.kernel)
        if arrow.tail < latest.get(pair, 0):
            faults.append(f"line {arrow.line}: an earlier packet of this pair was sent later")
        latest[pair] = arrow.tail
    return faults


def faults_of_counts(drawing: Drawing, told: Told) -> list[str]:
    """Each receive, match and take sends its packet once; nothing is under way at the end of a quiet run."""
    faults = []
    for step, packet in (("receive", "want"), ("match", "parcel"), ("take", "taken"), ("withdraw", "unwanted")):
        steps = sum(words[0] == step for event in told.events for words in event.steps)
        arrows = sum(arrow.words[0] == packet and arrow.manner == "sent" for arrow in drawing.arrows)
        if steps != arrows:
            faults.append(f"{steps} steps {step}, and {arrows} arrows {packet} that begin at one")
    rest = [arrow for arrow in drawing.arrows if not arrow.line]
    if (told.last == "open") != bool(rest) and told.last in ("open", "quiet"):
        faults.append(f"the run ends {told.last}, and {len(rest)} packets are drawn as never taken")
    return faults


def may_send(told: Told, number: int, words: list[str], manner: str) -> bool:
    """Whether this event can send such a packet so, by the rules of tails in docs/DRAWINGS.md."""
    tail = told.events[number]
    name, to = words[0], words[1]
    if manner == "forwarded":
        return name in ("want", "unwant", "gone", "moved") and tail.took(*words)
    if manner == "resent":
        return name in ("want", "unwant", "moved") and any(tail.took(cause, other(to)) for cause in LEARNING)
    return may_send_first(told, number, tail, words)


def may_send_first(told: Told, number: int, tail: Event, words: list[str]) -> bool:
    name, to, back = words[0], words[1], other(words[1])
    before = told.holders[number - 1] if number else {}
    match name:
        case "want":
            return tail.has("receive", back) and told.asked[number][back] == int(words[2])
        case "unwant":
            return tail.has("cancel", back, "in") and told.asked[number][back] == int(words[2])
        case "unwanted":
            return tail.took("unwant", back, words[2]) and tail.has("withdraw", to)
        case "parcel":
            return tail.has("match", back, words[2])
        case "taken":
            return tail.took("parcel", back, words[2]) and tail.has("take", to, words[2])
        case "back":
            return tail.took("parcel", back, words[2]) and not tail.has("take")
        case "gone":
            ended = told.holders[number].get(back) == "destroyed" and before.get(back) != "destroyed"
            return ended or tail.took("moved", back)
        case "moved":
            carried = any(word.startswith(f"+{back}:") for word in tail.words)
            return carried and (tail.took("parcel") or tail.took("back")) and told.holders[number][back].startswith("p")
        case "known":
            return tail.took("moved", back) and tail.words[3] == words[2]
        case "forget":
            noticed = tail.has("notice", to) or tail.has("back", to)
            return noticed or tail.took("known", to, words[2]) or tail.took("goneseen", to) or tail.took("gone", to)
        case "goneseen":
            return tail.took("gone", back) or tail.took("back", back)
    return False


def faults_of_holders(drawing: Drawing, told: Told, every_end: bool) -> list[str]:
    """In each row the column of each end has the colour of its holder, and a barred edge where it is dead."""
    columns = {end: box.x for end, _, box in drawing.holds}
    faults = []
    if len(set(columns.values())) != len(columns) or any(box.x != columns[end] for end, _, box in drawing.holds):
        faults.append("an end has not one column of its own")
    wanted = {end for holders in told.holders for end, holder in holders.items() if every_end or " " in holder}
    faults += [f"the end {end} has no column" for end in sorted(wanted - columns.keys())]
    # A row is a stamp, so it shows what holds after the last event of that stamp.
    last = {event.stamp: number for number, event in enumerate(told.events)}
    for stamp, event in {event.stamp: event for event in leading_events(drawing, told)}.items():
        faults += faults_of_row(drawing, told, last[stamp], drawing.cards[event.line].y + 3, columns.keys())
    return faults


def faults_of_row(drawing: Drawing, told: Told, number: int, y: float, columns: set[str]) -> list[str]:
    line, seen, faults = told.events[number].line, {}, []
    for end, holder, box in drawing.holds:
        if box.covers(y):
            faults += [f"line {line}: {end} has two holders"] if end in seen else []
            seen[end] = holder
            if box.fill != drawing.colours.get(holder, "url(#enclosed)"):
                faults.append(f"line {line}: {end} has not the colour of {holder}")
    wanted = {end: holder for end, holder in told.holders[number].items() if holder != "destroyed" and end in columns}
    faults += [f"line {line}: {end} is drawn with {seen.get(end)}, and held by {wanted.get(end)}"
               for end in sorted(seen.keys() | wanted.keys()) if seen.get(end) != wanted.get(end)]
    edges = {end for end, box in drawing.dead if box.covers(y)}
    if edges != {end for end in told.dead[number] if end in wanted}:
        faults.append(f"line {line}: the dead ends are drawn as {sorted(edges)}")
    return faults


def faults_of_texts(drawing: Drawing) -> list[str]:
    """No text lies on another, or goes over the edge of the drawing or of its card."""
    faults = []
    texts = sorted(drawing.texts, key=lambda one: one[1].y)
    tallest = max((box.height for _, box in texts), default=0)
    cards = list({id(card): card for card in drawing.cards.values()}.values())
    for number, (text, box) in enumerate(texts):
        if box.x < 0 or box.x + box.width > drawing.width or box.y + box.height > drawing.height:
            faults.append(f"`{text}` goes over the edge of the drawing")
        for other_text, other_box in texts[number + 1:]:
            if other_box.y > box.y + max(box.height, tallest):
                break
            if meet(box, other_box):
                faults.append(f"`{text}` lies on `{other_text}`")
        for card in cards:
            if meet(box, card) and box.x + box.width > card.x + card.width:
                faults.append(f"`{text}` goes over the edge of its card")
    return faults


# What the legend has to say of a drawing that has such a thing.
MEANINGS = {
    "a process calls its kernel": lambda drawing: drawing.root.findall(f".//{SVG}g[@class='card']"),
    "a call that is refused": lambda drawing: drawing.find("g", "card") and [one for one in drawing.find("g", "refusal") if one.get("data-line")],
    "a kernel takes a packet": lambda drawing: [one for one in drawing.find("g", "taking") if one.get("data-line")],
    "events that are alike": lambda drawing: drawing.find("g", "folded"),
    "the line that is wrong": lambda drawing: [one for one in drawing.find("g", "wrong") if one.get("data-line")],
    "packet about a receive": lambda drawing: [arrow for arrow in drawing.arrows if arrow.family == "ask"],
    "packet of a message": lambda drawing: [arrow for arrow in drawing.arrows if arrow.family == "message"],
    "packet about a move": lambda drawing: [arrow for arrow in drawing.arrows if arrow.family == "move"],
    "packet about a death": lambda drawing: [arrow for arrow in drawing.arrows if arrow.family == "death"],
    "forwarded, or sent again": lambda drawing: [arrow for arrow in drawing.arrows if arrow.manner != "sent"],
    "several packets": lambda drawing: [one for one in drawing.find("path", "bundle") if one.get("data-tail")],
    "message that carries ends": lambda drawing: [arrow for arrow in drawing.arrows if any(word[:1] == "+" for word in arrow.words)],
    "end of a process, in its colour": lambda drawing: drawing.holds,
    "end in a message": lambda drawing: [hold for hold in drawing.holds if " " in hold[1]],
    "its opposite end was destroyed": lambda drawing: drawing.dead,
}


def faults_of_looks(drawing: Drawing) -> list[str]:
    """The legend has all that means something, and nothing is told by its colour alone."""
    words = {text for text, _ in drawing.texts}
    faults = [f"the legend {'lacks' if is_there(drawing) else 'has'} `{meaning}`" for meaning, is_there in MEANINGS.items()
              if bool(is_there(drawing)) != (meaning in words)]
    if len(set(drawing.colours.values())) != len(drawing.colours):
        faults.append("two processes look alike")
    patterns = [drawing.shape(fill[5:-1]) for fill in drawing.colours.values() if fill.startswith("url(")]
    if len(set(patterns)) != len(patterns):
        faults.append("two patterns look alike")
    tips = [drawing.shape(f"to-{family}") for family in ("ask", "message", "move", "death")]
    if len({tip[0][1] for tip in tips}) != len(tips):
        faults.append("two heads of arrows have one shape")
    return faults + faults_of_pages(drawing) + faults_of_lines(drawing)


def faults_of_pages(drawing: Drawing) -> list[str]:
    """What has a colour on a light page has one on a dark page too; a title and a description say what happens."""
    light, _, dark = drawing.root.find(SVG + "style").text.partition("@media (prefers-color-scheme: dark)")
    coloured = [set(re.findall(r"^(.*?) \{ (?:fill|stroke): #", rules, re.MULTILINE)) for rules in (light, dark)]
    faults = [f"`{rule}` has one colour for both pages" for rule in sorted(coloured[0] ^ coloured[1])]
    for name in ("title", "desc"):
        told = drawing.root.find(SVG + name)
        if told is None or len((told.text or "").split()) < 4 or told.get("id") not in drawing.root.get("aria-labelledby").split(" "):
            faults.append(f"the {name} does not say what happens")
    return faults


def faults_of_lines(drawing: Drawing) -> list[str]:
    """Arrows stand above all boxes, and no two arcs of one kernel run along each other."""
    marks = [(one.get("class") or "").split(" ")[0] for one in drawing.root.iter() if one.get("data-line") or one.get("data-tail")]
    faults = ["a box hides an arrow"] if "packet" in marks and "card" in marks[marks.index("packet"):] else []
    arcs = {tuple(arrow.places): arrow for arrow in drawing.arrows if arrow.is_own}
    sides = sorted((places[2][0], places[0][1], places[-1][1]) for places in arcs)
    faults += [f"two arcs run along each other at {one[0]:g}" for one, two in zip(sides, sides[1:]) if one[0] == two[0] and one[2] > two[1]]
    return faults

"""The words of the boxes and columns of a drawing."""

from dataclasses import dataclass

from transcript import Entry

FAMILIES = {"want": "ask", "unwant": "ask", "unwanted": "ask", "parcel": "message", "taken": "message", "back": "message",
            "gone": "death", "goneseen": "death", "moved": "move", "known": "move", "forget": "move"}
# The service lines that say once more what a call says.
REPEATED = ("destroy ", "send ", "receive ", "cancel ", "wait ", "exit ")


@dataclass(slots=True)
class Line:
    """A line of a box, and its look."""
    text: str
    look: str


def short(what: str) -> str:
    """A packet without the fields that tell where its sender is; they stand in the tooltip of its box."""
    words = what.split(" ")
    match words[0]:
        case "want" | "unwant" | "unwanted" | "taken":
            return " ".join(words[:3])
        case "parcel":
            return " ".join(words[:3] + [words[6]] + [word.split(":")[0] for word in words[7:]])
        case "back":
            return " ".join(word.split(":")[0] for word in words)
        case "gone":
            return " ".join(words[:2])
        case "moved":
            return f"moved {words[1]} to k{words[2]}, hop {words[3]}"
        case "known" | "forget":
            return f"{words[0]} {words[1]} hop {words[2]}"
    return what


def shape_of(entry: Entry) -> str | None:
    """What events have in common that are alike but for the end; None for an event that says something to the links."""
    if entry.steps:
        return None
    if not entry.is_packet():
        return f"p{entry.process} {entry.what}"
    words = short(entry.what).split(" ")
    return " ".join([str(entry.sender), words[0]] + words[2:])


def cut(text: str, most: int) -> str:
    return text if len(text) <= most else text[:most - 1] + "…"


def wrapped(text: str, most: int) -> list[str]:
    """A text in lines of at most so many letters. A longer word is cut; it stands whole in the tooltip."""
    lines: list[str] = []
    for word in text.split(" "):
        word = cut(word, most - 2 if lines else most)
        if lines and len(lines[-1]) + 1 + len(word) <= most:
            lines[-1] += " " + word
        else:
            lines.append("  " + word if lines else word)
    return lines


def entry_text(entry: Entry) -> str:
    return short(entry.what) if entry.is_packet() else f"p{entry.process} {entry.what}"


def parts_of(entry: Entry) -> list[str]:
    """What the box of an event tells: the event, and those of its service lines that tell more than it does."""
    return [entry_text(entry)] + [step.text for step in entry.steps if entry.is_packet() or not step.text.startswith(REPEATED)]


def lines_of(entry: Entry, most: int) -> list[Line]:
    """What stands in the box of an event, in lines of at most so many letters."""
    event, *steps = parts_of(entry)
    lines = [Line(text, "") for text in wrapped(event, most)]
    for step in steps:
        look = "step wrongly" if step.startswith("refuse ") else "step"
        lines += [Line(text, look) for text in wrapped(step, most)]
    return lines


def lines_of_all(entries: list[Entry], unit: int, most: int) -> list[Line]:
    """What stands in the box of several events: each kind with its number, and then the ends in their order."""
    lines, times = [], len(entries) // unit
    for entry in entries[:unit]:
        words = entry_text(entry).split(" ")
        named = words[:1] + words[2:] if entry.is_packet() else words
        lines += [Line(text, "") for text in wrapped(f"{times} × {' '.join(named)}", most)]
    ends = [entry.what.split(" ")[1] for entry in entries if entry.is_packet()]
    several = list(dict.fromkeys(ends))
    return lines + [Line(text, "step") for text in wrapped(", ".join(several), most)[:4] if several]


def told_of(entry: Entry) -> str:
    """The lines of an event as they stand in the transcript."""
    actor = f"from {entry.sender}" if entry.is_packet() else f"p{entry.process}"
    return "\n".join([f"line {entry.line}: {entry.stamp} k{entry.kernel} {actor} {entry.what}"] + [f". {step.text}" for step in entry.steps])


def holder_label(holder: str) -> str:
    return f"in {holder}" if " " in holder else holder

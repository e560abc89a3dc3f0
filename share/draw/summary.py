"""What happens in a run, in a line and in sentences: its title and its description, for those who can not see the drawing too."""

from state import Change
from view import View

MOST_SENTENCES = 24
ENDINGS = {"quiet": "At the end no packet is under way.", "open": "At the end packets are under way that nobody took."}


def counted(number: int, what: str) -> str:
    return f"{number} {what}" + ("" if number == 1 else "s")


def heading(view: View) -> str:
    """The run in a line."""
    steps = [step.text.split(" ") for number in view.events for step in view.entry(number).steps]
    changes = [change for change in view.story.changes if change.event in view.events]
    moved = {change.end for change, before in zip(changes, holders_before(view, changes)) if is_move(change, before)}
    told = [
        (len(view.events), "event", f" at {counted(view.transcript.kernels, 'kernel')}"),
        (sum(words[0] == "take" for words in steps), "message", " taken"),
        (len(moved), "end", " moved"),
        (sum(change.holder == "destroyed" for change in changes), "end", " destroyed"),
        (sum(words[0] == "refuse" for words in steps), "call", " refused"),
    ]
    first, *others = [counted(number, what) + words for number, what, words in told if number or what == "event"]
    return ", ".join([first] + others) + rows_told(view)


def rows_told(view: View) -> str:
    if view.faults:
        return f", up to line {view.faults[0].line}"
    if len(view.events) < len(view.transcript.entries) or view.is_cut:
        stamps = [view.entry(number).stamp for number in view.events]
        return f" (stamps {stamps[0]} to {stamps[-1]} of the run)" if stamps else ""
    return ""


def holders_before(view: View, changes: list[Change]) -> list[str]:
    """The process that had each of these ends last; nothing for a new end."""
    owner: dict[str, str] = {}
    found = {}
    for change in view.story.changes:
        found[id(change)] = owner.get(change.end, "")
        if change.holder.startswith("p"):
            owner[change.end] = change.holder
    return [found[id(change)] for change in changes]


def is_move(change: Change, before: str) -> bool:
    return change.holder.startswith("p") and before not in ("", change.holder)


def story_told(view: View) -> str:
    """The run in sentences."""
    told: dict[int, list[str]] = {number: [] for number in view.events}
    for number in view.events:
        told[number] += [sentence for step in view.entry(number).steps if (sentence := step_told(step.text.split(" ")))]
    changes = [change for change in view.story.changes if change.event in view.events]
    for change, before in zip(changes, holders_before(view, changes)):
        if is_move(change, before):
            told[change.event].append(f"{change.end} moves from {before} to {change.holder}")
        elif change.holder == "destroyed":
            told[change.event].append(f"{change.end} is destroyed")
    sentences = [f"Stamp {view.entry(number).stamp}: {', '.join(said)}." for number, said in told.items() if said]
    more = len(sentences) - MOST_SENTENCES
    return " ".join(sentences[:MOST_SENTENCES] + ([f"And {counted(more, 'more event')}."] if more > 0 else []) + ending_told(view))


def step_told(words: list[str]) -> str | None:
    match words:
        case ["take", end, number, process, *_]:
            return f"{process} takes message {number} of {end}"
        case ["refuse", process, cause]:
            return f"a call of {process} is refused, {cause}"
        case ["notice", end, *_]:
            return f"the death of the link of {end} is noticed"
        case ["back", end, number, *_]:
            return f"message {number} of {end} comes back"
    return None


def ending_told(view: View) -> list[str]:
    if view.faults:
        return [f"Line {fault.line} is wrong: {fault.why}." for fault in view.faults]
    if view.is_cut:
        return ["The run goes on."]
    last = view.transcript.last
    return [ENDINGS.get(last, f"The kernel {last.split(' ')[-1]} used its turns up.")]

"""What the page holds of a run: its lines, and what changes at each event. The page looks things up in it, and works nothing of the run out again."""

from followed import Followed
from looks import fill_of, ink_on
from state import Arrow
from summary import heading
from texts import FAMILIES, parts_of, short
from transcript import Entry
from view import View
from waits import Turn


def record_of(run: Followed, name: str) -> dict:
    """Events have numbers from 0 on; at the start, the event is -1. Lists of one length belong together, item by item."""
    view, waits = run.view, run.waits
    transcript, processes = view.transcript, range(len(view.transcript.homes))
    place = {end: number for number, end in enumerate(view.ends)}
    entries = [view.entry(number) for number in view.events]
    changes = [change for change in view.story.changes if change.event < view.events.stop]
    return {
        "name": name,
        "heading": heading(view),
        "kernels": transcript.kernels,
        "homes": transcript.homes,
        "wires": transcript.wires,
        "fills": [fill_of(process) for process in processes],
        "inks": [ink_on(process) for process in processes],
        "families": FAMILIES,
        "first": entries[0].line if entries else len(transcript.homes) + len(transcript.wires) + 3,
        "lines": "\n".join(line for entry in entries for line in lines_of(entry)),
        "boxes": ["\n".join(parts_of(entry)) for entry in entries],
        **packets_of(view, len(entries)),
        "ends": view.ends,
        "holds": {"at": [change.event for change in changes], "who": [place[change.end] for change in changes],
                  "is": [change.holder for change in changes]},
        "doings": turns_of(waits.ends, view.events.stop, place),
        "phases": turns_of(waits.processes, view.events.stop),
        "last": "" if view.faults else transcript.last,
        "notes": [] if view.faults else transcript.notes,
        "wrong": [{"line": fault.line, "texts": fault.texts, "why": fault.why, "sentence": fault.sentence} for fault in view.faults],
    }


def lines_of(entry: Entry) -> list[str]:
    """The lines of an event as they stand in the transcript."""
    actor = f"from {entry.sender}" if entry.is_packet() else f"p{entry.process}"
    return [f"{entry.stamp} k{entry.kernel} {actor} {entry.what}"] + [f". {step.text}" for step in entry.steps]


def packets_of(view: View, count: int) -> dict:
    """Of each event that takes a packet the event that sent it, and a letter for the manner; and the packets that nobody took."""
    tails, manners, rest = [-1] * count, [" "] * count, []
    for arrow in view.story.arrows:
        if arrow.head is None or arrow.head >= count:
            rest.append(rest_of(arrow))
        else:
            tails[arrow.head] = arrow.tail
            manners[arrow.head] = arrow.manner[0]
    return {"tails": tails, "manners": "".join(manners), "rest": rest}


def rest_of(arrow: Arrow) -> dict:
    return {"tail": arrow.tail, "from": arrow.sender, "to": arrow.target, "manner": arrow.manner[0], "text": arrow.text, "short": short(arrow.text)}


def turns_of(turns: list[Turn], stop: int, place: dict[str, int] | None = None) -> dict:
    """The turns before the event `stop`: of processes, or of ends by their places."""
    found = [turn for turn in turns if turn.event < stop]
    return {"at": [turn.event for turn in found], "who": [place[turn.who] if place else turn.who for turn in found], "is": [turn.state for turn in found]}

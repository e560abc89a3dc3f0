"""A run in the Trace Event Format, in JSON. Each kernel is a process of the trace, with a track for the packets that it takes and one for each process of
the run that has its home there. A last process has a track for each end: who holds it. A stamp is ten microseconds, and an event takes eight of them."""

import json

from texts import FAMILIES, holder_label, parts_of
from view import View

STAMP, LONG = 10, 8
FAMILY_WORDS = {"ask": "receive", "message": "message", "move": "move", "death": "death"}
# The numbers of the tracks of processes begin here, and of those of ends. That of a kernel's packets has the number of the kernel's process.
PROCESSES, ENDS = 100, 1_000


def trace_of(view: View, name: str) -> str:
    rows = [*names_of(view), *events_of(view), *packets_of(view), *holds_of(view)]
    told = {"name": name, "lines": "`line` is the line of the transcript; one stamp is ten microseconds"}
    body = ",\n".join(json.dumps(row, separators=(",", ":")) for row in rows)
    return f'{{"displayTimeUnit":"ns","otherData":{json.dumps(told)},"traceEvents":[\n{body}\n]}}\n'


# ---- names


def kernel_pid(kernel: int) -> int:
    return kernel + 1


def ends_pid(view: View) -> int:
    return view.transcript.kernels + 1


def names_of(view: View) -> list[dict]:
    transcript, found = view.transcript, []
    for kernel in range(transcript.kernels):
        found += named("process", kernel_pid(kernel), kernel_pid(kernel), f"kernel {kernel}", kernel)
        found += named("thread", kernel_pid(kernel), kernel_pid(kernel), "packets", 0)
    for process, home in enumerate(transcript.homes):
        found += named("thread", kernel_pid(home), PROCESSES + process, f"p{process}", process + 1)
    found += named("process", ends_pid(view), ends_pid(view), "who holds each end", transcript.kernels)
    for place, end in enumerate(view.ends):
        found += named("thread", ends_pid(view), ENDS + place, end, place)
    return found


def named(what: str, pid: int, tid: int, name: str, place: int) -> list[dict]:
    """The name of a process or a track, and its place among the others."""
    return [{"ph": "M", "name": f"{what}_name", "pid": pid, "tid": tid, "args": {"name": name}},
            {"ph": "M", "name": f"{what}_sort_index", "pid": pid, "tid": tid, "args": {"sort_index": place}}]


# ---- events and packets


def track_of(view: View, number: int) -> dict:
    entry = view.entry(number)
    return {"pid": kernel_pid(entry.kernel), "tid": kernel_pid(entry.kernel) if entry.is_packet() else PROCESSES + entry.process}


def time_of(view: View, number: int) -> int:
    return view.entry(number).stamp * STAMP if number >= 0 else 0


def events_of(view: View) -> list[dict]:
    found, untaken = [], untaken_of(view)
    for number in view.events:
        entry = view.entry(number)
        event, *steps = parts_of(entry)
        args = {"line": entry.line, "stamp": entry.stamp, "text": entry.what}
        args |= {"from": f"kernel {entry.sender}"} if entry.is_packet() else {}
        args |= {"steps": "; ".join(steps)} if steps else {}
        args |= {"never taken": "; ".join(untaken[number])} if number in untaken else {}
        kind = FAMILY_WORDS[FAMILIES[entry.what.split(" ")[0]]] if entry.is_packet() else "call"
        found.append({"ph": "X", "name": event, "cat": kind, **track_of(view, number), "ts": time_of(view, number), "dur": LONG, "args": args})
    return found


def untaken_of(view: View) -> dict[int, list[str]]:
    """The packets that nobody took, by the events that sent them: a flow that leads nowhere has no form."""
    found: dict[int, list[str]] = {}
    for arrow in view.arrows():
        if arrow.head is None:
            found.setdefault(arrow.tail, []).append(f"{arrow.text} to kernel {arrow.target}")
    return found


def packets_of(view: View) -> list[dict]:
    """Each packet as a flow, from the slice of the event that sent it to that of the event that took it."""
    found, taken = [], [arrow for arrow in view.arrows() if arrow.head is not None]
    for number, arrow in enumerate(taken, 1):
        word = arrow.text.split(" ")[0]
        flow = {"name": f"{word} ({arrow.manner})", "cat": FAMILY_WORDS[FAMILIES[word]], "id": number}
        found.append({"ph": "s", **flow, **track_of(view, arrow.tail), "ts": time_of(view, arrow.tail)})
        found.append({"ph": "f", "bp": "e", **flow, **track_of(view, arrow.head), "ts": time_of(view, arrow.head)})
    return found


# ---- who holds each end


def holds_of(view: View) -> list[dict]:
    """Spans on the track of each end, one after the other. What holds for no time, since the same stamp changes it again, is left out."""
    tracks = {end: ENDS + place for place, end in enumerate(view.ends)}
    stop = (max((view.entry(number).stamp for number in view.events), default=0) + 1) * STAMP
    since: dict[str, tuple[str, int]] = {}
    found = []
    for change in view.story.changes:
        if change.holder == "dead":
            found.append(death_of(view, change, tracks[change.end]))
            continue
        if change.end in since:
            found += span_of(view, change.end, since.pop(change.end), time_of(view, change.event), tracks)
        if change.holder != "destroyed":
            since[change.end] = (change.holder, change.event)
    for end, hold in since.items():
        found += span_of(view, end, hold, stop, tracks)
    return found


def span_of(view: View, end: str, hold: tuple[str, int], stop: int, tracks: dict[str, int]) -> list[dict]:
    holder, event = hold
    start = time_of(view, event)
    if start == stop:
        return []
    args = {"end": end, "line": view.entry(event).line} if event >= 0 else {"end": end, "line": "from the start"}
    track = {"pid": ends_pid(view), "tid": tracks[end]}
    return [{"ph": "X", "name": holder_label(holder), "cat": "hold", **track, "ts": start, "dur": stop - start, "args": args}]


def death_of(view: View, change, track: int) -> dict:
    """That the kernel of an end learnt of the death of the opposite one, as an instant."""
    args = {"end": change.end, "line": view.entry(change.event).line}
    told = {"ph": "i", "s": "t", "name": "opposite destroyed", "cat": "death"}
    return told | {"pid": ends_pid(view), "tid": track, "ts": time_of(view, change.event), "args": args}

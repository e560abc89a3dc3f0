"""What is wrong with a line, in sentences for those who see beside it what was expected in its place: `lynx why` tells them."""

from __future__ import annotations

from typing import TYPE_CHECKING

from transcript import Entry, there_is_no

if TYPE_CHECKING:
    from run import World

# What docs/TRANSCRIPT.md calls the fields of packets.
FIELDS = {
    "want": ("END", "W", "AT", "HOPS"), "unwant": ("END", "W", "AT", "HOPS"), "unwanted": ("END", "W", "AT", "HOPS"),
    "parcel": ("END", "N", "W", "AT", "HOPS", "TEXT"), "taken": ("END", "N", "AT", "HOPS"), "back": ("END", "N"), "gone": ("END", "AT"),
    "moved": ("END", "AT", "HOPS"), "known": ("END", "HOPS"), "forget": ("END", "HOPS"), "goneseen": ("END",),
}
# Why calls are refused (docs/words/causes.md). An activity is a send or a receive.
CAUSES = {
    "NoEnd": "process {process} does not own {end}",
    "Busy": "{end} has a {activity} that was not reported yet",
    "Dead": "the opposite end of {end} was destroyed, and kernel {kernel} knows",
    "EncloseNoEnd": "process {process} does not own each end that the message is to carry",
    "EncloseBusy": "an end that the message is to carry has a send or a receive of its own",
    "EncloseSame": "the message is to carry an end of the link on which it goes",
    "EncloseTwice": "the message is to carry one end twice",
    "Late": "the {activity} on {end} can not be cancelled any more",
    "NoActivity": "no {activity} on {end} is there to be cancelled",
    "LinksFull": "kernel {kernel} has made as many links as it can",
}


def wrong_entry(world: World, entry: Entry) -> str:
    """Why this event can not come next, or not with this stamp."""
    return no_such_place(world, entry) or no_such_event(world, entry) or other_stamp(world, entry)


def no_such_place(world: World, entry: Entry) -> str:
    for kernel in (entry.kernel, entry.sender or 0):
        if kernel >= world.kernels:
            return there_is_no("kernel", kernel, world.kernels)
    if entry.is_packet():
        return ""
    if entry.process >= len(world.homes):
        return there_is_no("process", entry.process, len(world.homes))
    home = world.homes[entry.process]
    return "" if home == entry.kernel else f"Process {entry.process} is at home on kernel {home}, and this line is of kernel {entry.kernel}."


def no_such_event(world: World, entry: Entry) -> str:
    if entry.is_packet():
        waiting = world.lists[entry.sender, entry.kernel]
        return other_packet(world, entry, [packet.text for packet in waiting]) if waiting else no_packet(world, entry)
    process = world.processes[entry.process]
    return "" if process.runs() else no_call(world, entry.process)


def no_call(world: World, process: int) -> str:
    """Of a process that has exited, or waits."""
    called = next(before.line for before in reversed(world.entries[: world.story.happened]) if before.process == process)
    if world.processes[process].exited:
        return f"Process {process} exited in line {called}, and makes no call after that."
    return f"Process {process} waits for the answer to its call in line {called}, and makes no other call before."


def other_stamp(world: World, entry: Entry) -> str:
    """Of an event that can happen, but not with this stamp, or not any more."""
    packet = world.lists[entry.sender, entry.kernel][0] if entry.is_packet() else None
    last, sent = world.stamps[entry.kernel], world.stamp_of[packet.tail] if packet else 0
    due = max(last, sent) + 1
    if (due, entry.kernel) <= world.latest:
        return no_place(world, due)
    if sent > last:
        return f"The packet was sent in line {world.entries[packet.tail].line}, at stamp {sent}, and its taking has a stamp that is one more."
    if last:
        return f"The event before at kernel {entry.kernel} has stamp {last}, and the next one a stamp that is one more."
    return f"Kernel {entry.kernel} had no event so far, and the first one has stamp 1."


def no_place(world: World, due: int) -> str:
    """Of an event that comes before the last one, by its stamp and its kernel."""
    line = world.entries[world.story.happened - 1].line
    stamp = world.latest[0]
    if due < stamp:
        return f"The stamp of this event is {due}, so it comes before the event of line {line}, which has stamp {stamp}."
    return f"The stamp of this event is {due}, as that of line {line}, and such events come in the order of their kernels."


# ---- packets


def no_packet(world: World, entry: Entry) -> str:
    taken = taken_in(world, entry)
    behind = f": this one was taken in line {taken}" if taken else ""
    return f"No packet is under way from kernel {entry.sender} to kernel {entry.kernel}{behind}."


def taken_in(world: World, entry: Entry) -> int:
    """The last line in which a packet like this one was taken; 0 where none was."""
    for arrow in reversed(world.story.arrows):
        if (arrow.sender, arrow.target, arrow.text) == (entry.sender, entry.kernel, entry.what):
            return world.entries[arrow.head].line
    return 0


def other_packet(world: World, entry: Entry, texts: list[str]) -> str:
    """Of a packet that is not the first one under way between its kernels; nothing of one that is."""
    if texts[0] == entry.what:
        return ""
    if entry.what in texts:
        return f"Another packet from kernel {entry.sender} to kernel {entry.kernel} was sent before this one, and comes first."
    taken = taken_in(world, entry)
    return f"This packet was taken in line {taken} already." if taken else differing(entry, texts[0])


def differing(entry: Entry, first: str) -> str:
    """Of a packet that nobody sent: how it differs from the first that is under way."""
    named, wanted = entry.what.split(" "), first.split(" ")
    if named[0] != wanted[0]:
        return f"The first packet under way from kernel {entry.sender} to kernel {entry.kernel} is a `{wanted[0]}`, and no `{named[0]}`."
    fields = FIELDS[named[0]]
    pairs = [pair for pair in zip(fields, wanted[1:], named[1:]) if pair[1] != pair[2]]
    wrong = ["another TEXT" if field == "TEXT" else f"{field} {one} and not {other}" for field, one, other in pairs]
    if named[1 + len(fields) :] != wanted[1 + len(fields) :]:
        wrong.append("other values of ends")
    return f"The `{named[0]}` that is under way has {', '.join(wrong)}."


# ---- service lines


def other_step(entry: Entry, printed: str, wanted: list[str], place: int) -> str:
    """Of a service line where that of the number `place` is due."""
    due = wanted[place]
    if printed in wanted[place + 1 :]:
        return "Another service line of this event comes before this one."
    if printed in wanted[:place]:
        return "This service line is above already."
    named, words = printed.split(" "), due.split(" ")
    if words[0] == "refuse" and words[-1] != named[-1]:
        other = " by another cause" if named[0] == "refuse" else ""
        return f"The call is refused{other}: {cause_of(entry, due)}."
    if named[0] == "refuse" and words[0] != "refuse":
        return "The call is allowed here."
    return other_words(named, words)


def cause_of(entry: Entry, due: str) -> str:
    words = entry.what.split(" ")
    if words[0] == "wait":
        return f"process {entry.process} has no report, and nothing started that would give one"
    activity = {"out": "send", "in": "receive"}[words[2]] if words[0] == "cancel" else words[0]
    return CAUSES[due.split(" ")[2]].format(process=entry.process, kernel=entry.kernel, end=words[1] if words[1:] else "", activity=activity)


def other_words(printed: list[str], due: list[str]) -> str:
    if printed[0] != due[0]:
        return f"The step that is due here is a `{due[0]}`, and no `{printed[0]}`."
    wrong = [f"`{other}` has to be `{one}`" for one, other in zip(due, printed) if one != other]
    if len(printed) < len(due):
        wrong.append(f"`{' '.join(due[len(printed):])}` is missing")
    if len(printed) > len(due):
        wrong.append(f"`{' '.join(printed[len(due):])}` is too much")
    return f"Here {' and '.join(wrong)}."


def too_many_steps(entry: Entry, printed: str, wanted: list[str]) -> str:
    if printed in wanted:
        return "This service line is above already."
    return f"The event of line {entry.line} has no {'further ' if wanted else ''}step."


def missing_step(entry: Entry, due: str) -> str:
    if due.startswith("refuse "):
        return f"The call in line {entry.line} is refused, and the line that tells so is missing: {cause_of(entry, due)}."
    return f"A service line of the event of line {entry.line} is missing before this one."


# ---- the last line


def not_quiet(packets: int) -> str:
    return f"`quiet` says that no packet is under way, and {'one is' if packets == 1 else f'{packets} are'}."


NOT_OPEN = "`open` says that a packet is under way, and none is."

"""A run in the default form of ShiViz: two lines an event, the first with its host and its clock, the second with its text. A host is a kernel. The
clock of an event has of each host how many of its events are among the causes of this one, itself included; a host with none is left out."""

import json

from texts import parts_of
from view import View


def shiviz_of(view: View, name: str) -> str:
    return "".join(f"{host(view.entry(number).kernel)} {json.dumps(clock)}\n{text_of(view, number)}\n"
                   for number, clock in enumerate(clocks_of(view)))


def host(kernel: int) -> str:
    return f"kernel{kernel}"


def clocks_of(view: View) -> list[dict[str, int]]:
    """The clock of each event: that of the event before it at its kernel, joined with that of the sender of its packet, and one more of its own."""
    tail_of = {arrow.head: arrow.tail for arrow in view.story.arrows if arrow.head is not None}
    last: list[dict[str, int]] = [{} for _ in range(view.transcript.kernels)]
    clocks: list[dict[str, int]] = []
    for number in view.events:
        kernel = view.entry(number).kernel
        clock = dict(last[kernel])
        for other, events in clocks[tail_of[number]].items() if number in tail_of else ():
            clock[other] = max(clock.get(other, 0), events)
        clock[host(kernel)] = clock.get(host(kernel), 0) + 1
        last[kernel] = clock
        clocks.append(clock)
    return clocks


def text_of(view: View, number: int) -> str:
    entry = view.entry(number)
    taken = f" from kernel {entry.sender}" if entry.is_packet() else ""
    event, *steps = parts_of(entry)
    return "; ".join([f"{event}{taken}", *steps, f"line {entry.line}"])

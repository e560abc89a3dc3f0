"""Chooses what of a run is drawn."""

import os
import sys

from state import Story
from transcript import Refused, Transcript
from view import Fault, View, all_ends, alone, changing_ends, folded
from words import Wish


class NoEnd(Exception):
    """The run has no end of this name."""


class NoRow(Exception):
    """No event has a stamp that was asked for."""


def view_of(wish: Wish, transcript: Transcript, story: Story, data: bytes) -> View:
    events = events_from(transcript, story, wish.first)
    faults = faults_shown(transcript, story, data)
    if (wish.first or wish.last is not None) and not events and not faults:
        raise NoRow
    there = all_ends(story, events)
    groups = alone(events) if wish.all else folded(transcript, story, events)
    ends = chosen_ends(wish, there, changing_ends(story, events))
    left_out = 0 if wish.ends is not None else len(there) - len(ends)
    return View(transcript, story, events, ends, left_out, groups, transcript.is_cut, faults)


def events_from(transcript: Transcript, story: Story, first: int) -> range:
    """The events that happened, from the first one with such a stamp on."""
    start = next((number for number in range(story.happened) if transcript.entries[number].stamp >= first), story.happened)
    return range(start, story.happened)


def chosen_ends(wish: Wish, there: list[str], changing: list[str]) -> list[str]:
    if wish.ends is None:
        return there if wish.all else changing
    for end in wish.ends:
        if end not in there:
            raise NoEnd(end)
    return wish.ends


def faults_shown(transcript: Transcript, story: Story, data: bytes) -> list[Fault]:
    """The first line that can't be where the events are followed, with its event above it, and the first that no transcript has there."""
    lines, read, followed = data.decode("latin-1").split("\n"), transcript.fault, story.fault
    found = []
    event = transcript.entries[story.happened].line if story.happened < len(transcript.entries) else None
    if followed and not (read and read.line <= followed.line):
        found.append((followed, event))
        event = None
    if read:
        found.append((read, event))
    return [Fault(refused.line, [told_line(lines, line) for line in range(min(above or refused.line, refused.line), refused.line + 1)], refused.why,
                  other_sentence(data, transcript, refused))
            for refused, above in found]


def other_sentence(data: bytes, transcript: Transcript, refused: Refused) -> str:
    """What `why` says of the line, where that is not what the refusal says."""
    why = f"{os.path.dirname(os.path.dirname(os.path.abspath(__file__)))}/why"
    if why not in sys.path:
        sys.path.append(why)
    from line import fault_sentence

    sentence = fault_sentence(data, transcript, refused)
    return "" if sentence.rstrip(".").lower() == refused.why.lower() else sentence


def told_line(lines: list[str], number: int) -> str:
    text = lines[number - 1] if number <= len(lines) else ""
    return f"line {number}: {''.join(letter if letter.isprintable() else '·' for letter in text)}" if text else f"line {number}"

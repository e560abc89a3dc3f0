"""A whole run, read and followed once, for the commands that show all of it."""

from dataclasses import dataclass

from choice import faults_shown
from outside import DONE, REFUSED, TOO_BIG, Stopped, read_file
from run import follow
from transcript import TooMany, read
from view import View, all_ends, alone
from waits import Waits

# A browser shows no page that is much higher, and a viewer opens no longer file at once.
MOST_FOLLOWED = 250_000


@dataclass(frozen=True, slots=True)
class Followed:
    """The run, what processes wait for in it, and how a command about it ends: with this line on standard error, and this status."""
    view: View
    waits: Waits
    text: str
    status: int


def followed(name: str, too_many: str) -> Followed:
    """The run of the file. Where the text is wrong, it is what stands before, if there is a header."""
    data = read_file(name)
    try:
        transcript = read(data, most=MOST_FOLLOWED)
    except TooMany:
        raise Stopped(TOO_BIG, f"lynx: {name}: too big: {too_many}") from None
    waits = Waits()
    story = follow(transcript, waits)
    fault = transcript.fault or story.fault
    text = f"{name}:{fault.line}: transcript: {fault.why}" if fault else ""
    if fault and not transcript.is_headed:
        raise Stopped(REFUSED, text)
    events = range(story.happened)
    faults = faults_shown(transcript, story, data) if fault else []
    view = View(transcript, story, events, all_ends(story, events), 0, alone(events), False, faults)
    return Followed(view, waits, text, REFUSED if fault else DONE)

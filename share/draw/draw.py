#!/usr/bin/env python3
"""lynx draw TRANSCRIPT ..: puts a drawing of a run, an SVG, on standard output. docs/DRAWINGS.md tells how to read it."""

import sys

sys.dont_write_bytecode = True
if sys.version_info < (3, 10):
    if sys.stderr:
        print("lynx: draw needs Python 3.10 or later", file=sys.stderr)
    # as where there is no Python
    sys.exit(69)

from choice import NoEnd, NoRow, view_of  # noqa: E402
from drawing import Drawing  # noqa: E402
from outside import DONE, REFUSED, TOO_BIG, USAGE, Answer, NoWords, Stopped, end_with, read_file, title_of  # noqa: E402
from run import follow  # noqa: E402
from transcript import MOST_EVENTS, TooMany, read  # noqa: E402
from words import FORM, Wish, wish_of  # noqa: E402

MOST_ENDS = 200


def drawn(wish: Wish) -> Answer:
    """The drawing of the file. Where the text is wrong, it is drawn up to there, if it has a header."""
    name, data = wish.name, read_file(wish.name)
    try:
        transcript = read(data, wish.first, wish.last)
    except TooMany:
        most = f"more than {MOST_EVENTS} events, the most that are drawn; --from and --to choose"
        raise Stopped(TOO_BIG, f"lynx: {name}: too big: {most}") from None
    story = follow(transcript)
    fault = transcript.fault or story.fault
    text = f"{name}:{fault.line}: transcript: {fault.why}" if fault else ""
    if fault and not transcript.is_headed:
        raise Stopped(REFUSED, text)
    view = viewed(wish, transcript, story, data)
    return Answer(Drawing(view, title_of(name)).draw(), text, REFUSED if fault else DONE)


def viewed(wish: Wish, transcript, story, data: bytes):
    try:
        view = view_of(wish, transcript, story, data)
    except NoEnd as none:
        raise Stopped(USAGE, f"lynx: {wish.name}: no end {none}") from None
    except NoRow:
        raise Stopped(USAGE, f"lynx: {wish.name}: no event has such a stamp") from None
    if len(view.ends) > MOST_ENDS:
        most = f"{len(view.ends)} ends, and a drawing has at most {MOST_ENDS}; --ends chooses"
        raise Stopped(TOO_BIG, f"lynx: {wish.name}: too big: {most}")
    return view


def answer_to(words: list[str]) -> Answer:
    try:
        return drawn(wish_of(words))
    except NoWords as fault:
        return Answer("", f"lynx: usage\nlynx: draw: {fault}\n  {FORM} > DRAWING.svg", USAGE)
    except Stopped as stopped:
        return Answer("", stopped.text, stopped.status)


if __name__ == "__main__":
    end_with(answer_to)

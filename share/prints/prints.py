#!/usr/bin/env python3
"""lynx prints TRANSCRIPT: puts what each process printed on standard output, a line for each Print, in the order of the transcript: the process, and
behind a blank its text."""

import os
import re
import sys

sys.dont_write_bytecode = True
if sys.version_info < (3, 10):
    if sys.stderr:
        print("lynx: prints needs Python 3.10 or later", file=sys.stderr)
    # as where there is no Python
    sys.exit(69)

sys.path.insert(1, os.path.join(os.path.dirname(os.path.dirname(os.path.abspath(__file__))), "draw"))

from outside import REFUSED, USAGE, Answer, NoWords, Stopped, end_with, name_of_file, read_file, shown  # noqa: E402
from transcript import ESCAPE, Entry, read  # noqa: E402

FORM = "lynx prints TRANSCRIPT"
# So many events are read at most: as many as a transcript can have lines.
MOST = 67_108_864
CALLED = "print "


def letter(spelled: re.Match) -> str:
    """The byte that is spelled, where it can be shown, from the blank to the tilde; else its spelling."""
    byte = int(spelled[1], 16)
    return chr(byte) if 32 <= byte <= 126 else spelled[0]


def spoken(text: str) -> str:
    """The text that a TEXT of a transcript spells."""
    return "" if text == "-" else ESCAPE.sub(letter, text)


def printed(entry: Entry) -> str:
    return f"p{entry.process} {spoken(entry.what[len(CALLED):])}\n"


def prints_of(name: str) -> Answer:
    """What stands before a wrong line is printed."""
    transcript = read(read_file(name), most=MOST)
    out = "".join(printed(entry) for entry in transcript.entries if not entry.is_packet() and entry.what.startswith(CALLED))
    if transcript.fault:
        return Answer(out, f"{name}:{transcript.fault.line}: no\nlynx: prints: {transcript.fault.why}", REFUSED)
    return Answer(out, "", 0)


def answer_to(words: list[str]) -> Answer:
    try:
        if len(words) != 1:
            raise NoWords(f"`{shown(words[1])}` is a word too many" if words else "the name of a file is missing")
        return prints_of(name_of_file(words[0]))
    except NoWords as fault:
        return Answer("", f"lynx: usage\nlynx: prints: {fault}\n  {FORM}", USAGE)
    except Stopped as stopped:
        return Answer("", stopped.text, stopped.status)


if __name__ == "__main__":
    end_with(answer_to)

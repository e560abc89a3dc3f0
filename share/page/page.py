#!/usr/bin/env python3
"""lynx page TRANSCRIPT: puts a page to look at a run, an HTML file, on standard output. docs/PICTURES.md tells what can be done with one."""

import os
import sys

sys.dont_write_bytecode = True
if sys.version_info < (3, 10):
    if sys.stderr:
        print("lynx: page needs Python 3.10 or later", file=sys.stderr)
    # as where there is no Python
    sys.exit(69)

sys.path.insert(1, os.path.join(os.path.dirname(os.path.dirname(os.path.abspath(__file__))), "draw"))

from followed import MOST_FOLLOWED, followed  # noqa: E402
from outside import USAGE, Answer, NoWords, Stopped, end_with, name_of_file, shown, title_of  # noqa: E402
from record import record_of  # noqa: E402
from sheet import sheet_of  # noqa: E402

FORM = "lynx page TRANSCRIPT"


def name_in(words: list[str]) -> str:
    if not words:
        raise NoWords("the name of a file is missing")
    name = name_of_file(words[0])
    if len(words) > 1:
        raise NoWords(f"`{shown(words[1])}` is a word too many")
    return name


def paged(name: str) -> Answer:
    """The page of the file. Where the text is wrong, it is of what stands before, if there is a header."""
    run = followed(name, f"more than {MOST_FOLLOWED:,} events, the most that a page has")
    return Answer(sheet_of(record_of(run, title_of(name)), run.view), run.text, run.status)


def answer_to(words: list[str]) -> Answer:
    try:
        return paged(name_in(words))
    except NoWords as fault:
        return Answer("", f"lynx: usage\nlynx: page: {fault}\n  {FORM} > PAGE.html", USAGE)
    except Stopped as stopped:
        return Answer("", stopped.text, stopped.status)


if __name__ == "__main__":
    end_with(answer_to)

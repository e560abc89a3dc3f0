#!/usr/bin/env python3
"""lynx export --trace-events TRANSCRIPT, lynx export --shiviz TRANSCRIPT: puts a run on standard output in the form of other people's viewers.
docs/PICTURES.md tells which open it."""

import os
import sys

sys.dont_write_bytecode = True
if sys.version_info < (3, 10):
    if sys.stderr:
        print("lynx: export needs Python 3.10 or later", file=sys.stderr)
    # as where there is no Python
    sys.exit(69)

sys.path.insert(1, os.path.join(os.path.dirname(os.path.dirname(os.path.abspath(__file__))), "draw"))

from followed import MOST_FOLLOWED, followed  # noqa: E402
from outside import USAGE, Answer, NoWords, Stopped, end_with, name_of_file, shown, title_of  # noqa: E402
from shiviz import shiviz_of  # noqa: E402
from trace_events import trace_of  # noqa: E402

FORMS = {"--trace-events": trace_of, "--shiviz": shiviz_of}
FORM = "lynx export --trace-events TRANSCRIPT > RUN.json\n  lynx export --shiviz TRANSCRIPT > RUN.log"


def wish_of(words: list[str]) -> tuple[str, str]:
    """The form and the name of the file that the words have, in either order."""
    form, name = "", ""
    for word in words:
        if word.startswith("--"):
            if word not in FORMS:
                raise NoWords(f"there is no form `{shown(word)}`")
            if form:
                raise NoWords(f"`{word}` is a form too many")
            form = word
        elif name:
            raise NoWords(f"`{shown(word)}` is a word too many")
        else:
            name = name_of_file(word)
    if not form:
        raise NoWords("the form is missing: --trace-events or --shiviz")
    if not name:
        raise NoWords("the name of a file is missing")
    return form, name


def exported(form: str, name: str) -> Answer:
    """The run of the file in this form. Where the text is wrong, it is what stands before, if there is a header."""
    run = followed(name, f"more than {MOST_FOLLOWED:,} events, the most that are exported")
    return Answer(FORMS[form](run.view, title_of(name)), run.text, run.status)


def answer_to(words: list[str]) -> Answer:
    try:
        return exported(*wish_of(words))
    except NoWords as fault:
        return Answer("", f"lynx: usage\nlynx: export: {fault}\n  {FORM}", USAGE)
    except Stopped as stopped:
        return Answer("", stopped.text, stopped.status)


if __name__ == "__main__":
    end_with(answer_to)

#!/usr/bin/env python3
"""lynx history TRANSCRIPT: puts the run of a transcript on standard output as a history, of which `lynx service` tells whether it is one lawful run of the
link service. docs/HISTORIES.md tells what a history is."""

import os
import re
import sys

sys.dont_write_bytecode = True
if sys.version_info < (3, 10):
    if sys.stderr:
        print("lynx: history needs Python 3.10 or later", file=sys.stderr)
    # as where there is no Python
    sys.exit(69)

sys.path.insert(1, os.path.join(os.path.dirname(os.path.dirname(os.path.abspath(__file__))), "draw"))

from outside import REFUSED, USAGE, Answer, NoWords, Stopped, end_with, name_of_file, read_file, shown  # noqa: E402
from transcript import Entry, Transcript, read  # noqa: E402

FORM = "lynx history TRANSCRIPT > RUN.history"
# So many events are turned at most: as many as a transcript can have lines.
MOST = 67_108_864
END = re.compile(r"(\d+)\.(\d+)([ab])")
# The steps whose line in a transcript does not say which process acted: it stands in the entry above.
OF_THE_CALLER = ("make", "destroy", "send", "receive", "cancel")
OF_A_PROCESS = ("refuse", "wait", "report", "exit")


def process(number: int | str) -> str:
    return f"p{number}"


def link(maker: int | str, count: int | str) -> str:
    return f"{maker}-{count}"


def named(text: str) -> str:
    """The words with each end by the name of its link."""
    return END.sub(lambda end: f"{link(end[1], end[2])}.{end[3]}", text)


def header_of(transcript: Transcript) -> list[str]:
    lines = [f"history {transcript.version}"]
    lines += [f"process {process(number)} on {home}" for number, home in enumerate(transcript.homes)]
    made = [0] * transcript.kernels
    for first, second in transcript.wires:
        home = transcript.homes[first]
        lines.append(f"wire {process(first)} {process(second)} as {link(home, made[home])}")
        made[home] += 1
    return lines


def text_of_call(entry: Entry) -> str:
    return entry.what.split(" ")[2]


def ends_behind(words: list[str]) -> str:
    return "".join(f" {named(word)}" for word in words)


def line_of(entry: Entry, step: str) -> str:
    """The line of a history for a step of an event."""
    word, *words = step.split(" ")
    if word in OF_A_PROCESS:
        return f"{words[0]}: {act_of(entry, word, words[1:])}"
    if word in OF_THE_CALLER:
        return f"{process(entry.process)}: {act_of(entry, word, words)}"
    if word == "take":
        words.insert(2, "by")
    # what stands behind the end are numbers, names of processes and flags
    return " ".join([word, named(words[0]), *words[1:]])


def act_of(entry: Entry, word: str, words: list[str]) -> str:
    """What a process did, behind its name."""
    if word == "make":
        return f"make {named(words[0])[:-2]}"
    if word == "refuse":
        return f"refuse {words[0]} {call_of(entry)}"
    if word == "send":
        return f"send {named(words[0])} {words[1]} {text_of_call(entry)}{ends_behind(words[2:])}"
    if word == "report":
        return f"report {report_of(words)}"
    return " ".join([word, *map(named, words[:1]), *words[1:]])


def call_of(entry: Entry) -> str:
    word, *words = entry.what.split(" ")
    if word == "send":
        return f"send {named(words[0])} {words[1]}{ends_behind(words[2:])}"
    return " ".join([word, *map(named, words[:1]), *words[1:]])


def report_of(words: list[str]) -> str:
    on, way, outcome, *others = words
    if (way, outcome) == ("in", "done"):
        return f"{named(on)} in done {others[0]}{ends_behind(others[1:])}"
    return f"{named(on)} {way} {outcome}{ends_behind(others)}"


def history_of(transcript: Transcript) -> str:
    steps = [line_of(entry, step.text) for entry in transcript.entries for step in entry.steps]
    return "".join(f"{line}\n" for line in header_of(transcript) + steps)


def turned(name: str) -> Answer:
    transcript = read(read_file(name), most=MOST)
    if transcript.fault:
        return Answer("", f"{name}:{transcript.fault.line}: no\nlynx: history: {transcript.fault.why}", REFUSED)
    return Answer(history_of(transcript), "", 0)


def answer_to(words: list[str]) -> Answer:
    try:
        if len(words) != 1:
            raise NoWords(f"`{shown(words[1])}` is a word too many" if words else "the name of a file is missing")
        return turned(name_of_file(words[0]))
    except NoWords as fault:
        return Answer("", f"lynx: usage\nlynx: history: {fault}\n  {FORM}", USAGE)
    except Stopped as stopped:
        return Answer("", stopped.text, stopped.status)


if __name__ == "__main__":
    end_with(answer_to)

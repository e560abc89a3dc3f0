"""What is wrong with the line of a transcript that is refused: what share/draw finds there, in a sentence."""

import os
import sys
from itertools import islice

# before share/why, since both have a module `calls`
sys.path.insert(0, f"{os.path.dirname(os.path.dirname(os.path.abspath(__file__)))}/draw")

from line_forms import form_fault, place_fault, text_ends  # noqa: E402
from run import follow  # noqa: E402
from transcript import Refused, Transcript, read  # noqa: E402

# More lines, or more bytes, are not looked through.
MOST_LINES = 50_000
MOST_BYTES = 4_194_304
# No event has such a stamp: so many are not counted.
NO_STAMP = 2**64


def lines_of(name: str, number: int) -> bytes:
    """The text of the file up to the line of this number. What comes behind does not change what is wrong with it."""
    with open(name, "rb") as file:
        return b"".join(islice(file, number)) if number <= MOST_LINES else b""


def line_sentence(text: bytes, number: int) -> str | None:
    """What is wrong with the line of this number, which is the last one of the text. None where nothing is found, or another line."""
    if not text and number > 1 or len(text) > MOST_BYTES:
        return None
    transcript = read(text, first=NO_STAMP)
    fault = transcript.fault
    if not (fault and fault.line == number) and transcript.is_headed:
        fault = follow(transcript).fault
    return fault_sentence(text, transcript, fault) if fault and fault.line == number else None


def fault_sentence(text: bytes, transcript: Transcript, fault: Refused) -> str:
    """What is wrong with the line that the reader names, or with the one that the events named when they were followed."""
    return printable(of_form(text, transcript, fault) if fault is transcript.fault else sentence(fault))


def of_form(text: bytes, transcript: Transcript, fault: Refused) -> str:
    """Of a line that no transcript has in its place."""
    lines = text.split(b"\n", fault.line)
    line = lines[fault.line - 1]
    if len(lines) == fault.line:
        return "A line feed is missing at the end of this line." if line else text_ends(fault.line)
    return fault.wrong or form_fault(line, transcript.version) or place_fault(transcript, fault.line, line) or sentence(fault)


def sentence(fault: Refused) -> str:
    return fault.wrong or f"{fault.why[0].upper()}{fault.why[1:]}."


def printable(text: str) -> str:
    return text.encode("ascii", "backslashreplace").decode()

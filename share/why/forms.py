"""What is wrong with the form of a script's line (docs/SCRIPT.md, rule 1), but for its place among the others."""

import re
from collections.abc import Callable
from itertools import zip_longest

from calls import VERBS, call_fault
from nearest import nearest
from reason import Reason, listed, put
from spelling import PROCESS, Word, number_fault, words_of

# The words of the lines that are no calls; those in capitals stand for numbers.
FORMS = {
    b"version": (b"N",),
    b"kernels": (b"N",),
    b"process": (b"I", b"on", b"K"),
    b"wire": (b"I", b"J"),
    b"take": (b"J", b"K"),
    b"settle": (),
}
HEADS = [head.decode() for head in FORMS]
BYTE_ORDER_MARK = b"\xef\xbb\xbf"
MOST_MENDS = 50


def is_skipped(line: bytes) -> bool:
    return not line or line.startswith(b"#")


def form_fault(line: bytes, version: int) -> Reason | None:
    """What is wrong first. What is told to write has none of this form's faults, or nothing is told."""
    return whole_mend(line, lambda it: first_fault(it, version))


def whole_mend(line: bytes, fault_of: Callable[[bytes], Reason | None]) -> Reason | None:
    """The first fault of a line, with what is to write in its place where that can be mended as a whole."""
    reason = fault_of(line)
    if reason is None or reason.mended is None:
        return reason
    mended = reason.mended
    for _ in range(MOST_MENDS):
        again = fault_of(mended)
        if again is None:
            return Reason(reason.at, reason.to, reason.sentence, mended)
        if again.mended is None:
            break
        mended = again.mended
    return Reason(reason.at, reason.to, reason.sentence)


def first_fault(line: bytes, version: int) -> Reason | None:
    if is_skipped(line):
        return None
    reason = spacing_fault(line)
    if reason:
        return reason
    words = words_of(line)
    if words[0].text in FORMS:
        return numbers_fault(line, words)
    if PROCESS.fullmatch(words[0].text):
        return call_fault(line, words, version)
    return lead_fault(line, words)


def spacing_fault(line: bytes) -> Reason | None:
    """What stands before, between or behind the words."""
    if line.startswith(BYTE_ORDER_MARK):
        return Reason(0, 3, "The file begins with a byte order mark. Save it as plain text, without one.", line[3:])
    if line.endswith(b"\r"):
        sentence = "The line ends with a carriage return, as in files of Windows. A line ends with a line feed alone: `tr -d '\\r' < FILE > NEW` mends all lines."
        return Reason(len(line) - 1, len(line), sentence, line.rstrip(b"\r"))
    if not line.strip():
        return Reason(0, len(line), "A line with blanks alone is not empty: take them away.", b"")
    comment = re.search(rb"(?<=[^ \t])[ \t]+(#|//|--)", line)
    if comment:
        sentence = "A comment stands in a line of its own, which begins with `#`, and not behind other words."
        return Reason(comment.start(1), len(line), sentence, line[: comment.start()])
    tab = line.find(b"\t")
    if tab >= 0:
        return Reason(tab, tab + 1, "A tab stands here. Between words stands one blank.", re.sub(rb"[ \t]+", b" ", line.strip()))
    if line.startswith(b" "):
        return Reason(0, len(line) - len(line.lstrip()), "The line begins with a blank: no blank stands before the first word.", line.lstrip())
    if line.endswith(b" "):
        return Reason(len(line.rstrip()), len(line), "The line ends with a blank: no blank stands behind the last word.", line.rstrip())
    two = re.search(rb"  +", line)
    if two:
        return Reason(two.start(), two.end(), "Between two words stands one blank, and no more.", re.sub(rb"  +", b" ", line))
    return None


# ---- lines with numbers


def numbers_fault(line: bytes, words: list[Word]) -> Reason | None:
    head, *rest = words
    form = FORMS[head.text]
    reason = line_of_a_plan(line, head, rest) or call_in_full(line, head, rest)
    if reason:
        return reason
    named = f"`{b' '.join([head.text, *form]).decode()}`"
    mended = with_numbers(head, form, line)
    for part, word in zip_longest(form, rest):
        if part is None:
            return Reason(word.at, len(line), f"The line has a word too many: its form is {named}.", mended)
        if word is None:
            return Reason(len(line), len(line) + 1, f"Here a word is missing: the form of the line is {named}.", mended)
        if part == b"on":
            if word.text != part:
                return Reason(word.at, word.to, f"Here stands `on`: the form of the line is {named}.", mended)
            continue
        fault = number_fault(word)
        if fault:
            return Reason(fault.at, fault.to, f"{fault.sentence} The form of the line is {named}.", mended)
    return None


def with_numbers(head: Word, form: tuple[bytes, ...], line: bytes) -> bytes | None:
    """The form with the numbers of the line, where there are as many."""
    found = [number.lstrip(b"0") or b"0" for number in re.findall(rb"[0-9]+", line[head.to :])]
    wanted = [part for part in form if part != b"on"]
    if len(found) < len(wanted):
        return None
    numbers = iter(found)
    return b" ".join([head.text, *(part if part == b"on" else next(numbers) for part in form)])


def line_of_a_plan(line: bytes, head: Word, rest: list[Word]) -> Reason | None:
    if head.text == b"process" and len(rest) > 3 and rest[3].text in (b"runs", b"hosts"):
        sentence = "This is a line of a plan, which `run` reads. In a script a process runs no module: its calls stand in lines of their own."
        return Reason(rest[3].at, len(line), sentence, line[: rest[3].at - 1])
    return None


def call_in_full(line: bytes, head: Word, rest: list[Word]) -> Reason | None:
    if head.text == b"process" and len(rest) > 1 and rest[1].text.decode("latin-1") in VERBS:
        sentence = "A call begins with its process as `p` and a number. Lines with `process` tell where a process is."
        return Reason(0, rest[0].to, sentence, b"p" + line[rest[0].at :])
    return None


# ---- lines that begin with another word


def lead_fault(line: bytes, words: list[Word]) -> Reason:
    return line_of_another_file(line) or other_comment(line, rb"//|--|;|%|\"") or other_process(line, words) or other_lead(line, words)


def line_of_another_file(line: bytes) -> Reason | None:
    call = re.match(rb"[0-9]+ k[0-9]+ (?=p[0-9]+ )", line)
    if call:
        return Reason(0, call.end(), "This is a line of a transcript: a script has the call alone, without stamp and kernel.", line[call.end() :])
    packet = re.match(rb"[0-9]+ k([0-9]+) from ([0-9]+) .*", line)
    if packet:
        written = b"take %s %s" % (packet[2], packet[1])
        return Reason(0, len(line), "This is a line of a transcript. A script has in its place the line by which the packet is taken.", written)
    if re.match(rb"transcript [12]$|\. [a-z]+|(quiet|open|note|spent)\b", line):
        return Reason(0, len(line), "This is a line of a transcript, which `audit` and `draw` read, and none of a script.")
    if re.match(rb"module [A-Za-z]\w*;", line):
        return Reason(0, len(line), "This is the first line of a module, which `check` and `code` read, and none of a script.")
    return None


def other_comment(line: bytes, signs: bytes) -> Reason | None:
    """Of a line that begins with one of these signs of a comment in other languages."""
    sign = re.match(signs, line)
    if sign:
        return Reason(0, sign.end(), "A comment begins with `#`.", b"# " + line[sign.end() :].lstrip())
    return None


def other_process(line: bytes, words: list[Word]) -> Reason | None:
    """A call whose process is written in another way, or not named."""
    first = words[0]
    if first.text.decode("latin-1") in VERBS:
        return Reason(0, first.to, f"A call begins with its process, as `p0 {first.text.decode()}`.")
    parted = re.match(rb"[pP] ([0-9]+)(?= |$)", line)
    if parted:
        return Reason(0, parted.end(), "The number of a process stands at its `p`, with no blank between them.", b"p" + line[parted.start(1) :])
    named = re.fullmatch(rb"[pP]?0*([0-9]+)[:,.]?", first.text)
    if named:
        written = b"p" + named[1]
        sentence = f"{first} names no process: a process is a small `p` and its number in plain decimal, as `{written.decode()}`."
        return Reason(0, first.to, sentence, put(line, 0, first.to, written))
    return None


def other_lead(line: bytes, words: list[Word]) -> Reason:
    first = words[0]
    near = nearest(first.text.decode("latin-1"), HEADS)
    if near:
        return Reason(0, first.to, f"No line begins with {first}; the nearest word is `{near}`.", put(line, 0, first.to, near.encode()))
    return Reason(0, first.to, f"No line begins with {first}. Lines begin with {listed(HEADS)}, or with a process, as `p0`.")

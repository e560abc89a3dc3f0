"""What is wrong with the form of a transcript's line, or with its place among the others (docs/TRANSCRIPT.md)."""

import re
from collections.abc import Callable
from dataclasses import dataclass

from spelling import NUMBER, PIECE, PROCESS, Word, end_fault, is_above, number_fault, text_fault, words_of

U8, U16, U32, U64 = (2**bits - 1 for bits in (8, 16, 32, 64))
LONGEST_TEXT = 256
LONGEST_LINE = 4096
MOST_KERNELS, MOST_PROCESSES, MOST_WIRES = 8, 64, 4096
MOST_ENDS = {1: 1, 2: 8}
CAUSES = ("NoEnd", "Busy", "Dead", "EncloseNoEnd", "EncloseBusy", "EncloseSame", "Late", "NoActivity", "LinksFull", "EncloseTwice")


# ---- words


@dataclass(frozen=True)
class Part:
    """A word of a form: what docs/WHY.md calls it, and what is wrong with a word in its place."""

    name: str
    fault: Callable[[Word], str | None]


def number(name: str, most: int) -> Part:
    def fault(word: Word) -> str | None:
        if not NUMBER.fullmatch(word.text):
            said = number_fault(word).sentence
            return said if said.startswith("`") else f"{word} is in the place of {name}. {said}"
        return f"{word} is in the place of {name}, and {most} is the most." if is_above(word.text, most) else None

    return Part(name, fault)


def lettered(letter: str, what: str, most: int) -> Part:
    """A kernel or a process: a letter and a number."""

    def fault(word: Word) -> str | None:
        found = re.fullmatch(rb"%s(0|[1-9][0-9]*)" % letter.encode(), word.text)
        if not found:
            return f"{word} names no {what}: a {what} is a small `{letter}` and its number in plain decimal, as `{letter}0`."
        return f"{word} names no {what}: {most} is the greatest number." if is_above(found[1], most) else None

    return Part(f"the {what}", fault)


def either(name: str, *words: str) -> Part:
    def fault(word: Word) -> str | None:
        said = " or ".join(f"`{one}`" for one in words)
        return None if word.text.decode("latin-1") in words else f"{word} is in the place of {said}."

    return Part(name, fault)


def told(find: Callable) -> Callable[[Word], str | None]:
    def fault(word: Word) -> str | None:
        found = find(word)
        return found.sentence if found else None

    return fault


def no_text(word: Word) -> str | None:
    if word.text.startswith(b"+"):
        return f"TEXT is missing before {word}; `-` is one of no bytes."
    found = told(text_fault)(word)
    count = len(PIECE.findall(word.text))
    return found or (f"The text has {count} bytes, and {LONGEST_TEXT} are the most." if count > LONGEST_TEXT else None)


def no_cause(word: Word) -> str | None:
    name = word.text.decode("latin-1")
    return None if name in CAUSES else unknown(word, "cause", CAUSES)


def unknown(word: Word, what: str, names: tuple) -> str:
    from nearest import nearest

    near = nearest(word.text.decode("latin-1"), names)
    return f"{word} is no {what}; the nearest is `{near}`." if near else f"{word} is no {what}."


STAMP, K, P = number("STAMP", U64), lettered("k", "kernel", U8), lettered("p", "process", U16)
END, TEXT = Part("END", told(end_fault)), Part("TEXT", no_text)
N, W, AT, HOPS = number("N", U32), number("W", U32), number("AT", U8), number("HOPS", U32)
WAY, CAUSE = either("WAY", "in", "out"), Part("CAUSE", no_cause)
# The numbers of a value: all of 32 bits but these.
FIELDS = [number(name, {"HINTKERNEL": U8, "DEAD": 1, "TRAIL": U8}.get(name, U32))
          for name in ("HOPS", "HINTKERNEL", "HINTHOPS", "SENT", "ASKED", "SERVED", "WANT", "DEAD", "TRAIL")]


# ---- forms


@dataclass(frozen=True)
class Form:
    """The parts after the word that names the form, and what may come after them: ends, values, one word, or nothing."""

    parts: tuple[Part, ...] = ()
    behind: str = ""


I, J, K_ALONE = number("I", U16), number("J", U16), number("K", U8)
LINES = {
    "transcript": Form((number("the version", U64),)), "kernels": Form((number("N", MOST_KERNELS),)), "process": Form((I, either("`on`", "on"), K_ALONE)),
    "wire": Form((I, J)), "note": Form((number("LINE", U32), either("`nothing` or `waits`", "nothing", "waits"))), "quiet": Form(), "open": Form(),
    "spent": Form((K_ALONE,)),
}
CALLS = {
    "make": Form(), "destroy": Form((END,)), "send": Form((END, TEXT), "ends"), "receive": Form((END,)), "cancel": Form((END, WAY)), "wait": Form(),
    "print": Form((TEXT,)), "exit": Form(),
}
PACKETS = {
    "want": Form((END, W, AT, HOPS)), "unwant": Form((END, W, AT, HOPS)), "unwanted": Form((END, W, AT, HOPS)),
    "parcel": Form((END, N, W, AT, HOPS, TEXT), "values"), "taken": Form((END, N, AT, HOPS)), "back": Form((END, N), "values"), "gone": Form((END, AT)),
    "moved": Form((END, AT, HOPS)), "known": Form((END, HOPS)), "forget": Form((END, HOPS)), "goneseen": Form((END,)),
}
STEPS = {
    "make": Form((END, END)), "refuse": Form((P, CAUSE)), "destroy": Form((END,)), "send": Form((END, N), "ends"), "receive": Form((END,)),
    "cancel": Form((END, WAY)), "wait": Form((P,)), "exit": Form((P,)), "match": Form((END, N)), "take": Form((END, N, P), "late"),
    "complete": Form((END, N)), "withdraw": Form((END,)), "free": Form((END,)), "notice": Form((END,), "dead"), "back": Form((END, N), "dead"),
    "report": Form((P, END, WAY, either("RESULT", "done", "destroyed"))),
}
# What comes after `done` or `destroyed` of a report.
REPORTS = {("out", "done"): Form(), ("out", "destroyed"): Form((), "ends"), ("in", "done"): Form((TEXT,), "ends"), ("in", "destroyed"): Form()}


def form_fault(line: bytes, version: int) -> str | None:
    """What is wrong first with the form of a line; nothing where it has a form that lines have."""
    said = spacing_fault(line)
    if said:
        return said
    words = words_of(line)
    first = words[0].text.decode("latin-1")
    if first == ".":
        return named_fault(words, 1, "step", STEPS, version)
    if first[0].isdigit():
        return entry_fault(words, version)
    if first in LINES:
        return parts_fault(words, 1, LINES[first], version)
    return other_line(words) or unknown(words[0], "first word of a line", tuple(LINES))


def spacing_fault(line: bytes) -> str | None:
    if len(line) > LONGEST_LINE:
        return f"The line has {len(line)} bytes, and no line of a transcript has so many."
    if line.startswith(b"\xef\xbb\xbf"):
        return "There is a byte order mark before the first word. Save the file as plain text, without one."
    if line.endswith(b"\r"):
        return "The line ends with a carriage return, as in files of Windows: `tr -d '\\r' < FILE > NEW` mends all lines."
    if not line:
        return "The line is empty, and a transcript has no empty line."
    if b"\t" in line:
        return "There is a tab in the line. Between words is one blank."
    if line.startswith(b" ") or line.endswith(b" "):
        return "There is a blank before the first word." if line.startswith(b" ") else "There is a blank after the last word."
    return "There are two blanks between two words." if b"  " in line else None


def other_line(words: list[Word]) -> str | None:
    """A line of a script, or one whose beginning is missing."""
    first = words[0]
    if first.text.startswith(b"."):
        return "A blank is missing after the dot of a service line."
    if re.fullmatch(rb"k[0-9]+", first.text):
        return "The line of an event begins with its stamp."
    if first.text.decode("latin-1") in STEPS and not (first.text == b"take" and words[1:] and NUMBER.fullmatch(words[1].text)):
        return "A service line begins with a dot and a blank."
    if first.text.startswith(b"#"):
        return "This is a comment, and a transcript has none."
    if PROCESS.fullmatch(first.text):
        return "This is a call of a script: in a transcript the stamp and the kernel come before it."
    if first.text in (b"take", b"settle", b"version"):
        return f"{first} is a line of a script, and none of a transcript."
    return None


def entry_fault(words: list[Word], version: int) -> str | None:
    said = parts_fault(words[:2], 0, Form((STAMP, K)), version)
    if said:
        return said
    if len(words) == 2:
        return "After the kernel a process with its call is missing, or `from` with a kernel and its packet."
    if words[2].text == b"from":
        return parts_fault(words[:4], 3, Form((number("J", U8),)), version) or named_fault(words, 4, "packet", PACKETS, version)
    return parts_fault(words[:3], 2, Form((P,)), version) or named_fault(words, 3, "call", CALLS, version)


def named_fault(words: list[Word], at: int, what: str, forms: dict[str, Form], version: int) -> str | None:
    """Of words whose form is chosen by the one at this place."""
    if len(words) == at:
        return f"The line ends after {words[-1]}, and a {what} is missing."
    name = words[at].text.decode("latin-1")
    if name not in forms:
        return unknown(words[at], what, tuple(forms))
    if name == "report":
        return report_fault(words, at + 1, version)
    return parts_fault(words, at + 1, forms[name], version)


def report_fault(words: list[Word], at: int, version: int) -> str | None:
    parts = STEPS["report"].parts
    said = parts_fault(words[: at + len(parts)], at, STEPS["report"], version)
    if said:
        return said
    result = tuple(word.text.decode() for word in words[at + 2 : at + 4])
    return parts_fault(words, at + len(parts), REPORTS[result], version)


def parts_fault(words: list[Word], at: int, form: Form, version: int) -> str | None:
    """What is wrong first with the words from this place on."""
    for part in form.parts:
        if at == len(words):
            return f"The line ends after {words[-1]}, and {part.name} is missing."
        said = part.fault(words[at])
        if said:
            return said
        at += 1
    return behind_fault(words, at, form.behind, version)


def behind_fault(words: list[Word], at: int, behind: str, version: int) -> str | None:
    if behind in ("late", "dead") and words[at:] and words[at].text == behind.encode():
        at += 1
    if behind not in ("ends", "values"):
        return f"The line has to end after {words[at - 1]}, and {words[at]} is there." if at < len(words) else None
    for word in words[at:]:
        said = (no_enclosed_end if behind == "ends" else no_value)(word)
        if said:
            return said
    return too_many(len(words) - at, "end" if behind == "ends" else "value", version)


def too_many(count: int, what: str, version: int) -> str | None:
    if count <= MOST_ENDS[version]:
        return None
    most = "in version 1 one is the most" if version == 1 else "eight are the most"
    return f"The line has {count} {what}s, and {most}."


def no_enclosed_end(word: Word) -> str | None:
    if not word.text.startswith(b"+"):
        return f"Only ends can be here, each with a `+` before it, and {word} is none. In a text a blank is `%20`."
    return told(end_fault)(Word(word.at + 1, word.text[1:]))


def no_value(word: Word) -> str | None:
    if not word.text.startswith(b"+"):
        return f"Only values of ends can be here, each with a `+` before it, and {word} is none."
    end, *fields = (Word(word.at, text) for text in word.text[1:].split(b":"))
    said = told(end_fault)(end)
    if said:
        return said
    if len(fields) != len(FIELDS):
        return f"The value of an end has {len(FIELDS)} numbers after the end, and this one has {len(fields)}."
    return next(filter(None, (part.fault(field) for part, field in zip(FIELDS, fields))), None)


# ---- places


def place_fault(transcript, number: int, line: bytes) -> str:
    """Why a line of a good form can not be here. Empty where nothing is known. The transcript is what comes before."""
    head = line.split(b" ")[0].decode("latin-1")
    if number <= 2:
        return first_lines(number, head)
    if head in ("transcript", "kernels"):
        return f"Only line {1 if head == 'transcript' else 2} is a `{head}` line."
    if head in ("process", "wire"):
        return in_the_header(transcript, head)
    return behind_the_header(transcript, head, number)


def text_ends(number: int) -> str:
    if number == 1:
        return "The text is empty."
    if number == 2:
        return "The text ends after its first line, and has no kernels."
    return "The text ends before its last line, which says whether a packet is under way."


def first_lines(number: int, head: str) -> str:
    wanted = ("transcript", "kernels")[number - 1]
    if head == wanted:
        return "The version is 1 or 2." if number == 1 else f"There are 1 to {MOST_KERNELS} kernels."
    what = "the version" if number == 1 else "how many kernels there are"
    return f"The {'first' if number == 1 else 'second'} line tells {what}, and this one does not."


def in_the_header(transcript, head: str) -> str:
    if transcript.entries or transcript.notes:
        return f"A `{head}` line comes before all events and notes."
    if head == "wire":
        return f"There are {MOST_WIRES} wires already, and that is the most."
    if transcript.wires:
        return "Processes come before the wires."
    count = len(transcript.homes)
    if count == MOST_PROCESSES:
        return f"There are {MOST_PROCESSES} processes already, and that is the most."
    return f"The next process is {count}: they are numbered 0, 1, 2 and so on."


def behind_the_header(transcript, head: str, number: int) -> str:
    if head == ".":
        return "No service line comes after a note." if transcript.notes else f"A service line comes below an event, and line {number - 1} is none."
    if head[0].isdigit():
        return "Events come before the notes, and the line above is a note."
    if head == "note":
        return f"Notes come in the order of the lines that they are about, and the one above is about line {transcript.notes[-1].split(' ')[1]}."
    return "`spent` is of a run of programs, and notes are of a script: no transcript has both." if head == "spent" else ""

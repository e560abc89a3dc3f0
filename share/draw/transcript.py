"""Reads a transcript, line by line. The forms of its lines are those of docs/TRANSCRIPT.md."""

import re
from dataclasses import dataclass, field

CAUSES = ("NoEnd", "Busy", "Dead", "EncloseNoEnd", "EncloseBusy", "EncloseSame", "Late", "NoActivity",
          "LinksFull", "EncloseTwice")
MOST_KERNELS, MOST_PROCESSES, MOST_WIRES, MOST_BYTES = 8, 64, 4096, 256
MOST_EVENTS = 1_000


def up_to(most: int) -> str:
    """The form of the numbers up to this one, which has several digits. None has a zero in front."""
    digits = str(most)
    forms = ["0", f"[1-9][0-9]{{0,{len(digits) - 2}}}", digits]
    for at, digit in enumerate(digits):
        least = 0 if at else 1
        if int(digit) > least:
            forms.append(f"{digits[:at]}[{least}-{int(digit) - 1}][0-9]{{{len(digits) - at - 1}}}")
    return f"(?:{'|'.join(forms)})"


U8, U16, U32, U64 = (up_to(2**bits - 1) for bits in (8, 16, 32, 64))
END = rf"{U8}\.{U32}[ab]"
TEXT = r"[A-Za-z0-9_.%]+|-"
ENDS = rf"(?: \+{END})*"
VALUES = rf"(?: \+{END}:{U32}:{U8}(?::{U32}){{5}}:[01]:{U8})*"

HEADER = re.compile(rf"(?:process (?P<i>{U16}) on (?P<k>{U8})|wire (?P<a>{U16}) (?P<b>{U16}))")
ENTRY = re.compile(rf"(?P<stamp>{U64}) k(?P<kernel>{U8}) (?:p(?P<process>{U16}) (?P<call>.+)|from (?P<sender>{U8}) (?P<packet>.+))")
CALL = re.compile(rf"make|wait|exit|(?:destroy|receive) (?:{END})|cancel (?:{END}) (?:in|out)"
                  rf"|print (?:{TEXT})|send (?:{END}) (?:{TEXT}){ENDS}")
PACKET = re.compile(rf"(?:want|unwant|unwanted|taken) {END} {U32} {U8} {U32}"
                    rf"|parcel {END} {U32} {U32} {U8} {U32} (?:{TEXT}){VALUES}|back {END} {U32}{VALUES}"
                    rf"|gone {END} {U8}|(?:known|forget) {END} {U32}|moved {END} {U8} {U32}|goneseen {END}")
STEP = re.compile(rf"\. (?:make {END} {END}|refuse p{U16} (?:{'|'.join(CAUSES)})"
                  rf"|(?:destroy|receive|withdraw|free) {END}|send {END} {U32}{ENDS}|cancel {END} (?:in|out)"
                  rf"|(?:wait|exit) p{U16}|(?:match|complete) {END} {U32}|take {END} {U32} p{U16}(?: late)?"
                  rf"|notice {END}(?: dead)?|back {END} {U32}(?: dead)?"
                  rf"|report p{U16} {END} (?:out done|out destroyed{ENDS}|in done (?:{TEXT}){ENDS}|in destroyed))")
NOTE = re.compile(rf"note (?P<line>{U32}) (?:nothing|waits)")
LAST = re.compile(rf"quiet|open|spent (?P<kernel>{U8})")
A_TEXT = re.compile(r"-|(?:[A-Za-z0-9_.]|%[0-9A-F]{2})+")
ESCAPE = re.compile(r"%(..)")


class Refused(Exception):
    """The text is no transcript that this program draws: the first line where that shows, and why. `wrong` says in a sentence what is wrong with the
    line, for those who see what was expected there; where it is empty, `why` does."""

    def __init__(self, line: int, why: str, wrong: str = ""):
        super().__init__(why)
        self.line = line
        self.why = why
        self.wrong = wrong


class TooMany(Exception):
    """The transcript has more events than are taken."""


def there_is_no(what: str, number: int, count: int) -> str:
    """That there is no kernel or no process of this number."""
    many = {"kernel": "kernels", "process": "processes"}[what]
    has = f"the {many} are 0 to {count - 1}" if count > 1 else f"the one {what} is 0" if count else f"there are no {many}"
    return f"There is no {what} {number}: {has}."


class Lines:
    """The lines of a text, found one after the other as they are asked for."""

    def __init__(self, data: bytes):
        self.data = data
        self.place = 0
        self.found: list[str] = []

    def at(self, number: int) -> str | None:
        """The line with this number, from 0, without its line feed; None behind the last one."""
        while number >= len(self.found) and self.place < len(self.data):
            end = self.data.find(b"\n", self.place)
            if end < 0:
                raise Refused(len(self.found) + 1, "the line feed is missing at the end")
            self.found.append(self.data[self.place:end].decode("latin-1"))
            self.place = end + 1
        return self.found[number] if number < len(self.found) else None


@dataclass(slots=True)
class Step:
    """A service line, without its dot."""
    line: int
    text: str


@dataclass(slots=True)
class Entry:
    """An event: a call of a process, or the taking of a packet from the kernel `sender`."""
    line: int
    stamp: int
    kernel: int
    process: int | None
    sender: int | None
    what: str
    steps: list[Step] = field(default_factory=list)

    def is_packet(self) -> bool:
        return self.sender is not None


@dataclass
class Transcript:
    """What was read. `is_headed` tells that the whole header was, `is_cut` that the reading stopped behind the last stamp that was asked for,
    and `fault` where the text is no transcript: then what was read is what stands before."""
    version: int = 1
    kernels: int = 0
    homes: list[int] = field(default_factory=list)
    wires: list[tuple[int, int]] = field(default_factory=list)
    entries: list[Entry] = field(default_factory=list)
    notes: list[str] = field(default_factory=list)
    last: str = ""
    spent: int | None = None
    last_line: int = 0
    is_headed: bool = False
    is_cut: bool = False
    fault: Refused | None = None


def read(data: bytes, first: int = 0, last: int | None = None, most: int = MOST_EVENTS) -> Transcript:
    """The transcript that this text is, up to the stamp `last`, or up to where it is none. Raises TooMany where it has more events than `most` from the
    stamp `first` on."""
    transcript = Transcript()
    try:
        read_lines(transcript, Lines(data), Bounds(first, last, most))
    except Refused as refused:
        transcript.fault = refused
    return transcript


@dataclass(frozen=True, slots=True)
class Bounds:
    """The stamps from which and up to which events count, and how many there may be."""
    first: int
    last: int | None
    most: int


def read_lines(transcript: Transcript, lines: Lines, bounds: Bounds) -> None:
    at = read_header(transcript, lines)
    transcript.is_headed = True
    at = read_entries(transcript, lines, at, bounds)
    if not transcript.is_cut:
        at = read_notes(transcript, lines, at)
        read_last(transcript, lines, at)


def read_header(transcript: Transcript, lines: Lines) -> int:
    """Reads the lines up to the last wire, and tells which comes next."""
    first = line_at(lines, 0, "`transcript 1` or `transcript 2`")
    if first not in ("transcript 1", "transcript 2"):
        raise Refused(1, "a transcript begins with `transcript 1` or `transcript 2`")
    transcript.version = int(first[-1])
    second = re.fullmatch(rf"kernels ({U8})", line_at(lines, 1, "`kernels N`"))
    if not second or not 1 <= int(second[1]) <= MOST_KERNELS:
        raise Refused(2, "`kernels N` with 1 to 8 kernels belongs here")
    transcript.kernels = int(second[1])
    at = 2
    while found := matched(HEADER, lines.at(at)):
        add_header_line(transcript, found, at + 1)
        at += 1
    return at


def add_header_line(transcript: Transcript, found: re.Match, number: int) -> None:
    if found["i"] is not None:
        if transcript.wires:
            raise Refused(number, "a process line can't stand behind a wire")
        if int(found["i"]) != len(transcript.homes) or len(transcript.homes) == MOST_PROCESSES:
            raise Refused(number, f"processes are numbered 0, 1, 2 and so on, up to {MOST_PROCESSES - 1}")
        if int(found["k"]) >= transcript.kernels:
            raise Refused(number, f"there is no kernel {found['k']}", there_is_no("kernel", int(found["k"]), transcript.kernels))
        transcript.homes.append(int(found["k"]))
        return
    for name in (found["a"], found["b"]):
        if int(name) >= len(transcript.homes):
            raise Refused(number, f"there is no process {name}", there_is_no("process", int(name), len(transcript.homes)))
    if len(transcript.wires) == MOST_WIRES:
        raise Refused(number, f"there are at most {MOST_WIRES} wires")
    transcript.wires.append((int(found["a"]), int(found["b"])))


def read_entries(transcript: Transcript, lines: Lines, at: int, bounds: Bounds) -> int:
    """Reads the entries with their service lines, and tells which line comes next."""
    counted = 0
    while (line := lines.at(at)) is not None:
        if line.startswith(". "):
            add_step(transcript, line, at + 1)
        elif found := ENTRY.fullmatch(line):
            entry = entry_of(transcript, found, at + 1)
            if bounds.last is not None and entry.stamp > bounds.last:
                transcript.is_cut = True
                return at
            counted += entry.stamp >= bounds.first
            if counted > bounds.most:
                raise TooMany
            transcript.entries.append(entry)
        else:
            return at
        at += 1
    return at


def entry_of(transcript: Transcript, found: re.Match, number: int) -> Entry:
    what = found["call"] or found["packet"]
    known = CALL if found["call"] else PACKET
    if not known.fullmatch(what):
        raise Refused(number, "no call has this form" if known is CALL else "no packet has this form")
    check_words(transcript, what, number)
    stamp, kernel, process, sender = (found[name] and int(found[name]) for name in ("stamp", "kernel", "process", "sender"))
    return Entry(number, stamp, kernel, process, sender, what)


def add_step(transcript: Transcript, line: str, number: int) -> None:
    if not transcript.entries:
        raise Refused(number, "a service line stands below an event")
    if not STEP.fullmatch(line):
        raise Refused(number, "no service line has this form")
    check_words(transcript, line, number)
    transcript.entries[-1].steps.append(Step(number, line[2:]))


def check_words(transcript: Transcript, text: str, number: int) -> None:
    """Tests what the forms of lines leave open: texts, and how many ends a message has."""
    words = text.removeprefix(". ").split(" ")
    place = {"send": 2, "print": 1, "parcel": 6}.get(words[0])
    if words[0] == "send" and text.startswith(". "):
        place = None
    if words[0] == "report" and words[3:5] == ["in", "done"]:
        place = 5
    if place is not None:
        check_text(words[place], number)
    if "+" in text and sum(word.startswith("+") for word in words) > (1 if transcript.version == 1 else 8):
        raise Refused(number, "a message has at most one end in version 1, at most eight in version 2")


def check_text(text: str, number: int) -> None:
    if not A_TEXT.fullmatch(text):
        raise Refused(number, f"`{text}` spells no bytes")
    if text == "-":
        return
    for code in ESCAPE.findall(text):
        byte = int(code, 16)
        if byte < 128 and (chr(byte).isalnum() or chr(byte) in "_."):
            raise Refused(number, f"`%{code}` stands for a byte that is written as itself")
    if len(ESCAPE.sub(".", text)) > MOST_BYTES:
        raise Refused(number, f"a message has at most {MOST_BYTES} bytes")


def read_notes(transcript: Transcript, lines: Lines, at: int) -> int:
    before = -1
    while found := matched(NOTE, lines.at(at)):
        if int(found["line"]) <= before:
            raise Refused(at + 1, "notes stand in the order of the script's lines")
        before = int(found["line"])
        transcript.notes.append(found[0])
        at += 1
    return at


def read_last(transcript: Transcript, lines: Lines, at: int) -> None:
    found = LAST.fullmatch(line_at(lines, at, "`quiet`, `open` or `spent K`"))
    if not found:
        raise Refused(at + 1, "no line of a transcript that can stand here")
    if found["kernel"] and transcript.notes:
        raise Refused(at + 1, "`spent` stands behind no note")
    if lines.at(at + 1) is not None:
        raise Refused(at + 2, "the transcript has ended with the line before", "The line above is the last one of the transcript.")
    transcript.last = found[0]
    transcript.spent = found["kernel"] and int(found["kernel"])
    transcript.last_line = at + 1


def matched(form: re.Pattern, line: str | None) -> re.Match | None:
    """How a line, where there is one, has this form."""
    return None if line is None else form.fullmatch(line)


def line_at(lines: Lines, at: int, wanted: str) -> str:
    line = lines.at(at)
    if line is None:
        raise Refused(at + 1, f"the text ends here, and {wanted} is missing")
    return line

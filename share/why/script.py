"""Why a line of a script is refused: one reason for each of the rules of docs/SCRIPT.md."""

from dataclasses import dataclass, field

from forms import form_fault, is_skipped
from reason import Reason, put
from spelling import PIECE, Word, is_above, words_of

MOST_KERNELS = 8
MOST_PROCESSES = 64
LONGEST_TEXT = 256
KINDS = (b"version", b"kernels", b"process", b"wire")


@dataclass
class Given:
    """What the lines before one say, each of which may stand there."""

    version: int = 1
    kernels: int = 0
    processes: int = 0
    wires: int = 0
    # the number of the first line of each kind
    first: dict[bytes, int] = field(default_factory=dict)


def kind_of(line: bytes) -> bytes:
    head = line.partition(b" ")[0]
    return head if head in KINDS else b"call"


def given_by(lines: list[bytes]) -> Given:
    given = Given()
    for number, line in enumerate(lines, 1):
        give(given, number, line)
    return given


def give(given: Given, number: int, line: bytes) -> None:
    """Adds what the line of this number says, which may stand there."""
    if is_skipped(line):
        return
    kind = kind_of(line)
    given.first.setdefault(kind, number)
    if kind == b"version":
        given.version = int(words_of(line)[1].text)
    elif kind == b"kernels":
        given.kernels = int(words_of(line)[1].text)
    elif kind == b"process":
        given.processes += 1
    elif kind == b"wire":
        given.wires += 1


def script_reason(data: bytes, number: int, rule: int) -> Reason | None:
    """Why the line of this number is refused by this rule."""
    lines = data.split(b"\n")
    if not 1 <= number <= len(lines):
        return None
    given = given_by(lines[: number - 1])
    line = lines[number - 1]
    if rule == 1:
        return too_soon(line, given, "script") or form_fault(line, given.version) or order_fault(line, given)
    return {2: kernels, 3: numbering, 4: kernel, 5: process, 6: long_text, 7: many_wires, 10: version}[rule](line, words_of(line), given)


# ---- rule 1


def too_soon(line: bytes, given: Given, text: str) -> Reason | None:
    """Of the end of a text, a script or a plan."""
    if is_skipped(line) and not given.kernels:
        sentence = f"The file ends, and no `kernels` line stood. A {text} names its kernels first, as `kernels 2`."
        return Reason(len(line), len(line) + 1, sentence, None if line else b"kernels 1")
    return None


def order_fault(line: bytes, given: Given) -> Reason | None:
    """Why a line of a good form may not stand here."""
    kind, first = kind_of(line), given.first
    to = len(words_of(line)[0].text)
    if kind in (b"version", b"kernels"):
        if kind in first:
            return Reason(0, to, f"There is a `{kind.decode()}` line already, line {first[kind]}.")
        return Reason(0, to, "The `version` line stands before all others. Put it first.")
    if b"kernels" not in first:
        return Reason(0, to, "The line that names the kernels, as `kernels 2`, has to stand before this one.")
    if kind == b"process":
        behind = min(first[it] for it in (b"wire", b"call") if it in first)
        return Reason(0, to, f"Processes stand before the wires and the calls. Put it before line {behind}.")
    if kind == b"wire":
        return Reason(0, to, f"Wires stand before the calls. Put it before line {first[b'call']}.")
    return None


# ---- the other rules


def numbered(line: bytes, word: Word, number: int) -> bytes:
    """The line with another number in the place of a word."""
    return put(line, word.at, word.to, b"%d" % number)


def kernels(line: bytes, words: list[Word], given: Given) -> Reason:
    near = MOST_KERNELS if words[1].text != b"0" else 1
    return Reason(words[1].at, words[1].to, f"There are 1 to {MOST_KERNELS} kernels.", numbered(line, words[1], near))


def numbering(line: bytes, words: list[Word], given: Given) -> Reason:
    if given.processes >= MOST_PROCESSES:
        return Reason(0, len(line), f"There are {MOST_PROCESSES} processes already, and that is the most.")
    sentence = f"The next process is {given.processes}: processes are numbered 0, 1, 2 and so on in the order of their lines."
    return Reason(words[1].at, words[1].to, sentence, numbered(line, words[1], given.processes))


def kernel(line: bytes, words: list[Word], given: Given) -> Reason:
    named = words[3:4] if words[0].text == b"process" else words[1:]
    last = given.kernels - 1
    wrong = next(word for word in named if is_above(word.text, last))
    has = f"the kernels are 0 to {last}" if last else "the one kernel is 0"
    return Reason(wrong.at, wrong.to, f"There is no kernel {wrong}: {has}.", numbered(line, wrong, last))


def process(line: bytes, words: list[Word], given: Given) -> Reason:
    if words[0].text == b"wire":
        named = words[1:]
    else:
        named = [Word(1, words[0].text[1:])]
    last = given.processes - 1
    wrong = next(word for word in named if is_above(word.text, last))
    if last < 0:
        return Reason(wrong.at, wrong.to, "No process is declared. A line as `process 0 on 0` declares one.")
    has = f"the processes are 0 to {last}" if last else "the one process is 0"
    return Reason(wrong.at, wrong.to, f"There is no process {wrong}: {has}.", numbered(line, wrong, last))


def long_text(line: bytes, words: list[Word], given: Given) -> Reason:
    text = words[2] if words[1].text == b"print" else words[3]
    pieces = list(PIECE.finditer(text.text))
    at = text.at + pieces[LONGEST_TEXT].start()
    sentence = f"The text has {len(pieces)} bytes, and {LONGEST_TEXT} are the most. The first that is too many stands here."
    return Reason(at, text.to, sentence, advice="Send it in several messages.")


def many_wires(line: bytes, words: list[Word], given: Given) -> Reason:
    return Reason(0, len(line), f"There are {given.wires} wires already, and that is the most.", advice="Let processes make further links in the run, by `make`.")


def version(line: bytes, words: list[Word], given: Given) -> Reason:
    return Reason(words[1].at, words[1].to, "The version is 1, with one end in a message, or 2, with up to eight.", numbered(line, words[1], 2))

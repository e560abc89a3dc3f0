"""Why a line of a plan is refused: one reason for each of the rules of docs/PLANS.md."""

import re
from dataclasses import dataclass, field

import script
from forms import is_skipped, numbers_fault, other_comment, spacing_fault, whole_mend
from nearest import nearest
from reason import Reason, put
from spelling import NUMBER, Word, is_above, number_fault, words_of

HEADS = ("version", "kernels", "process", "wire")
ROLES = ("runs", "hosts")
RUNS = "`process I on K runs FILE`"
HOSTS = "`process I on K hosts P after N`"
MOST_CALLS = 4_294_967_295
NAME = re.compile(rb"[!-~]+")


@dataclass
class Given(script.Given):
    """What the lines before one say, each of which may stand there."""

    # the host of each process that moves, and the process that each host hosts
    host: dict[int, int] = field(default_factory=dict)
    hosted: dict[int, int] = field(default_factory=dict)


def given_by(lines: list[bytes]) -> Given:
    given = Given()
    for number, line in enumerate(lines, 1):
        words = words_of(line)
        if script.kind_of(line) == b"process" and words[4].text == b"hosts":
            moved = int(words[5].text)
            given.host[moved] = given.processes
            given.hosted[given.processes] = moved
        script.give(given, number, line)
    return given


def files_of(data: bytes) -> list[bytes]:
    """The modules that the lines of a plan name, whatever else is wrong in them."""
    return re.findall(rb"(?m)^process [0-9]+ on [0-9]+ runs ([!-~]+)$", data)


def plan_reason(data: bytes, number: int, rule: int) -> Reason | None:
    """Why the line of this number is refused by this rule."""
    lines = data.split(b"\n")
    if not 1 <= number <= len(lines):
        return None
    line = lines[number - 1]
    if rule == 8:
        return params(line, lines)
    given = given_by(lines[: number - 1])
    if rule == 1:
        return script.too_soon(line, given, "plan") or form_fault(line) or order_fault(line, given)
    rules = {2: script.kernels, 3: script.numbering, 4: script.kernel, 5: process, 7: many_wires, 10: script.version, 11: host}
    return rules[rule](line, words_of(line), given)


# ---- rule 1


def form_fault(line: bytes) -> Reason | None:
    """What is wrong first with the form of a line. What is told to write has none of this form's faults, or nothing is told."""
    return whole_mend(line, first_fault)


def first_fault(line: bytes) -> Reason | None:
    if is_skipped(line):
        return None
    reason = spacing_fault(line)
    if reason:
        return reason
    words = words_of(line)
    if words[0].text == b"process":
        return process_fault(line, words)
    if words[0].text.decode("latin-1") in HEADS:
        return numbers_fault(line, words)
    return lead_fault(line, words[0])


def lead_fault(line: bytes, first: Word) -> Reason:
    """Of a line that begins with a word with which no line of a plan begins."""
    if re.match(rb"p[0-9]+ |take |settle$", line):
        return Reason(0, len(line), "This is a line of a script, which `drive` performs. In a plan there are no calls: a process runs a module.")
    if line.startswith(b"module "):
        return Reason(0, len(line), "This is a line of a module. A plan names the file of a module, as `process 0 on 0 runs FILE`.")
    comment = other_comment(line, rb"//|--|;|%")
    if comment:
        return comment
    near = nearest(first.text.decode("latin-1"), HEADS)
    if near:
        return Reason(0, first.to, f"No line of a plan begins with {first}; the nearest word is `{near}`.", put(line, 0, first.to, near.encode()))
    return Reason(0, first.to, f"No line of a plan begins with {first}. Lines begin with `version`, `kernels`, `process` or `wire`.")


def process_fault(line: bytes, words: list[Word]) -> Reason | None:
    """What is wrong first in a line that tells of a process."""
    _, *rest = words
    if len(rest) > 3 and rest[3].text.decode("latin-1") not in ROLES:
        return role_fault(line, rest[3])
    form = (b"I", b"on", b"K", b"hosts", b"P", b"after", b"N") if len(rest) > 3 and rest[3].text == b"hosts" else (b"I", b"on", b"K", b"runs", b"FILE")
    named = HOSTS if b"hosts" in form else RUNS
    for part, word in zip(form, rest):
        reason = part_fault(line, part, word, named)
        if reason:
            return reason
    if len(rest) < len(form):
        what = f"Here a word is missing: the form of the line is {named}." if len(rest) > 3 else f"Here a word is missing: the form of the line is {RUNS} or {HOSTS}."
        return Reason(len(line), len(line) + 1, what)
    if len(rest) > len(form):
        more = rest[len(form)]
        return Reason(more.at, len(line), f"The line has a word too many: its form is {named}. The name of a file has no blank.", line[: more.at - 1])
    return None


def role_fault(line: bytes, word: Word) -> Reason:
    near = nearest(word.text.decode("latin-1"), ROLES)
    written = put(line, word.at, word.to, near.encode()) if near else None
    return Reason(word.at, word.to, "Behind the kernel stands `runs` and the file of a module, or `hosts` and the process that moves here.", written)


def part_fault(line: bytes, part: bytes, word: Word, named: str) -> Reason | None:
    """What is wrong with a word that stands in the place of a part of the form."""
    if part in (b"on", b"after", *(role.encode() for role in ROLES)):
        if word.text == part:
            return None
        return Reason(word.at, word.to, f"Here stands `{part.decode()}`: the form of the line is {named}.", put(line, word.at, word.to, part))
    if part == b"FILE":
        if NAME.fullmatch(word.text):
            return None
        return Reason(word.at, word.to, "The name of a file has no other bytes than those of printable ASCII.", advice="Give the file another name, or a link to it.")
    fault = number_fault(word)
    if fault:
        mended = None if fault.written is None else put(line, word.at, word.to, fault.written)
        return Reason(fault.at, fault.to, f"{fault.sentence} The form of the line is {named}.", mended)
    if part == b"N" and is_above(word.text, MOST_CALLS):
        return Reason(word.at, word.to, f"A process moves after {MOST_CALLS} calls at most.", script.numbered(line, word, MOST_CALLS))
    return None


def order_fault(line: bytes, given: Given) -> Reason | None:
    """Why a line of a good form may not stand here."""
    if line.startswith(b"process") and b"wire" in given.first:
        return Reason(0, len(b"process"), f"Processes stand before the wires. Put it before line {given.first[b'wire']}.")
    return script.order_fault(line, given)


# ---- the other rules


def process(line: bytes, words: list[Word], given: Given) -> Reason:
    if words[0].text == b"wire" and not given.processes:
        return Reason(words[1].at, words[1].to, "No process is declared. A line as `process 0 on 0 runs FILE` declares one.")
    if words[0].text == b"wire":
        return script.process(line, words, given)
    return Reason(words[5].at, words[5].to, f"Up to this line no process {words[5]} is declared.", advice="Let a process host an earlier one.")


def many_wires(line: bytes, words: list[Word], given: Given) -> Reason:
    count = len(given.hosted)
    hosts = f" and {count} hosts" if count > 1 else " and one host" if count else ""
    sentence = f"There are {given.wires} wires{hosts} already, and that is the most."
    return Reason(0, len(line), sentence, advice="Let modules make further links in the run, by `new`.")


def params(line: bytes, lines: list[bytes]) -> Reason | None:
    """The module of this line has another number of params than its process has ends."""
    words = words_of(line)
    if len(words) < 6 or not NUMBER.fullmatch(words[1].text):
        return None
    ends = sum(it[1:].count(words[1].text) for it in (wire.split(b" ") for wire in lines) if it[0] == b"wire")
    has = "one wired end" if ends == 1 else f"{ends or 'no'} wired ends"
    sentence = f"Process {words[1]} has {has}, and its module has another number of params."
    return Reason(words[5].at, words[5].to, sentence, advice="Add or take away wires, or params of the module. A wire of a process to itself has two of its ends.")


def host(line: bytes, words: list[Word], given: Given) -> Reason:
    if words[0].text == b"wire":
        wrong = next(word for word in words[1:] if int(word.text) in given.hosted)
        moved = given.hosted[int(wrong.text)]
        sentence = f"Process {wrong} is a host. A wire names the process that moves, and its end moves with it."
        return Reason(wrong.at, wrong.to, sentence, script.numbered(line, wrong, moved))
    moved = int(words[5].text)
    if moved == given.processes:
        sentence = "A process does not host itself."
    elif moved in given.hosted:
        sentence = f"Process {words[5]} is a host, and runs no module of its own."
    else:
        sentence = f"Process {words[5]} has a host already, which is process {given.host[moved]}."
    return Reason(words[5].at, words[5].to, sentence, advice="Let a process host an earlier one that runs a file and has no host yet.")

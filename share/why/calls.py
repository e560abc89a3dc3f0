"""What is wrong with the form of a call line of a script, `pP CALL`."""

from nearest import nearest
from reason import Reason, listed, put
from spelling import END, Fault, Word, end_fault, text_fault

VERBS = ("make", "destroy", "send", "receive", "cancel", "wait", "print", "exit")
ALONE = ("settle", "take", "kernels", "process", "wire", "version")
WAYS = ("in", "out")
MOST_ENDS = {1: 1, 2: 8}


def told(line: bytes, word: Word, fault: Fault | None) -> Reason | None:
    """The reason of a line in which a word has a fault."""
    if fault is None:
        return None
    return Reason(fault.at, fault.to, fault.sentence, None if fault.written is None else put(line, word.at, word.to, fault.written))


def missing(line: bytes, what: str) -> Reason:
    return Reason(len(line), len(line) + 1, f"Here {what} is missing.")


def no_text(line: bytes) -> Reason:
    return Reason(len(line), len(line) + 1, "Here a text is missing; `-` is one of no bytes.", line + b" -")


def too_many(line: bytes, last: Word, more: Word) -> Reason:
    return Reason(more.at, len(line), f"Behind {last} the line has to end.", line[: last.to])


def call_fault(line: bytes, words: list[Word], version: int) -> Reason | None:
    """Of a line whose first word is a process."""
    if len(words) == 1:
        return missing(line, f"a call, as `{words[0].text.decode()} wait`,")
    verb, rest = words[1], words[2:]
    name = verb.text.decode("latin-1")
    if name not in VERBS:
        return verb_fault(line, verb, name)
    if name in ("make", "wait", "exit"):
        return too_many(line, verb, rest[0]) if rest else None
    if name == "print":
        return print_fault(line, rest)
    if not rest:
        return missing(line, "an end, as `0.0a`,")
    if name == "send":
        return told(line, rest[0], end_fault(rest[0])) or send_fault(line, rest[0], rest[1:], version)
    return told(line, rest[0], end_fault(rest[0])) or behind_end(line, name, rest)


def verb_fault(line: bytes, verb: Word, name: str) -> Reason:
    if name in ALONE:
        return Reason(0, verb.at, f"A line that begins with {verb} has no process before it.", line[verb.at :])
    near = nearest(name, VERBS)
    if near:
        return Reason(verb.at, verb.to, f"{verb} is no call; the nearest is `{near}`.", put(line, verb.at, verb.to, near.encode()))
    return Reason(verb.at, verb.to, f"{verb} is no call. Calls are {listed(VERBS)}.")


def behind_end(line: bytes, name: str, rest: list[Word]) -> Reason | None:
    """Of `destroy END`, `receive END` and `cancel END WAY`."""
    if name != "cancel":
        return too_many(line, rest[0], rest[1]) if len(rest) > 1 else None
    if len(rest) == 1:
        return missing(line, "what to take back, `out` for a send or `in` for a receive,")
    way = rest[1].text.decode("latin-1")
    if way not in WAYS:
        near = nearest(way, WAYS)
        written = put(line, rest[1].at, rest[1].to, near.encode()) if near else None
        return Reason(rest[1].at, rest[1].to, f"{rest[1]} is none of `in`, which takes back a receive, and `out`, which takes back a send.", written)
    return too_many(line, rest[1], rest[2]) if len(rest) > 2 else None


def print_fault(line: bytes, rest: list[Word]) -> Reason | None:
    if not rest:
        return no_text(line)
    text = Word(rest[0].at, line[rest[0].at :])
    return told(line, text, text_fault(text))


def send_fault(line: bytes, on: Word, rest: list[Word], version: int) -> Reason | None:
    """Of what stands behind `send END`: a text, and ends that are enclosed."""
    if not rest:
        return no_text(line)
    ends = ends_of(rest)
    texts = rest[: len(rest) - len(ends)]
    if not texts:
        return Reason(rest[0].at, rest[0].to, "Before the enclosed ends stands a text; `-` is one of no bytes.", put(line, on.to, on.to, b" -"))
    if len(texts) > 1 and END.fullmatch(texts[-1].text):
        last = texts[-1]
        return Reason(last.at, last.to, f"An end that is enclosed begins with `+`: `+{last.text.decode()}`.", put(line, last.at, last.at, b"+"))
    text = Word(texts[0].at, line[texts[0].at : texts[-1].to])
    return told(line, text, text_fault(text)) or ends_fault(line, ends, version)


def ends_of(rest: list[Word]) -> list[Word]:
    """The last words that begin with `+`, and what may be meant for an end behind a `+` that stands alone."""
    count = len(rest)
    while count and (rest[count - 1].text.startswith(b"+") or count > 1 and rest[count - 2].text == b"+"):
        count -= 1
    return rest[count:]


def ends_fault(line: bytes, ends: list[Word], version: int) -> Reason | None:
    for end in ends:
        if end.text == b"+":
            return Reason(end.at, end.to, "The `+` stands at its end, with no blank between them.", put(line, end.at, min(end.to + 1, len(line)), b"+"))
        name = Word(end.at + 1, end.text[1:])
        fault = told(line, name, end_fault(name))
        if fault:
            return fault
    most = MOST_ENDS.get(version, 1)
    if len(ends) <= most:
        return None
    more = Word(ends[most].at, line[ends[most].at :])
    if version == 1:
        return Reason(more.at, more.to, "In version 1 a message encloses one end at most. With `version 2` as the first line it may enclose eight.")
    return Reason(more.at, more.to, "A message encloses eight ends at most. Send the others in a further message.")

"""Files, streams and statuses of the commands that read a transcript and need no program. The statuses are those of the program lynx."""

import os
import re
import signal
import sys
from collections.abc import Callable
from dataclasses import dataclass

MOST_BYTES = 67_108_864
DONE, USAGE, READ_FAULT, WRITE_FAULT, REFUSED, NO_FILE, TOO_BIG = 0, 1, 2, 3, 4, 6, 8


class NoWords(Exception):
    """The words are not of the form: why, in words."""


class Stopped(Exception):
    """The command ends with this status and this text."""

    def __init__(self, status: int, text: str):
        super().__init__(text)
        self.status = status
        self.text = text


@dataclass(frozen=True, slots=True)
class Answer:
    """What goes to standard output and to standard error, and the status."""
    out: str
    text: str
    status: int


def read_file(name: str) -> bytes:
    try:
        with open(name, "rb") as file:
            data = file.read(MOST_BYTES + 1)
    except FileNotFoundError:
        raise Stopped(NO_FILE, f"lynx: {name}: absent") from None
    except OSError:
        raise Stopped(READ_FAULT, f"lynx: {name}: read fault") from None
    if len(data) > MOST_BYTES:
        raise Stopped(TOO_BIG, f"lynx: {name}: too big")
    return data


def name_of_file(word: str) -> str:
    """The word, where it may be the name of a file."""
    if word == "" or word.startswith("-") or not is_text(word):
        raise NoWords(f"`{shown(word)}` is no name of a file")
    return word


def is_text(word: str) -> bool:
    """Whether the word is UTF-8; other bytes come as lone surrogates."""
    return not re.search(r"[\uD800-\uDFFF]", word)


def shown(word: str) -> str:
    """The first line of a word in printable ASCII, with a question mark for each other letter."""
    return re.sub(r"[^ -~]", "?", word.split("\n")[0])


def title_of(name: str) -> str:
    """The file's own name, where what XML can not hold is replaced."""
    return re.sub(r"[^\t\x20-\uD7FF\uE000-\uFFFD\U00010000-\U0010FFFF]", "\uFFFD", os.path.basename(name))


def end_with(answer_to: Callable[[list[str]], Answer]) -> None:
    """Puts the answer to the words of this process on its streams, and ends with its status."""
    signal.signal(signal.SIGINT, signal.SIG_DFL)
    try:
        answer = answer_to(sys.argv[1:])
        put(sys.stdout, answer.out)
        put(sys.stderr, f"{answer.text}\n" if answer.text else "")
        sys.exit(answer.status)
    except OSError:
        # with no further try to write
        os._exit(WRITE_FAULT)


def put(stream, text: str) -> None:
    if not text:
        return
    if stream is None:
        raise OSError
    stream.buffer.write(text.encode("utf-8", "backslashreplace"))
    stream.flush()

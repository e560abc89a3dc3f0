"""The spelling of a script's words: numbers, ends and texts. What is wrong with one, and how it is written."""

import re
from dataclasses import dataclass

from shown import cut, shown

NUMBER = re.compile(rb"0|[1-9][0-9]*")
PROCESS = re.compile(rb"p(0|[1-9][0-9]*)")
END = re.compile(rb"(0|[1-9][0-9]*)\.(0|[1-9][0-9]*)[ab]")
# What is meant for an end: signs and letters before it, other signs between its numbers, a side of another case.
LIKE_END = re.compile(rb"\+?[kpKP]?0*([0-9]+)[.,:/-]0*([0-9]+)[.,:/-]?([abAB])")
NO_SIDE = re.compile(rb"\+?[0-9]+\.[0-9]+")
PLAIN = re.compile(rb"[A-Za-z0-9_.]")
# A piece of a text: an escape of whatever letters, or one byte.
PIECE = re.compile(rb"%[0-9a-fA-F]{2}|(?s:.)")
MOST_MAKER = 255
MOST_COUNT = 4_294_967_295


@dataclass(frozen=True)
class Word:
    """A word of a line, and where it begins."""

    at: int
    text: bytes

    @property
    def to(self) -> int:
        return self.at + len(self.text)

    def __str__(self) -> str:
        return f"`{cut(self.text)}`"


def words_of(line: bytes) -> list[Word]:
    return [Word(it.start(), it[0]) for it in re.finditer(rb"[^ ]+", line)]


@dataclass(frozen=True)
class Fault:
    """What is wrong in a word from `at` up to `to`, and the word as it may be written, where that is known."""

    at: int
    to: int
    sentence: str
    written: bytes | None = None


def is_above(digits: bytes, most: int) -> bool:
    """Whether a number in plain decimal is more. It may have more digits than Python makes a number of."""
    return len(digits) > len(str(most)) or int(digits) > most


def number_fault(word: Word) -> Fault | None:
    if NUMBER.fullmatch(word.text):
        return None
    digits = re.search(rb"[0-9]+", word.text)
    if re.fullmatch(rb"0[0-9]+", word.text):
        sentence = "A number has no zero before it."
    elif re.fullmatch(rb"[+-][0-9]+", word.text):
        sentence = "A number has no sign."
    elif digits:
        sentence = f"{word} is more than a number: here the number stands alone, in plain decimal."
    else:
        sentence = f"{word} is no number: numbers are plain decimal, as `0`."
    return Fault(word.at, word.to, sentence, (digits[0].lstrip(b"0") or b"0") if digits else None)


def end_fault(word: Word) -> Fault | None:
    """Of an END without its `+`."""
    whole = END.fullmatch(word.text)
    if whole and is_above(whole[1], MOST_MAKER):
        return Fault(word.at, word.to, f"The maker of a link, which stands before the dot, is at most {MOST_MAKER}.")
    if whole and is_above(whole[2], MOST_COUNT):
        return Fault(word.at, word.to, f"The count of a link, which stands behind the dot, is at most {MOST_COUNT}.")
    if whole:
        return None
    meant = LIKE_END.fullmatch(word.text)
    if meant:
        written = b"%s.%s%s" % (meant[1], meant[2], meant[3].lower())
        return Fault(word.at, word.to, f"{word} is no end: an end is MAKER.COUNT in plain decimal, and its side, `a` or `b`.", written)
    if NO_SIDE.fullmatch(word.text):
        link = shown(word.text.lstrip(b"+"))
        return Fault(word.at, word.to, f"{word} is a link and names no end: `{link}a` is its one end, `{link}b` the other.")
    return Fault(word.at, word.to, f"{word} is no end: an end is MAKER.COUNT and its side, as `0.0a`.")


def spelled(byte: int) -> bytes:
    one = bytes([byte])
    return one if PLAIN.fullmatch(one) else b"%%%02X" % byte


def respelled(text: bytes) -> bytes:
    """A TEXT of the bytes that are meant, where escapes of any letters are meant for one byte."""
    pieces = (int(piece[1:], 16) if len(piece) == 3 else piece[0] for piece in PIECE.findall(text))
    return b"".join(map(spelled, pieces)) or b"-"


def quoted(text: bytes) -> bytes | None:
    """What stands between quotes."""
    return text[1:-1] if len(text) > 1 and text[:1] == text[-1:] and text[:1] in (b'"', b"'") else None


def text_fault(word: Word) -> Fault | None:
    """The first thing that is wrong in what is meant for one TEXT; it may have blanks."""
    if word.text == b"-" or respelled(word.text) == word.text:
        return None
    inner = quoted(word.text)
    if inner is not None:
        return Fault(word.at, word.to, "A text stands without quotes.", respelled(inner))
    for piece in PIECE.finditer(word.text):
        sentence = piece_sentence(piece[0])
        if sentence:
            return Fault(word.at + piece.start(), word.at + piece.end(), sentence, respelled(word.text))
    return None


def piece_sentence(piece: bytes) -> str | None:
    """What is wrong with a piece of a text."""
    if len(piece) == 3:
        right = spelled(int(piece[1:], 16))
        if len(right) == 1:
            return f"`{right.decode()}` stands for itself in a text, and is not written `{piece.decode()}`."
        return None if right == piece else f"The two digits behind `%` are upper-case: `{right.decode()}`."
    right = spelled(piece[0]).decode()
    if piece == b" ":
        return f"A blank ends a text here. In a text a blank is `{right}`."
    if piece == b"%":
        return f"Behind `%` stand two hexadecimal digits. The sign itself is `{right}` in a text."
    if piece == b"-":
        return f"`-` is a text of no bytes where it stands alone. In a text the sign is `{right}`."
    return None if len(right) == 1 else f"Letters, digits, `_` and `.` stand for themselves in a text. The byte `{shown(piece)}` is `{right}`."

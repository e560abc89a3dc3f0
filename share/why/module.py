"""Why a module is refused at a place: by its tokens, its grammar, its nesting or a typing rule."""

import re

from grammar import read
from names import name_reason
from pages import advice, demand
from reason import Reason, put
from shown import shown
from syntax import syntax_reason
from tokens import PIECE, tokens_of

BYTE_ORDER_MARK = b"\xef\xbb\xbf"
# What other languages write, and what stands for it here.
OTHER_SIGNS = (
    (rb"&&?", b"and"),
    (rb"\|\|?", b"or"),
    (rb"!=", b"<>"),
    (rb"!", b"not "),
    (rb"%", b"mod"),
    (rb"#", b"--"),
)
# The least and the greatest length of a row.
LENGTHS = (1, 16)


def module_reason(data: bytes, number: int, column: int, refusal: str) -> Reason | None:
    """Why a module is refused at this line and column."""
    lines = data.split(b"\n")
    if not (1 <= number <= len(lines) and 1 <= column <= len(lines[number - 1]) + 1):
        return None
    line, at = lines[number - 1], column - 1
    place = sum(len(before) + 1 for before in lines[: number - 1]) + at
    if refusal == "lex 1":
        return bad_byte(line, at)
    if refusal == "lex 2":
        return open_text(line, at)
    tokens = tokens_of(data)
    reason = None
    if refusal == "syntax":
        reason = syntax_reason(data, tokens, place)
    elif refusal == "rule 4":
        reason = length_of_a_row(line, at)
    elif refusal.startswith("rule"):
        reason = name_reason(data, read(tokens), place, refusal)
    return reason or Reason(at, end_of_token(line, at), demand(refusal), advice=advice(refusal))


def end_of_token(line: bytes, at: int) -> int:
    piece = PIECE.match(line, at)
    return piece.end() if piece and piece.lastgroup != "gap" else at + 1


def bad_byte(line: bytes, at: int) -> Reason:
    if line[at:].startswith(BYTE_ORDER_MARK):
        return Reason(at, at + 3, "A byte order mark stands here. Save the file as plain text, without one.", line.replace(BYTE_ORDER_MARK, b""))
    if line[at : at + 1] == b'"':
        return Reason(at, at + 1, "A text stands between single quotes: `'`.", line.replace(b'"', b"'"))
    for sign, written in OTHER_SIGNS:
        found = re.compile(sign).match(line, at)
        if found:
            sentence = f"`{shown(found[0])}` is no sign of the language; the nearest is `{written.decode().strip()}`."
            return Reason(at, found.end(), sentence, put(line, at, found.end(), written))
    sentence = f"With the byte `{shown(line[at : at + 1])}` no token begins. Outside comments and texts a module has letters, digits and signs alone."
    return Reason(at, at + 1, sentence, advice=advice("lex 1"))


def open_text(line: bytes, at: int) -> Reason:
    bad = re.compile(rb"'[ -&(-~]*").match(line, at)
    end = bad.end() if bad else at + 1
    if end < len(line):
        sentence = f"The byte `{shown(line[end : end + 1])}` can not stand in a text: letters, digits, blanks and the signs of ASCII can."
        return Reason(at, end + 1, sentence)
    return Reason(at, end, "The text that begins here is not closed in its line, by another `'`.")


def length_of_a_row(line: bytes, at: int) -> Reason:
    end = end_of_token(line, at)
    near = LENGTHS[1] if line[at:end].strip(b"0") else LENGTHS[0]
    return Reason(at, end, demand("rule 4"), put(line, at, end, b"%d" % near))

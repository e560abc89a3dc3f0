"""The tokens of a module (docs/TOKENS.md)."""

import re
from dataclasses import dataclass

KEYWORDS = (
    "module begin end op param var entry of int bool text link row if then else while do write await stop raise new destroy bind to unbind from "
    "connect on accept reply try when or and mod not true false"
).split()
PIECE = re.compile(
    rb"(?P<gap>[ \t\n\r]+|--[^\n]*)|(?P<name>[A-Za-z][A-Za-z0-9_]*)|(?P<number>[0-9]+)|(?P<text>'[ -&(-~]*')"
    rb"|(?P<sign>:=|<>|<=|>=|[;.():,\[\]=<>+*/-])"
)
NAME, NUMBER, STRING, END = "a name", "a number", "a text", "the end of the file"


@dataclass(frozen=True)
class Token:
    """The kind of a token is what it spells, but for names, numbers and texts."""

    kind: str
    at: int
    to: int
    text: str


def kind_of(group: str, text: str) -> str:
    if group == "name" and text not in KEYWORDS:
        return NAME
    return {"number": NUMBER, "text": STRING}.get(group, text)


def tokens_of(data: bytes) -> list[Token]:
    """The tokens up to the first byte that begins none, with one for the end behind them."""
    tokens, at = [], 0
    while piece := PIECE.match(data, at):
        if piece.lastgroup != "gap":
            text = piece[0].decode("latin-1")
            tokens.append(Token(kind_of(piece.lastgroup, text), at, piece.end(), text))
        at = piece.end()
    return [*tokens, Token(END, len(data), len(data), "")]

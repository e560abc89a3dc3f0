"""Why no module goes on with a token: what may stand in its place."""

from grammar import RELATIONS, STATEMENTS, Reader, read
from names import Place
from nearest import nearest
from reason import Reason, put
from tokens import END, KEYWORDS, NAME, NUMBER, STRING, Token

DECLARATIONS = ("op", "param", "var", "entry")
# Sets of tokens that have a name. Each stands behind those that have more tokens.
GROUPS = (
    ({NAME, *STATEMENTS}, "a statement"),
    ({"+", "-", "*", "/", "mod", "and", "or", *RELATIONS}, "an operator"),
    ({NAME, NUMBER, STRING, "true", "false", "not", "-", "("}, "an expression"),
    ({NAME, NUMBER, STRING, "true", "false", "("}, "a value"),
    ({"int", "bool", "text", "link", "row"}, "a type"),
)
NAMED = (NAME, NUMBER, STRING, END)
# How alike a name and a keyword have to be, and how long such a name is.
NEAR = 0.7
SHORTEST = 3


def syntax_reason(data: bytes, tokens: list[Token], at: int) -> Reason | None:
    """The reason of a fault at this byte, where the grammar is left there."""
    reader = read(tokens)
    if reader.at == len(tokens) or reader.token.at != at:
        return None
    here = Place(data, reader.token)
    before = Place(data, tokens[reader.at - 1]) if reader.at else None
    for find in (misspelt, keyword_as_name, other_sign, no_semicolon, wrong_order, chained):
        reason = find(reader, here, before)
        if reason:
            return reason
    if reader.token.kind == END:
        return Reason(here.at, here.at + 1, f"The file ends too soon. What may stand here is {hoped(reader)}.")
    return Reason(here.at, here.to, f"`{reader.token.text}` can not stand here. What may stand here is {hoped(reader)}.")


def hoped(reader: Reader) -> str:
    """What could have stood in the token's place."""
    left, said = set(reader.hoped[reader.at]), []
    for group, name in GROUPS:
        if group <= left:
            left -= group
            said.append(name)
    said += sorted(kind if kind in NAMED else f"`{kind}`" for kind in left)
    return " or ".join(filter(None, [", ".join(said[:-1]), said[-1]]))


def misspelt(reader: Reader, here: Place, before: Place | None) -> Reason | None:
    """A name in whose place a keyword could stand that is like it: the token, or the one before it."""
    for index, place in ((reader.at, here), (reader.at - 1, before)):
        if place is None or place.token.kind != NAME:
            continue
        text = place.token.text
        words = [kind for kind in reader.hoped[index] if kind in KEYWORDS]
        near = nearest(text, sorted(words), NEAR)
        if near and (len(text) >= SHORTEST or text.lower() == near):
            sentence = f"`{text}` is no keyword; the nearest that may stand there is `{near}`."
            marked = place if place.number == here.number else here
            return Reason(marked.at, marked.to, sentence, place.with_word(near), line=place.number)
    return None


def keyword_as_name(reader: Reader, here: Place, before: Place | None) -> Reason | None:
    if reader.token.kind in KEYWORDS and reader.hoped[reader.at] == {NAME}:
        return Reason(here.at, here.to, f"`{reader.token.text}` is a keyword, and can not be a name. Here stands a name.")
    return None


def other_sign(reader: Reader, here: Place, before: Place | None) -> Reason | None:
    if reader.token.kind != "=":
        return None
    if ":=" in reader.hoped[reader.at]:
        return Reason(here.at, here.to, "`=` compares two values. A variable is given one by `:=`.", here.with_word(":="))
    if before and before.token.kind == "=" and before.token.to == reader.token.at:
        return Reason(here.at, here.to, "Values are compared by one `=`.", put(here.line, here.at, here.to, b""))
    return None


def no_semicolon(reader: Reader, here: Place, before: Place | None) -> Reason | None:
    """A token that begins a line or a statement, or ends some, where a `;` could stand."""
    if before is None or ";" not in reader.hoped[reader.at]:
        return None
    if here.number == before.number and reader.token.kind not in (*STATEMENTS, "end", "else", "when"):
        return None
    sentence = f"A `;` is missing behind `{before.token.text}` in line {before.number}: each statement and each declaration ends with one."
    return Reason(here.at, max(here.to, here.at + 1), sentence, put(before.line, before.to, before.to, b";"), line=before.number)


def wrong_order(reader: Reader, here: Place, before: Place | None) -> Reason | None:
    if reader.token.kind in DECLARATIONS and "begin" in reader.hoped[reader.at]:
        return Reason(here.at, here.to, "Declarations stand in this order: ops, params, vars, entries. Put this one before those that come behind it.")
    return None


def chained(reader: Reader, here: Place, before: Place | None) -> Reason | None:
    if reader.token.kind in RELATIONS and "or" in reader.hoped[reader.at]:
        return Reason(here.at, here.to, "A relation does not chain: join two relations by `and`, or put one in brackets.")
    return None

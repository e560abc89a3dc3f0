"""Why a name of a module is refused: it is declared twice, or not, or as something else."""

from grammar import Declared, Reader
from nearest import nearest
from pages import advice
from reason import Reason, listed, put
from tokens import Token

EXCEPTIONS = ("BUSYLINK", "DEADLINK", "NOLINK", "DIVIDE", "OVERFLOW", "RANGE", "FAILED", "REPLIED", "LINKSFULL")
# What a declared name is, in words, and what is needed where it stands.
KINDS = {"op": "an op", "entry": "an entry", "param": "a variable", "var": "a variable", "parameter": "a variable"}
NEEDED_BEHIND = {"connect": "an op", "accept": "an op", "of": "an op", "to": "an entry", "from": "an entry"}
MOST_NAMES = 8


class Place:
    """A token of a module, and its line."""

    def __init__(self, data: bytes, token: Token):
        self.token = token
        before = data[: token.at]
        self.number = before.count(b"\n") + 1
        begin = before.rfind(b"\n") + 1
        self.at, self.to = token.at - begin, token.to - begin
        self.line = data[begin:].partition(b"\n")[0]

    def with_word(self, word: str) -> bytes:
        """The line with another word in the place of the token."""
        return put(self.line, self.at, self.to, word.encode())


def name_reason(data: bytes, reader: Reader, at: int, refusal: str) -> Reason | None:
    index = next((index for index, token in enumerate(reader.tokens) if token.at == at), None)
    if index is None:
        return None
    token = reader.tokens[index]
    place = Place(data, token)
    if refusal in ("rule 1", "rule 2"):
        return declared_twice(data, reader, place)
    if refusal == "rule 23":
        return no_exception(place)
    if refusal in ("rule 6", "rule 8"):
        return not_there(reader, place, NEEDED_BEHIND.get(reader.tokens[index - 1].kind, "a variable"), refusal)
    return None


def declared_twice(data: bytes, reader: Reader, place: Place) -> Reason | None:
    entry = next((it.entry for it in reader.declared if it.token == place.token), None)
    first = next((it for it in reader.declared if it.token.text == place.token.text and it.entry == entry and it.token != place.token), None)
    if first is None:
        return None
    sentence = f"`{place.token.text}` is declared already, in line {Place(data, first.token).number}, as {KINDS[first.kind]}."
    return Reason(place.at, place.to, sentence, advice=advice("rule 1"))


def no_exception(place: Place) -> Reason:
    near = nearest(place.token.text, EXCEPTIONS)
    if near:
        return Reason(place.at, place.to, f"There is no exception `{place.token.text}`; the nearest is `{near}`.", place.with_word(near))
    return Reason(place.at, place.to, f"There is no exception `{place.token.text}`. Exceptions are {listed(EXCEPTIONS)}.")


def not_there(reader: Reader, place: Place, needed: str, refusal: str) -> Reason:
    """A name that is not declared, or not as what its place needs."""
    text = place.token.text
    known = known_at(reader, place.token.at)
    meant = next((it for it in reversed(known) if it.token.text == text), None)
    fit = [it.token.text for it in known if KINDS[it.kind] == needed and it.token.text != text]
    one = needed.partition(" ")[2]
    said = f"`{text}` is {KINDS[meant.kind]}, and here {needed} is needed" if meant else f"No {one} `{text}` is declared"
    near = nearest(text, fit)
    if near:
        return Reason(place.at, place.to, f"{said}; the nearest {one} is `{near}`.", place.with_word(near))
    if not fit:
        return Reason(place.at, place.to, f"{said}; no other {one} is declared.", advice=advice(refusal))
    shown = list(dict.fromkeys(fit))[:MOST_NAMES]
    return Reason(place.at, place.to, f"{said}; declared are {listed(shown)}.", advice=advice(refusal))


def known_at(reader: Reader, at: int) -> list[Declared]:
    """The names of the module, and behind them those of the entry around a place."""
    entry = next((token for token, end in reader.ends.items() if token.at < at < end), None)
    own = [it for it in reader.declared if it.entry is None]
    return own + [it for it in reader.declared if it.entry is not None and it.entry == entry]

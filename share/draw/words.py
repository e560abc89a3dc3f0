"""The words behind `lynx draw`."""

import re
from dataclasses import dataclass

from outside import NoWords, name_of_file, shown

FORM = "lynx draw TRANSCRIPT [--from STAMP] [--to STAMP] [--ends END,END..] [--all]"
NUMBER = re.compile(r"0|[1-9][0-9]{0,19}")
END = re.compile(r"(?:0|[1-9][0-9]{0,2})\.(?:0|[1-9][0-9]{0,9})[ab]")


@dataclass(slots=True)
class Wish:
    """What is to be drawn: of this file the rows from the stamp `first` to the stamp `last`, where it is not None. `ends` are the ends that
    are shown, and None where those are that change. With `all` each end is shown, where `ends` chooses none, and each event has a box of its own."""
    name: str | None = None
    first: int = 0
    last: int | None = None
    ends: list[str] | None = None
    all: bool = False


def wish_of(words: list[str]) -> Wish:
    """What the words ask for. An option stands at most once, its value behind it or behind a `=`."""
    wish, left, seen = Wish(), list(words), set()
    while left:
        word = left.pop(0)
        if not word.startswith("--"):
            name(wish, word)
            continue
        option, equals, value = word.partition("=")
        if option in seen:
            raise NoWords(f"`{shown(option)}` stands twice")
        seen.add(option)
        if option == "--all" and not equals:
            wish.all = True
        elif option in ("--from", "--to", "--ends"):
            if not equals and not left:
                raise NoWords(f"nothing stands behind `{option}`")
            choose(wish, option, value if equals else left.pop(0))
        else:
            raise NoWords(f"there is no choice `{shown(word)}`")
    if wish.name is None:
        raise NoWords("the name of a file is missing")
    if wish.last is not None and wish.last < wish.first:
        raise NoWords(f"no stamp is from {wish.first} to {wish.last}")
    return wish


def name(wish: Wish, word: str) -> None:
    named = name_of_file(word)
    if wish.name is not None:
        raise NoWords(f"`{shown(word)}` is a word too many")
    wish.name = named


def choose(wish: Wish, option: str, value: str) -> None:
    if option == "--ends":
        wish.ends = value.split(",")
        if not all(map(END.fullmatch, wish.ends)):
            raise NoWords(f"`{shown(value)}` is no list of ends, as 0.1a,2.0b")
        if len(set(wish.ends)) < len(wish.ends):
            raise NoWords(f"`{shown(value)}` names an end twice")
    elif not NUMBER.fullmatch(value):
        raise NoWords(f"`{shown(value)}` is no stamp")
    elif option == "--from":
        wish.first = int(value)
    else:
        wish.last = int(value)


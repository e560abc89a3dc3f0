"""What docs/refusals says of a refusal, in a sentence."""

import os
import re

DOCS = f"{os.path.dirname(os.path.dirname(os.path.dirname(os.path.abspath(__file__))))}/docs/refusals"


def part_of(refusal: str) -> str:
    with open(f"{DOCS}/{refusal.split()[0]}.md", encoding="utf-8") as page:
        return re.split(rf"(?m)^## {re.escape(refusal)}$", page.read())[1].partition("\n## ")[0]


def one_line(text: str) -> str:
    return " ".join(text.split())


def demand(refusal: str) -> str:
    """What the rule demands: the first sentence on it."""
    return re.match(r".*?\.(?= [A-Z`]|$)", one_line(part_of(refusal).strip().partition("\n\n")[0]))[0]


def advice(refusal: str) -> str:
    """What to do, as the page says."""
    found = re.search(r"(?m)^What to do: ((?:.+\n)+)", part_of(refusal))
    said = one_line(found[1]) if found else ""
    return said[:1].upper() + said[1:]

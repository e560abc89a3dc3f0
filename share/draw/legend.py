"""The legend of a drawing: all that its colours, patterns and strokes mean, and nothing that it does not have."""

from dataclasses import dataclass

from state import FORWARDED, RESENT
from view import Bundle, View

FAMILY_WORDS = {"ask": "packet about a receive", "message": "packet of a message", "move": "packet about a move", "death": "packet about a death"}


@dataclass(frozen=True, slots=True)
class Item:
    """A sample of this kind, and what it means."""
    kind: str
    words: str


def legend_items(view: View, bundles: list[Bundle]) -> list[Item]:
    return event_items(view) + packet_items(view, bundles) + end_items(view)


def event_items(view: View) -> list[Item]:
    entries = [view.entry(number) for number in view.events]
    told = {
        "call": ("a process calls its kernel", any(not entry.is_packet() for entry in entries)),
        "refusal": ("a call that is refused", any(step.text.startswith("refuse ") for entry in entries for step in entry.steps)),
        "taking": ("a kernel takes a packet", any(entry.is_packet() for entry in entries)),
        "folded": ("events that are alike", any(len(group.events) > 1 for group in view.groups)),
        "wrong": ("the line that is wrong", bool(view.faults)),
    }
    return [Item(kind, words) for kind, (words, is_there) in told.items() if is_there]


def packet_items(view: View, bundles: list[Bundle]) -> list[Item]:
    families = {bundle.family() for bundle in bundles}
    arrows = [bundle.first for bundle in bundles]
    manners = {arrow.manner for arrow in arrows}
    items = [Item(family, words) for family, words in FAMILY_WORDS.items() if family in families]
    if manners & {FORWARDED, RESENT}:
        items.append(Item("again", "forwarded, or sent again"))
    if any(len(bundle.arrows) > 1 for bundle in bundles):
        items.append(Item("bundle", "several packets"))
    if any(arrow.head is None or arrow.head >= view.events.stop for arrow in arrows):
        items.append(Item("untaken", "under way at the end" if view.is_cut or view.faults else "packet that nobody took"))
    if any(arrow.cargo for arrow in arrows):
        items.append(Item("cargo", "message that carries ends"))
    return items


def end_items(view: View) -> list[Item]:
    if not view.ends:
        return []
    shown = set(view.ends)
    holders = {change.holder for change in view.story.changes if change.end in shown and change.event < view.events.stop}
    told = {
        "owned": ("end of a process, in its colour", True),
        "enclosed": ("end in a message", any(" " in holder for holder in holders)),
        "dead": ("its opposite end was destroyed", "dead" in holders),
        "destroyed": ("end destroyed", "destroyed" in holders),
    }
    return [Item(kind, words) for kind, (words, is_there) in told.items() if is_there]

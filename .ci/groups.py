#!/usr/bin/env python3
"""The groups of crates, by the headings of crates.txt: which group stands on which.

.ci/groups.py          tells each group with its crates and what it stands on, and ends with a failure where docs/groups.svg is another drawing
                       than that of crates.txt, where a crate stands below no heading, where a heading is no group, where groups have a cycle,
                       or where crates.txt has too many paths
.ci/groups.py --write  draws docs/groups.svg
"""

import pathlib
import re
import sys

TOP = pathlib.Path(__file__).resolve().parent.parent
DRAWING = TOP / "docs/groups.svg"
# From left to right, where a group stands; its height follows from what it stands on.
PLACES = {"words": 1.0, "kernel": 0.5, "service": 1.5, "texts": 0.5, "theorem": 1.0, "audit": 1.0, "histories": 1.8, "language": 2.5,
          "compiler": 2.5, "machine": 3.5, "requests": 3.5, "program": 1.75, "workers": 2.5, "tests": 2.6}
# rt walks each path down from each crate some fifty times before its first proof: at this number for about five minutes.
PATHS = 8_000_000
COLUMN, LEVEL, WIDTH, HEIGHT, MARGIN = 180, 84, 130, 46, 24
STYLE = 'font-family="sans-serif" text-anchor="middle"'


def read_crates(text):
    """The crates with their groups and with what they stand on, in the order of the file; and what is wrong with it."""
    group_of, needs, wrong, group = {}, {}, [], None
    for line in text.splitlines():
        heading = re.fullmatch(r"#\W*([a-z]+)\W*", line)
        crate = re.match(r"([a-z]\w*)[ \w=]*:(.*)", line)
        if heading:
            group = heading.group(1)
            if group not in PLACES:
                wrong.append(f"the heading {group} is no group")
        elif crate:
            if group is None:
                wrong.append(f"{crate.group(1)} stands below no heading")
            group_of[crate.group(1)] = group
            needs[crate.group(1)] = crate.group(2).split()
    return group_of, needs, wrong


def groups_below(group_of, needs):
    """Each group with those that its crates stand on."""
    below = {group: set() for group in PLACES if group in group_of.values()}
    for crate, others in needs.items():
        below[group_of[crate]].update(group_of[other] for other in others if other in group_of)
    return {group: others - {group} for group, others in below.items()}


def all_below(group, below, path=()):
    """All groups below one, also by way of others; a cycle is an error that names it."""
    if group in path:
        raise ValueError("groups have a cycle: " + " ".join(path[path.index(group):] + (group,)))
    found = set()
    for other in below[group]:
        found |= {other} | all_below(other, below, path + (group,))
    return found


def without_implied(below):
    """Each group with those that it stands on directly: none of them stands below another one."""
    return {group: {other for other in others if not any(other in all_below(third, below) for third in others)}
            for group, others in below.items()}


def paths_down(needs):
    """Each crate with the number of paths that go down from it, the empty one among them."""
    found = {}

    def count(crate):
        if crate not in found:
            found[crate] = 1 + sum(count(other) for other in needs[crate] if other in needs)
        return found[crate]

    for crate in needs:
        count(crate)
    return found


def drawing_of(group_of, needs):
    below = groups_below(group_of, needs)
    direct = without_implied(below)

    def level(group):
        return 1 + max((level(other) for other in direct[group]), default=-1)

    top = max(level(group) for group in below)

    def place(group):
        return round(PLACES[group] * COLUMN + MARGIN + WIDTH / 2 - COLUMN / 2), (top - level(group)) * LEVEL + MARGIN

    width = max(place(group)[0] for group in below) + WIDTH // 2 + MARGIN
    height = top * LEVEL + HEIGHT + 2 * MARGIN
    out = [f'<svg xmlns="http://www.w3.org/2000/svg" viewBox="0 0 {width} {height}" width="{width}" height="{height}">',
           "<title>The groups of crates: each stands on those that its lines go down to</title>",
           f'<rect width="{width}" height="{height}" fill="white"/>']
    for group in below:
        x, y = place(group)
        for other in sorted(direct[group]):
            far, down = place(other)
            out.append(f'<line x1="{x}" y1="{y + HEIGHT}" x2="{far}" y2="{down}" stroke="#64748b" stroke-width="1.5"/>')
    for group in below:
        x, y = place(group)
        count = list(group_of.values()).count(group)
        out += [f'<rect x="{x - WIDTH // 2}" y="{y}" width="{WIDTH}" height="{HEIGHT}" rx="6" fill="#f1f5f9" stroke="#334155"/>',
                f'<text x="{x}" y="{y + 20}" {STYLE} font-size="15">{group}</text>',
                f'<text x="{x}" y="{y + 37}" {STYLE} font-size="11" fill="#475569">{count} crates</text>']
    return "\n".join(out + ["</svg>", ""])


def main():
    group_of, needs, wrong = read_crates((TOP / "crates.txt").read_text(encoding="utf-8"))
    if not wrong:
        try:
            drawing = drawing_of(group_of, needs)
        except ValueError as error:
            wrong.append(str(error))
        paths = sum(paths_down(needs).values())
        if paths > PATHS:
            wrong.append(f"{paths} paths, more than {PATHS}: what a crate cites of one far below let a crate between pass on (`pub use` in Lib.antt)")
    if wrong:
        sys.exit("\n".join(f"crates.txt: {what}" for what in wrong))
    if "--write" in sys.argv[1:]:
        DRAWING.write_text(drawing, encoding="utf-8")
        return
    for group, others in without_implied(groups_below(group_of, needs)).items():
        crates = [crate for crate in group_of if group_of[crate] == group]
        print(f"{group}, on {' and '.join(sorted(others)) or 'none'}: {' '.join(crates)}")
    if not DRAWING.exists() or DRAWING.read_text(encoding="utf-8") != drawing:
        sys.exit("docs/groups.svg is not the drawing of crates.txt: draw it anew by .ci/groups.py --write")


main()

#!/usr/bin/env python3
"""Tries share/draw on each transcript of examples/, and on some that are wrong, long or of many kernels. `--write` makes the drawings of examples/.

The drawings are read by the places, colours and shapes of what is drawn, and compared with the transcript in a second way
that shares no code with share/draw (.ci/drawn): who holds an end comes from the service lines alone, and the event at the tail of an arrow
has to be one that may send such a packet.
"""

import ast
import os
import re
import subprocess
import sys
import tempfile
import xml.etree.ElementTree as ElementTree
from pathlib import Path

TOP = Path(__file__).resolve().parent.parent
sys.dont_write_bytecode = True
sys.path[:0] = [str(TOP / "share/draw"), str(TOP / ".ci/drawn")]
sys.path.append(str(TOP / "share/why"))

from draw import answer_to  # noqa: E402
from faults import faults_of, faults_of_looks, faults_of_texts  # noqa: E402
from line import line_sentence  # noqa: E402
from outside import Answer  # noqa: E402
from run import fault_of  # noqa: E402
from seen import SVG, Drawing  # noqa: E402

EXAMPLES = TOP / "examples"
DRAW = [sys.executable, str(TOP / "share/draw/draw.py")]
BUSY = TOP / ".ci/drawn/busy.transcript"
# The width of a screen, in points.
SCREEN = 1920


class Tries:
    def __init__(self) -> None:
        self.passed = 0
        self.failed = 0

    def expect(self, good: bool, name: str, *why: str) -> None:
        if good:
            self.passed += 1
            return
        self.failed += 1
        print(f"FAILED {name}")
        for text in why[:10]:
            print(f"  {text}")


def draw(*words: object) -> Answer:
    """What `draw` answers to these words, without a process of its own."""
    return answer_to([str(word) for word in words])


def try_drawing(tries: Tries, transcript: Path, *options: str) -> None:
    made = draw(transcript, *options)
    name = " ".join([transcript.name, *options])
    tries.expect(made.status == 0 and not made.text, f"{name}: drawn", made.text)
    faults = faults_of(made.out.encode(), transcript.read_text(), "--all" in options)
    tries.expect(not faults, f"{name}: its drawing", *faults)


def try_examples(tries: Tries) -> None:
    for transcript in sorted(EXAMPLES.glob("*.transcript")):
        kept = transcript.with_suffix(".svg")
        made = draw(transcript)
        tries.expect(kept.exists() and kept.read_text() == made.out, f"{kept.name} is the drawing of {transcript.name}")
        try_drawing(tries, transcript)
        try_drawing(tries, transcript, "--all")
    for transcript in sorted((TOP / ".ci/rows/runs").glob("*.transcript")):
        try_drawing(tries, transcript)


def try_plans(tries: Tries) -> None:
    """The transcripts of plans are drawn. Of the short ones the drawing is kept."""
    for transcript in sorted((EXAMPLES / "plans").glob("*.transcript")):
        kept = transcript.with_suffix(".svg")
        tries.expect(not kept.exists() or kept.read_text() == draw(transcript).out, f"{kept.name} is the drawing of {transcript.name}")
        try_drawing(tries, transcript)


def write_examples() -> None:
    plans = [kept.with_suffix(".transcript") for kept in sorted((EXAMPLES / "plans").glob("*.svg"))]
    for transcript in sorted(EXAMPLES.glob("*.transcript")) + plans:
        transcript.with_suffix(".svg").write_text(draw(transcript).out)


def try_choices(tries: Tries) -> None:
    """A run of eight kernels is as wide as a screen, and the words choose of it."""
    try_drawing(tries, BUSY)
    text, whole = BUSY.read_text(), Drawing(draw(BUSY).out.encode())
    tries.expect(whole.width <= SCREEN, f"250 events of eight kernels are {whole.width:g} points wide; wanted {SCREEN}")
    stamps = {line: int(one.split(" ")[0]) for line, one in enumerate(text.splitlines(), 1) if re.match(r"\d+ k", one)}
    part = Drawing(draw(BUSY, "--from", "5", "--to=9").out.encode())
    tries.expect(part.cards.keys() == {line for line, stamp in stamps.items() if 5 <= stamp <= 9}, "--from and --to choose rows")
    tries.expect(part.height < whole.height / 2, "--from and --to make a drawing smaller")
    some = Drawing(draw("--ends=0.0a,1.0b", BUSY).out.encode())
    tries.expect({end for end, _, _ in some.holds} == {"0.0a", "1.0b"}, "--ends chooses ends")
    every = Drawing(draw(BUSY, "--all").out.encode())
    tries.expect(len({end for end, _, _ in every.holds}) == 2 * text.count("\nwire "), "--all shows all ends")
    eight = EXAMPLES / "eight_ends.transcript"
    folded, single = Drawing(draw(eight).out.encode()), Drawing(draw(eight, "--all").out.encode())
    tries.expect(folded.height < single.height * 0.6, "events that are alike share a box")
    for words in (("--from", "9", "--to", "3"), ("--from",), ("--from", "x"), ("--to", "01"), ("--ends", "0.0"), ("--ends", "0.0a,0.0a"),
                  ("--from=1", "--from=2"), ("--all=1",), ("--every",), ("-a",), ("--from", "100000"), ("--ends", "7.9a")):
        made = draw(BUSY, *words)
        tries.expect(made.status == 1 and not made.out and made.text.startswith("lynx: "), f"{' '.join(words)} is refused", made.text)


def try_processes(tries: Tries, folder: Path) -> None:
    """64 processes are told apart without their colours."""
    file = folder / "many"
    homes = "".join(f"process {process} on {process % 8}\n" for process in range(64))
    file.write_text(f"transcript 1\nkernels 8\n{homes}1 k0 p0 print x\nquiet\n")
    try_drawing(tries, file)


def try_wrong_drawings(tries: Tries) -> None:
    """A drawing with one thing wrong is found out."""
    text = (EXAMPLES / "moving_end.transcript").read_text()
    svg = draw(EXAMPLES / "moving_end.transcript").out
    arrows = re.findall(r'<path class="packet .*?</path>', svg, re.DOTALL)
    holds = re.findall(r'<rect class="hold".*? data-holder="p1".*?</rect>', svg)
    cards = re.findall(r'<g class="card.*?</g>', svg, re.DOTALL)
    if not arrows or not holds or not cards:
        return tries.expect(False, "wrong drawings: there is a drawing to change")
    mark = arrows[0].split('data-tail="')[1].split('"')[0]
    wrong = {
        "an arrow is missing": svg.replace(arrows[0] + "\n", "", 1),
        "an arrow stands twice": svg.replace(arrows[0], arrows[0] + arrows[0], 1),
        "an arrow has another tail": svg.replace(arrows[0], arrows[0].replace(f'data-tail="{mark}"', 'data-tail="8"'), 1),
        "an arrow has no tail": svg.replace(arrows[0], arrows[0].replace(f'data-tail="{mark}"', 'data-tail="7"'), 1),
        "an arrow begins beside its card": svg.replace(arrows[0], arrows[0].replace('d="M', 'd="M9'), 1),
        "an arrow is dashed without a reason": svg.replace("packet sent", "packet forwarded", 1),
        "a holder is missing": svg.replace(holds[-1], "", 1),
        "a holder has another colour": svg.replace(holds[-1], holds[-1].replace('fill="#', 'fill="#1'), 1),
        "a holder is another": svg.replace(holds[-1], holds[-1].replace('"p1"', '"p0"'), 1),
        "two texts lie on each other": svg.replace(">kernel 0<", f">{'kernel 0' * 9}<", 1),
        "the legend lacks a packet": svg.replace(">packet about a move<", "><", 1),
        "the legend has what is not there": svg.replace(">packet about a move<", ">events that are alike<", 1),
        "two heads of arrows are alike": svg.replace('d="M1 1 L9 5 L1 9"', 'd="M0 1 L10 5 L0 9 z"', 1),
        "two processes are alike": svg.replace('data-process="1" rx="9" fill="#d55e00"', 'data-process="1" rx="9" fill="#0072b2"', 1),
        "a colour is for one page alone": svg.replace(".move, .open-move {", ".move {", 1),
        "there is no description": svg.replace("<desc", "<metadata", 1).replace("</desc", "</metadata", 1),
        "a box stands above the arrows": svg.replace(cards[0], "", 1).replace("</svg>", cards[0] + "</svg>", 1),
        "a tag is not closed": svg.replace("</svg>", "", 1),
    }
    for name, changed in wrong.items():
        tries.expect(changed != svg and bool(faults_of(changed.encode(), text)), f"a wrong drawing is found out: {name}")


def try_refusals(tries: Tries, folder: Path) -> None:
    """What is no transcript of a run is refused with the first line where that shows."""
    good = (EXAMPLES / "moving_end.transcript").read_text().splitlines()

    def edited(line: int, *texts: str) -> str:
        return "".join(text + "\n" for text in good[:line - 1] + list(texts) + good[line:])

    def noted(*notes: str) -> str:
        return edited(len(good), *notes, good[-1])

    cases = [
        ("nothing", "", 1), ("a script", (EXAMPLES / "moving_end.script").read_text(), 1),
        ("no line feed at the end", "\n".join(good), len(good)),
        ("no last line", "".join(x + "\n" for x in good[:-1]), len(good)),
        ("a version that is none", edited(1, "transcript 3"), 1), ("nine kernels", edited(2, "kernels 9"), 2),
        ("a process on no kernel", edited(4, "process 1 on 3"), 4), ("a process left out", edited(4), 4),
        ("a call of no form", edited(8, "1 k0 p0 send 0.0a"), 8), ("an end of no form", edited(8, "1 k0 p0 send 0.0c yours"), 8),
        ("an end past its numbers", edited(8, "1 k0 p0 send 256.0a yours"), 8),
        ("a text of no form", edited(8, "1 k0 p0 send 0.0a %41"), 8),
        ("a process at another kernel", edited(8, "1 k1 p0 send 0.0a yours"), 8),
        ("a stamp too great", edited(40, "12 k2 p2 wait"), 40),
        ("stamps out of order", edited(8, good[9], good[7]), 9),
        ("a packet that was not sent", edited(12, "2 k0 from 1 want 0.0a 2 1 0"), 12),
        ("a packet from another kernel", edited(12, "2 k0 from 2 want 0.0a 1 1 0"), 12),
        ("a service line of no form", edited(13, ". matched 0.0a 1"), 13),
        ("a wrong service line", edited(13, ". match 0.0a 2"), 13), ("a service line left out", edited(13), 13),
        ("a service line too many", edited(13, good[12], good[12]), 14),
        ("a service line of a call left out", edited(9), 9),
        ("a refusal of a call that is allowed", edited(9, ". refuse p0 Busy"), 9),
        ("a report of another message", edited(25, ". report p1 0.0b in done mine +2.0b"), 25),
        ("a report without its ends", edited(25, ". report p1 0.0b in done yours"), 25),
        ("a last line that is wrong", edited(len(good), "open"), len(good)),
        ("a line behind the last", "".join(x + "\n" for x in good + ["quiet"]), len(good) + 1),
        ("a note of a line past 32 bits", noted("note 4294967296 nothing"), len(good)),
        ("notes out of order", noted("note 7 waits", "note 7 nothing"), len(good) + 1),
        ("a note before `spent`", edited(len(good), "note 7 waits", "spent 0"), len(good) + 1),
        ("`spent` of a kernel that is not there", edited(len(good), "spent 3"), len(good)),
        ("a kernel that is not there", edited(8, "1 k3 p0 send 0.0a yours"), 8),
        ("a wrong service line, and a line of no form far behind it", edited(13, ". match 0.0a 2").replace("quiet", "quite"), len(good)),
        ("a stamp that is wrong, and one past 64 bits behind it", edited(8, "2" + good[7][1:]).replace("\n4 ", "\n18446744073709551616 ", 1),
         next(number for number, line in enumerate(good, 1) if line.startswith("4 "))),
    ]
    for name, text, line in cases:
        file = folder / "case"
        file.write_text(text)
        made = draw(file)
        right = made.text.startswith(f"{file}:{line}: transcript: ") and "\n" not in made.text
        tries.expect(right and made.status == 4, f"refused: {name}", f"status {made.status}, {made.text}; wanted line {line}")
        faults = faults_of_part(made, text, line)
        tries.expect(not faults, f"refused: {name}: what stands before is drawn", *faults)
    for name, text in (("notes", noted("note 0 waits", "note 4294967295 nothing")), ("`spent`", edited(len(good), "spent 2"))):
        (folder / "case").write_text(text)
        made = draw(folder / "case")
        tries.expect(made.status == 0, f"drawn: {name}", made.text)


def faults_of_part(made: Answer, text: str, line: int) -> list[str]:
    """What is wrong with the drawing of the events before a wrong line: there is none of a wrong header, and else the line stands in it, why, and
    the sentence of `why`."""
    if line <= text.count("\nprocess ") + text.count("\nwire ") + 2 or not text.startswith("transcript "):
        return ["there is a drawing"] if made.out else []
    drawing = Drawing(made.out.encode())
    first = min(int(group.get("data-line")) for group in drawing.find("g", "wrong") if group.get("data-line"))
    faults = [f"line {one} is drawn" for one in drawing.cards if one >= first]
    events = [number for number, one in enumerate(text.splitlines(), 1) if number < first and re.match(r"\d+ k\d", one)]
    faults += [f"line {one} is not drawn" for one in events[:-1] if one not in drawing.cards]
    marks = [group for group in drawing.find("g", "wrong") if group.get("data-line") == str(line)]
    said = " ".join(" ".join(one.text for one in mark.iter(SVG + "text")) for mark in marks)
    why = made.text.partition(": transcript: ")[2]
    told = line_sentence("".join(text.splitlines(True)[:line]).encode(), line) or "(no sentence)"
    missing = [name for name in (f"line {line}", why, told.rstrip(".")) if "".join(name.split()).lower() not in "".join(said.split()).lower()]
    return faults + [f"`{name}` is not told in `{said}`" for name in missing] + faults_of_texts(drawing) + faults_of_looks(drawing)


def rows_of(name: str) -> list[tuple[str, bytes]]:
    """The rows of a table of .ci/rows, each an answer of `audit` and a text."""
    rows = [line.partition(" | ") for line in (TOP / ".ci/rows" / name).read_text(encoding="ascii").split("\n") if line and not line.startswith("#")]
    return [(named, ast.literal_eval(f"b{text}")) for named, _, text in rows]


def line_refused(text: bytes) -> int | None:
    """The line at which `draw` refuses a text; none where it draws it."""
    fault = fault_of(text)
    return fault.line if fault else None


def try_rows(tries: Tries) -> None:
    """`draw` names the lines that `audit` names (.ci/checks/audits), and takes the texts that it accepts."""
    for versions, line in rows_of("lines"):
        for version in "12":
            text = f"transcript {version}\nkernels 1\nprocess 0 on 0\nwire 0 0\n9 k0 p0 make\n".encode() + line + b"\nquiet\n"
            named = 5 if version in versions else 6
            tries.expect(line_refused(text) == named, f"the line {line!r} in version {version}", f"line {line_refused(text)}; wanted {named}")
    for named, text in rows_of("texts"):
        tries.expect(str(line_refused(text) or "yes") == named, f"the text {text!r}", f"line {line_refused(text)}; wanted {named}")


def try_words(tries: Tries, folder: Path) -> None:
    """Wrong words, files that can't be read, and a run that is too long for a drawing."""
    absent = folder / "absent"
    for words in ((), ("a", "b")):
        made = draw(*words)
        tries.expect(made.status == 1 and made.text.startswith("lynx: usage\n"), f"{len(words)} words are no command")
    file = folder / "file"
    file.write_text("")
    for file, status, text in ((absent, 6, "absent"), (folder, 2, "read fault"), (file / "below", 2, "read fault")):
        made = draw(file)
        tries.expect(made.status == status and made.text == f"lynx: {file}: {text}", f"a file with the answer {text}")
    long = folder / "long"
    prints = "".join(f"{stamp} k0 p0 print x\n" for stamp in range(1, 100_001))
    long.write_text(f"transcript 1\nkernels 1\nprocess 0 on 0\n{prints}quiet\n")
    made = draw(long)
    tries.expect(made.status == 8 and ": too big: more than 1000 events" in made.text, "a run of 100,000 events is too long", made.text)
    made = draw(long, "--from=1000", "--to", "1999")
    tries.expect(made.status == 0, "a thousand of its events are drawn", made.text)


def try_names(tries: Tries, folder: Path) -> None:
    """Files whose names are no UTF-8, or have what an SVG can not hold."""
    text = (EXAMPLES / "moving_end.transcript").read_bytes()
    for name, status in ((b"\xff", 1), (b"\x01\x1b\n]]>&<\"", 0), ("\uffff\U0001f600".encode(), 0)):
        file = bytes(folder) + b"/" + name
        with open(file, "wb") as written:
            written.write(text)
        made = draw(os.fsdecode(file))
        good = made.text.startswith("lynx: usage\n") if status else not faults_of(made.out.encode(), text.decode())
        tries.expect(made.status == status and good, f"a file of the name {name}", made.text)


def try_streams(tries: Tries, folder: Path) -> None:
    """A process of its own puts the drawing on one stream, and what is wrong on the other."""
    text, file = BUSY.read_text(), folder / "part"
    file.write_text(text[:len(text) // 2])
    for name, status in ((BUSY, 0), (file, 4), (folder, 2)):
        run, made = subprocess.run([*DRAW, name], capture_output=True, check=False), draw(name)
        good = run.stdout.decode() == made.out and run.stderr.decode() == (made.text and made.text + "\n")
        tries.expect(good and run.returncode == made.status == status, f"{name.name}: status {status}, and both streams", run.stderr.decode())


def try_pages(tries: Tries) -> None:
    """The drawings that the pages show are there, and well-formed."""
    for page in [TOP / "README.md", EXAMPLES / "README.md", *sorted((TOP / "docs").glob("*.md"))]:
        for name in re.findall(r"!\[[^]]*\]\(([^)]*\.svg)\)", page.read_text()):
            drawing = page.parent / name
            tries.expect(drawing.exists(), f"{page.name} shows {name}, which is there")
            if drawing.exists():
                tries.expect(ElementTree.parse(drawing).getroot().tag == SVG + "svg", f"{name} is an SVG")


def main() -> int:
    if sys.argv[1:] == ["--write"]:
        write_examples()
        return 0
    tries = Tries()
    with tempfile.TemporaryDirectory() as folder:
        try_examples(tries)
        try_plans(tries)
        try_pages(tries)
        try_wrong_drawings(tries)
        try_refusals(tries, Path(folder))
        try_rows(tries)
        try_words(tries, Path(folder))
        try_names(tries, Path(folder))
        try_choices(tries)
        try_processes(tries, Path(folder))
        try_streams(tries, Path(folder))
    print(f"draw: {tries.passed} passed, {tries.failed} failed")
    return 1 if tries.failed else 0


if __name__ == "__main__":
    sys.exit(main())

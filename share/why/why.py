#!/usr/bin/env python3
"""Why a script, a plan or a module is refused: why.py KIND FILE COMMAND .. runs the command, which reads the file, and tells on standard output what its
refusal means: the line, its place, a sentence, and what to write. Behind it the refusal goes to standard error, as the command put it. Of a plan it may
be that of a module, which is named then. The command names the line and the rule; what is told of them is written in Python and tested."""

import os
import re
import signal
import subprocess
import sys
from dataclasses import dataclass

sys.dont_write_bytecode = True
if sys.version_info < (3, 10):
    if sys.stderr:
        print("lynx: why needs Python 3.10 or later", file=sys.stderr)
    # as where there is no Python
    sys.exit(69)

from audited import WRITE_FAULT, put  # noqa: E402
from module import module_reason  # noqa: E402
from pages import advice, demand  # noqa: E402
from plan import files_of, plan_reason  # noqa: E402
from reason import Reason  # noqa: E402
from script import script_reason  # noqa: E402
from shown import cut, framed, shown  # noqa: E402

DONE, REFUSED, SPENT = 0, 4, 5
# A refusal, behind the name of the file.
FORMS = {
    "script": re.compile(rb":(\d+): (script \d+)\n"),
    "plan": re.compile(rb":(\d+): (plan \d+)\n"),
    "module": re.compile(rb":(\d+):(\d+): ((?:lex|rule) \d+|syntax|deep|code too long)\n"),
}


@dataclass(frozen=True)
class Refusal:
    """A refusal as it stands, of the file of this name, and its parts."""

    line: bytes
    name: bytes
    kind: str
    parts: re.Match


def refusal_of(line: bytes, kinds: dict[bytes, str]) -> Refusal | None:
    """The line as a refusal of one of the files, each of its kind."""
    for name, kind in kinds.items():
        parts = FORMS[kind].fullmatch(line[len(name) :]) if line.startswith(name) else None
        if parts:
            return Refusal(line, name, kind, parts)
    return None


def ran(kinds: dict[bytes, str], command: list[str]) -> tuple[int, Refusal | None]:
    """The status of the command, and its refusal. What else it puts on standard error is handed on."""
    run = subprocess.Popen(command, stdout=subprocess.DEVNULL, stderr=subprocess.PIPE)
    signal.signal(signal.SIGTERM, lambda number, frame: run.terminate())
    refusal = None
    for line in run.stderr:
        found = refusal_of(line, kinds)
        if found:
            refusal = found
        else:
            put(sys.stderr, line)
    return run.wait(), refusal


def reason_of(kind: str, data: bytes, refusal: re.Match) -> Reason | None:
    if kind == "script":
        return script_reason(data, int(refusal[1]), int(refusal[2].split()[1]))
    if kind == "plan":
        return plan_reason(data, int(refusal[1]), int(refusal[2].split()[1]))
    return module_reason(data, int(refusal[1]), int(refusal[2]), refusal[3].decode())


def told(data: bytes, number: int, named: str, reason: Reason | None) -> list[str]:
    """The lines that tell a reason. Of none, as where the file has changed, what the rule demands is told."""
    if reason is None:
        return [f"why: {demand(named)}", f"do: {advice(named)}", f"more: lynx explain {named}"]
    said = framed(f"line {number}: ", data.split(b"\n")[number - 1], reason.at, reason.to)
    said.append(f"why: {reason.sentence}")
    if reason.mended is not None:
        place = f"line {reason.line}: " if reason.line not in (None, number) else ""
        said.append(f"write: {place}{cut(reason.mended) or '(an empty line)'}")
    elif reason.advice:
        said.append(f"do: {reason.advice}")
    return [*said, f"more: lynx explain {named}"]


def bytes_of(name: bytes) -> bytes:
    """What the file holds; nothing where it can not be read any more."""
    try:
        with open(name, "rb") as file:
            return file.read()
    except OSError:
        return b""


def main() -> int:
    kind, file, *command = sys.argv[1:]
    name = os.fsencode(file)
    modules = dict.fromkeys(files_of(bytes_of(name)), "module") if kind == "plan" else {}
    status, refusal = ran({**modules, name: kind}, command)
    if status in (DONE, SPENT):
        put(sys.stdout, b"ok\n")
        return DONE
    if status == REFUSED and refusal:
        data, parts = bytes_of(refusal.name), refusal.parts
        of_module = [f"module: {shown(refusal.name)}"] if refusal.name != name else []
        lines = of_module + told(data, int(parts[1]), parts[parts.lastindex].decode(), reason_of(refusal.kind, data, parts))
        put(sys.stdout, "".join(f"{line}\n" for line in lines).encode())
    put(sys.stderr, refusal.line if refusal else b"")
    return status if status >= 0 else 128 - status


if __name__ == "__main__":
    signal.signal(signal.SIGINT, signal.SIG_DFL)
    try:
        sys.exit(main())
    except OSError:
        # with no further try to write
        os._exit(WRITE_FAULT)

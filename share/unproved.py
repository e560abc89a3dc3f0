#!/usr/bin/env python3
"""Runs a command of the program by the same sources, compiled without a proof: unproved.py TOP CRATES --for PARENT [COMMAND] FILE [OPTION ..], where
CRATES has a line `NAME NEED ..` for each crate, that of the program first. It ends where the process PARENT, which waits for it, has ended.

The toolchain's `rt try` compiles the sources with checks, and runs them in a folder of its own, for 60 seconds at most, with at most 1 MiB of output.
What the program puts on its streams, and its status, are handed on, with one line behind it on standard error: that nothing of this was proved.
Nothing is kept of it: each call compiles anew, and the program counts as built or not as before.
"""

import contextlib
import os
import re
import signal
import subprocess
import sys
import tempfile
import time

WRITE_FAULT, NOT_BUILT = 3, 70
# A line of progress each so many seconds.
STEP = 15
STANDARD_INPUT = "/dev/stdin"
# A byte more than the longest file that a command reads.
MOST_KEPT = 67_108_865
# What `rt try` adds to the program's standard error where that ended: its two last lines.
ENDED = re.compile(rb"(?:^|\n)checked: [^\n]*\nrun=ended status=(\d+) [^\n]*\n*\Z")
# The names under which `rt try` lends a file to the program: in its folder, and none of its own.
PLAIN = re.compile(r"(?!program|stdin|stdout|stderr)[A-Za-z0-9_][A-Za-z0-9_.-]*\Z")
# The line of a plan by which a process runs a module, and the module's name.
RUNS = re.compile(rb"(?m)^(process \d+ on \d+ runs )([!-~]+)$")


def say(text):
    """A line on standard error. Where that can not be written nothing else changes."""
    if sys.stderr is not None:
        with contextlib.suppress(OSError):
            os.write(sys.stderr.fileno(), f"lynx: {text}\n".encode())


class Lent:
    """The file that the command is about, under the name that the program is called with."""

    def __init__(self, name, number=0):
        self.name = name
        self.there = os.path.abspath(name)
        self.copy = None
        if not os.path.exists(self.there) or os.path.isdir(self.there):
            # a folder is a read fault by its whole name, and what is absent is absent by that too
            self.called = self.there
            return
        if not os.path.isfile(self.there) or name == STANDARD_INPUT:
            self.keep()
        self.called = name if PLAIN.match(name) else f"the_file_{number}_that_was_named_{os.getpid()}"

    def keep(self):
        """A copy of what another program can not read here, as standard input or a pipe."""
        self.copy = tempfile.NamedTemporaryFile()
        with open(self.name, "rb") as file:
            self.copy.write(file.read(MOST_KEPT))
        self.copy.flush()
        self.there = self.copy.name

    def words(self):
        return ["--data", f"{self.called}={self.there}"] if os.path.isfile(self.there) else []

    def renamed(self, text):
        """The program's text with the file's own name."""
        return text.replace(os.fsencode(self.called), os.fsencode(self.name))


class LentPlan(Lent):
    """A plan and the modules that it names: it is a copy that names them as they are lent. What is not there is named as it was."""

    def __init__(self, name):
        super().__init__(name)
        self.modules = {}
        if os.path.isfile(self.there):
            with open(self.there, "rb") as file:
                text = file.read(MOST_KEPT)
            names = dict.fromkeys(name for _, name in RUNS.findall(text) if os.path.isfile(name))
            self.modules = {name: Lent(os.fsdecode(name), number) for number, name in enumerate(names, 1)}
            self.copy = tempfile.NamedTemporaryFile()
            self.copy.write(RUNS.sub(self.line, text))
            self.copy.flush()
            self.there = self.copy.name

    def line(self, found):
        module = self.modules.get(found[2])
        return found[1] + (os.fsencode(module.called) if module else found[2])

    def words(self):
        return super().words() + [word for module in self.modules.values() for word in module.words()]

    def renamed(self, text):
        for module in self.modules.values():
            text = module.renamed(text)
        return super().renamed(text)


def parted(words):
    """What stands before the file, the file, and what stands behind it: it is the last word that is no option, and no number behind `--turns`."""
    files = [at for at, word in enumerate(words) if not word.startswith("--") and words[at - 1 : at] != ["--turns"]]
    return words[: files[-1]], words[files[-1]], words[files[-1] + 1 :]


def told(started):
    say(f"compiling without a proof, {round(time.time() - started)} seconds so far")


def tried(crate, called, lent, parent):
    """What `rt try` put on its streams, where the program is called with these words. None where nobody waits for it any more."""
    with tempfile.TemporaryFile() as out, tempfile.TemporaryFile() as err:
        words = ["rt", "try", *lent.words(), "--", *called]
        run = subprocess.Popen(words, cwd=crate, stdin=subprocess.DEVNULL, stdout=out, stderr=err, start_new_session=True)
        try:
            started = last = time.time()
            while run.poll() is None:
                if os.getppid() != parent:
                    return None
                if time.time() - last >= STEP:
                    told(started)
                    last = time.time()
                time.sleep(0.1)
        finally:
            if run.poll() is None:
                os.killpg(run.pid, signal.SIGTERM)
                run.wait()
        return tuple(file.seek(0) or file.read() for file in (out, err))


def hand_on(out, err, lent):
    """Puts what the program put, and gives its status."""
    ended = ENDED.search(err)
    if not ended:
        say("no answer: the sources did not compile, the program did not end in 60 seconds, or it put out more than 1 MiB")
        for line in err.decode("utf-8", "replace").splitlines()[-3:]:
            say(f"the toolchain: {line}")
        return NOT_BUILT
    program = err[: ended.start()]
    said = b"lynx: nothing of this was proved: the sources were compiled without their proofs, for this call alone\n"
    try:
        put(sys.stdout, lent.renamed(out))
        put(sys.stderr, lent.renamed(program + b"\n" if program and not program.endswith(b"\n") else program))
        put(sys.stderr, said)
    except OSError:
        # no further write is tried when Python ends
        sys.stdout = sys.stderr = None
        return WRITE_FAULT
    return int(ended[1])


def put(stream, text):
    if not text:
        return
    if stream is None:
        raise OSError
    stream.buffer.write(text)
    stream.flush()


def main():
    top, needs, _, parent, *words = sys.argv[1:]
    crates = [line.split()[0] for line in needs.splitlines()]
    command, name, options = parted(words)
    lent = LentPlan(name) if command[:1] == ["run"] else Lent(name)
    say(f"{len(crates)} crates are compiled without a proof, for this call alone: a minute or two")
    streams = tried(f"{top}/crates/{crates[0]}", [*command, lent.called, *options], lent, int(parent))
    return NOT_BUILT if streams is None else hand_on(*streams, lent)


def interrupted(number, _frame):
    raise SystemExit(128 + number)


if __name__ == "__main__":
    for number in (signal.SIGINT, signal.SIGTERM, signal.SIGHUP):
        signal.signal(number, interrupted)
    try:
        sys.exit(main())
    except OSError as error:
        say(f"the sources could not be compiled: {error.filename or 'the toolchain'}: {error.strerror}")
        sys.exit(NOT_BUILT)

#!/usr/bin/env python3
"""Proves the crates that a program is made of, and links it: build.py TOP --for PARENT, with a line `NAME NEED ..` for each crate on standard
input, that of the program first. It ends where the process PARENT, which waits for it, has ended.
With `--minutes N` behind TOP it prints the minutes that this takes on N processors where nothing is proved, and does nothing.

It is done by the toolchain's gate, in a copy that has those crates alone, without the edits that the prover has to refuse: as many crates
at once as there are processors, the longest chain first. What is proved there stays proved for this machine, also for the gate itself.
Where the first crate is a static library NAME_c, the archive libNAME.a is made behind that, which needs no other archive but the C library's.
"""

import contextlib
import math
import os
import re
import shlex
import shutil
import signal
import subprocess
import sys
import tempfile
import time

# Lines of sources to a second, where a crate was never measured.
LINES_A_SECOND = 40
# What stands beside a crate's sources and is no part of the program.
LEFT_OUT = ("out", "must-fail")
# The signals that end a build.
ENDING = (signal.SIGINT, signal.SIGTERM, signal.SIGHUP)
PROVED = re.compile(r"rt: (\w+) (proved$|is kept:)")


def unblock():
    signal.pthread_sigmask(signal.SIG_UNBLOCK, ENDING)


def say(text):
    """A line on standard error. Where that can not be written nothing else changes."""
    if sys.stderr is not None:
        with contextlib.suppress(OSError):
            os.write(sys.stderr.fileno(), f"lynx: {text}\n".encode())


def rows_of(top):
    """The lines of crates.txt, by their crates."""
    with open(f"{top}/crates.txt", encoding="utf-8") as lines:
        return {re.match(r"\w+", line)[0]: line for line in lines if re.match("[a-z]", line)}


def minutes_of(seconds):
    return max(1, math.ceil(seconds / 60))


def counted(number, word):
    return f"{number} {word}{'s' * (number != 1)}"


class Work:
    """How long the crates take: all together, and one after the other where one needs the other."""

    def __init__(self, top, needs, lanes):
        self.needs = needs
        self.lanes = lanes
        measured = self.measured(top)
        self.seconds = {crate: measured.get(crate) or self.lines_of(top, crate) / LINES_A_SECOND for crate in needs}

    def measured(self, top):
        """The seconds that each crate took where nothing was proved, by the file beside this one."""
        try:
            with open(f"{top}/share/build_seconds", encoding="utf-8") as file:
                rows = [line.split() for line in file if line.strip() and not line.startswith("#")]
        except FileNotFoundError:
            return {}
        return {crate: float(seconds) for crate, seconds in rows if crate in self.needs}

    def lines_of(self, top, crate):
        """The lines of a crate's sources; each crate takes the time of 1,000 lines besides."""
        count = 1000
        for kind in ("src", "specs", "proofs"):
            for folder, _, names in os.walk(f"{top}/crates/{crate}/{kind}"):
                for name in names:
                    with open(os.path.join(folder, name), "rb") as file:
                        count += file.read().count(b"\n")
        return count

    def seconds_of(self, crates):
        """What these crates take: that of the longest chain, or that of all in as many lanes as there are."""
        ends = {}

        def end_of(crate):
            if crate not in crates:
                return 0
            if crate not in ends:
                ends[crate] = self.seconds[crate] + max(map(end_of, self.needs[crate]), default=0)
            return ends[crate]

        longest = max(map(end_of, crates), default=0)
        return max(longest, sum(self.seconds[crate] for crate in crates) / self.lanes)


class Archive:
    """How the archive of a static library is made: the gate makes none, and `rt lib` would build all libraries below once more."""

    def __init__(self, crate, row, needs):
        self.crate = crate
        self.uses = row.partition(":")[2].split()
        self.needs = needs
        self.kit = os.path.dirname(os.path.dirname(os.path.realpath(shutil.which("rt") or "rt")))
        self.name = f"lib{crate.removesuffix('_c')}.a"

    def commands(self):
        """What is run in a copy of the crates: the gate, the compiler over the libraries that it has built, and the joining."""
        steps = [["rt", "ci"], ["cd", f"crates/{self.crate}"], ["mkdir", "-p", "out"], self.compiling(), self.joining()]
        return ["sh", "-c", " && ".join(map(shlex.join, steps))]

    def compiling(self):
        words = [f"{self.kit}/bin/rattle", "build", "--crate-name", self.crate, "src/lib.rt"]
        words += ["--extern", f"std={self.kit}/rlibs/std.rlib", "-L", f"dependency={self.kit}/rlibs"]
        for used in self.uses:
            folder = f"../{used}/out/rlib" if used in self.needs else f"{self.kit}/rlibs"
            words += ["--extern", f"{used}={folder}/{used}.rlib"]
        for below in self.needs:
            words += ["-L", f"dependency=../{below}/out/rlib"] * (below != self.crate)
        words += ["--antt-project", f"{self.kit}/rattle/logic/antt-project.json", "--logic-built", f"{self.kit}/logic_built"]
        words += ["--links", f"{self.crate}=", "--crate-type", "staticlib", "--toolchain", f"{self.kit}/toolchain", "--backend", "llvm"]
        return [*words, "-o", "out/compiled.a"]

    def joining(self):
        """One archive of the crate's own and of the lines of C by which it asks for memory."""
        return [f"{self.kit}/toolchain/bin/llvm-ar", "qcLsD", f"out/{self.name}", "out/compiled.a", f"{self.kit}/c/liblibc_c.a"]


class Build:
    def __init__(self, top, needs, parent):
        self.top = top
        self.needs = needs
        self.parent = parent
        self.program = next(iter(needs))
        self.rows = rows_of(top)
        row = self.rows[self.program]
        archive = Archive(self.program, row, needs) if re.match(r"\w+ staticlib\b", row) else None
        self.commands = archive.commands() if archive else ["rt", "ci"]
        self.made = archive.name if archive else self.program
        self.kind = "library" if archive else "program"
        self.work = Work(top, needs, max(1, os.cpu_count() or 1))
        self.left = set(needs)
        self.started = time.time()
        self.told = None
        self.waits = set()
        self.running = None
        self.room = None
        self.out = f"{top}/crates/{self.program}/out"
        os.makedirs(self.out, exist_ok=True)
        self.log = f"{self.out}/build-{os.getpid()}.log"

    def copy(self):
        """A repository that has these crates alone. It stands outside of this one, as the toolchain wants it."""
        self.room = tempfile.mkdtemp(prefix="lynx-build-", dir=os.environ.get("TMPDIR") or "/var/tmp")
        for crate in self.needs:
            shutil.copytree(
                f"{self.top}/crates/{crate}", f"{self.room}/crates/{crate}", ignore=shutil.ignore_patterns(*LEFT_OUT)
            )
        handles = f"{self.top}/HANDLES"
        if os.path.exists(handles):
            shutil.copy(handles, self.room)
        with open(f"{self.room}/crates.txt", "w", encoding="utf-8") as ours:
            ours.writelines(line for crate, line in self.rows.items() if crate in self.needs)

    def begin(self):
        # so no run is under way that `stop` does not know of
        signal.pthread_sigmask(signal.SIG_BLOCK, ENDING)
        try:
            with open(self.log, "wb") as log:
                self.running = subprocess.Popen(
                    self.commands,
                    cwd=self.room,
                    stdin=subprocess.DEVNULL,
                    stdout=log,
                    stderr=subprocess.STDOUT,
                    start_new_session=True,
                    preexec_fn=unblock,
                )
        finally:
            unblock()

    def read_log(self):
        """Takes note of the crates that the toolchain has told, and hands on that it waits for another run."""
        with open(self.log, encoding="utf-8", errors="replace") as log:
            for line in log.read().splitlines():
                proved = PROVED.match(line)
                if proved:
                    self.left.discard(proved[1])
                elif line.startswith("rt: ") and "waiting for" in line and line not in self.waits:
                    self.waits.add(line)
                    say(line)

    def progress(self):
        """Crates done, and the work that is left by what was measured: it says nothing of a machine that is busy with other things."""
        if self.left:
            minutes = minutes_of(sum(self.work.seconds[crate] for crate in self.left))
            return f"proved {len(self.needs) - len(self.left)} of {len(self.needs)}, about {counted(minutes, 'processor minute')} left"
        return "all is proved, and the library is compiled: a minute or two" if self.kind == "library" else self.told

    def tell(self):
        words = self.progress()
        if words != self.told:
            say(words)
        self.told = words

    def fail(self):
        with open(self.log, encoding="utf-8", errors="replace") as log:
            lost = re.findall(r"(?m)^rt: (\w+) NOT PROVED$", log.read())
        why = f"{lost[0]} was not proved" if lost else "the toolchain ended with a fault"
        say(f"the {self.kind} could not be built: {why}. The lines of the toolchain are in {self.log}")

    def tell_first(self):
        """What there is to do, and what needs none of it."""
        minutes = minutes_of(sum(self.work.seconds.values()))
        say(
            f"the {self.kind} has to be proved and built first: {len(self.needs)} crates, some {counted(minutes, 'processor minute')}."
            f" Once, on {counted(self.work.lanes, 'processor')} with nothing else to do that takes about"
            f" {counted(minutes_of(self.work.seconds_of(self.needs)), 'minute')}; what was proved on this machine before is not proved again."
        )
        if self.kind == "program":
            say("meanwhile: `lynx --unproved ..` answers in a minute or two, and `lynx draw` draws the transcripts in examples/ at once")

    def run(self):
        """Whether the program was built."""
        self.tell_first()
        self.copy()
        self.begin()
        while self.running.poll() is None:
            if os.getppid() != self.parent:
                return False
            self.read_log()
            self.tell()
            time.sleep(0.2)
        self.read_log()
        made = f"{self.room}/crates/{self.program}/out/{self.made}"
        if self.running.returncode or not os.path.exists(made):
            self.fail()
            return False
        shutil.move(made, f"{self.out}/{self.made}")
        # so a source that was edited during the build is newer
        os.utime(f"{self.out}/{self.made}", (self.started, self.started))
        say("built")
        os.remove(self.log)
        return True

    def stop(self):
        """Ends the run if it is under way, with all that it started, and removes the copy."""
        if self.running and self.running.poll() is None:
            os.killpg(self.running.pid, signal.SIGTERM)
            self.running.wait()
        if self.room:
            shutil.rmtree(self.room, ignore_errors=True)


def interrupted(number, _frame):
    raise SystemExit(128 + number)


def main():
    needs = {crate: others for crate, *others in (line.split() for line in sys.stdin)}
    for number in ENDING:
        signal.signal(number, interrupted)
    top, way, number = sys.argv[1:]
    if not needs:
        say(f"the program could not be built: {top}/crates.txt does not name it")
        sys.exit(1)
    if way == "--minutes":
        print(minutes_of(Work(top, needs, int(number)).seconds_of(needs)))
        return
    try:
        build = Build(top, needs, int(number))
        try:
            is_built = build.run()
        finally:
            build.stop()
    except OSError as error:
        say(f"the program could not be built: {error.filename or 'the toolchain'}: {error.strerror}")
        is_built = False
    sys.exit(not is_built)


if __name__ == "__main__":
    main()

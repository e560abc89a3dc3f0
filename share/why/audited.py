#!/usr/bin/env python3
"""Why a transcript is refused: audited.py FILE COMMAND .. runs the command, the program `lynx_why` with its words, and hands on its streams and its
status. Behind the three lines by which that tells of a refusal it puts one more, `why: SENTENCE`: what is wrong with the line that is named.
The three lines are the program's; the sentence is written in Python and tested. Where none is found, as by an old Python, there is none."""

import os
import re
import signal
import subprocess
import sys
import threading

sys.dont_write_bytecode = True

WRITE_FAULT, REFUSED = 3, 4
THREE_LINES = re.compile(rb"line (\d+): [^\n]*\nexpected: [^\n]*\nkept: [^\n]*\n")
# What share/unproved.py says before the program runs. It is handed on at once, and all else on standard error behind standard output.
PROGRESS = re.compile(rb"lynx: (?:\d+ crates are compiled|compiling) without a proof, .*\n")


def ran(command):
    """The status of the command, and what it put on its two streams."""
    run = subprocess.Popen(command, stdout=subprocess.PIPE, stderr=subprocess.PIPE)
    signal.signal(signal.SIGTERM, lambda number, frame: run.terminate())
    out, err = [], []
    reader = threading.Thread(target=lambda: out.append(run.stdout.read()), daemon=True)
    reader.start()
    for line in run.stderr:
        if PROGRESS.fullmatch(line):
            put(sys.stderr, line)
        else:
            err.append(line)
    reader.join()
    return run.wait(), b"".join(out), b"".join(err)


def put(stream, text):
    if not text:
        return
    if stream is None:
        raise OSError
    stream.buffer.write(text)
    stream.flush()


def sentence_of(name, number):
    """What is wrong with the line of this number, or None."""
    from line import line_sentence, lines_of

    return line_sentence(lines_of(name, number), number)


def told(name, status, out):
    """The line behind the three lines. Whatever goes wrong here changes nothing else."""
    lines = THREE_LINES.fullmatch(out) if status == REFUSED else None
    try:
        sentence = sentence_of(name, int(lines[1])) if lines else None
        return b"why: %s\n" % sentence.encode("ascii") if sentence else b""
    except Exception:
        return b""


def main(name, *command):
    status, out, err = ran(command)
    put(sys.stdout, out)
    put(sys.stdout, told(name, status, out))
    put(sys.stderr, err)
    return status if status >= 0 else 128 - status


if __name__ == "__main__":
    signal.signal(signal.SIGINT, signal.SIG_DFL)
    try:
        sys.exit(main(*sys.argv[1:]))
    except OSError:
        # with no further try to write
        os._exit(WRITE_FAULT)

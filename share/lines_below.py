#!/usr/bin/env python3
"""The lines of crates.txt of a library and of all crates below it: lines_below.py LIBRARY. Another repository takes these crates so."""

import os
import re
import sys


def main():
    file = f"{os.path.dirname(os.path.dirname(os.path.abspath(__file__)))}/crates.txt"
    with open(file, encoding="utf-8") as lines:
        rows = dict(re.findall(r"(?m)^([a-z]\w*)[ \w=]*:(.*)$", lines.read()))
    if sys.argv[1:2] == [] or sys.argv[1] not in rows:
        sys.exit("lines_below.py LIBRARY: a library of crates.txt")
    wanted = [sys.argv[1]]
    for crate in wanted:
        wanted += [name for name in rows[crate].split() if name in rows and name not in wanted]
    for crate in reversed(wanted):
        print(f"{crate}:{rows[crate]}")


if __name__ == "__main__":
    main()

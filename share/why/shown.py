"""How a line and a place in it are shown: as docs/WHY.md has it, in printable ASCII."""

# So many bytes of a line are shown before the place, and so many from it on.
BEFORE = 100
BEHIND = 100
CARETS = 60


def shown(text: bytes) -> str:
    """A backslash is shown as two, and a byte that is no printable ASCII as \\x and two digits."""
    return "".join("\\\\" if byte == 92 else chr(byte) if 32 <= byte <= 126 else f"\\x{byte:02X}" for byte in text)


def cut(text: bytes) -> str:
    """The beginning of a line that is long."""
    most = BEFORE + BEHIND
    return shown(text[:most]) + (f"\\... {len(text) - most} more" if len(text) > most else "")


def framed(label: str, line: bytes, at: int, to: int) -> list[str]:
    """The line behind its label, and carets below the bytes from `at` up to `to`."""
    begin = max(0, at - BEFORE)
    before = ("\\... " if begin else "") + shown(line[begin:at])
    behind = shown(line[at : at + BEHIND]) + (f"\\... {len(line) - at - BEHIND} more" if len(line) > at + BEHIND else "")
    width = max(1, min(len(shown(line[at:to])), CARETS))
    return [f"{label}{before}{behind}", " " * len(label + before) + "^" * width]

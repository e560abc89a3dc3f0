"""What is told of a refusal."""

from dataclasses import dataclass


@dataclass(frozen=True)
class Reason:
    """The bytes of the line from `at` up to `to` are what is wrong. Where it is known, `mended` is what to write in place of the line of number
    `line`, which is the one refused where no number is told; else `advice` may say what to do."""

    at: int
    to: int
    sentence: str
    mended: bytes | None = None
    advice: str = ""
    line: int | None = None


def listed(words) -> str:
    """`a`, `b` and `c`"""
    quoted = [f"`{word}`" for word in words]
    return " and ".join(filter(None, [", ".join(quoted[:-1]), quoted[-1]]))


def put(line: bytes, at: int, to: int, new: bytes) -> bytes:
    """The line with other bytes in the place of those from `at` up to `to`."""
    return line[:at] + new + line[to:]

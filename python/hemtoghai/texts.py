"""Reads texts: to their limit and one byte more, and no further, whatever a path leads to."""
from __future__ import annotations

import os
import stat
import sys

TYPE_CHECKING = False  # of a reader of types, for which `typing` needn't be imported
if TYPE_CHECKING:
    from typing import IO

CHUNK = 1 << 16
SHOW = 1048576  # bytes of a show, of a schedule and of regions: docs/COMMANDS.md
CERTIFICATE = 400000000
PLAN = 1 << 22  # 32 drones with 4,096 bytes each and all their packets take less than a million
LOG = 1 << 28


class TooLong(Exception):
    """A text that has more bytes than it may."""


def from_stream(stream: IO[bytes], most: int) -> bytes:
    """At most so many bytes of a stream: no more are taken from it than that, and what the stream keeps ahead."""
    parts, left = [], most
    while left > 0 and (part := stream.read(min(CHUNK, left))):
        parts.append(part)
        left -= len(part)
    return b"".join(parts)


def front_of(path: str, most: int) -> bytes:
    """The first bytes of a file, so many at most; `-` is standard input. Raises OSError."""
    if path == "-":
        return from_stream(sys.stdin.buffer, most)
    with open(path, "rb") as file:
        return from_stream(file, most)


def joined(first: bytes, second: bytes) -> bytes:
    """Two texts with a marker line between them."""
    return first + (b"" if first.endswith(b"\n") else b"\n") + b"%%\n" + second


def is_plain(number: int) -> bool:
    """Whether an open file is one whose bytes stay: it can be read again."""
    return stat.S_ISREG(os.fstat(number).st_mode)

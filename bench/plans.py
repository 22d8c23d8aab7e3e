"""The plan of a show from docs/RADIO.md and docs/TRAJECTORY.md, for benches, tests and .ci/, which compare it with what
the program writes. The package's folder has to be on `sys.path`."""
from __future__ import annotations

from collections.abc import Iterable, Iterator

from hemtoghai.language.choreo import Flown


def digits(data: bytes) -> str:
    """Bytes as a plan has them."""
    return data.hex(" ").upper()


def packets(memory: int, offset: int, trajectory: int, data: bytes, pieces: int) -> Iterator[tuple[str, bytes]]:
    """The packets that write a trajectory's bytes, define it and start it (docs/RADIO.md), each with its word."""
    for begin in range(0, len(data), 24):
        address = (offset + begin).to_bytes(4, "little")
        yield "write", bytes([0x4E, memory]) + address + data[begin:begin + 24]
    yield "define", bytes([0x8C, 6, trajectory, 1, 1]) + offset.to_bytes(4, "little") + bytes([pieces])
    yield "start", bytes([0x8C, 5, 0, 0, 0, trajectory, 0, 0, 0x80, 0x3F])


def plan_text(rows: Iterable[tuple[str, bytes, int]], memory: int = 2, offset: int = 0, trajectory: int = 0) -> str:
    """The text of a plan, of each drone's name, the bytes of its trajectory, and how many pieces these have."""
    out = "plan 1\n"
    for name, data, pieces in rows:
        out += "drone %s bytes %d pieces %d\ndata %s\n" % (name, len(data), pieces, digits(data))
        out += "".join("%s %s\n" % (word, digits(it)) for word, it in packets(memory, offset, trajectory, data, pieces))
    return out + "end\n"


def plan_of(flown: Flown) -> str:
    """The text of a show's plan."""
    rows = zip(flown.names, flown.data(), map(len, flown.sent))
    return plan_text(rows, *flown.show.settings["memory"], *flown.show.settings["trajectory"])

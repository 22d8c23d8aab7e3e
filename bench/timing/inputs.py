"""What commands read besides a show: regions, schedules, frames of answers and certificates."""
from __future__ import annotations

import subprocess
from itertools import chain
from typing import Iterator, List, Sequence, Tuple

MARKER = b"%%\n"
HEAD = b"version 2\ncertificate 8\n"
READ_BYTES = 20

Frames = List[bytes]


def said(program: str, words: Sequence[str], text: bytes) -> bytes:
    """What a program writes for a text; it must accept it."""
    return subprocess.run([program, *words], input=text, stdout=subprocess.PIPE, check=True).stdout


def regions(name: str) -> bytes:
    """64 regions that no drone of a show enters: boxes above them and beside their ways, and a volume around all."""
    if name in ("ring", "lanes"):
        beside = [(2000 + 400 * (k % 8), 900 * (k // 8) - 1500, 80, 200) for k in range(32)]
    elif name == "dense":
        beside = [(300 * (k % 8), 620 * (k // 8) + 290, 250, 40) for k in range(32)]
    elif name == "XL":
        beside = [(760 * (k % 5) - 420, 250 * (k // 5) - 300, 80, 200) for k in range(32)]
    else:
        beside = [(400 * k, 500, 300, 1000) for k in range(32)]
    lines = ["keepout %d %d 3000 %d %d 4000" % (100 * k, 150 * k, 100 * k + 400, 150 * k + 400) for k in range(31)]
    lines += ["keepout %d %d 500 %d %d 1500" % (x, y, x + wide, y + deep) for x, y, wide, deep in beside]
    return ("\n".join(lines + ["volume -2000 -2000 0 30000 30000 30000"]) + "\n").encode()


def packets(plan: bytes) -> dict[str, list[tuple[str, bytes]]]:
    """The packets of a plan by the drones' names: each with its word, `write`, `define` or `start`."""
    found: dict[str, list[tuple[str, bytes]]] = {}
    sent: list[tuple[str, bytes]] = []
    for word, *rest in (line.split() for line in plan.decode().splitlines()):
        if word == "drone":
            sent = found[rest[0]] = []
        elif word in ("write", "define", "start"):
            sent.append((word, bytes.fromhex("".join(rest))))
    return found


def frame(drone: int, packet: bytes) -> bytes:
    """A packet of a drone as a frame. Drones count from 1."""
    return bytes([0x50, drone, len(packet)]) + packet


def answers(plan: bytes) -> tuple[list[Frames], list[Frames], list[Frames]]:
    """By drone, as frames: good answers to the packets of the load, those of a read-back, and those to the start."""
    loading, reading, starting = [], [], []
    for drone, sent in enumerate(packets(plan).values(), 1):
        loading.append([frame(drone, packet[:6 if word == "write" else 4] + b"\0")
                        for word, packet in sent if word != "start"])
        starting.append([frame(drone, packet[:4] + b"\0") for word, packet in sent if word == "start"])
        memory, begin = sent[0][1][1:2], int.from_bytes(sent[0][1][2:6], "little")
        load = b"".join(packet[6:] for word, packet in sent if word == "write")
        heads = [(at, b"\x4d" + memory + (begin + at).to_bytes(4, "little")) for at in range(0, len(load), READ_BYTES)]
        reading.append([frame(drone, head + b"\0" + load[at:at + READ_BYTES]) for at, head in heads])
    return loading, reading, starting


def all_of(frames: Sequence[Frames]) -> Frames:
    """The frames of all drones, drone after drone."""
    return list(chain.from_iterable(frames))


def flown(plan: bytes) -> str:
    """A schedule in which each packet is taken twice, and the answers are heard."""
    lines = []
    for name, sent in packets(plan).items():
        for n in range(1, len(sent)):
            lines += ["take %s %d" % (name, n)] * 2 + ["hear %s %d" % (name, 2 * n - 1)]
    return "".join(line + "\n" for line in lines)


def nodes(tree: bytes) -> int:
    """How many nodes a tree has: a split is one byte, a leaf two."""
    return (len(tree) + tree.count(b".")) // 2


def trees(certificate: bytes) -> list[bytes]:
    """The trees of a certificate of version 2."""
    return certificate.split(b"\n")[2:-1]


def grown(certificate: bytes, wanted: int) -> bytes:
    """The certificate of depth 8 with leaves of whole cues split until it has so many nodes; none past depth 8."""
    out, missing = [], wanted - sum(map(nodes, trees(certificate)))
    for tree in trees(certificate):
        level = 0
        while len(tree) == 2 and missing > 0 and level < 8 and 2 ** level * 2 <= missing + 2:
            missing -= 2 ** level * 2
            level += 1
        for _ in range(level):
            tree = b"." + tree + tree
        out.append(tree)
    return HEAD + b"\n".join(out) + b"\n"


def splits(length: int) -> Iterator[bytes]:
    """A text of this many bytes in pieces, whose third line is a tree of splits alone."""
    yield HEAD
    for at in range(len(HEAD), length, 1 << 20):
        yield b"." * min(length - at, 1 << 20)


def few(name: str) -> int | None:
    """How many of a show's jobs bench/count looks at; None for all."""
    return 1 if name.endswith(" set") else 3 if name == "XL" else None


def jobs(program: str, name: str, text: bytes, play: Sequence[str] = ("play",)) -> Iterator[Tuple[List[str], bytes]]:
    """The words and the input of each command on a show; the program makes what they need. `check`, `certify` and
    `verify` come first."""
    yield ["check"], text
    yield ["certify"], text
    yield ["verify"], text + MARKER + said(program, ["certify"], text)
    plan = said(program, ["compile"], text)
    for words in (["compile"], [*play], ["report"]):
        yield words, text
    yield ["rehearse"], text + MARKER + flown(plan).encode()
    yield ["upload"], text + MARKER + b"".join(all_of(answers(plan)[0]))
    yield ["boxes"], text + MARKER + regions(name)
    for words in (["explain"], ["speed", "--depth", "8"], ["dynamics", "--depth", "8"]):
        yield words, text

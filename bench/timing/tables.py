"""Tables of times, memory and instructions over generated shows, and of the plain program beside, which needs rustc."""
from __future__ import annotations

import subprocess
import sys
import tempfile
from itertools import chain, islice
from typing import Iterable

from timing import inputs, shows
from timing.inputs import MARKER, said
from timing.measures import Run, plain_program, row, timed

MIB = 1 << 20


def measured(program: str, words: list[str], text: bytes) -> Run:
    """A run whose time is measured."""
    run = Run([program, *words], text)
    timed(run)
    return run


def drill(program: str) -> None:
    """`certify` of the drill for 4 to 32 drones at depths 6 and 8, with the nodes of the certificate."""
    row("drones", "depth", "status", "nodes", "certify ms", "nodes/ms", "KiB")
    for drones in (4, 8, 16, 32):
        for depth in ("6", "8"):
            run = measured(program, ["certify", "--depth", depth], shows.drill(drones))
            status, out = run.answer()
            count = sum(map(inputs.nodes, inputs.trees(out))) if status == 0 else 0
            row(drones, depth, status, count, run.ms, count / run.ms, run.least_kib())


def readback(program: str) -> None:
    """`upload --start` to 32 drones whose memories fill, with read-back and without: instructions a packet."""
    row("bytes a drone", "packets", "M beyond", "a packet", "all ms", "words")
    for count in (48, 97, 194):
        text = shows.tall(count)
        load, reading, starting = inputs.answers(said(program, ["compile"], text))
        taken = Run([program, "check"], text).instructions()[1]
        for words in (["upload", "--start"], ["upload", "--start", "--readback"]):
            frames = inputs.all_of(load + (reading if "--readback" in words else []) + starting)
            run = Run([program, *words], text + MARKER + b"".join(frames))
            status, whole = run.instructions()
            if status:
                sys.exit("upload ended with %d" % status)
            timed(run)
            own = whole - taken
            row(9 + 21 * count, len(frames), own / 1e6, own // len(frames), run.ms, " ".join(words))


def filled(begun: str, line: str) -> bytes:
    """A schedule with this line after it until it has 1 MiB."""
    room = MIB - len(begun)
    return (begun + line * (room // len(line)) + " " * (room % len(line))).encode()


def schedule(program: str) -> None:
    """`rehearse` with a schedule of 1 MiB beside a short one: memory, which may be eight times the schedule's bytes."""
    show = shows.drill(32)
    begun = inputs.flown(said(program, ["compile"], show))
    # In the last one the twentieth tick ends the upload.
    kinds = {"flown": begun.encode(), "flown, then ticks": filled(begun, "tick\n"),
             "flown, then takes": filled(begun, "take d1 1\n"), "flown, then answers": filled(begun, "hear d1 1\n"),
             "ticks": filled("", "tick\n")}
    row("schedule", "bytes", "status", "KiB", "more/MiB")
    least = None
    for name, text in kinds.items():
        run = Run([program, "rehearse"], show + MARKER + text)
        kib = run.least_kib()
        least = kib if least is None else least
        row(name, len(text), run.answer()[0], kib, (kib - least) / 1024)
        if kib - least > 8 * 1024:
            sys.exit("more than eight times the schedule's bytes")


def fed(program: str, pieces: Iterable[bytes]) -> tuple[int, str]:
    """The status and the output of `verify` for an input in pieces."""
    with subprocess.Popen([program, "verify"], stdin=subprocess.PIPE, stdout=subprocess.PIPE) as run:
        assert run.stdin and run.stdout
        try:
            for piece in pieces:
                run.stdin.write(piece)
            run.stdin.close()
        except BrokenPipeError:
            pass
        output = run.stdout.read()
    return run.returncode, output.decode().strip()


def certificates(program: str) -> None:
    """`verify` with a certificate of 80 MB, with half of it, and with texts as long as they may be or longer."""
    show = shows.show([(1000000 * i, 0) for i in range(32)], [(1000, [])] * 210)
    short = said(program, ["certify", "--depth", "8"], show)
    long = inputs.grown(short, 511 * len(inputs.trees(short)))
    row("certificate", "bytes", "status", "verify ms", "KiB", "answer")
    for name, text in (("one leaf a tree", short), ("511 nodes a tree", long)):
        run = measured(program, ["verify"], show + MARKER + text)
        status, output = run.answer()
        row(name, len(text), status, run.ms, run.least_kib(), output.decode().strip())
    most = 400_000_000
    for name, size, second in (("cut in a line", len(long) // 2, [long[:len(long) // 2]]),
                               ("at the limit", most, inputs.splits(most)),
                               ("a byte longer", most + 1, inputs.splits(most + 1))):
        status, answer = fed(program, chain((show, MARKER), second))
        row(name, size, status, "", "", answer)


def same(mine: Run, theirs: Run) -> None:
    """The script ends if the two programs write different things or end with different statuses."""
    if mine.answer() != theirs.answer():
        sys.exit("%s: the two programs end differently" % " ".join(mine.words[1:]))


def plain(program: str) -> None:
    """Ten commands beside the plain program, over dense and other shows: times, millions of instructions, ratios."""
    row("show and command", "program ms", "plain ms", "ratio", "program M", "plain M", "ratio")
    with tempfile.TemporaryDirectory() as folder:
        other = plain_program(folder)
        for name, text in shows.compared():
            jobs = inputs.jobs(program, name, text, ("play", "--step", "10"))
            for words, whole in islice(jobs, 3 if name.endswith(" set") else None):
                if words[0] in ("report", "rehearse"):
                    continue
                mine, theirs = (Run([path, *words], whole) for path in (program, other))
                same(mine, theirs)
                timed(mine, theirs)
                counts = [run.instructions()[1] / 1e6 for run in (mine, theirs)]
                row("%s, %s" % (name, words[0]), mine.ms, theirs.ms, mine.ms / theirs.ms, *counts,
                    counts[0] / counts[1] if counts[1] else "")

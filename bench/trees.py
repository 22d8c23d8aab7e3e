"""Certificates of both versions, computed and judged by halving parts one by one: for the benches and .ci/tools, which
compare them with what the program says.

It is written from docs/SEPARATION.md alone, over separation.py beside it; the package's folder has to be on `sys.path`.
"""
from __future__ import annotations

from typing import List, Optional

from hemtoghai.language.choreo import Flown, Refused
import separation
from separation import Part

LONGEST_CERTIFICATE = 400000000  # bytes
Nodes = List[Optional[int]]  # of a tree in preorder: None for a split, else the number of a direction


def low_control(ruler: separation.Ruler, part: Part, depth: int, number: int) -> int | None:
    """The first of the eight control values that is below the threshold of a direction, or None."""
    x, y, z = ruler.weights[number]
    least = ruler.thresholds[number] << (7 * depth)
    return next((k for k, (a, b, c) in enumerate(zip(*part)) if x * a + y * b + z * c < least), None)


def first(ruler: separation.Ruler, part: Part, depth: int) -> int | None:
    """The number of the first direction that separates a part, or None."""
    return next((n for n in range(len(ruler.weights)) if ruler.separates(part, depth, n)), None)


def tree(part: Part, ruler: separation.Ruler, most: int, depth: int = 0) -> str | None:
    """The tree with the largest leaves, each with the first direction; None where a part of depth `most` has none."""
    number = first(ruler, part, depth)
    if number is not None or depth == most:
        return None if number is None else separation.word_of(ruler.version, number)
    left, right = (tree(half, ruler, most, depth + 1) for half in separation.cut(part))
    return None if left is None or right is None else "." + left + right


def head(version: int, depth: int) -> str:
    """The first lines of a certificate."""
    return ("version 2\n" if version == 2 else "") + "certificate %d\n" % depth


def certificate(flown: Flown, depth: int, version: int = 2) -> str:
    """The text of the certificate with the largest leaves of a show that isn't refused at this depth."""
    ruler = separation.ruler_of(flown, version)
    lines = [tree(separation.difference(flown.by_cue[i][c][1], flown.by_cue[j][c][1]), ruler, depth)
             for i, j, c in separation.slots(flown)]
    return head(version, depth) + "".join("%s\n" % line for line in lines)


def nodes_of(line: bytes, version: int) -> Nodes | None:
    """The nodes of a tree in preorder, None for a split, else a direction's number; None where it isn't one tree."""
    nodes: Nodes = []
    owed, at, width = 1, 0, version
    while at < len(line):
        if owed == 0:
            return None
        if line[at:at + 1] == b".":
            nodes.append(None)
            owed, at = owed + 1, at + 1
            continue
        leaf = line[at:at + width]
        number = leaf[0] - 97 if version == 1 else int(leaf) if len(leaf) == 2 and leaf.isdigit() else -1
        if not 0 <= number < len(separation.TABLES[version]):
            return None
        nodes.append(number)
        owed, at = owed - 1, at + width
    return nodes if owed == 0 else None


def read_certificate(text: bytes) -> tuple[int, int, list[Nodes]]:
    """The version, the depth and the trees of a certificate's text, or a refusal 11."""
    if len(text) > LONGEST_CERTIFICATE:
        raise Refused(11, "too-large", "certificate too large")
    lines = text.split(b"\n")
    lines = [line[:-1] if line.endswith(b"\r") else line for line in lines[:-1]] + lines[-1:]
    if lines[-1] == b"":
        lines.pop()
    version = 2 if lines[:1] == [b"version 2"] else 1
    number = version
    if len(lines) < number or lines[number - 1] not in [b"certificate %d" % depth for depth in range(9)]:
        raise Refused(11, "line %d" % number, "faulty certificate", number)
    depth, trees = lines[number - 1][-1] - 48, []
    for number, line in enumerate(lines[number:], number + 1):
        if (nodes := nodes_of(line, version)) is None:
            raise Refused(11, "line %d" % number, "faulty certificate", number)
        trees.append(nodes)
    return version, depth, trees


def tree_fault(part: Part, nodes: Nodes, ruler: separation.Ruler, most: int) -> tuple[str, str] | None:
    """What is wrong with a tree of a cue, or None: `too-deep`, or a leaf that fails, its place and control value."""
    stack = [(part, 0, 0)]
    for node in nodes:
        part, depth, index = stack.pop()
        if node is None:
            if depth == most:
                return "too-deep", ""
            left, right = separation.cut(part)
            stack += [(right, depth + 1, 2 * index + 1), (left, depth + 1, 2 * index)]
        else:
            if (control := low_control(ruler, part, depth, node)) is not None:
                words = depth, index, separation.word_of(ruler.version, node), control
                return "fails", " part %d %d direction %s control %d" % words
    return None


def judge_certificate(flown: Flown, text: bytes) -> str:
    """The line of `verify` on a certificate's text, or a refusal 11 or 12."""
    version, depth, trees = read_certificate(text)
    ruler, places = separation.ruler_of(flown, version), list(separation.slots(flown))
    for k, nodes in enumerate(trees):
        if k == len(places):
            raise Refused(12, "extra line %d" % (k + 1 + version), "extra tree")
        i, j, cue = places[k]
        pair = "pair %s %s cue %d" % (flown.names[i], flown.names[j], cue + 1)
        part = separation.difference(flown.by_cue[i][cue][1], flown.by_cue[j][cue][1])
        if found := tree_fault(part, nodes, ruler, depth):
            raise Refused(12, "%s %s%s" % (found[0], pair, found[1]), found[0])
    if len(trees) < len(places):
        i, j, cue = places[len(trees)]
        raise Refused(12, "missing pair %s %s cue %d" % (flown.names[i], flown.names[j], cue + 1), "missing tree")
    return "valid depth %d trees %d\n" % (depth, len(trees))

"""What the program and the library are made of and which build of them is there: sources and their stamp, the record of
a build, versions. For ./show, ./show release and ./show library.

A stamp is a SHA-256 over names and contents, so times of files say nothing.
"""
from __future__ import annotations

import os
import sys

TYPE_CHECKING = False  # of a reader of types, for which `typing` needn't be imported
if TYPE_CHECKING:
    from collections.abc import Callable, Iterator
from hemtoghai import program
from hemtoghai.program import MANIFEST, PROGRAM, RECORD, TOP
from hemtoghai.streams import NO_ANSWER

CRATES = os.path.join(TOP, "crates")
LAST = "show_cli"
VERSION = os.path.join(TOP, "VERSION")
LEFT_OUT = "out", "must-fail"


def crates_below(name: str) -> dict[str, list[str]]:
    """The crate and those of the repository that it stands on, each with the ones right below it."""
    listed = {}
    with open(os.path.join(TOP, "crates.txt"), encoding="utf-8") as lines:
        for line in lines:
            crate, colon, libraries = line.partition("#")[0].partition(":")
            if colon and crate.split():
                listed[crate.split()[0]] = libraries.split()
    found, wanted = {}, [name]
    while wanted:
        crate = wanted.pop()
        if crate not in listed:
            raise FileNotFoundError(2, f"it has no line for the crate {crate}", "crates.txt")
        if crate not in found:
            found[crate] = [library for library in listed[crate] if library in listed]
            wanted += found[crate]
    return found


def walk(crate: str) -> Iterator[tuple[str, list[str]]]:
    """The folders of a crate with their files, folders that are links among them, each once."""
    waiting, been = [os.path.join(CRATES, crate)], set()
    while waiting:
        folder = waiting.pop()
        found = os.stat(folder)
        if (found.st_dev, found.st_ino) in been:
            continue
        been.add((found.st_dev, found.st_ino))
        names = os.listdir(folder)
        inner = [os.path.join(folder, it) for it in names if not it.endswith((".rt", ".antt")) and it not in LEFT_OUT]
        waiting += [it for it in inner if os.path.isdir(it)]
        yield folder, [os.path.join(folder, it) for it in names if it.endswith((".rt", ".antt"))]


def sources(crate: str) -> Iterator[str]:
    """The files that a crate is made from. A link that leads nowhere, as an editor's mark on a file, is none."""
    for _, files in walk(crate):
        yield from (file for file in files if os.path.isfile(file))


def sha256(path: str) -> str:
    import hashlib
    whole = hashlib.sha256()
    with open(path, "rb") as file:
        for part in iter(lambda: file.read(1 << 20), b""):
            whole.update(part)
    return whole.hexdigest()


def stamp(below: dict[str, list[str]]) -> str:
    """What the sources are: a SHA-256 over the names and the contents of all files that the program is made from."""
    files = ["crates.txt", *(os.path.relpath(file, TOP) for crate in below for file in sources(crate))]
    lines = [f"{sha256(os.path.join(TOP, file))}  {file}\n" for file in sorted(files)]
    return program.digest_of("".join(lines).encode("utf-8", "surrogateescape"))


def is_current(below: dict[str, list[str]], path: str = PROGRAM) -> bool:
    """Whether a program is there that was built from the sources as they are now, whatever the times of files."""
    record = program.record_of(path + RECORD)
    if not os.access(path, os.X_OK) or record.get("sha256") != sha256(path):
        return False
    return record.get("stamp") == stamp(below)


def version() -> str:
    with open(VERSION, encoding="utf-8") as file:
        return file.read().strip()


def answer_of(*words: str, without: Callable[[str], str] = lambda why: "") -> str:
    """What a command says; where it can't be run or fails, what is made of the words that say why."""
    import subprocess
    try:
        done = subprocess.run(words, cwd=TOP, stdin=subprocess.DEVNULL, stdout=subprocess.PIPE, stderr=subprocess.PIPE)
    except OSError as error:
        return without(f"{words[0]}: {error.strerror}")
    if done.returncode:
        return without(f"{' '.join(words)}: {done.stderr.decode(errors='replace').strip()}")
    return done.stdout.decode(errors="replace").strip()


def git(*words: str) -> str:
    """What git says; where it fails the tool ends."""
    from hemtoghai.companion import stop
    return answer_of("git", *words, without=stop)


def write_record(said: str, stamped: str) -> None:
    """Notes what is known of a build of the program: what rt said last of its proof, and the stamp of its sources."""
    import json
    from hemtoghai import outputs
    lines = [line for line in said.split("\n") if line.startswith("logic=proved ")]
    changed = answer_of("git", "status", "--porcelain", "--", "crates", "crates.txt") != ""
    record = {"commit": answer_of("git", "rev-parse", "HEAD"), "changed_since": changed,
              "toolchain": answer_of("rt", "version"), "rests_on": lines[-1] if lines else "",
              "sha256": sha256(PROGRAM), "stamp": stamped}
    outputs.write_all({PROGRAM + RECORD: json.dumps(record, indent=1).encode()})


def differing(wanted: dict[str, str]) -> Iterator[str]:
    """The files of a release that are missing or others, and those that were added, each with words."""
    for path, digest in sorted(wanted.items()):
        place = os.path.join(TOP, path)
        try:
            if not os.path.isfile(place) or sha256(place) != digest:
                yield "not as released: " + path
        except OSError as error:
            yield f"not as released: {path}: {error.strerror}"
    known = {*wanted, "MANIFEST.json"}
    for path in sorted(all_files(TOP)):
        if path not in known and not (program.IS_INSTALLED and "__pycache__" in path.split(os.sep)):
            yield "not in the release: " + (
                path if path.isprintable() else path.encode("unicode_escape", "surrogateescape").decode("ascii"))


def all_files(top: str) -> Iterator[str]:
    """All files below a folder, links and what else lies there among them, by their path from it."""
    waiting = [top]
    while waiting:
        folder = waiting.pop()
        for entry in os.scandir(folder):
            if entry.is_dir(follow_symlinks=False):
                waiting.append(entry.path)
            else:
                yield os.path.relpath(entry.path, top)


def print_version() -> int:
    print("hemtoghai " + version())
    released = os.path.exists(MANIFEST)
    record = program.record_of(MANIFEST if released else PROGRAM + RECORD)
    if not os.access(PROGRAM, os.X_OK):
        sys.stdout.flush()
        print("show: the program isn't built", file=sys.stderr)
        return NO_ANSWER
    found = sha256(PROGRAM)
    print("program sha256 " + found)
    if record.get("sha256") != found:
        print("no record of how this program was built: nothing is known of its proof")
        return NO_ANSWER
    words = {name: record.get(name) if isinstance(record.get(name), str) else "" for name in (
        "commit", "stamp", "toolchain", "rests_on")}
    changed = ", with files changed that are in no commit" if record.get("changed_since") else ""
    print("commit %s%s" % (words["commit"] or "?", changed))
    print("sources sha256 " + (words["stamp"] or "?"))
    print("toolchain " + (words["toolchain"] or "?"))
    print("proof: " + (words["rests_on"] or "its last line was not kept"))
    if not released and words["stamp"] != stamp(crates_below(LAST)):
        print("the sources are others now: the next command builds the program anew")
    files = record.get("files", {})
    for line in differing(files) if released and isinstance(files, dict) else ():
        print(line)
    return 0

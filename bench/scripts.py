"""What the scripts of bench/ share: where the repository and its program are, the words of a script, scripts as modules,
runs of the program and of the toolchain, and copies of crates."""
from __future__ import annotations

import argparse
import functools
import importlib.util
import os
import re
import shutil
import subprocess
import sys
import tempfile
from importlib.machinery import SourceFileLoader
from types import ModuleType
from typing import Any, Dict, Iterable, List, Optional, Sequence, Set, Tuple

TOP = os.path.dirname(os.path.dirname(os.path.abspath(__file__)))
CRATES = os.path.join(TOP, "crates")
PROGRAM = os.path.join(CRATES, "show_cli", "out", "show_cli")
sys.path.insert(0, os.path.join(TOP, "python"))

Answer = Tuple[int, str]  # a status and what was written
Job = Tuple[List[str], bytes, Answer]  # words and input for the program, and what is wanted


def script(name: str, folder: str = "bench") -> ModuleType:
    """A script as a module: its file has no ending."""
    loader = SourceFileLoader(name, os.path.join(TOP, folder, name))
    spec = importlib.util.spec_from_loader(name, loader)
    assert spec
    module = importlib.util.module_from_spec(spec)
    loader.exec_module(module)
    return module


def words_of(about: str | None, program: bool = True, names: str = "", **given: Any) -> argparse.Namespace:
    """The words of a script. Each option has its value where it isn't said: False for one without a value, a list for a
    choice without one, a tuple for any number of words. Other words are any number of `names`, if there may be some.
    The program is the last word, or this checkout's, and has to be there, unless --unproved."""
    parser = argparse.ArgumentParser(description=about, formatter_class=argparse.RawDescriptionHelpFormatter)
    for name, value in given.items():
        kind: dict[str, Any] = {"type": type(value), "default": value}
        if value is False:
            kind = {"action": "store_true"}
        elif isinstance(value, list):
            kind = {"type": type(value[0]), "choices": value}
        elif isinstance(value, tuple):
            kind = {"nargs": "*", "default": value}
        parser.add_argument("--" + name.replace("_", "-"), **kind)
    if names:
        parser.add_argument("names", nargs="*", metavar=names)
    if program:
        parser.add_argument("program", nargs="?", default=PROGRAM)
    words = parser.parse_intermixed_args()
    if program and not getattr(words, "unproved", False) and not os.access(words.program, os.X_OK):
        sys.exit("no program at %s: run ./show once, which builds it" % words.program)
    return words


# ---- runs

def answer(program: str, words: Sequence[str], text: bytes) -> Answer:
    """The status of the program and all that it writes; None and why, where it takes five minutes."""
    try:
        done = subprocess.run([program, *words], input=text, stdout=subprocess.PIPE, stderr=subprocess.STDOUT,
                              timeout=300)
    except subprocess.TimeoutExpired:
        return -1, "no answer within five minutes"
    return done.returncode, done.stdout.decode(errors="replace")


def differing(program: str | None, jobs: Sequence[Job]) -> Tuple[List[str], bytes, Answer, object] | None:
    """The first of these jobs whose answer differs, with that of the program, or None. Without a program the sources
    are run, unproved: a build takes half a minute, and then each input a fifth of a second."""
    if program:
        for words, text, wanted in jobs:
            if (came := answer(program, words, text)) != wanted:
                return words, text, wanted, came
        return None
    with tempfile.TemporaryDirectory() as folder:
        for k, (words, text, (_, output)) in enumerate(jobs):
            for ending, data in (("", text), (".args", "".join(word + "\n" for word in words).encode()),
                                 (".stdout", output.encode())):
                with open(os.path.join(folder, "case%06d%s" % (k, ending)), "wb") as file:
                    file.write(data)
        said = rt(["try", "--cases", folder], os.path.join(CRATES, "show_cli"))[1]
    answers = re.findall(r"^(case=case(\d+) run=(\S+)(?: status=(\d+))?.*)$", said, re.M)
    if len(answers) != len(jobs):
        raise SystemExit("the sources did not run:\n" + said[-4000:])
    for line, number, ended, status in answers:
        words, text, wanted = jobs[int(number)]
        if ended != "ended" or int(status) != wanted[0] or "output=expected" not in line:
            return words, text, wanted, line
    return None


def rt(words: Sequence[str], folder: str, jobs: int | None = None) -> Answer:
    """The status of the toolchain in a folder, and all that it says."""
    more = {} if jobs is None else {"RT_JOBS": str(jobs)}
    done = subprocess.run(["rt", *words], cwd=folder, env={**os.environ, **more}, stdin=subprocess.DEVNULL,
                          stdout=subprocess.PIPE, stderr=subprocess.STDOUT, encoding="utf-8", errors="replace")
    return done.returncode, done.stdout


# ---- copies of crates

def text_of(path: str) -> str:
    """The text of a file."""
    with open(path, encoding="utf-8") as file:
        return file.read()


def write(path: str, text: str) -> None:
    """Writes a file anew, in folders that are made: no file that has a second name is changed."""
    os.makedirs(os.path.dirname(path), exist_ok=True)
    if os.path.lexists(path):
        os.remove(path)
    with open(path, "w", encoding="utf-8") as file:
        file.write(text)


@functools.lru_cache(None)
def libraries() -> Dict[str, Tuple[str, List[str]]]:
    """The crates of crates.txt, each with its line and the libraries that it names."""
    found = {}
    for line in text_of(os.path.join(TOP, "crates.txt")).split("\n"):
        crate, colon, names = line.partition("#")[0].partition(":")
        if colon:
            found[crate.split()[0]] = line, names.split()
    return found


def needed_by(crates: Iterable[str]) -> Set[str]:
    """These crates, and the repository's crates on which they stand."""
    lines, found, wanted = libraries(), set(), list(crates)
    while wanted:
        it = wanted.pop()
        if it in lines and it not in found:
            found.add(it)
            wanted += lines[it][1]
    return found


def linked(one: str, other: str) -> Optional[str]:
    """Gives a file a second name, or copies it where it can't have one: rt replaces files, and changes none."""
    try:
        os.link(one, other)
        return other
    except OSError:
        return str(shutil.copy2(one, other))


def copy_crates(room: str, crates: Iterable[str], more: str = "", whole: str = "") -> None:
    """Puts into a folder these crates, all on which they stand, and what was proved of them, but no mutants. `more` are
    further lines of crates.txt. What rt keeps of single modules goes along for the crate `whole`, or for all."""
    needed = needed_by(crates)
    lines = "".join(line + "\n" for it, (line, _) in libraries().items() if it in needed)
    write(os.path.join(room, "crates.txt"), lines + more)
    shutil.copy(os.path.join(TOP, "HANDLES"), room)
    for it in needed:
        aside = shutil.ignore_patterns("must-fail", *(["incremental"] if whole not in ("", it) else []))
        shutil.copytree(os.path.join(CRATES, it), os.path.join(room, "crates", it), copy_function=linked, ignore=aside)

"""Makes the library: the proved judge for programs in C and in languages that call C.

    ./show library [--kept] [--out FOLDER [--force]]

FOLDER (library/out without the option) then has include/hemtoghai.h, lib/libhemtoghai.a, lib/libhemtoghai.so with its
two other names, lib/pkgconfig/hemtoghai.pc, and MANIFEST.json: version, commit, toolchain, the SHA-256 of each file, of
the sources and of the program's, and the last line of the proof of crates/hemtoghai, which lists everything on which it
rests. `import hemtoghai` takes the library of library/out if the program is of the same sources. Both libraries export
the names hemtoghai_run and hemtoghai_version, and no other. The command needs the toolchain and a C compiler (the one
that CC names, or cc) with ld, ar, nm, objcopy and size.

If `rt ci` has proved these crates on this machine, only the crate itself is proved once more. Else it takes up the
crates that ./show has proved and built in this checkout, and proves the others and the crate itself; or with --kept
nothing is made. Each minute a line on standard error says how far that is. What is proved is kept: if the command is
ended and run again it goes on there. The library runs on x86-64 with the instructions of x86-64-v2. All files are
written, or none; those of library/out are overwritten, and those of another FOLDER by --force alone. Status 0: the
library is written. 70: it isn't. 75: with --kept, `rt ci` has kept too little on this machine.
"""
from __future__ import annotations

import importlib.machinery
import importlib.util
import json
import os
import pathlib
import re
import subprocess
import sys
import tempfile
import time
from typing import Any, Optional

from hemtoghai import outputs, program
from hemtoghai.companion import many, parser, stop, tool_name
from hemtoghai.dev import building
from hemtoghai.launching import records, running
from hemtoghai.launching.records import git
from hemtoghai.streams import tell

TOP = program.TOP
CRATE = "hemtoghai"
ARCHIVE, SHARED = "libhemtoghai.a", "libhemtoghai.so.%s"  # with the version
LINKS = ["lib/libhemtoghai.so", "lib/libhemtoghai.so.0"]
SOURCES = os.path.join(TOP, "library")
OUT = os.path.join(SOURCES, "out")
MANIFEST, HEADER, CONFIG = "MANIFEST.json", "include/hemtoghai.h", "lib/pkgconfig/hemtoghai.pc"
NAMES = ["hemtoghai_run", "hemtoghai_version"]
# What the objects take from the C library, and from the compiler's own; anything else would be a new thing to trust.
WANTED = {"malloc", "realloc", "free", "memcpy", "memmove", "memset", "__udivti3", "_GLOBAL_OFFSET_TABLE_"}
NOT_KEPT = 75
VARIABLES = re.compile(r"\.(data|bss|tdata|tbss)\b(?!\.rel\.ro)")
LINKING = "-Wl,-z,defs,-z,relro,-z,now,-z,noexecstack,--gc-sections,--build-id=none"


def cause_of(command: str, error: OSError) -> str:
    """Why a command can't be run."""
    if command == "rt" and isinstance(error, FileNotFoundError):
        return "no rt on the PATH: the Rattle toolchain is needed to build the library"
    return f"{command}: {error.strerror}"


def said(*words: str, place: str = TOP) -> str:
    """What a command says; where it fails the tool ends with all that it said."""
    try:
        done = subprocess.run(words, cwd=place, stdin=subprocess.DEVNULL, stdout=subprocess.PIPE,
                              stderr=subprocess.STDOUT)
    except OSError as error:
        return stop(cause_of(words[0], error))
    text = done.stdout.decode(errors="replace")
    if done.returncode:
        stop("%s\n%s failed with status %d" % (text.rstrip("\n"), " ".join(words), done.returncode))
    return text


def watched(*words: str, place: str, doing: str, every: float = 60) -> str:
    """What a command says that may take long. A line tells that it begins, and one each minute how far it is, by its
    last line. It is ended where this tool is; where it fails the tool ends with all that it said."""
    tell(tool_name(), doing)
    begun = told = time.monotonic()
    process = None
    with tempfile.TemporaryFile() as log:
        try:
            with running.Noted():  # a signal that comes while it is started ends it too
                process = building.start(list(words), place, stdin=subprocess.DEVNULL, stdout=log,
                                         stderr=subprocess.STDOUT)
            while process.poll() is None:
                time.sleep(min(0.2, every))
                if time.monotonic() - told >= every:
                    told = time.monotonic()
                    last = last_line(os.pread(log.fileno(), 1 << 20, max(0, os.fstat(log.fileno()).st_size - 4096)))
                    tell(tool_name(), "%s for %s so far%s" % (
                        " ".join(words[:2]), many(round((told - begun) / 60), "minute"), "; " + last if last else ""))
        except OSError as error:
            stop(cause_of(words[0], error))
        finally:
            if process:
                building.end(process)
        log.seek(0)
        text = log.read().decode(errors="replace")
    if process.returncode:
        stop("%s\n%s failed with status %d" % (text.rstrip("\n"), " ".join(words), process.returncode))
    return text


def last_line(data: bytes) -> str:
    """The last whole line of what was said, and not the one that is being written."""
    lines = data.rpartition(b"\n")[0].split(b"\n")
    return lines[-1].decode(errors="replace").strip()


def toolchain() -> str:
    return os.path.dirname(said("rt", "doc").strip())


def rt_as_module() -> Any:
    """rt as a module: no command of it makes a static library over what `rt ci` has proved and kept."""
    loader = importlib.machinery.SourceFileLoader("rt", os.path.join(toolchain(), "bin", "rt"))
    if (spec := importlib.util.spec_from_loader("rt", loader)) is None:
        stop(f"{loader.path} can't be read as a module")
    module = importlib.util.module_from_spec(spec)
    loader.exec_module(module)
    return module


def over_kept(room: str) -> Optional[tuple[str, str]]:
    """The archive and what its proof says, over the crates below as `rt ci` proved and kept them for the same files;
    or None, where one of them isn't kept. The crate itself is proved once more: `rt ci` keeps no archive."""
    rt, place = rt_as_module(), os.path.join(room, "proved")
    rt.rtlib.guarded()
    rt.copy_crates(TOP, place)
    os.mkdir(os.path.join(place, ".git"))  # it is the top of a repository
    rt.Crate.allowed, rt.Crate.cuts_libraries = rt.handles_of(place), True
    crates = rt.crates_of(place)
    crate, = (it for it in crates if it.name == CRATE)
    kept = rt.Kept(crates)
    for below in crate.below():
        if not kept.give(below, False, kept.key(below)):
            tell(tool_name(), f"nothing is taken from `rt ci`: it has not proved {below.name} as it is on this machine")
            return None
        kept.is_built(below)
    archive = os.path.join(crate.folder, "out", ARCHIVE)
    os.makedirs(os.path.dirname(archive), exist_ok=True)
    with open(os.path.join(room, "said"), "w+", errors="replace") as crate.out:
        status = crate.prove(["build", *crate.words(["--jobs", "2"], keeps=False), "--toolchain",
                              os.path.join(toolchain(), "toolchain"), "--backend", "llvm", "-o", archive])
        crate.out.seek(0)
        text = crate.out.read()
    if status:
        stop("%s\n%s isn't proved" % (text.rstrip("\n"), CRATE))
    return archive, text


def over_built(place: str) -> tuple[str, str]:
    """The archive and what its proof says, over the crates that ./show built here; those that it didn't are proved too.
    `rt check` keeps what it proved function by function, and `rt lib` takes that up."""
    below = [crate for crate in records.crates_below(CRATE) if crate != CRATE]
    built = sum(os.path.exists(os.path.join(records.CRATES, crate, building.LIBRARY, "stamp")) for crate in below)
    watched("rt", "check", place=place, doing=f"proving crates/{CRATE} over {many(len(below), 'crate')}, of which "
                                              f"{built} are built here; where they changed they are proved first. Some "
                                              "minutes, if all are; ended and run again it goes on")
    return os.path.join(place, "out", ARCHIVE), watched("rt", "lib", place=place, doing="making the archive")


def prove(room: str, only_kept: bool = False) -> tuple[str, str]:
    """The archive of the proved crate, and the last line of its proof."""
    place = os.path.join(TOP, "crates", CRATE)
    try:
        made = over_kept(room)
    except (AttributeError, ImportError, TypeError) as error:
        print(f"this toolchain keeps otherwise: {error}", file=sys.stderr)
        made = None
    if made is None and only_kept:
        raise SystemExit(NOT_KEPT)
    archive, text = made or over_built(place)
    lines = re.findall(r"^logic=proved .*$", text, re.M)
    if not lines:
        stop("there is no last line of a proof")
    return archive, lines[-1]


def names_of(file: str, *flags: str) -> set[str]:
    """The names that a file defines or takes, by the flags of nm."""
    lines = [line.split(" ")[0] for line in said("nm", "--format=posix", *flags, file).splitlines()]
    return {name.split("@")[0] for name in lines if name and not name.endswith(":")}


def need_stateless(archive: str) -> None:
    """Ends the tool where the proved crate has variables of its own: then threads could disturb one another. The
    toolchain's object has one byte of them, of which the address alone is used."""
    lines = [line.split() for line in said("size", "--format=sysv", archive).splitlines()]
    if any(len(line) > 1 and VARIABLES.match(line[0]) and line[1] != "0" for line in lines):
        stop(f"{archive} has variables of its own")


def one_object(room: str, archives: list[str]) -> str:
    """One object of all that the archives have, which shows the library's names alone."""
    whole = os.path.join(room, "hemtoghai.o")
    said("ld", "-r", "--whole-archive", *archives, "-o", whole)
    said("objcopy", *("--keep-global-symbol=" + name for name in NAMES), whole)
    if extra := names_of(whole, "--undefined-only") - WANTED:
        stop(f"the objects need more from outside than is allowed: {' '.join(sorted(extra))}")
    return whole


def need_names(file: str, *flags: str) -> None:
    """Ends the tool if a library exports other names than its own."""
    shown = names_of(file, "--defined-only", *flags) - {"HEMTOGHAI_0"}
    if shown != set(NAMES):
        stop(f"{file} exports other names: {' '.join(sorted(shown))}")


def make_libraries(room: str, version: str, archives: list[str]) -> dict[str, bytes]:
    """Makes both libraries in a folder; their bytes, by their paths in the library's."""
    static, shared = (os.path.join(room, name) for name in (ARCHIVE, SHARED % version))
    whole = one_object(room, archives)
    said("ar", "rcsD", static, whole)
    said(os.environ.get("CC", "cc"), "-shared", "-static-libgcc", LINKING, "-Wl,-soname,libhemtoghai.so.0",
         "-Wl,--version-script=" + os.path.join(SOURCES, "hemtoghai.map"), whole, "-o", shared)
    need_names(static, "--extern-only")
    need_names(shared, "--dynamic")
    return {"lib/" + os.path.basename(path): pathlib.Path(path).read_bytes() for path in (static, shared)}


def make(version: str, only_kept: bool = False) -> tuple[dict[str, bytes], str]:
    """The bytes of the library's files, by their paths in its folder, and what the proof rests on."""
    with tempfile.TemporaryDirectory() as room:
        archive, rests_on = prove(room, only_kept)
        need_stateless(archive)
        heap = os.path.join(toolchain(), "c", "liblibc_c.a")  # which takes memory from malloc
        if not os.path.exists(heap):
            stop(f"{heap} is not there")
        linked = os.path.join(room, "linked")
        os.mkdir(linked)
        made = make_libraries(linked, version, [archive, heap])
    config = pathlib.Path(SOURCES, "hemtoghai.pc.in").read_text(encoding="utf-8").replace("@VERSION@", version)
    return {**made, HEADER: pathlib.Path(SOURCES, "hemtoghai.h").read_bytes(), CONFIG: config.encode()}, rests_on


def stamps() -> dict[str, str]:
    """What the sources of the library are, and those of the program, which has some that the library hasn't."""
    return {name: records.stamp(records.crates_below(crate))
            for name, crate in (("stamp", CRATE), ("program_stamp", records.LAST))}


def refuse(out: str, version: str, force: bool) -> None:
    """Ends the tool where a file would be overwritten that is there, without force; before any work."""
    names = ["lib/" + ARCHIVE, "lib/" + SHARED % version, *LINKS, HEADER, CONFIG, MANIFEST]
    outputs.refuse((os.path.join(out, name) for name in names), force, [])


def manifest_of(files: dict[str, bytes], version: str, rests_on: str, before: dict[str, str]) -> dict[str, Any]:
    """The library's manifest: its files with their SHA-256, without the links, and what is known of their build."""
    sums = {path: program.digest_of(data) for path, data in files.items()}
    return {"version": version, "commit": git("rev-parse", "HEAD"),
            "changed_since": git("status", "--porcelain") != "", "toolchain": said("rt", "version").strip(),
            "rests_on": rests_on, **before, "files": dict(sorted(sums.items()))}


def main(words: list[str]) -> int:
    reader = parser(__doc__)
    reader.add_argument("--out", default=OUT, metavar="FOLDER",
                        help="the folder of the library; without it library/out")
    reader.add_argument("--kept", action="store_true",
                        help="only over crates that rt ci has proved and kept on this machine")
    outputs.add_force(reader)
    given = reader.parse_args(words)
    out, version = os.path.abspath(given.out), records.version()
    if os.path.exists(program.MANIFEST):
        stop("this is a release: its library is in library/out")
    force = given.force or os.path.realpath(out) == os.path.realpath(OUT)
    refuse(out, version, force)
    running.watch_signals()
    before = stamps()
    files, rests_on = make(version, given.kept)
    if stamps() != before:
        stop("the sources were changed while they were proved: run it again")
    manifest = manifest_of(files, version, rests_on, before)
    files[MANIFEST] = (json.dumps(manifest, indent=1) + "\n").encode()
    outputs.write_below(out, files, force)
    outputs.link_all({os.path.join(out, link): SHARED % version for link in LINKS})
    for path, data in manifest["files"].items():
        print("%s  %s" % (data, path))
    print("proof: " + rests_on)
    return 0

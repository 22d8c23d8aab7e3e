"""Makes a release: an archive with the proved program and library, ./show, its companions, documents and examples, and
a wheel with the program and the companions.

    ./show release [--out FOLDER] [--changed] [--force]

hemtoghai-VERSION-x86_64-linux.tar.gz runs without the toolchain, with Python 3.9 or later, on x86-64 with glibc 2.34 or
later. VERSION is the content of the file VERSION. The library is in library/out, as ./show library makes it, with its
own manifest. MANIFEST.json identifies the build: version, commit, toolchain, the SHA-256 of each file, and the last
line of the build, which lists everything on which the proof rests. ./show of a release runs no other program than the
one of the manifest, and ./show --version prints the manifest, each file that differs from it, and each that was added.
README.md is the one of a release, dev/release.md. There are no crates in it, and nothing that only a checkout needs: to
read the definitions and proofs, take the commit.

hemtoghai-VERSION-py3-none-manylinux_2_34_x86_64.whl is what pip installs: `import hemtoghai` and the command hemtoghai,
with a manifest of its own. Setuptools makes it, without a network; if setuptools or wheel isn't installed no wheel is
made, and a line says so. The same commit, program and library make the same bytes of both. Neither is written over one
that is there but by --force.

`release` refuses a program or a library that isn't the one of these sources, by the stamps that ./show and ./show
library wrote when they proved them, whatever the times of files. It refuses a build without its last line, and, without
--changed, files that differ from the commit. Status 0: the files are written. 70: they aren't.
"""
from __future__ import annotations

import gzip
import io
import json
import os
import pathlib
import re
import subprocess
import sys
import tarfile
import tempfile
from typing import Any

from hemtoghai import outputs, program
from hemtoghai.companion import parser, stop
from hemtoghai.dev import completion, manual
from hemtoghai.launching import records
from hemtoghai.launching.records import git

Record = dict[str, Any]  # of a build, as it is noted beside the program
Contents = list[tuple[str, bytes, int]]  # files as path, bytes and mode
Links = list[tuple[str, str]]  # each with what it leads to
TOP = program.TOP
DEV = "python/hemtoghai/dev/"  # what only a checkout needs
SHIPPED = ["VERSION", "CHANGELOG.md", "SECURITY.md", "show", "docs", "examples", "python", "tools", "library",
           "crates/CONTRACTS.md"]
README = os.path.join("python", "hemtoghai", "dev", "release.md")  # of the release; it is its README.md
PROGRAM = os.path.relpath(program.PROGRAM, TOP)
LIBRARY = os.path.join("library", "out")
COPIES = ["include/hemtoghai.h"]  # of its files this is a copy of one of the repository
LINKS = ["lib/libhemtoghai.so", "lib/libhemtoghai.so.0"]
PACKAGE = "python/hemtoghai/"
BESIDE = ("VERSION", "docs/COMMANDS.md", "docs/LANGUAGE.md")  # in a checkout beside the package, and in the wheel in it
SHARED = "library/out/MANIFEST.json", "library/out/lib/libhemtoghai.so."  # as the names of its files begin
PACKED = ".tar.gz"
WHEEL = "hemtoghai-%s-py3-none-manylinux_2_34_x86_64.whl"
SETTINGS = "[bdist_wheel]\nplat-name = manylinux_2_34_x86_64\n"
MAKE = "import sys; from setuptools import build_meta; build_meta.build_wheel(sys.argv[1])"


def judged_record(changed: bool) -> Record:
    """The record of the program's build, where it is good enough for a release."""
    if os.path.exists(program.MANIFEST):
        stop("this is a release: another one is made in the repository")
    if not os.path.exists(program.PROGRAM):
        stop("the program isn't built: ./show check FILE builds it, then ./show library the library")
    if not records.is_current(records.crates_below(records.LAST)):
        stop("the program isn't the one of these sources: ./show check FILE builds it")
    record = program.record_of(program.PROGRAM + program.RECORD)
    if not re.match("logic=proved ", record["rests_on"]):
        stop(f"the record of the build hasn't its last line: remove {PROGRAM}, and build it anew")
    if git("status", "--porcelain") and not changed:
        stop("files differ from the commit; --changed releases them all the same, and the manifest says so")
    return record


def is_library(record: Record) -> bool:
    """Whether the library that has this manifest is the one of these sources."""
    def differs(path: str, wanted: str) -> bool:
        place = os.path.join(TOP, path)
        return not os.path.isfile(place) or records.sha256(place) != wanted
    files = record.get("files", {})
    copies = {os.path.join("library", os.path.basename(path)): files[path] for path in files if path in COPIES}
    return (len(copies) == len(COPIES) and record.get("version") == records.version()
            and record.get("stamp") == records.stamp(records.crates_below("hemtoghai"))
            and not any(differs(os.path.join(LIBRARY, path), wanted) for path, wanted in files.items())
            and not any(differs(path, wanted) for path, wanted in copies.items()))


def contents_of() -> Contents:
    """The files of a release as (path, bytes, mode): of the commit, the program, the library, page and completions."""
    record = program.record_of(os.path.join(TOP, LIBRARY, "MANIFEST.json"))
    if not is_library(record):
        is_there = os.path.exists(os.path.join(TOP, LIBRARY))
        stop("the library isn't %s: ./show library builds it" % ("the one of these sources" if is_there else "built"))
    if not re.match("logic=proved ", record.get("rests_on", "")):
        stop("the library's manifest hasn't the last line of its proof: ./show library builds it")
    found = [(PROGRAM, 0o755)] + [(os.path.join(LIBRARY, path), 0o644) for path in (*record["files"], "MANIFEST.json")]
    for line in git("ls-files", "-s", "-z", "--", *SHIPPED).split("\0"):
        parts = re.fullmatch(r"(100644|100755) [0-9a-f]+ 0\t([^\n]*)", line)
        if line and not parts:
            stop("no release has such a file: %s" % line.partition("\t")[2][:100])
        if parts and not parts[2].startswith(DEV):
            found.append((parts[2], int(parts[1][3:], 8)))
    out = [(path, pathlib.Path(TOP, path).read_bytes(), mode) for path, mode in found]
    readme = pathlib.Path(TOP, README).read_bytes().replace(b"@VERSION@", records.version().encode())
    out += [("README.md", readme, 0o644), ("share/show.1", manual.page(records.version()).encode(), 0o644)]
    out += [("share/show." + shell, completion.completion(shell).encode(), 0o644) for shell in completion.SHELLS]
    return sorted(out)


def manifest_of(record: Record, contents: Contents, links: Links, changed: bool) -> str:
    """The text of the manifest. A link has the SHA-256 of the file that it leads to."""
    files = {path: program.digest_of(data) for path, data, _ in contents}
    for path, target in links:
        files[path] = files[os.path.join(os.path.dirname(path), target)]
    return json.dumps({
        "version": records.version(), "commit": git("rev-parse", "HEAD"), "changed_since": changed,
        **{name: record[name] for name in ("toolchain", "rests_on", "sha256", "stamp")},
        "files": dict(sorted(files.items()))}, indent=1) + "\n"


def archive(name: str, contents: Contents, links: Links, when: int) -> bytes:
    """The bytes of a .tar.gz of (path, bytes, mode) and links, the same for the same contents."""
    whole = io.BytesIO()
    with tarfile.open(fileobj=whole, mode="w", format=tarfile.USTAR_FORMAT) as tar:
        for path, data, mode in contents:
            entry = tarfile.TarInfo(f"{name}/{path}")
            entry.size, entry.mode, entry.mtime = len(data), mode, when
            tar.addfile(entry, io.BytesIO(data))
        for path, target in links:
            entry = tarfile.TarInfo(f"{name}/{path}")
            entry.type, entry.linkname, entry.mode, entry.mtime = tarfile.SYMTYPE, target, 0o777, when
            tar.addfile(entry)
    packed = gzip.compress(whole.getvalue(), mtime=0)
    return packed[:9] + b"\xff" + packed[10:]  # the system on which it was packed: Pythons name it differently


def lacking() -> list[str]:
    """The packages that this Python lacks to make a wheel."""
    return [name for name in ("setuptools", "wheel") if subprocess.run(
        [sys.executable, "-c", "import " + name], stdout=subprocess.DEVNULL, stderr=subprocess.DEVNULL).returncode]


def wheel_of(version: str, contents: Contents) -> bytes:
    """The bytes of a wheel of the package's files. Setuptools makes it, without a network, and the same files make the
    same bytes."""
    with tempfile.TemporaryDirectory() as room, tempfile.TemporaryDirectory() as out:
        def write(path: str, data: bytes, mode: int = 0o644) -> None:
            place = os.path.join(room, path)
            os.makedirs(os.path.dirname(place), exist_ok=True)
            with open(place, "wb") as file:
                file.write(data)
            os.chmod(place, mode)
        for path, data, mode in contents:
            write(PACKAGE + path, data, mode)
        write("pyproject.toml", pathlib.Path(TOP, "pyproject.toml").read_bytes())
        write("setup.cfg", SETTINGS.encode())
        write("VERSION", version.encode() + b"\n")
        done = subprocess.run([sys.executable, "-c", MAKE, out], cwd=room, stdout=subprocess.PIPE,
                              stderr=subprocess.STDOUT,
                              env={**os.environ, "SOURCE_DATE_EPOCH": git("log", "-1", "--format=%ct")})
        path = os.path.join(out, WHEEL % version)
        if done.returncode or not os.path.exists(path):
            stop(f"{done.stdout.decode(errors='replace').strip()}\nsetuptools made no wheel")
        return pathlib.Path(path).read_bytes()


def wheel_for(record: Record, contents: Contents, changed: bool) -> tuple[int, bytes]:
    """How many of these files of a release the wheel has, and its bytes."""
    own = sorted([(path[len(PACKAGE):], data, mode) for path, data, mode in contents if path.startswith(PACKAGE)] + [
        file for file in contents if file[0] in (*BESIDE, PROGRAM) or file[0].startswith(SHARED)])
    own.append(("MANIFEST.json", manifest_of(record, own, [], changed).encode(), 0o644))
    return len(own), wheel_of(version_of(changed), own)


def version_of(changed: bool) -> str:
    """The version of a wheel."""
    return records.version() + ("+changed" if changed else "")


def main(words: list[str]) -> int:
    reader = parser(__doc__)
    reader.add_argument("--out", default=".", metavar="FOLDER", help="the folder of the archive; without it this one")
    reader.add_argument("--changed", action="store_true", help="release files that differ from the commit")
    outputs.add_force(reader)
    options = reader.parse_args(words)
    record, changed = judged_record(options.changed), git("status", "--porcelain") != ""
    if not re.fullmatch(r"\d+\.\d+\.\d+", records.version()):
        stop("VERSION isn't a version: three numbers with points between them")
    name = f"hemtoghai-{records.version()}{'-changed' * changed}-x86_64-linux{PACKED}"
    wheel = WHEEL % version_of(changed)
    missing = lacking()
    outputs.refuse((os.path.join(options.out, it) for it in [name, *[wheel] * (not missing)]), options.force, [])
    contents = contents_of()
    shared, = (os.path.basename(path) for path, _, _ in contents if "/libhemtoghai.so." in path)
    links = [(os.path.join(LIBRARY, path), shared) for path in LINKS]
    contents.append(("MANIFEST.json", manifest_of(record, contents, links, changed).encode(), 0o644))
    made = {name: (len(contents) + len(links), archive(name[:-len(PACKED)], contents, links,
                                                       int(git("log", "-1", "--format=%ct"))))}
    if not missing:
        made[wheel] = wheel_for(record, contents, changed)
    outputs.write_below(options.out, {it: data for it, (_, data) in made.items()}, options.force)
    for it, (count, data) in made.items():
        print(f"{os.path.join(options.out, it)}: {count} files, {len(data)} bytes, sha256 {program.digest_of(data)}")
    if missing:
        print(f"no wheel was made: {sys.executable} has no {' and no '.join(missing)} (python3-setuptools and "
              "python3-wheel of Debian)")
    print("program sha256 %s\ntoolchain %s\nproof: %s" % (record["sha256"], record["toolchain"], record["rests_on"]))
    return 0

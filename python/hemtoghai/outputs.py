"""Writes files: each as a whole or not at all, never over a file that is read, and over another one only by --force.

The bytes go into a file without a name in the same folder, which gets the name once all of them are on the disk. Where
the disk is full, or the process is ended, the old file stays as it was, and no half one is left. Where the system has
no files without a name the new one has a hidden name until then. What is no plain file, as /dev/null, is written
itself.
"""
from __future__ import annotations

import argparse
import contextlib
import os
import signal
import stat
import sys
import tempfile
from collections.abc import Iterable, Iterator

from hemtoghai.companion import stop

HIDDEN = ".hemtoghai."  # how the name of a file begins that isn't in its place yet
ENDING = signal.SIGINT, signal.SIGTERM, signal.SIGHUP, signal.SIGQUIT


def add_force(reader: argparse.ArgumentParser) -> None:
    reader.add_argument("--force", action="store_true", help="overwrite files that are there")


def is_same(path: str, found: os.stat_result) -> bool:
    """Whether a path that is read, `-` for standard input, leads to this file."""
    try:
        return os.path.samestat(found, os.fstat(sys.stdin.fileno()) if path == "-" else os.stat(path))
    except (OSError, ValueError):
        return False


def fault_of(path: str, force: bool, read: Iterable[str]) -> str | None:
    """Why a file isn't to be written, or None, where these are read."""
    try:
        found = os.stat(path)
    except (OSError, ValueError):
        return None
    if stat.S_ISDIR(found.st_mode):
        return f"{path} is a folder: give the path of a file"
    if not stat.S_ISREG(found.st_mode):
        return None
    if any(is_same(other, found) for other in read):
        return f"{path} is what is read: give another path for what is written"
    return None if force else is_there(path)


def is_there(path: str) -> str:
    return f"{path} is there already: --force overwrites it, or give another path"


def refuse(paths: Iterable[str], force: bool, read: Iterable[str]) -> None:
    """Ends the tool where one of these files isn't to be written; before any work."""
    others = list(read)
    for path in paths:
        if fault := fault_of(path, force, others):
            stop(fault)


def make_folders(path: str) -> list[str]:
    """Makes a folder and those above it; the ones that were made, the innermost first. Raises OSError."""
    lacking: list[str] = []
    while path and not os.path.lexists(path):
        lacking.append(path)
        path = os.path.dirname(path)
    made: list[str] = []
    try:
        for folder in reversed(lacking):
            os.mkdir(folder)
            made.insert(0, folder)
    except OSError:
        remove_folders(made)
        raise
    return made


def remove_folders(made: Iterable[str]) -> None:
    for folder in made:
        with contextlib.suppress(OSError):
            os.rmdir(folder)


def mode_of(path: str) -> int:
    """The mode of the file that is there, or that of a new one."""
    try:
        return stat.S_IMODE(os.stat(path).st_mode)
    except OSError:
        mask = os.umask(0)
        os.umask(mask)
        return 0o666 & ~mask


@contextlib.contextmanager
def unbroken() -> Iterator[None]:
    """What ends a tool from outside waits until this is over."""
    before = signal.pthread_sigmask(signal.SIG_BLOCK, ENDING)
    try:
        yield
    finally:
        signal.pthread_sigmask(signal.SIG_SETMASK, before)


class New:
    """A file that is written whole beside the place that it is to have, with the mode of what is there where none is
    given. Raises OSError, and leaves no file then."""

    def __init__(self, path: str, data: bytes, mode: int | None = None) -> None:
        self.path, self.folder = path, os.path.dirname(path)
        self.hidden: str | None = None  # a name of its own
        if (number := unnamed(self.folder)) is None:
            number, self.hidden = tempfile.mkstemp(prefix=HIDDEN, dir=self.folder)
        self.number = number
        try:
            left = memoryview(data)
            while left:
                left = left[os.write(number, left):]
            os.fchmod(number, mode_of(path) if mode is None else mode)
            os.fsync(number)
        except BaseException:
            self.drop()
            raise

    def put(self, force: bool) -> None:
        """Has it take its place; raises FileExistsError where another is there that isn't to be replaced."""
        source = self.hidden or f"/proc/self/fd/{self.number}"
        try:
            return os.link(source, self.path, src_dir_fd=self.number)  # so a link is followed to what it leads to
        except FileExistsError:
            if not force:
                raise
        except OSError:  # a disk on which a file has one name
            if self.hidden is None or not force and os.path.lexists(self.path):
                raise
        if self.hidden is None:
            self.hidden = tempfile.mktemp(prefix=HIDDEN, dir=self.folder)
            os.link(source, self.hidden, src_dir_fd=self.number)
        os.replace(self.hidden, self.path)
        self.hidden = None

    def drop(self) -> None:
        """Closes it, and takes its own name away."""
        os.close(self.number)
        if self.hidden:
            with contextlib.suppress(OSError):
                os.unlink(self.hidden)


def unnamed(folder: str) -> int | None:
    """An open file without a name in a folder, to be written; None where the system or the disk has none."""
    if not os.path.isdir("/proc/self/fd"):
        return None
    try:
        return os.open(folder, os.O_TMPFILE | os.O_WRONLY, 0o600)
    except (AttributeError, OSError):
        return None


def write_all(files: dict[str, bytes], force: bool = True) -> None:
    """Writes files, by their paths: all of them, or none, and then a line ends the tool. Without force it ends too
    where one is there by now."""
    new: list[New] = []
    placed: list[str] = []  # where nothing was before
    path = ""
    try:
        for path, data in files.items():
            if os.path.exists(path) and not os.path.isfile(path):
                with open(path, "wb") as file:
                    file.write(data)
            else:
                new.append(New(os.path.realpath(path), data))  # so that a link stays one
        with unbroken():
            for it in new:
                path, is_first = it.path, not os.path.lexists(it.path)
                it.put(force)
                placed += [path] * is_first
            for folder in {it.folder for it in new}:
                sync_folder(folder)
    except OSError as error:
        for other in placed:
            os.unlink(other)
        stop(is_there(path) if isinstance(error, FileExistsError) else f"{path}: {error.strerror}")
    finally:
        for it in new:
            it.drop()


def link_all(links: dict[str, str]) -> None:
    """Makes links, by their paths with what they lead to, each at once in the place of what was there; a line ends the
    tool where one can't be made."""
    for path, target in links.items():
        hidden = tempfile.mktemp(prefix=HIDDEN, dir=os.path.dirname(path))
        try:
            with unbroken():
                os.symlink(target, hidden)
                try:
                    os.replace(hidden, path)
                except OSError:
                    os.unlink(hidden)
                    raise
        except OSError as error:
            stop(f"{path}: {error.strerror}")


def sync_folder(folder: str) -> None:
    """Has the names in a folder be on the disk too, where the system does so."""
    with contextlib.suppress(OSError):
        number = os.open(folder, os.O_RDONLY)
        try:
            os.fsync(number)
        finally:
            os.close(number)


def write_below(folder: str, files: dict[str, bytes], force: bool = True) -> None:
    """Writes files by their names in a folder, which is made where it isn't there, as those in it are that a name
    begins with: all files, or none and no folder."""
    made: list[str] = []
    try:
        for path in [folder, *(os.path.dirname(os.path.join(folder, name)) for name in files)]:
            try:
                made[:0] = make_folders(path)
            except OSError as error:
                stop(f"{path}: {error.strerror}")
        write_all({os.path.join(folder, name): data for name, data in files.items()}, force)
    except BaseException:
        remove_folders(made)
        raise

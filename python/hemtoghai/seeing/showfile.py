"""The one file that the studio reads and writes: as a whole, with a backup, and only over what was read; its bytes as
the text of a page; and how two texts differ."""
from __future__ import annotations

import difflib
import errno
import os
import re
import stat
import threading
from typing import BinaryIO

from hemtoghai.language import choreo
from hemtoghai.outputs import New, sync_folder
from hemtoghai.program import digest_of, looks
from hemtoghai.texts import is_plain

MOST_TEXT = choreo.LONGEST_TEXT + 4096  # a little more than a show may have, so that the program can say so
LONGEST_NAME = 255  # bytes of a file's name on usual disks
WRITES = stat.S_IWUSR | stat.S_IWGRP | stat.S_IWOTH  # the bits of a mode by which somebody may write a file
MOST_DIFF = 30000  # lines that are compared
# What a file with music is called beside a show, and what it is.
MUSIC = {".ogg": "audio/ogg", ".opus": "audio/ogg", ".mp3": "audio/mpeg", ".m4a": "audio/mp4", ".flac": "audio/flac",
         ".wav": "audio/wav"}


def stamp_of(data: bytes | None) -> str:
    """What a file's bytes are known by; that of a file that isn't there is empty."""
    return "" if data is None else digest_of(data)


class ShowFile:
    """The one file that is read and written."""

    def __init__(self, path: str) -> None:
        self.name, self.path, self.lock = os.path.basename(path), os.path.realpath(path), threading.Lock()

    def look(self) -> tuple[int, ...]:
        """What tells whether the file changed, without reading it."""
        return looks(self.path)

    def read(self) -> bytes | None:
        try:
            with plain(self.path) as file:
                return file.read(MOST_TEXT + 1)
        except FileNotFoundError:
            return None

    def kept(self) -> str:
        """The path of `SHOW~`; of a name that leaves no room for the last letter it lacks letters before that."""
        folder, name = os.path.split(self.path)
        while len(os.fsencode(name)) >= LONGEST_NAME:
            name = name[:-1]
        return os.path.join(folder, name + "~")

    def music(self) -> str | None:
        """The path of the file with music beside it, which has its name with another ending, or None."""
        paths = [os.path.splitext(self.path)[0] + ending for ending in MUSIC]
        return next((path for path in paths if os.path.isfile(path)), None)

    def save(self, data: bytes, stamp: str | None) -> str | None:
        """Writes the file at once as a whole, and keeps what was there as `SHOW~`; the stamp of what is there instead
        where that isn't what the page read, or None. Raises OSError, and changes nothing then."""
        with self.lock:
            old = self.read()
            if stamp is not None and stamp != stamp_of(old):
                return stamp_of(old)
            self.replace(data, old)
            return None

    def replace(self, data: bytes, old: bytes | None) -> None:
        """Writes the file beside it, as a whole, and gives it the name once what was there has another one."""
        if old is not None:
            self.need_leave(old)
        new = New(self.path, data)
        try:
            if old is not None:
                self.keep(old)
            new.put(True)
            sync_folder(new.folder)
        finally:
            new.drop()

    def need_leave(self, old: bytes) -> None:
        """Raises OSError where what is there may not be written over, or is longer than a show."""
        if not os.stat(self.path).st_mode & WRITES or not os.access(self.path, os.W_OK):
            raise PermissionError(errno.EACCES, "it is read-only, and stays (chmod u+w lets it be written)")
        if len(old) > MOST_TEXT:
            raise OSError(errno.EFBIG, "what is there now is longer than a show, and stays")

    def keep(self, old: bytes) -> None:
        """Keeps what was there as `SHOW~`, with its mode and its times."""
        found = os.stat(self.path)
        kept = New(self.kept(), old, stat.S_IMODE(found.st_mode))
        try:
            os.utime(kept.number, ns=(found.st_atime_ns, found.st_mtime_ns))
            kept.put(True)
        finally:
            kept.drop()


def plain(path: str) -> BinaryIO:
    """Opens a plain file to be read; raises OSError where it is none. Nobody is waited for, as at a FIFO."""
    file = open(path, "rb", opener=lambda name, how: os.open(name, how | os.O_NONBLOCK))
    if is_plain(file.fileno()):
        return file
    file.close()
    raise OSError(errno.EINVAL, "this is no plain file")


def read_at_most(path: str, most: int) -> bytes | None:
    """A file's bytes, or None where it has more than so many; raises OSError."""
    with plain(path) as file:
        data = file.read(most + 1)
    return None if len(data) > most else data


def text_of(data: bytes) -> tuple[str, str, bool]:
    """A file's bytes as the page has them: with line feeds alone, and what they were."""
    text = data.decode("utf-8", "surrogateescape")
    pairs, alone = text.count("\r\n"), text.count("\n")
    ends = "\r\n" if pairs and pairs == alone else "\n"
    plain = text.replace("\r\n", "\n")
    # In the page a carriage return would be a line of its own; in the language it is a blank.
    return plain.replace("\r", " "), ends, "\r" in plain or pairs > 0 and ends == "\n"


def bytes_of(text: str) -> bytes:
    return text.encode("utf-8", "surrogateescape")


def difference(old: str, new: str) -> list[list[str]]:
    """Two texts as lines with a mark each: + new, - old, a blank for both, @ for a gap."""
    before, after = old.split("\n"), new.split("\n")
    if len(before) + len(after) > MOST_DIFF:
        return [["@", f"{len(before)} lines before, {len(after)} lines now: too many to show what changed"]]
    rows = list(difflib.unified_diff(before, after, lineterm="", n=2))[2:]
    return [["@", re.sub(r"@@ -(\d+).* \+(\d+).*", r"line \2", row)] if row.startswith("@@") else [row[:1], row[1:]]
            for row in rows]

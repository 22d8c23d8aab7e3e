"""How ./show studio hands its address to the browser. Any user of the machine sees the words with which a program is
started, and the address has the random word that every request needs; so the browser is given something else.

Where the system says whose a connection is, as Linux does, that is a link that is good once, and for the studio's own
user alone: it leads to the page. Elsewhere it is a file that only this user may read and that leads there."""
from __future__ import annotations

import hmac
import html
import os
import secrets
import tempfile
import threading
import webbrowser

CONNECTIONS = ["/proc/net/tcp", "/proc/net/tcp6"]  # a line each: its own end, the other end, .., the user's number
LEADS = '<!doctype html>\n<meta charset="utf-8">\n<meta http-equiv="refresh" content="0; url=%s">\n' \
        '<a href="%s">The studio</a>\n'


def user_of(port: int, other: int) -> int | None:
    """The number of the user who connected from a port of this machine to another one; None where it isn't known."""
    for path in CONNECTIONS:
        try:
            with open(path) as file:
                rows = [line.split() for line in file][1:]
        except OSError:
            continue
        for row in rows:
            if [int(end.rpartition(":")[2], 16) for end in row[1:3]] == [port, other]:
                return int(row[7])
    return None


class Opening:
    """What the browser is given in place of the address."""

    def __init__(self, url: str, port: int) -> None:
        self.url, self.port, self.lock = url, port, threading.Lock()
        self.word: str | None = None  # of the link, until it was used
        self.folder: tempfile.TemporaryDirectory[str] | None = None

    def start(self) -> None:
        """Opens the browser; some return only when they end."""
        threading.Thread(target=webbrowser.open, args=(self.given(),), daemon=True).start()

    def given(self) -> str:
        """The link or the file's address."""
        if os.access(CONNECTIONS[0], os.R_OK):
            self.word = secrets.token_urlsafe(24)
            return f"http://127.0.0.1:{self.port}/{self.word}"
        self.folder = tempfile.TemporaryDirectory(prefix="studio")  # which this user alone may enter
        path, place = os.path.join(self.folder.name, "studio.html"), html.escape(self.url)
        with open(os.open(path, os.O_WRONLY | os.O_CREAT | os.O_EXCL, 0o600), "w") as file:
            file.write(LEADS % (place, place))
        return "file://" + path

    def leads(self, word: str, port: int) -> bool:
        """Whether a request for this word, from this port, is the first one of the link and by the studio's user."""
        with self.lock:
            if self.word is None or not hmac.compare_digest(word.encode(), self.word.encode()):
                return False
            if user_of(port, self.port) != os.getuid():
                return False
            self.word = None
        return True

    def close(self) -> None:
        """Removes the file."""
        if self.folder:
            self.folder.cleanup()

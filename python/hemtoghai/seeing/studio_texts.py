"""The texts that pages of ./show studio have, so that a page sends only the lines that it changed."""
from __future__ import annotations

import re
import threading
from typing import Any

from hemtoghai import program
from hemtoghai.seeing.showfile import bytes_of, MOST_TEXT

MOST_PAGES = 8  # whose texts are kept: of another one, the page sends the whole text again
MOST_TEXTS = 3  # of a page, beside the one that it named last: a request may end before the page knows that it came


class Unknown(Exception):
    """The text that a page names isn't there any more."""


class TooLarge(Exception):
    """A text is larger than a page may send."""


def digest_of(text: bytes) -> str:
    """The SHA-256 of a text as the page computes it: of the text in UTF-8, in which a byte that is none is U+FFFD."""
    try:
        text.decode()
    except UnicodeDecodeError:
        text = re.sub("[\ud800-\udfff]", "\ufffd", text.decode("utf-8", "surrogateescape")).encode()
    return program.digest_of(text)


def length_of(text: bytes) -> int:
    """The letters of a text as the page counts them, in units of UTF-16."""
    if text.isascii():
        return len(text)
    return len(text.decode("utf-8", "surrogateescape").encode("utf-16-le", "surrogatepass")) // 2


class Texts:
    """By page its newest texts by number, each as its lines."""

    def __init__(self) -> None:
        self.lock = threading.Lock()
        self.pages: dict[str, dict[int, list[bytes]]] = {}

    def keep(self, page: str, number: int, text: bytes) -> bytes:
        """Keeps a whole text, and gives it back; raises TooLarge."""
        if len(text) > MOST_TEXT:
            raise TooLarge
        self._keep(page, number, number, text.split(b"\n"))
        return text

    def changed(self, page: str, number: int, base: int, line: int, gone: int, put: list[Any], length: int) -> bytes:
        """Keeps, and gives back, the text of the number `base` with the lines `put` in place of as many as `gone` from
        `line` on. Raises Unknown where it isn't there or the new text hasn't the page's length, TooLarge, and
        ValueError for what are no lines of it."""
        with self.lock:
            old = self.pages.get(page, {}).get(base)
        if old is None:
            raise Unknown
        if not 1 <= line <= line + gone <= len(old) + 1 or any(
                not isinstance(words, str) or "\n" in words for words in put):
            raise ValueError
        lines = [*old[:line - 1], *map(bytes_of, put), *old[line - 1 + gone:]]
        text = b"\n".join(lines)
        if not lines or len(text) > MOST_TEXT:
            raise TooLarge if lines else ValueError
        if length_of(text) != length:
            raise Unknown
        self._keep(page, number, base, lines)
        return text

    def _keep(self, page: str, number: int, base: int, lines: list[bytes]) -> None:
        with self.lock:
            texts = self.pages.pop(page, {})
            texts[number] = lines
            newest = sorted(texts)[-MOST_TEXTS:]
            self.pages[page] = {key: texts[key] for key in texts if key == base or key in newest}
            for other in list(self.pages)[:-MOST_PAGES]:
                del self.pages[other]

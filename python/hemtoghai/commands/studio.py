"""Write a show and see the proof while you type: a page in the browser, served to this machine alone.

    ./show studio [OPTIONS] SHOW
    ./show studio --watch SHOW

The page has the text at the left and the flight at the right. At each pause of typing `check` judges the text: whether
any two drones ever come too close, at every instant. With --watch you keep your own editor, and the page follows the
file. A show that doesn't exist yet begins as a template, and only Save writes it. Save keeps the previous file as
SHOW~. The page is served on 127.0.0.1 to anybody who has the address that is printed; Ctrl-C ends the studio. If the
program isn't built, or no record has its proof, the page says NOT PROVED. Status 0: ended. 2: wrong words. 70: no
answer.
"""
from __future__ import annotations

import argparse
import json
import os
import re
import secrets
import signal
import subprocess
import sys
import threading
from typing import Any

from hemtoghai import program
from hemtoghai.companion import add_depth, parser, read_file, stop, tool_name, whole
from hemtoghai.language import choreo
from hemtoghai.language.cures import cure_in, shown
from hemtoghai.seeing.page import page_of, read
from hemtoghai.seeing.sampling import regions_of
from hemtoghai.seeing.showfile import MOST_TEXT, ShowFile, stamp_of, text_of
from hemtoghai.seeing.studio_program import Answer, asked, begin, end, Job, Program
from hemtoghai.seeing.studio_server import Server
from hemtoghai.seeing.studio_texts import digest_of, Texts
from hemtoghai.seeing.studio_words import words_of_language

MOST_JOBS = 8  # that run at a time, of all pages together
MOST_PAGES = 64  # whose newest text is remembered
MARKER = ["a line `%%` ends a show's text, and nothing may stand after it here", "", "take the line out"]
TEMPLATE = b"""choreo 2
# Units: 1.5m, 30cm, 2s, 90deg. See docs/LANGUAGE.md.

drone a 0 0 1m 0
drone b 1m 0 1m 0

cue 3s
a move 0 1m 1m 0
end

cue 3s
b move 0 0 1m 0
end
"""


class Studio:
    """What all requests share: the file, the program, the random word, and by page its newest text and its job."""

    def __init__(self, options: argparse.Namespace) -> None:
        self.file, self.watch = ShowFile(options.show), options.watch
        self.program, self.depth = Program(options.program), options.depth
        self.regions = [os.path.abspath(options.regions)] if options.regions else []
        # By this the browser knows the file, in its store and among its pages.
        self.key = program.digest_of(self.file.path.encode("utf-8", "surrogateescape"))[:16]
        self.token, self.lock, self.texts = secrets.token_urlsafe(24), threading.Lock(), Texts()
        self.pages: dict[str, tuple[int, Job | None]] = {}
        self.spare: subprocess.Popen[bytes] | None = None
        self.slots, self.ending = threading.Semaphore(MOST_JOBS), threading.Event()

    def newest(self, page: str, number: int) -> Job | None:
        """A job for a page's text, whose older one is cancelled; None where a newer text came before."""
        with self.lock:
            last, old = self.pages.pop(page, (-1, None))
            if number <= last:
                self.pages[page] = last, old
                return None
            job = Job()
            self.pages[page] = number, job
            forgotten = [self.pages.pop(other)[1] for other in list(self.pages)[:-MOST_PAGES]]
        for other in filter(None, [old, *forgotten]):
            other.cancel()
        return job

    def worker(self, job: Job) -> subprocess.Popen[bytes]:
        """A process for what is shown beside the verdict; one is kept ready, since it takes a while to begin."""
        with self.lock:
            ready, self.spare = self.spare, None
        if ready is None or ready.poll() is not None:
            ready = self.new_worker()
        return job.adopt(ready)

    def new_worker(self) -> subprocess.Popen[bytes]:
        return begin(self.worker_words())

    def worker_words(self) -> list[str]:
        """The words by which a worker is begun."""
        return program.words_of("studio_work", str(self.depth), *self.regions)

    def tool_words(self, *words: str) -> list[str]:
        """The words by which a tool is begun that asks the program of which the bar speaks."""
        if self.program.is_own:
            return program.words_of(*words)
        return program.words_of("studio_work", "--tool", self.program.now()[1], *words)

    def make_ready(self) -> None:
        """Starts the worker of the next text."""
        if not self.ending.is_set():
            new = self.new_worker()
            with self.lock:
                old, self.spare = self.spare, new
            if old:
                end(old)

    def head(self, **more: object) -> bytes:
        """The first line that a worker is given, before the text."""
        state, path = self.program.now()
        return json.dumps({"program": path if state["program"] else None, **more}).encode() + b"\n"

    def ask(self, job: Job, command: str, text: bytes) -> tuple[Answer | None, dict[str, Any]]:
        """What the program answers, with what is known of the file that answered; None where it can't be run. Every
        question to the program is one to this function, but for those of the worker."""
        state, path = self.program.now()
        if not state["program"]:
            return None, state
        return asked(job, path, [command, "--depth", str(self.depth)], text), state

    def close(self) -> None:
        self.ending.set()
        with self.lock:
            jobs, spare = [job for _, job in self.pages.values()], self.spare
        for job in filter(None, jobs):
            job.cancel()
        if spare:
            end(spare)

    def page(self, nonce: str) -> bytes:
        """The page, with what it has to know at first."""
        given = {"name": self.file.name, "key": self.key, "watch": self.watch, "most": choreo.LONGEST_TEXT,
                 "depth": self.depth, "regions": bool(self.regions), "language": words_of_language(),
                 "music": os.path.basename(self.file.music() or ""), "drones": choreo.MOST_DRONES}
        words = json.dumps(given).replace("<", "\\u003C")  # in a script `<` could begin an end tag
        page = page_of("studio.html").replace("/*STYLE*/", read("studio.css"))
        return page.replace("/*NONCE*/", nonce).replace("/*GIVEN*/", words).encode()

    def text(self) -> dict[str, object]:
        """The file as the page begins with it; OSError where it can't be read."""
        data = self.file.read()
        text, ends, mixed = text_of(TEMPLATE if data is None else data)
        return {"text": text, "ends": ends, "mixed": bool(mixed), "new": data is None, "stamp": stamp_of(data),
                "key": self.key}

    def verdict(self, text: bytes, said: str, status: int, lasted: int) -> dict[str, object]:
        """What the page shows of an answer of `check`, with the SHA-256 of the text that was judged."""
        found: dict[str, object] = {"stage": "verdict", "status": status, "line": said, "ms": lasted,
                                    "digest": digest_of(text)}
        if faulty := re.match(r"error (?:3|11) line (\d+)(?: ([a-z-]+))?", said):
            number, word = int(faulty[1]), faulty[2]
            line = b"".join(text.split(b"\n")[number - 1:number])
            found["fault"] = {"line": number, "word": word or "marker", "text": shown(line)[0],
                              "row": cure_in(text, number, word) if word else MARKER}
        return found


def server_of(options: argparse.Namespace) -> Server:
    """The server, on the port that is wanted, else on the usual one of this file or one that is free: by its port a
    browser knows which page may see the text that wasn't saved the last time."""
    why, studio = "", Studio(options)
    usual = 20000 + int(stamp_of(studio.file.path.encode("utf-8", "surrogateescape"))[:8], 16) % 12000
    for wanted in [options.port] if options.port else [usual, 0]:
        try:
            return Server(("127.0.0.1", wanted), studio)
        except OSError as error:
            why = "%s: %s" % ("port %d" % wanted if wanted else "no port is free", error.strerror)
            if wanted == usual and not options.port:
                print(f"{tool_name()}: another program listens at the usual port {usual}: where that is a studio of "
                      "this file, the text that isn't saved there isn't seen here", file=sys.stderr)
    return stop(why)


def look_at(path: str) -> None:
    """Ends the tool where no show can stand there; says so where none does."""
    if path == "-" or os.path.isdir(path):
        stop(f"{path}: the studio needs a file")
    folder = os.path.dirname(os.path.realpath(path))
    if not os.path.isdir(folder):
        stop(f"{path}: there is no folder {folder}")
    if not os.path.exists(path):
        print(f"{tool_name()}: there is no file {path}: the page begins with a template, and Save writes it",
              file=sys.stderr)
    elif not os.path.isfile(path):
        stop(f"{path}: this is no plain file")
    elif os.path.getsize(path) > MOST_TEXT or len(read_file(path)) > MOST_TEXT:
        stop(f"{path}: a show has at most {choreo.LONGEST_TEXT} bytes")


def read_words(words: list[str]) -> argparse.Namespace:
    """The options of the command line, looked at as far as the studio has to know before it begins."""
    reader = parser(__doc__)
    add_depth(reader)
    reader.add_argument("--watch", action="store_true", help="no editor: the page follows the file")
    reader.add_argument("--port", type=whole("a port is %d to %d", 1, 65535), metavar="N",
                        help="the port; without it one that is the same each time for this file")
    reader.add_argument("--no-open", action="store_true", help="open no browser")
    reader.add_argument("--regions", metavar="FILE", help="a room and the obstacles in it: the regions of `boxes`")
    reader.add_argument("--program", default=program.PROGRAM, metavar="FILE",
                        help="the program to ask; without it that of ./show")
    reader.add_argument("show", metavar="SHOW", help="a file with a show, or the name of a new one")
    options = reader.parse_args(words)
    look_at(options.show)
    if options.regions:
        regions_of(options.regions)  # ends the tool where they are faulty
    return options


def serve(server: Server, open_browser: bool) -> None:
    """Answers requests until the studio is ended."""
    studio = server.studio
    print(f"{tool_name()}: {server.opening.url}\n{tool_name()}: Ctrl-C ends it", flush=True)
    state = studio.program.state()
    if not state["proved"]:
        print("%s: NOT PROVED: %s" % (tool_name(), state["why"]), file=sys.stderr)
    if open_browser:
        server.opening.start()
    try:
        studio.make_ready()
        server.serve_forever(0.2)
    except KeyboardInterrupt:
        print()
    finally:
        studio.close()
        server.opening.close()
        server.server_close()


def main(words: list[str]) -> int:
    options = read_words(words)
    signal.signal(signal.SIGPIPE, signal.SIG_IGN)  # a page that is closed ends its requests, not the studio
    for number in (signal.SIGTERM, signal.SIGHUP):  # they end the studio as Ctrl-C does
        signal.signal(number, signal.default_int_handler)
    serve(server_of(options), not options.no_open)
    print(f"{tool_name()}: ended")
    return 0

"""The requests of the page of ./show studio: who may ask, and what is answered.

A request is answered only where its Host is this machine's own name with the studio's port, where its Origin is that of
the page, and where its path begins with the studio's random word. Bodies, texts, processes and times are bounded."""
from __future__ import annotations

import contextlib
import hmac
import json
import os
import re
import resource
import secrets
import socket
import subprocess
import sys
import tempfile
import threading
import time
from collections.abc import Callable, Mapping
from functools import partial
from http.server import BaseHTTPRequestHandler, ThreadingHTTPServer
from typing import Any, TYPE_CHECKING
from urllib.parse import urlsplit

from hemtoghai.companion import seconds, tool_name
from hemtoghai.language import choreo
from hemtoghai.seeing.showfile import bytes_of, difference, MOST_TEXT, MUSIC, read_at_most, stamp_of, text_of
from hemtoghai.seeing.studio_opening import Opening
from hemtoghai.seeing.studio_program import answer, Answer, Cancelled, end, Job, LIMIT
from hemtoghai.seeing.studio_texts import TooLarge, Unknown

if TYPE_CHECKING:
    from hemtoghai.commands.studio import Studio

Asked = dict[str, Any]  # the JSON of a request, whose text is in bytes

MOST_BODY = 3 * choreo.LONGEST_TEXT  # in JSON a line feed takes two bytes
MOST_LISTENERS = 32  # pages that are told when the file changes
MOST_WAITING = 512  # connections that have sent no request yet
SETTLE = 0.12  # seconds without a newer text until the flight is worked out; the verdict comes at once
FLIGHT, FASTER = 8, 40  # seconds that a simulated flight is to take, and how many times faster than real at most
LOOK = 0.3  # seconds from one look at the file to the next
MOST_ALONE = 6  # formations that are dealt alone, for the choice
MOST_MUSIC = 1 << 27  # bytes of a file with music
QUIET = 10  # seconds after which a page that listens is sent a word, which fails where it is gone


class Handler(BaseHTTPRequestHandler):
    """One request."""
    protocol_version, server_version, sys_version = "HTTP/1.0", "studio", ""
    timeout = 60  # seconds that a page may be silent while it sends or reads
    server: Server

    def log_message(self, *_: Any) -> None:
        """Says nothing of requests."""

    @property
    def studio(self) -> Studio:
        return self.server.studio

    # -- who asks

    def parse_request(self) -> bool:
        """Reads the head of the request, which the server waits for no longer then."""
        found = super().parse_request()
        self.server.came(self.connection)
        return found

    def foreign(self) -> int | None:
        """The status with which a request from elsewhere is refused, or None. The Host is looked at so that no name of
        another site can lead here, and the Origin so that no page of another site can send."""
        hosts = [f"{name}:{self.server.server_port}" for name in ("127.0.0.1", "localhost")]
        if self.headers.get("Host") not in hosts:
            return 421
        origin = self.headers.get("Origin")
        known = ["http://" + host for host in hosts] + ([None] if self.command == "GET" else [])
        return None if origin in known else 403

    def refusal(self) -> int | None:
        """The same of each request but for the one that opens the page: the path begins with the token, too."""
        if status := self.foreign():
            return status
        token = self.parts()[:1] or [""]
        return None if hmac.compare_digest(token[0].encode(), self.studio.token.encode()) else 403

    def parts(self) -> list[str]:
        """The parts of the path; of one that is no address none."""
        try:
            return urlsplit(self.path).path.split("/")[1:]
        except ValueError:
            return []

    def route(self, routes: Mapping[str, Callable[[], object]]) -> None:
        """Answers by the last part of the path."""
        status = self.refusal()
        name = ["/".join(self.parts()[1:])] if self.parts()[1:] else []
        with contextlib.suppress(BrokenPipeError, ConnectionResetError, TimeoutError):
            if status is None and name and name[0] in routes:
                routes[name[0]]()
            else:
                self.send_words(status or 404, "refused" if status else "there is nothing here")

    def is_opening(self) -> bool:
        """Whether this is the link that the browser was given, under this machine's own name."""
        word = "/".join(self.parts())
        return self.foreign() is None and self.server.opening.leads(word, self.client_address[1])

    def do_GET(self) -> None:
        if self.is_opening():
            self.head(303, "text/plain; charset=utf-8", ("Location", f"/{self.studio.token}/"))
            return
        self.route({"": self.get_page, "text": self.get_text, "events": self.get_events, "music": self.get_music})

    def do_POST(self) -> None:
        works: dict[str, Callable[[Asked], None]] = {
            "judge": self.judge, "places": self.places, "preview": self.preview, "motion": self.motion,
            "save": self.save, "cure": self.cure, "deal": self.deal, "fly": self.fly, "end": self.end,
            "compile": lambda asked: self.download("compile", asked),
            "certify": lambda asked: self.download("certify", asked)}
        self.route({name: partial(self.with_body, work) for name, work in works.items()})

    # -- answers

    def head(self, status: int, kind: str, *more: tuple[str, str]) -> None:
        """The head of an answer; no other site may show or read it."""
        self.send_response(status)
        for key, words in (("Content-Type", kind), ("Cache-Control", "no-store"), ("X-Content-Type-Options", "nosniff"),
                           ("Referrer-Policy", "no-referrer"), ("Cross-Origin-Resource-Policy", "same-origin"),
                           ("X-Frame-Options", "DENY"), *more):
            self.send_header(key, words)
        self.end_headers()

    def send_words(self, status: int, words: str) -> None:
        self.head(status, "text/plain; charset=utf-8")
        self.wfile.write(words.encode() + b"\n")

    def send_data(self, data: Mapping[str, object], status: int = 200) -> None:
        self.head(status, "application/json")
        self.wfile.write(json.dumps(data).encode())

    def with_body(self, work: Callable[[Asked], None]) -> None:
        length = self.headers.get("Content-Length", "")
        if not re.fullmatch("[0-9]{1,9}", length):
            return self.send_words(411, "how long is it?")
        if int(length) > MOST_BODY:
            self.drain(int(length))
            return self.send_words(413, "too large")
        try:
            asked = json.loads(self.rfile.read(int(length)))
            asked["text"] = bytes_of(asked.get("text", ""))
        except (ValueError, AttributeError, TypeError, RecursionError):
            return self.send_words(400, "this is no JSON of the page")
        if len(asked["text"]) > MOST_TEXT:
            return self.send_words(413, "the text is too large")
        return work(asked)

    def drain(self, length: int) -> None:
        """Reads a body that is too large, so that its sender can read the answer; not one without end."""
        for begin in range(0, min(length, 8 * MOST_BODY + 1), 65536):
            if not self.rfile.read(min(65536, length - begin)):
                break

    def get_page(self) -> None:
        """The page; no script runs in it but its own."""
        nonce = secrets.token_urlsafe(16)
        policy = (f"default-src 'none'; script-src 'nonce-{nonce}'; style-src 'nonce-{nonce}'; connect-src 'self'; "
                  "img-src data: blob:; media-src blob:; base-uri 'none'; form-action 'none'; frame-ancestors 'none'")
        self.head(200, "text/html; charset=utf-8", ("Content-Security-Policy", policy))
        self.wfile.write(self.studio.page(nonce))

    def get_text(self) -> None:
        try:
            self.send_data(self.studio.text())
        except OSError as error:
            self.send_data({"words": self.fault_of_file(error)}, 500)

    def get_music(self) -> None:
        """The file with music beside the show."""
        try:
            path = self.studio.file.music()
            data = None if path is None else read_at_most(path, MOST_MUSIC)
        except OSError as error:
            return self.send_data({"words": error.strerror or str(error)}, 500)
        if path is None or data is None:
            return self.send_data({"words": "there is none" if path is None else "it is too large"}, 404)
        self.head(200, MUSIC[os.path.splitext(path)[1]])
        self.wfile.write(data)
        return None

    def fault_of_file(self, error: OSError) -> str:
        return "%s: %s" % (self.studio.file.name, error.strerror or error)

    def get_events(self) -> None:
        """Says when the file changes, as long as the page listens."""
        if not self.server.listeners.acquire(blocking=False):
            return self.send_words(503, "too many pages listen")
        try:
            self.head(200, "text/event-stream")
            self.listen()
        finally:
            self.server.listeners.release()

    def listen(self) -> None:
        """Writes what is in the file now, and then each change, until the page is gone or the studio ends."""
        known: str | None = None
        seen: tuple[int, ...] | None = None
        quiet = 0.0
        while not self.studio.ending.is_set():
            now = self.studio.file.look()
            if known is None or now != seen:
                data, seen = None, now
                with contextlib.suppress(OSError):  # it can't be read now
                    data = self.studio.file.read()
                if stamp_of(data) != known:
                    known, quiet = stamp_of(data), 0
                    words: dict[str, object] = {"stamp": known, "there": data is not None}
                    if self.studio.watch and data is not None:  # the page follows the file
                        words["text"] = text_of(data)[0]
                    self.wfile.write(b"data: %s\n\n" % json.dumps(words).encode())
            if quiet > QUIET:
                self.wfile.write(b": still here\n\n")  # fails where nobody listens any more
                quiet = 0
            self.wfile.flush()
            self.studio.ending.wait(LOOK)
            quiet += LOOK

    # -- judging

    def judge(self, asked: Asked) -> None:
        """Judges a text, in stages, each a line of JSON as soon as it is known."""
        number, page = asked.get("number"), asked.get("page")
        if not isinstance(number, int) or not isinstance(page, str) or len(page) > 64:
            return self.send_words(400, "which page, and which of its texts?")
        try:
            text = self.text_to_judge(asked, page, number)
        except Unknown:
            return self.send_data({"unknown": True}, 410)
        except TooLarge:
            return self.send_words(413, "the text is too large")
        except (ValueError, TypeError):
            return self.send_words(400, "these are no lines of that text")
        if (job := self.studio.newest(page, number)) is None:
            return self.send_data({"stale": True}, 409)
        with self.studio.slots:
            try:
                self.head(200, "application/x-ndjson")
                self.stages(job, text)
            except Cancelled:
                self.put({"stage": "stale"})
            finally:
                job.cancel()

    def text_to_judge(self, asked: Asked, page: str, number: int) -> bytes:
        """The text that a page sends: the whole, or the lines that changed since the one of the number `base`."""
        if "base" not in asked:
            return self.studio.texts.keep(page, number, asked["text"])
        put, numbers = asked.get("put"), [asked.get(word) for word in ("base", "line", "gone", "length")]
        base, line, gone, length = [number if isinstance(number, int) else -1 for number in numbers]
        if not isinstance(put, list) or min(base, line, gone, length) < 0:
            raise ValueError
        return self.studio.texts.changed(page, number, base, line, gone, put, length)

    def put(self, stage: Mapping[str, object]) -> None:
        self.wfile.write(json.dumps(stage, separators=(",", ":")).encode() + b"\n")
        self.wfile.flush()

    def stages(self, job: Job, text: bytes) -> None:
        """The verdict, and then what the worker finds."""
        studio, told = self.studio, None
        before = time.monotonic()
        answered, state = studio.ask(job, "check", text)
        if answered:
            lasted, status = round(1000 * (time.monotonic() - before)), answered.status
            said = answered.said.decode(errors="replace").strip()
            if status is None or status < 0:
                why = answered.told.decode(errors="replace")
                return self.put({"stage": "none", "words": why or "the program was ended by a signal"})
            self.put({**studio.verdict(text, said, status, lasted), **state, "judge": "check"})
            if status not in (0, 3, 4, 5):
                return None
            told = [status, said]
        if job.over.wait(SETTLE):
            raise Cancelled
        return self.from_worker(job, studio.head(want="flight", answer=told) + text, text)

    def from_worker(self, job: Job, given: bytes, text: bytes) -> None:
        worker, before = self.studio.worker(job), time.monotonic()
        assert worker.stdout is not None and worker.stderr is not None
        watch = threading.Timer(LIMIT, end, [worker])
        watch.start()
        try:
            threading.Thread(target=feed, args=(worker, given), daemon=True).start()
            threading.Thread(target=self.studio.make_ready, daemon=True).start()
            for line in worker.stdout:
                self.wfile.write(self.of_worker(line, text, before))
                self.wfile.flush()
            if worker.wait() and not job.cancelled:
                words = worker.stderr.read().decode(errors="replace").strip().split("\n")[-1]
                self.put({"stage": "halted", "words": words or f"it was ended after {LIMIT} seconds"})
        finally:
            watch.cancel()
            job.leave(worker)
        if job.cancelled:
            raise Cancelled

    def of_worker(self, line: bytes, text: bytes, before: float) -> bytes:
        """A line of the worker as the page gets it: a verdict of the tools has its cure, and proves nothing."""
        if not line.startswith(b'{"stage":"verdict"'):
            return line
        told, lasted = json.loads(line), round(1000 * (time.monotonic() - before))
        return json.dumps({**self.studio.verdict(text, told["line"], told["status"], lasted),
                           **self.studio.program.state(), "judge": "tools", "proved": False}).encode() + b"\n"

    def places(self, asked: Asked) -> None:
        """Where each drone is at a line of the text, for what the page's menu writes there."""
        line = asked.get("line")
        if not isinstance(line, int) or not 1 <= line <= MOST_TEXT:
            return self.send_words(400, "at which line?")
        self.worked_out(asked["text"], want="places", line=line)

    def preview(self, asked: Asked) -> None:
        """What another text would fly; it is judged by nobody."""
        self.worked_out(asked["text"], want="preview")

    def motion(self, asked: Asked) -> None:
        """How fast drones fly over time, by their numbers."""
        drones = asked.get("drones")
        if not isinstance(drones, list) or not all(isinstance(k, int) for k in drones):
            return self.send_words(400, "of which drones?")
        self.worked_out(asked["text"], want="motion", drones=drones[:choreo.MOST_DRONES])

    def worked_out(self, text: bytes, **more: object) -> None:
        """What a worker finds of a text, as it finds it."""
        job = Job()
        with self.studio.slots:
            try:
                self.head(200, "application/x-ndjson")
                self.from_worker(job, self.studio.head(**more) + text, text)
            finally:
                job.cancel()

    # -- the buttons

    def save(self, asked: Asked) -> None:
        """Writes the file, unless another one is there than the page read."""
        if self.studio.watch:
            return self.send_words(403, "the file is only watched")
        data, stamp = asked["text"], None if asked.get("force") is True else asked.get("stamp")
        if stamp is None and asked.get("force") is not True:
            return self.send_words(400, "which text was it made of?")
        if asked.get("ends") == "\r\n":
            data = data.replace(b"\n", b"\r\n")
        try:
            other = self.studio.file.save(data, stamp)
        except OSError as error:
            return self.send_data({"words": self.fault_of_file(error)}, 500)
        if other is not None:
            return self.send_data({"stamp": other}, 409)
        return self.send_data({"stamp": stamp_of(data)})

    def made(self, words: list[str], text: bytes, *more: str) -> Answer:
        """What a tool wrote, which asks the page's program: its status and both outputs."""
        options = more or ("--depth", str(self.studio.depth))
        with self.studio.slots:
            return answer(Job(), [*self.studio.tool_words(*words), *options, "-"], text)

    def offer(self, status: int | None, old: bytes, texts: dict[str, bytes], said: str, more: str = "") -> None:
        """Sends new texts by words that say what each is, those that are none left out, with what changed."""
        before, choices, known = old.decode("utf-8", "surrogateescape"), [], {b"", old}
        for words, new in texts.items():
            if new not in known:
                known.add(new)
                after = new.decode("utf-8", "surrogateescape")
                choices.append({"words": words, "text": after, "diff": difference(before, after)})
        self.send_data({"status": status, "said": said.strip(), "more": more, "choices": choices})

    def cure(self, asked: Asked) -> None:
        with tempfile.TemporaryDirectory() as folder:
            out, new = os.path.join(folder, "cured"), b""
            status, said, told = self.made(["why", "--cured", out], asked["text"])
            if os.path.exists(out):
                with open(out, "rb") as file:
                    new = file.read()
        lines = (said + told).decode(errors="replace").strip().replace(out + ": ", "the new text: ").split("\n")
        short = [line for line in lines if re.match("cured in|the show lasts|nothing that helps|the new text: ", line)]
        texts = {"every place that is blocked, each by what takes least time": new}
        for stage in self.worked(asked["text"], want="remedies"):
            words = "cue %d alone: %s (%s more)" % (stage["cue"] + 1, stage["words"], seconds(stage["takes"]))
            texts[words] = bytes_of(stage["text"])
        self.offer(status, asked["text"], texts, "\n".join(short),
                   "\n".join(line for line in lines if line not in short))

    def worked(self, text: bytes, **more: object) -> list[dict[str, Any]]:
        """The stages that a worker writes of a text."""
        with self.studio.slots:
            said = answer(Job(), self.studio.worker_words(), self.studio.head(**more) + text).said
        return [json.loads(line) for line in said.splitlines()]

    def deal(self, asked: Asked) -> None:
        """What deal writes of all formations, and where there are several also of each alone."""
        status, new, told = self.made(["deal"], asked["text"])
        texts, depth = {"all formations": new}, ["--depth", str(self.studio.depth)]
        formed = [stage["name"] for stage in self.worked(asked["text"], want="formed")][:MOST_ALONE]
        for name in formed if len(formed) > 1 else []:
            others = [word for other in formed if other != name for word in ("--keep", other)]
            texts["%s alone" % name] = self.made(["deal", *others], asked["text"], *depth)[1]
        self.offer(status, asked["text"], texts, told.decode(errors="replace").strip().replace("deal: ", ""))

    def fly(self, asked: Asked) -> None:
        """What ./show fly writes of a flight with simulated drones."""
        answered, _ = self.studio.ask(Job(), "check", asked["text"])
        found = re.search(rb"duration_ms (\d+)", answered.said if answered else b"")
        speed = min(FASTER, max(1, int(found[1]) // (1000 * FLIGHT))) if found else 20
        status, said, told = self.made(["fly"], asked["text"], "--simulate", "--yes", "--sim", f"speed={speed}")
        words = (said + told).decode(errors="replace").strip()
        self.offer(status, asked["text"], {}, f"{words}\nstatus {status}, {speed} times faster than real time")

    def download(self, command: str, asked: Asked) -> None:
        """The plan or the certificate, or the line by which the show is refused."""
        with self.studio.slots:
            answered, state = self.studio.ask(Job(), command, asked["text"])
        if not answered:
            return self.send_data({"words": state["why"]}, 409)
        if answered.status != 0:
            words = (answered.said or answered.told).decode(errors="replace").strip()
            return self.send_data({"words": words or "no answer"}, 409)
        self.head(200, "application/octet-stream")
        self.wfile.write(answered.said)

    def end(self, _: Asked) -> None:
        self.send_data({"ended": True})
        threading.Thread(target=self.server.shutdown, daemon=True).start()


def feed(worker: subprocess.Popen[bytes], given: bytes) -> None:
    """Gives a worker its text; one that is ended meanwhile takes none."""
    assert worker.stdin is not None
    with contextlib.suppress(OSError):
        worker.stdin.write(given)
        worker.stdin.close()


def most_waiting() -> int:
    """How many connections may wait for their requests: at most half of the files that this process may have open."""
    most = resource.getrlimit(resource.RLIMIT_NOFILE)[0]
    return MOST_WAITING if most == resource.RLIM_INFINITY else max(1, min(MOST_WAITING, most // 2))


class Server(ThreadingHTTPServer):
    """The server; requests that still run don't keep it from ending. Anybody on this machine may connect and be silent:
    of too many such connections the oldest is closed, so that there is always room for one that asks."""
    daemon_threads, allow_reuse_address, request_queue_size = True, True, 128
    opening: Opening

    def __init__(self, address: tuple[str, int], studio: Studio) -> None:
        super().__init__(address, Handler)
        self.listeners, self.studio = threading.Semaphore(MOST_LISTENERS), studio
        self.opening = Opening(f"http://127.0.0.1:{self.server_port}/{studio.token}/", self.server_port)
        self.waiting: dict[socket.socket, None] = {}  # those that have sent no request yet, the oldest first
        self.most_waiting, self.lock = most_waiting(), threading.Lock()

    def process_request(self, request: Any, client_address: Any) -> None:
        with self.lock:
            self.waiting[request] = None
            if len(self.waiting) > self.most_waiting:
                oldest = next(iter(self.waiting))
                del self.waiting[oldest]
                with contextlib.suppress(OSError):
                    oldest.shutdown(socket.SHUT_RDWR)  # its thread reads the end then, and closes it
        super().process_request(request, client_address)

    def came(self, request: socket.socket) -> None:
        """A connection has sent its request, or is closed."""
        with self.lock:
            self.waiting.pop(request, None)

    def shutdown_request(self, request: Any) -> None:
        self.came(request)
        super().shutdown_request(request)

    def handle_error(self, request: object, client_address: object) -> None:
        """Says in a line what went wrong with a request."""
        print(f"{tool_name()}: a request failed: {sys.exc_info()[1]!r}", file=sys.stderr)

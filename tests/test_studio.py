"""./show studio over HTTP: who may ask, what is judged and in which order, saving, watching, cures, sizes and faults.
How the page behaves is tested in tests/test_studio_page.py."""
import hashlib
import base64
import http.client
import json
import os
import re
import signal
import socket
import subprocess
import sys
import tempfile
import threading
import time
import unittest

sys.dont_write_bytecode = True
sys.path.insert(0, os.path.dirname(os.path.abspath(__file__)))
import forked
from common import PROGRAM, SHOW, TOP, wants_program, without_record
from hemtoghai.language import choreo
from hemtoghai.language.converting import converted

STAND_IN = without_record()
GOOD = "choreo 1\ndrone a 0 0 1000000 0\ndrone b 1000000 0 1000000 0\ncue 2000\na move 0 1000000 1000000 0\nend\n"
NEAR = "choreo 1\ndrone a 0 0 1000000 0\ndrone b 1000000 0 1000000 0\ncue 3000\na move 1000000 0 1000000 0\n" \
       "b move 0 0 1000000 0\nend\n"


WAIT = 120  # seconds, on a machine that has much else to do


def in_units(text: str) -> str:
    """A text in `choreo 2`."""
    return converted(text.encode(), 2).decode()


def in_whole_numbers(text: str) -> str:
    """A text in `choreo 1`."""
    return converted(text.encode(), 1).decode()


def soon(found, seconds=WAIT):
    """Whether something is so, now or some seconds later."""
    until = time.monotonic() + seconds
    while not found() and time.monotonic() < until:
        time.sleep(0.02)
    return found()


def example(name):
    """An example's text."""
    with open(os.path.join(TOP, "examples", name + ".choreo")) as file:
        return file.read()


def children(parent):
    """The processes that a process started and that still run."""
    found = []
    for name in filter(str.isdigit, os.listdir("/proc")):
        try:
            with open("/proc/%s/stat" % name) as file:
                if int(file.read().rpartition(")")[2].split()[1]) == parent:
                    found.append(int(name))
        except OSError:
            pass
    return found


def runs(number):
    """Whether a process runs: one that has ended and isn't waited for by its parent doesn't."""
    try:
        with open("/proc/%s/stat" % number) as file:
            return file.read().rpartition(")")[2].split()[0] != "Z"
    except OSError:
        return False


class Running:
    """A studio that runs, over a file in a folder of its own. One that `begins` does so as ./show does, and its workers
    are its children; else both are forked."""

    def __init__(self, text=GOOD, words=("--program", STAND_IN), name="show.choreo", limits=(), begins=False):
        self.folder = tempfile.TemporaryDirectory()
        self.path = os.path.join(self.folder.name, name)
        if text is not None:
            self.write(text)
        words = ["studio", "--no-open", *words, self.path]
        pipes = {"stdout": subprocess.PIPE, "stderr": subprocess.PIPE, "universal_newlines": True}
        self.process = subprocess.Popen([SHOW, *words], **pipes) if begins else forked.SHOWS.popen(
            ["show", *words], code=forked.STUDIO, limits=limits, **pipes)
        self.port, self.token = re.search(r"127\.0\.0\.1:(\d+)/([\w-]+)/", self.process.stdout.readline()).groups()
        self.number = 0

    def write(self, text):
        """Writes the file, as another program does."""
        with open(self.path, "wb") as file:
            file.write(text if isinstance(text, bytes) else text.encode())

    def read(self, end=""):
        """The file's bytes, or those of its backup."""
        with open(self.path + end, "rb") as file:
            return file.read()

    def ask(self, method, name, body=None, **heads):
        """The status, the heads and the body of an answer; a head that is None isn't sent."""
        link = http.client.HTTPConnection("127.0.0.1", int(self.port), timeout=180)
        given = {"Host": "127.0.0.1:" + self.port, "Origin": "http://127.0.0.1:" + self.port, **heads}
        data = None if body is None else body if isinstance(body, bytes) else json.dumps(body).encode()
        link.putrequest(method, "/%s/%s" % (self.token, name) if not name.startswith("/") else name, skip_host=True,
                        skip_accept_encoding=True)
        for key, word in given.items():
            if word is not None:
                link.putheader(key, word)
        if data is not None and "Content-Length" not in heads:
            link.putheader("Content-Length", str(len(data)))
        link.endheaders(data)
        answer = link.getresponse()
        return answer.status, answer.headers, answer.read()

    def post(self, name, **more):
        """The status and the data of an answer."""
        status, _, body = self.ask("POST", name, more)
        return status, json.loads(body)

    def stages(self, text, page="p", number=None):
        """What is known of a text, by stage."""
        self.number += 1
        status, _, body = self.ask("POST", "judge", {"page": page, "number": number or self.number, "text": text})
        if status != 200:
            return {"status": status}
        rows = [json.loads(line) for line in body.decode().splitlines()]
        found = {row["stage"]: row for row in rows}
        found["margins"] = {row["name"]: row["most"] for row in rows if row["stage"] == "margin"}
        return found

    def end(self, number=signal.SIGINT):
        """Ends it; the status and all that it wrote."""
        if self.process.poll() is None:
            self.process.send_signal(number)
        try:
            said, told = self.process.communicate(timeout=WAIT)
        except subprocess.TimeoutExpired:
            self.process.kill()
            self.process.communicate()
            raise
        self.folder.cleanup()
        return self.process.returncode, said, told


class Case(unittest.TestCase):
    """A test with a studio that runs."""
    TEXT, WORDS = GOOD, ("--program", STAND_IN)

    def setUp(self):
        self.studio = Running(self.TEXT, self.WORDS)
        self.addCleanup(self.studio.end)


class WhoAsks(Case):
    def test_page(self):
        status, heads, body = self.studio.ask("GET", "", Origin=None)
        self.assertEqual(status, 200)
        nonce = re.search("script-src 'nonce-([^']+)'", heads["Content-Security-Policy"])[1]
        self.assertIn(('<script type="module" nonce="%s">' % nonce).encode(), body)
        self.assertIn(b"default-src 'none'", heads["Content-Security-Policy"].encode())
        for mark in (b"MODULES", b"STYLE", b"GIVEN", b"NONCE"):
            self.assertNotIn(b"/*%s*/" % mark, body)
        # The page needs nothing else, and its modules are in it, each once.
        whole = re.sub(rb"data:text/javascript;base64,([A-Za-z0-9+/=]+)", lambda it: base64.b64decode(it[1]), body)
        self.assertGreater(len(whole), 100000)
        self.assertFalse(re.search(rb"(src|href)=|https?://(?!www\.w3\.org/2000/svg)", whole))
        wanted = set(re.findall(rb'^(?:import|[^"\n]* from) "page/([a-z_]+\.js)";$', whole, re.M))
        self.assertEqual(sorted(wanted), sorted(re.findall(rb"^//# sourceURL=(.*)$", whole, re.M)))
        self.assertEqual((heads["Cache-Control"], heads["Referrer-Policy"]), ("no-store", "no-referrer"))

    def test_token(self):
        for path in ("/", "/text", "/%00/text", "/[/text", "/x/text", "/%s/text" % self.studio.token[:-1],
                     "/%sx/" % self.studio.token,
                     "/../%s/text" % self.studio.token):
            status, _, body = self.studio.ask("GET", path)
            self.assertEqual((status, b"drone" in body), (403, False), path)
        for name in ("judge", "places", "save", "cure", "deal", "fly", "compile", "certify", "end"):
            status, _, _ = self.studio.ask("POST", "/wrong/" + name, {"text": "", "page": "p", "number": 1, "line": 1})
            self.assertEqual(status, 403, name)
        self.assertEqual(self.studio.read(), GOOD.encode())
        self.assertIsNone(self.studio.process.poll())

    def test_host(self):
        for host in ("evil.example", "evil.example:" + self.studio.port, "127.0.0.1", "127.0.0.1:1", "0.0.0.0:80",
                     None):
            self.assertEqual(self.studio.ask("GET", "text", Host=host)[0], 421, host)
        self.assertEqual(self.studio.ask("GET", "text", Host="localhost:" + self.studio.port)[0], 200)

    def test_origin(self):
        for origin in ("http://evil.example", "null", "https://127.0.0.1:" + self.studio.port, "http://127.0.0.1:1",
                       None):
            status, _, _ = self.studio.ask("POST", "save", {"text": "x", "force": True}, Origin=origin)
            self.assertEqual(status, 403, origin)
        self.assertEqual(self.studio.ask("GET", "text", Origin="http://evil.example")[0], 403)
        self.assertEqual(self.studio.read(), GOOD.encode())

    def test_paths(self):
        for name in ("nothing", "../show.choreo", "%2e%2e/x", "text/x", "show.choreo", "judge"):
            status, _, body = self.studio.ask("GET", name)
            self.assertEqual((status, b"drone" in body), (404, False), name)
        self.assertEqual(self.studio.ask("DELETE", "text")[0], 501)


class Judging(Case):
    def test_no_address(self):
        """A path that is no address gets an answer as any other, and the studio says nothing of it."""
        studio = Running(GOOD)
        for path in (b"//[x/", b"//[x", b"http://[", b"/[/", b"//]/%s/" % studio.token.encode()):
            for method in (b"GET", b"POST"):
                with socket.create_connection(("127.0.0.1", int(studio.port)), WAIT) as link:
                    link.sendall(b"%s %s HTTP/1.0\r\nHost: 127.0.0.1:%d\r\nOrigin: http://127.0.0.1:%d\r\n"
                                 b"Content-Length: 0\r\n\r\n" % (method, path, int(studio.port), int(studio.port)))
                    said = b"".join(iter(lambda: link.recv(4096), b""))
                self.assertIn(b" 403 ", said.split(b"\r\n")[0], (method, path, said))
        _, _, told = studio.end()
        self.assertNotIn("failed", told)
        self.assertNotIn("Traceback", told)

    def test_accepted(self):
        found = self.studio.stages(GOOD)
        self.assertEqual((found["verdict"]["status"], found["verdict"]["judge"], found["verdict"]["proved"]),
                         (0, "check", False))  # nothing is known of the stand-in's proof
        flight = found["flight"]["flight"]
        self.assertEqual((flight["source"], flight["names"], flight["end"], flight["lines"]),
                         ("play", ["a", "b"], 2000, [[[4, 6]]]))
        self.assertEqual((len(flight["xyz"][0]), flight["xyz"][0][-3:]), (3 * len(flight["times"]), [0, 1000, 1000]))
        self.assertEqual([it["left"] for it in found["notes"]["drones"]], [4068, 4082])
        self.assertEqual(set(found["margins"]), {"stray", "late"})

    def test_margins(self):
        # The numbers of docs/LANGUAGE.md, How to choose stray and late.
        self.assertEqual(self.studio.stages(example("crossing_cured"))["margins"], {"stray": 99, "late": 227})

    def test_near(self):
        found = self.studio.stages(NEAR)
        self.assertEqual(found["verdict"]["line"], "error 5 pair a b cue 1 part 28 of 64")
        mark, = found["marks"]["marks"]
        self.assertEqual((mark["pair"], mark["nearest"], mark["lines"], mark["touch"], mark["named"]),
                         ([0, 1], 1500, [5, 6], True, True))
        self.assertEqual(found["flight"]["flight"]["source"], "tool")
        self.assertEqual(found["margins"], {})

    def test_lines_of_formations(self):
        found = self.studio.stages(example("grid_to_ring"))
        lines = example("grid_to_ring").split("\n")
        first = next(it for it in found["marks"]["marks"] if it["named"])
        names = [found["flight"]["flight"]["names"][k] for k in first["pair"]]
        said = [lines[number - 1].split()[:2] for number in first["lines"]]
        self.assertEqual(sorted(said), sorted([["at", names[0]], ["at", names[1]], ["form", "ring"]]))
        self.assertEqual(found["marks"]["many"], 40)  # as docs/TOOLS.md says

    def test_blocks(self):
        # In a cue a drone may be called as a word that opens a block elsewhere.
        text = "choreo 1\ndrone cue 0 0 1000000 0\nfigure f r\ncue 9\nend\nend\nrepeat 2\ncue 50\ncue hold\nend\n" \
               "perform f none 0 0 0 0 cue\nend\n"
        lines = self.studio.stages(text)["flight"]["flight"]["lines"]
        self.assertEqual(lines, [[[8, 10]], [[4, 5], [11, 11]]] * 2)

    def test_faults(self):
        found = self.studio.stages(GOOD.replace("2000", "2.5s"))
        # The flight is that of the lines before the faulty one: the drones, without a cue.
        self.assertEqual(set(found), {"verdict", "margins", "lines", "flight"})
        fault = found["verdict"]["fault"]
        self.assertEqual((fault["line"], fault["word"], fault["text"]), (4, "bad-number", "cue 2.5s"))
        self.assertIn("whole numbers", fault["row"][2])
        self.assertEqual(self.studio.stages("")["verdict"]["line"], "error 3 line 1 header")
        found = self.studio.stages(GOOD + "# <script>alert(1)</script>\n<b> 1\n")
        self.assertEqual(found["verdict"]["fault"]["text"], "<b> 1")

    def test_room(self):
        text = "choreo 1\nmemory 2 4090\ndrone a 0 0 1000000 0\ncue 1000\na move 1 1 1 0\nend\n"
        found = self.studio.stages(text)
        self.assertEqual((found["verdict"]["status"], found["notes"]["drones"][0]["left"]), (4, -22))

    def test_warnings(self):
        text = "choreo 1\ndrone a 0 0 1000000 0\ncue 1000\na line 2000000 0 -1000000 0\nend\n"
        faults = self.studio.stages(text)["notes"]["faults"]
        self.assertEqual([(it["line"], it["cue"]) for it in faults], [(3, 0), (3, 0)])
        self.assertIn("a jumps by 2.00 m/s on x", faults[0]["words"])
        self.assertIn("a goes below z 0", faults[1]["words"])


class Changed(Case):
    """A page sends the lines alone that changed since a text that it sent before."""

    def judged(self, number, **more):
        """The status of an answer, and of its verdict the line of the fault and the SHA-256 of what was judged."""
        status, _, body = self.studio.ask("POST", "judge", {"page": "p", "number": number, **more})
        rows = [json.loads(line) for line in body.splitlines()] if status == 200 else [{}]
        return status, rows[0].get("fault", {}).get("line"), rows[0].get("digest")

    def wanted(self, text, line):
        """What is said of a text with a fault in a line."""
        return 200, line, hashlib.sha256(text.encode()).hexdigest()

    def test_lines(self):
        """Lines in the place of others, of none, and none in the place of others; of the text that is named, though
        others came after it; counted in units of UTF-16."""
        first = "choreo 1\nx 1\n# \u00e4 \U0001F600\n"
        self.assertEqual(self.judged(1, text=first), self.wanted(first, 2))
        second, third = first.replace("x 1", "# x\n# y\nz"), first.replace("x 1", "# x\n# y\nv\nz")
        self.assertEqual(self.judged(2, base=1, line=2, gone=1, put=["# x", "# y", "z"], length=len(second) + 1),
                         self.wanted(second, 4))
        said = self.judged(3, base=2, line=4, gone=0, put=["v"], length=len(third) + 1)
        self.assertEqual(said, self.wanted(third, 4))
        third = "choreo 1\nx 1\nx\n"
        self.assertEqual(self.judged(4, base=1, line=3, gone=1, put=["x"], length=len(third)), self.wanted(third, 2))
        self.assertEqual(self.judged(5, base=4, line=1, gone=2, put=[], length=2), self.wanted("x\n", 1))
        self.assertEqual(self.judged(6, base=5, line=2, gone=1, put=["x"], length=3), self.wanted("x\nx", 1))

    def test_bytes(self):
        """A byte that is no UTF-8 is one letter of the page, and U+FFFD in the SHA-256."""
        text = "choreo 1\n# \udcff\nx\n"
        self.assertEqual(self.judged(1, text=text), self.wanted(text.replace("\udcff", "\ufffd"), 3))
        new = text.replace("x", "# \udcfe\ny")
        self.assertEqual(self.judged(2, base=1, line=3, gone=1, put=["# \udcfe", "y"], length=len(new)),
                         self.wanted(new.replace("\udcff", "\ufffd").replace("\udcfe", "\ufffd"), 4))

    def test_unknown(self):
        """The page is told where the text that it names isn't there, or where the new one has another length."""
        self.assertEqual(self.judged(1, text="x")[0], 200)
        for base, length in ((7, 1), (0, 1), (1, 2), (1, 0)):
            said = self.judged(9, base=base, line=1, gone=1, put=["y"], length=length)
            self.assertEqual(said[0], 410, (base, length))
        self.assertEqual(self.judged(9, base=1, line=1, gone=1, put=["y"], length=1)[:2], (200, 1))
        for number in range(10, 15):  # the page named 9 last, and of the newer ones three are kept
            self.assertEqual(self.judged(number, base=9, line=1, gone=1, put=["z"], length=1)[0], 200)
        for base, status in ((1, 410), (10, 410), (13, 200)):
            self.assertEqual(self.judged(base + 20, base=base, line=1, gone=1, put=["z"], length=1)[0], status, base)

    def test_no_lines(self):
        self.assertEqual(self.judged(1, text="choreo 1\nx")[0], 200)
        good = {"base": 1, "line": 1, "gone": 1, "put": ["y"], "length": 3}
        for word, values in (("line", (0, -1, 4, "1", None)), ("gone", (-1, 3, "1", None)), ("length", (None, -1, "3")),
                             ("put", ("y", None, ["y\n"], [1], [None], ["\ud800"])), ("base", (None, "1"))):
            for value in values:
                self.assertEqual(self.judged(9, **{**good, word: value})[0], 400, (word, value))
        self.assertEqual(self.judged(9, **good)[0], 200)
        self.assertEqual(self.judged(10, base=9, line=1, gone=2, put=[], length=0)[0], 400)  # a text has a line
        self.assertEqual(self.judged(11, base=9, line=1, gone=1, put=["y" * 1060000], length=1060002)[0], 413)


class Newer(unittest.TestCase):
    """A newer text of a page ends what is done for the older one."""

    def setUp(self):
        self.folder = tempfile.TemporaryDirectory()
        self.addCleanup(self.folder.cleanup)
        program, self.begun = [os.path.join(self.folder.name, name) for name in ("program", "begun")]
        # For a text with the word slow it notes its process and that of a child, and says nothing.
        with open(program, "w") as file:
            file.write("#!/bin/sh\ntext=$(cat)\ncase $text in *slow*) sleep 600 & echo $$ $! > %s.new\n"
                       "mv %s.new %s; wait;; esac\nprintf '%%s\\n' \"$text\" | %s \"$@\"\n"
                       % (self.begun, self.begun, self.begun, STAND_IN))
        os.chmod(program, 0o755)
        self.studio, self.older = Running(GOOD, ("--program", program), begins=True), {}
        self.addCleanup(self.studio.end)
        self.thread = threading.Thread(target=lambda: self.older.update(self.studio.stages("# slow\n", "q", 1)))
        self.thread.start()
        self.addCleanup(self.thread.join, WAIT)
        self.assertTrue(soon(lambda: os.path.exists(self.begun)), "the older text isn't judged")

    def test_stale(self):
        newer = self.studio.stages(GOOD, "q", 2)
        self.thread.join(WAIT)
        self.assertEqual(newer["verdict"]["status"], 0)
        self.assertEqual(self.older, {"stale": {"stage": "stale"}, "margins": {}})
        # A text that comes late is not judged at all; another page isn't disturbed.
        self.assertEqual(self.studio.stages(GOOD, "q", 1)["status"], 409)
        self.assertEqual(self.studio.stages(GOOD, "r", 1)["verdict"]["status"], 0)

    @unittest.skipUnless(os.path.isdir("/proc/self"), "no /proc to look for processes")
    def test_ended(self):
        """Processes of an older text are ended, with all that they started."""
        with open(self.begun) as file:
            processes = file.read().split()
        self.assertTrue(all(runs(number) for number in processes), processes)
        self.studio.stages("choreo 3", "q", 2)
        self.thread.join(WAIT)
        self.assertTrue(soon(lambda: not any(runs(number) for number in processes)), processes)
        # The worker that is kept ready may stay.
        self.assertTrue(soon(lambda: len(children(self.studio.process.pid)) <= 1), "processes are left")


class Beside(Case):
    """What is shown beside the verdict: the program's word on nearness, a drone's lines, all blocked places."""

    def program(self, said):
        """A program that answers `explain` with these words, and all else as the stand-in."""
        path = os.path.join(self.studio.folder.name, "program")
        with open(path, "w") as file:
            file.write("#!/bin/sh\nif [ $1 = explain ]; then cat > /dev/null; printf '%%s' '%s'\n"
                       "else exec %s \"$@\"; fi\n" % (said, STAND_IN))
        os.chmod(path, 0o755)
        return path

    def test_touch_by_explain(self):
        # The output of docs/COMMANDS.md, explain; 15 of 32 parts of three seconds.
        for said, wanted in (("blocked pair a b cue 1 part 28 of 64\nclosest pair a b cue 1 at 16 of 32 level 0\n"
                              "touch pair a b cue 1 at 15 of 32\n", {"pair": [0, 1], "cue": 0, "at": 1406.25}),
                             ("blocked pair a b cue 1 part 28 of 64\nclosest pair a b cue 1 at 16 of 32 level 1001\n"
                              "no-touch instants 33\n", {"pair": None, "instants": 33}), ("", None)):
            studio = Running(NEAR, ("--program", self.program(said)))
            self.addCleanup(studio.end)
            self.assertEqual(studio.stages(NEAR)["explained"]["touch"], wanted, said)
        self.assertNotIn("explained", studio.stages(GOOD))

    def test_lines_of_drones(self):
        """By drone its own line, and by cue the line of its act: of a formation the place, of a figure the role's."""
        text = "choreo 1\ndrone a 0 0 1000000 0\ndrone b 3000000 0 1000000 0\n" \
               "formation f\nat a 0 1000000 1000000 0\nend\n" \
               "figure g r\ncue 900\nr turn 90\nend\nend\ncue 900\nform f move\nb hold\nend\nrepeat 2\n" \
               "perform g none 0 0 0 0 b\nend\n"
        found = self.studio.stages(text)["lines"]
        self.assertEqual((found["drones"], found["acts"]), ([2, 3], [[5, 0, 0], [14, 9, 9]]))

    def test_small(self):
        """Places in millimetres are named, also where the show is refused for nearness."""
        found = self.studio.stages(NEAR.replace("000000", "000"))
        self.assertEqual(found["verdict"]["status"], 5)
        self.assertIn("lengths are micrometres", found["notes"]["small"])
        self.assertIn("`stray` is 2000", self.studio.stages(GOOD + "stray 2000\n")["verdict"]["fault"]["row"][0])

    def test_cause(self):
        text = GOOD.replace("drone a", "stray 500\ndrone a")
        found = self.studio.stages(text)
        self.assertEqual(found["marks"]["marks"][0]["cause"], "`stray 500`")

    def test_places(self):
        """Over HTTP; tests/test_studio_places.py has the rest."""
        status, _, said = self.studio.ask("POST", "places", {"text": GOOD, "line": 7})
        found = json.loads(said)
        self.assertEqual((status, found["where"], found["drones"]),
                         (200, "top", [["a", 0, 1000000, 1000000, 0], ["b", 1000000, 0, 1000000, 0]]))
        for line in (0, -1, "1", None, 1e9, True and 10 ** 9):
            self.assertEqual(self.studio.ask("POST", "places", {"text": GOOD, "line": line})[0], 400, line)


    def test_places_in_units(self):
        """Where drones are is the same in both forms, also before a line that is half written, and in a figure."""
        text = GOOD + "figure f r\ncue 900\nr move 0 0 1500000 -905\nend\n"
        for first, line in ((GOOD, 7), (text + "end\n", 11), (text + "end\n", 8)):
            for more in ("", "x y z\n"):
                said = [self.studio.ask("POST", "places", {"text": it + more, "line": line})[2]
                        for it in (first, in_units(first))]
                self.assertEqual(said[0], said[1])
        half = in_units(GOOD).replace("a move", "a mvoe")
        found = json.loads(self.studio.ask("POST", "places", {"text": half, "line": 7})[2])
        self.assertEqual((found["exact"], found["drones"]), (
            False, [["a", 0, 0, 1000000, 0], ["b", 1000000, 0, 1000000, 0]]))

    def test_second_form(self):
        """A text in `choreo 2` is judged as the same text in `choreo 1`, and its faults are of that form."""
        first, second = (self.studio.stages(it) for it in (NEAR, in_units(NEAR)))
        self.assertEqual(second["verdict"]["line"], first["verdict"]["line"])
        for stage in ("flight", "lines", "notes", "marks"):
            self.assertEqual(second[stage], first[stage])
        first, second = (self.studio.stages(it) for it in (GOOD, in_units(GOOD) + "stray 0 # none\n"))
        self.assertEqual((second["verdict"]["line"], second["margins"]), (first["verdict"]["line"], first["margins"]))
        fault = self.studio.stages(in_units(GOOD).replace("2s", "2000"))["verdict"]["fault"]
        self.assertEqual((fault["line"], fault["word"]), (4, "bad-number"))
        self.assertIn("write 2s or 2000ms", fault["row"][2])


class Saving(Case):
    def test_save(self):
        os.chmod(self.studio.path, 0o640)
        stamp = json.loads(self.studio.ask("GET", "text")[2])["stamp"]
        status, said = self.studio.post("save", text=NEAR, stamp=stamp)
        self.assertEqual((status, self.studio.read(), self.studio.read("~")), (200, NEAR.encode(), GOOD.encode()))
        self.assertEqual(os.stat(self.studio.path).st_mode & 0o777, 0o640)
        self.assertEqual(sorted(os.listdir(self.studio.folder.name)), ["show.choreo", "show.choreo~"])
        self.assertEqual(self.studio.post("save", text=GOOD, stamp=said["stamp"])[0], 200)

    def test_conflict(self):
        stamp = json.loads(self.studio.ask("GET", "text")[2])["stamp"]
        self.studio.write("theirs\n")
        status, said = self.studio.post("save", text=NEAR, stamp=stamp)
        self.assertEqual((status, self.studio.read()), (409, b"theirs\n"))
        self.assertNotEqual(said["stamp"], stamp)
        self.assertEqual(self.studio.post("save", text=NEAR, stamp=stamp, force=True)[0], 200)
        self.assertEqual((self.studio.read(), self.studio.read("~")), (NEAR.encode(), b"theirs\n"))

    def test_bytes(self):
        """Bytes of comments and line ends stay as they were."""
        for data in (b"choreo 1 # \xff\xc3\xa4 \xe2\x82\xac\n", b"choreo 1\r\n# x\r\n", b"choreo 1", b""):
            self.studio.write(data)
            text = json.loads(self.studio.ask("GET", "text")[2])
            self.assertNotIn("\r", text["text"])
            self.studio.post("save", text=text["text"], stamp=text["stamp"], ends=text["ends"])
            self.assertEqual(self.studio.read(), data)

    def test_link(self):
        """A link stays a link, and its file is written."""
        with tempfile.TemporaryDirectory() as folder:
            target, link = os.path.join(folder, "target"), os.path.join(folder, "link")
            with open(target, "w") as file:
                file.write(GOOD)
            os.symlink(target, link)
            studio = Running(None, ("--program", STAND_IN), link)
            self.addCleanup(studio.end)
            self.assertEqual(studio.post("save", text=NEAR, force=True)[0], 200)
            self.assertTrue(os.path.islink(link))
            with open(target) as file:
                self.assertEqual(file.read(), NEAR)

    def test_stampless(self):
        """Nothing is written by a page that doesn't say what it read."""
        for more in ({}, {"stamp": None}, {"force": "yes"}, {"force": 1}):
            self.assertEqual(self.studio.ask("POST", "save", {"text": NEAR, **more})[0], 400, more)
        self.assertEqual(self.studio.post("save", text=NEAR, stamp="other")[0], 409)
        self.assertEqual(self.studio.read(), GOOD.encode())

    def test_backup_is_no_way_out(self):
        """A backup that is a link is replaced, and what it leads to stays."""
        other = self.studio.path + "other"
        with open(other, "w") as file:
            file.write("other\n")
        os.symlink(other, self.studio.path + "~")
        self.assertEqual(self.studio.post("save", text=NEAR, force=True)[0], 200)
        with open(other) as file:
            self.assertEqual(file.read(), "other\n")
        self.assertEqual(self.studio.read("~"), GOOD.encode())

    def test_no_folder(self):
        os.rename(self.studio.folder.name, self.studio.folder.name + "x")
        status, said = self.studio.post("save", text=NEAR, force=True)
        os.rename(self.studio.folder.name + "x", self.studio.folder.name)
        self.assertEqual((status, "show.choreo" in said["words"]), (500, True))
        self.assertEqual(self.studio.read(), GOOD.encode())


class New(unittest.TestCase):
    def test_template(self):
        studio = Running(None)
        self.addCleanup(studio.end)
        text = json.loads(studio.ask("GET", "text")[2])
        self.assertEqual((text["new"], text["stamp"], os.listdir(studio.folder.name)), (True, "", []))
        self.assertEqual(studio.stages(text["text"])["verdict"]["status"], 0)
        self.assertEqual(choreo.form_of(text["text"].encode()), 2)
        self.assertEqual(studio.post("save", text=text["text"], stamp="")[0], 200)
        self.assertEqual(os.listdir(studio.folder.name), ["show.choreo"])
        self.assertIn("there is no file", studio.end()[2])


class Watching(Case):
    WORDS = ("--program", STAND_IN, "--watch")

    def events(self, link):
        """The data of the events of a connection, one by one."""
        for line in link:
            if line.startswith(b"data: "):
                yield json.loads(line[6:])

    def test_follows(self):
        link = http.client.HTTPConnection("127.0.0.1", int(self.studio.port), timeout=WAIT)
        link.request("GET", "/%s/events" % self.studio.token)
        answer = link.getresponse()
        self.assertEqual(answer.headers["Content-Type"], "text/event-stream")
        events = self.events(answer)
        self.assertEqual(next(events)["text"], GOOD)
        before = time.monotonic()
        self.studio.write(NEAR)
        self.assertEqual(next(events)["text"], NEAR)
        self.assertLess(time.monotonic() - before, 15)
        os.remove(self.studio.path)
        self.assertFalse(next(events)["there"])
        link.close()

    def test_never_writes(self):
        self.assertEqual(self.studio.ask("POST", "save", {"text": NEAR, "force": True})[0], 403)
        self.assertEqual(self.studio.read(), GOOD.encode())


class Buttons(Case):
    def test_cure(self):
        status, made = self.studio.post("cure", text=NEAR)
        self.assertEqual((status, len(made["choices"]) > 1), (200, True))
        self.assertIn("cured in cue 1", made["said"])
        for choice in made["choices"]:
            self.assertEqual(self.studio.stages(choice["text"])["verdict"]["status"], 0)
            self.assertTrue(any(kind == "+" and "move" in words for kind, words in choice["diff"]))
        self.assertEqual(len({choice["text"] for choice in made["choices"]}), len(made["choices"]))
        self.assertEqual(self.studio.post("cure", text=GOOD)[1]["choices"], [])
        second = self.studio.post("cure", text=in_units(NEAR))[1]["choices"][0]["text"]
        self.assertEqual((choreo.form_of(second.encode()), in_whole_numbers(second)), (2, made["choices"][0]["text"]))

    def test_deal(self):
        status, made = self.studio.post("deal", text=example("grid_to_ring"))
        self.assertEqual((status, made["status"], made["choices"][0]["words"]), (200, 0, "all formations"))
        self.assertIn("dealt anew", made["said"])
        second = self.studio.post("deal", text=in_units(example("grid_to_ring")))[1]["choices"][0]["text"]
        self.assertEqual((choreo.form_of(second.encode()), in_whole_numbers(second)), (2, made["choices"][0]["text"]))
        status, made = self.studio.post("deal", text=GOOD)
        self.assertEqual((made["choices"], "no formation" in made["said"]), ([], True))
        self.assertEqual(self.studio.read(), GOOD.encode())

    @wants_program
    def test_fly(self):
        """A flight with simulated drones, as docs/TOOLS.md says it of ./show fly."""
        studio = Running(GOOD, ())
        self.addCleanup(studio.end)
        status, made = studio.post("fly", text=GOOD)
        self.assertEqual((status, made["choices"]), (200, []))
        self.assertIn("landed", made["said"])
        self.assertIn("a at (0.00, 0.00, 0.00) m, disarmed, 1 start", made["said"])

    def test_downloads(self):
        status, _, plan = self.studio.ask("POST", "compile", {"text": GOOD})
        self.assertEqual((status, plan[:7]), (200, b"plan 1\n"))
        self.assertEqual(self.studio.post("compile", text=NEAR),
                         (409, {"words": "error 5 pair a b cue 1 part 28 of 64"}))

    def test_end(self):
        self.assertEqual(self.studio.post("end", text="")[1], {"ended": True})
        self.assertEqual(self.studio.process.wait(WAIT), 0)


class Sizes(Case):
    def test_text(self):
        long = GOOD + "#" * (1048576 - len(GOOD))
        self.assertEqual(self.studio.stages(long)["verdict"]["status"], 0)
        self.assertEqual(self.studio.stages(long + "#")["verdict"]["line"], "error 3 too-large")
        self.assertEqual(self.studio.stages(long + "#" * 5000)["status"], 413)

    def test_bodies(self):
        for body, heads, wanted in ((b"{}", {"Content-Length": "4000000000"}, 411), (b" " * 3200000, {}, 413),
                                    (b"{", {}, 400), (b"[]", {}, 400), (b'{"text":1}', {}, 400), (b"\xff", {}, 400),
                                    (b"[" * 100000, {}, 400), (b'{"text":""}', {}, 400),
                                    (b'{"text":"\\ud800","page":"p","number":1}', {}, 400),
                                    (b'{"text":"","page":"p","number":"1"}', {}, 400),
                                    (b"{}", {"Content-Length": "-1"}, 411), (b"{}", {"Content-Length": "x"}, 411)):
            self.assertEqual(self.studio.ask("POST", "judge", body, **heads)[0], wanted, (body[:40], heads))
        self.assertEqual(self.studio.stages(GOOD)["verdict"]["status"], 0)


class Program(unittest.TestCase):
    @wants_program
    def test_proved(self):
        studio = Running(GOOD, ())
        self.addCleanup(studio.end)
        found = studio.stages(GOOD)
        self.assertEqual((found["verdict"]["proved"], found["notes"]["asked"], found["flight"]["flight"]["source"]),
                         (os.path.exists(PROGRAM + ".built"), True, "play"))
        self.assertTrue(found["notes"]["drones"][0]["speed"] > 1)  # 1.09 m/s by docs/LANGUAGE.md, How fast
        self.assertEqual(found["notes"]["faults"], [])
        self.assertEqual(studio.stages(NEAR)["verdict"]["line"], "error 5 pair a b cue 1 part 28 of 64")
        fast = studio.stages(example("too_fast"))["notes"]["faults"]
        self.assertEqual([(it["line"], it["cue"]) for it in fast], [(7, 0)])
        status, _, certificate = studio.ask("POST", "certify", {"text": GOOD})
        self.assertEqual((status, certificate[:10]), (200, b"version 2\n"))

    @wants_program
    def test_regions(self):
        # The two of docs/COMMANDS.md, boxes.
        for name, said in (("shelf", "kept regions 2"),
                           ("shelf_straight", "error 15 region 2 drone solo cue 1 part 27 of 64")):
            studio = Running(example(name), ("--regions", os.path.join(TOP, "examples", "shelf.regions")))
            found = studio.stages(example(name))
            self.assertEqual((found["regions"]["line"], len(found["flight"]["flight"]["regions"])), (said, 2))
            studio.end()

    def test_none(self):
        studio = Running(GOOD, ("--program", os.path.join(TOP, "no_program")))
        self.addCleanup(studio.end)
        found = studio.stages(GOOD)
        self.assertEqual((found["verdict"]["status"], found["verdict"]["judge"], found["verdict"]["proved"],
                          found["verdict"]["program"]), (70, "tools", False, False))
        self.assertEqual((found["flight"]["flight"]["source"], found["notes"]["asked"]), ("tool", False))
        near = studio.stages(NEAR)  # nobody says of it that two are too near
        self.assertEqual((near["verdict"]["status"], near["verdict"]["line"][:12], "marks" in near),
                         (70, "no verdict: ", False))
        self.assertEqual(studio.stages("choreo 1\nx\n")["verdict"]["fault"]["word"], "bad-word")
        self.assertEqual(studio.stages(GOOD + "%%\n")["verdict"]["status"], 11)
        self.assertEqual(studio.post("compile", text=GOOD)[0], 409)
        self.assertIn("NOT PROVED", studio.end()[2])

    def test_record(self):
        """Proved is a program whose record has its own SHA-256 and the last line of its proof."""
        with tempfile.TemporaryDirectory() as folder:
            program = os.path.join(folder, "program")
            with open(program, "w") as file:
                file.write("#!/bin/sh\ncat > /dev/null\necho ok drones 2 cues 1 duration_ms 2000\n")
            os.chmod(program, 0o755)
            with open(program, "rb") as file:
                good = hashlib.sha256(file.read()).hexdigest()
            for record, proved in (({"sha256": good, "rests_on": "logic=proved and so on"}, True),
                                   ({"sha256": good, "rests_on": ""}, False),
                                   ({"sha256": "0", "rests_on": "logic=proved "}, False), ({}, False), ([], False)):
                with open(program + ".built", "w") as file:
                    json.dump(record, file)
                studio = Running(GOOD, ("--program", program))
                self.assertEqual(studio.stages(GOOD)["verdict"]["proved"], proved, record)
                studio.end()

    def test_liars(self):
        """A program that ends well without the words of its command gives no answer: no verdict, no plan."""
        with tempfile.TemporaryDirectory() as folder:
            program = os.path.join(folder, "program")
            for body in ("exit 0", "echo ok", "echo error 5 pair a b cue 1 part 0 of 64",
                         "echo ok drones 2 cues 1 duration_ms 1; echo more"):
                with open(program, "w") as file:
                    file.write("#!/bin/sh\ncat > /dev/null\n%s\n" % body)
                os.chmod(program, 0o755)
                studio = Running(GOOD, ("--program", program))
                found = studio.stages(GOOD)
                self.assertNotIn("verdict", found)
                self.assertIn("isn't the program", found["none"]["words"])
                for command in ("compile", "certify"):
                    status, words = studio.post(command, text=GOOD)
                    self.assertEqual((status, "isn't the program" in words["words"]), (409, True), (body, words))
                studio.end()

    def test_recorded_without_proof(self):
        """A program whose record has no proof isn't called one without a record; and the buttons ask the same program."""
        with tempfile.TemporaryDirectory() as folder:
            program = os.path.join(folder, "program")
            with open(program, "w") as file:
                file.write("#!/bin/sh\ncat > /dev/null\necho ok drones 2 cues 1 duration_ms 4321\n")
            os.chmod(program, 0o755)
            with open(program, "rb") as file, open(program + ".built", "w") as record:
                json.dump({"sha256": hashlib.sha256(file.read()).hexdigest()}, record)
            studio = Running(GOOD, ("--program", program))
            self.addCleanup(studio.end)
            found = studio.stages(GOOD)["verdict"]
            self.assertEqual((found["proved"], "without" in found["why"], "no record" in found["why"]), (False, True, False))
            for button, text in (("cure", GOOD), ("deal", example("grid_to_ring")), ("fly", GOOD)):
                made = studio.post(button, text=text)[1]
                self.assertIn("check: ok drones 2 cues 1 duration_ms 4321", made["said"] + made["more"], button)

    def test_fails(self):
        """A program that says nothing, and one that is ended."""
        with tempfile.TemporaryDirectory() as folder:
            program = os.path.join(folder, "program")
            for body in ("kill -9 $$", "exit 1"):
                with open(program, "w") as file:
                    file.write("#!/bin/sh\n%s\n" % body)
                os.chmod(program, 0o755)
                studio = Running(GOOD, ("--program", program))
                found = studio.stages(GOOD)
                self.assertTrue("none" in found or found["verdict"]["status"] == 1, found)
                studio.end()


class Words(unittest.TestCase):
    def run_it(self, *words):
        """The status and standard error of the tool, where it ends by itself."""
        done = forked.SHOWS.run(["show", "studio", *words], stdout=subprocess.PIPE,
                                stderr=subprocess.PIPE, universal_newlines=True, timeout=120)
        return done.returncode, done.stdout + done.stderr

    def test_words(self):
        self.assertEqual(self.run_it()[0], 2)
        self.assertEqual(self.run_it("--port", "0", "x")[0], 2)
        self.assertEqual(self.run_it("--port", "70000", "x")[0], 2)
        self.assertEqual(self.run_it("--depth", "9", "x")[0], 2)
        self.assertEqual(self.run_it("--help")[0], 0)
        for path in ("-", TOP, os.path.join(TOP, "no", "folder", "x")):
            status, said = self.run_it("--no-open", path)
            self.assertEqual((status, said.startswith("studio: ")), (70, True), path)

    def test_port(self):
        first = Running(GOOD)
        status, said = self.run_it("--no-open", "--port", first.port, first.path)
        self.assertEqual((status, "port %s" % first.port in said), (70, True))
        first.end()

    def test_same_port(self):
        """The same file has the same port, so that the browser finds the text that wasn't saved; two studios get
        two, and the second one says what it doesn't see."""
        first = Running(GOOD)
        second = forked.SHOWS.popen(["show", "studio", "--no-open", first.path],
                                    stdout=subprocess.PIPE, stderr=subprocess.PIPE, universal_newlines=True)
        other = re.search(r":(\d+)/", second.stdout.readline())[1]
        second.send_signal(signal.SIGINT)
        _, told = second.communicate(timeout=WAIT)
        self.assertNotEqual(first.port, other)
        self.assertIn("the usual port %s" % first.port, told)
        first.end()

    def test_signals(self):
        for number in (signal.SIGINT, signal.SIGTERM):
            studio = Running(GOOD, begins=True)
            studio.stages(GOOD)
            status, said, told = studio.end(number)
            self.assertEqual((status, said.strip().split("\n")[-1], "Traceback" in told), (0, "studio: ended", False))


if __name__ == "__main__":
    unittest.main()

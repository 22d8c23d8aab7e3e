"""The commands in hostile hands: closed and full streams, files without an end, missing files, and a program that isn't
the one of its record. Each ends with a status that it documents and a line, and none with a traceback."""
import ast
import hashlib
import json
import os
import resource
import shutil
import signal
import subprocess
import sys
import tempfile
import unittest

import common
from common import TOP, wants_program

SHOW = "examples/crossing.choreo"
MEMORY = 700 << 20  # bytes, many times what a tool takes
WORDS = {"why": [SHOW], "deal": ["examples/grid_to_ring.choreo"], "summary": [SHOW], "picture": [SHOW],
         "without": [SHOW, "a"], "import": ["examples/relay.csv", "--waypoints"]}
# Reads a file that never ends; and the status.
ENDLESS = [(["why", "/dev/zero"], 3), (["summary", "/dev/zero"], 3), (["without", "/dev/zero", "a"], 3),
           (["export csv", "/dev/zero", "out"], 70), (["import", "/dev/zero"], 3), (["import", "--judge", "/dev/zero"], 3),
           (["import", "--starts", "/dev/zero", "examples/eight_left.csv"], 3),
           (["export skyc", "/dev/zero", "out"], 70), (["legs --dry", "examples/crossing_cured.choreo", "/dev/zero"], 70),
           (["bridge --radio /dev/zero", "examples/crossing_cured.choreo"], 70),
           (["fly --simulate --pads /dev/zero", "examples/crossing_cured.choreo"], 70)]


def shell(line, place=TOP, most=None):
    """The status, standard output and standard error of a line of a shell, with so many bytes of memory at most."""
    def limit():
        resource.setrlimit(resource.RLIMIT_AS, (most, most))
    done = subprocess.run(["sh", "-c", line], cwd=place, stdin=subprocess.DEVNULL, stdout=subprocess.PIPE,
                          stderr=subprocess.PIPE, timeout=300, preexec_fn=limit if most else None)
    return done.returncode, done.stdout.decode(), done.stderr.decode()


class Streams(unittest.TestCase):
    def test_closed(self):
        for tool, words in WORDS.items():
            status, said, told = shell("./show %s %s >&-" % (tool, " ".join(words)))
            self.assertEqual((status, said), (70, ""), (tool, told))
            self.assertIn("%s: Bad file descriptor\n" % tool, told)
            self.assertNotIn("Traceback", told)
        for tool in ("why", "deal", "export csv", "picture", "without"):
            # What is said to a closed standard error isn't in the output, nor anywhere else.
            self.assertEqual(shell("./show %s none none 2>&-" % tool)[1], "", tool)
        self.assertEqual(shell("./show why none 2>&-"), (70, "", ""))
        self.assertEqual(shell("./show why - <&-")[:2], (70, ""))

    def test_full(self):
        if os.path.exists("/dev/full"):
            for tool in ("why", "without"):
                status, said, told = shell("./show %s %s >/dev/full" % (tool, " ".join(WORDS[tool])))
                self.assertEqual((status, said), (70, ""))
                self.assertIn("%s: No space left on device\n" % tool, told)
                self.assertNotIn("Traceback", told)

    @wants_program
    def test_lines_of_a_flight(self):
        # They are written by a thread of their own: without them there is no 0. Another status stays.
        words = "./show fly --simulate --yes --only look %s"
        cured, refused = "examples/crossing_cured.choreo", "--battery 30 examples/crossing_cured.choreo"
        self.assertEqual(shell(words % cured)[0], 0)
        for stream, wanted, told in ((">/dev/full", 70, "fly: No space left on device\n"),
                                     (">&-", 70, "fly: Bad file descriptor\n"), ("| true; exit ${PIPESTATUS[0]}", 141, "")):
            line = "%s %s" % (words % cured, stream)
            done = subprocess.run(["bash", "-c", line], cwd=TOP, stdin=subprocess.DEVNULL, stdout=subprocess.PIPE,
                                  stderr=subprocess.PIPE, timeout=300)
            self.assertEqual((done.returncode, done.stdout, done.stderr.decode()), (wanted, b"", told), stream)
        self.assertEqual(shell(words % refused + " >/dev/full"), (1, "", ""))

    def test_nobody_reads_on(self):
        for tool in ("picture", "why"):
            source, sink = os.pipe()
            os.close(source)
            done = subprocess.run(["./show", tool, SHOW], cwd=TOP, stdin=subprocess.DEVNULL, stdout=sink,
                                  stderr=subprocess.PIPE, timeout=300)
            os.close(sink)
            self.assertEqual((done.returncode, b"Traceback" in done.stderr), (141, False), done.stderr)

    def test_full_standard_error(self):
        # What is said there is lost, and the command goes on to its status, with its whole output.
        if os.path.exists("/dev/full"):
            for tool, words in WORDS.items():
                line = "./show %s %s" % (tool, " ".join(words))
                self.assertEqual(shell(line + " 2>/dev/full"), (*shell(line)[:2], ""), tool)

    def test_control_characters(self):
        # A file's name never moves a cursor or sets a colour.
        with tempfile.TemporaryDirectory() as room:
            name = os.path.join(room, "\x1b[31mred\x07\x9b2J")
            for words in (["why"], ["summary"], ["convert"], ["check"], ["export", "csv"]):
                done = subprocess.run(["./show", *words, name, *["out"][:words[0] == "export"]], cwd=TOP, stdout=subprocess.PIPE,
                                      stderr=subprocess.PIPE, timeout=300)
                said = (done.stdout + done.stderr).decode()
                self.assertIn(done.returncode, (2, 70), words)
                self.assertEqual([c for c in said if c != "\n" and not c.isprintable()], [], words)
                self.assertIn("\\x1b[31mred\\x07\\x9b2J", said)

    def test_control_characters_in_words(self):
        for words in (["why", "--\x1b[31mred", SHOW], ["why", "--most", "\x1b[31m", SHOW], ["summary", SHOW, "\x1b[2J", "\x07"]):
            done = subprocess.run(["./show", *words], cwd=TOP, stdout=subprocess.PIPE, stderr=subprocess.PIPE, timeout=300)
            self.assertEqual((done.returncode, b"\x1b" in done.stderr, b"\\x1b[" in done.stderr), (2, False, True), done.stderr)
        with tempfile.TemporaryDirectory() as room:
            name = os.path.join(room, "\x1b[31mred")
            with open(os.path.join(room, "plan"), "wb") as file:
                file.write(b"plan 1\nend\n")
            done = subprocess.run(["./show", "export", "skyc", file.name, name], cwd=TOP, stdout=subprocess.PIPE, timeout=300)
            self.assertEqual((done.returncode, b"\x1b" in done.stdout, os.path.exists(name)), (0, False, True))

    @wants_program
    def test_control_characters_among_what_is_found(self):
        # Lines with a file's name, or with a name from a file, that a tool prints where it did its work.
        with tempfile.TemporaryDirectory() as room:
            for name in ("crossing", "solo"):
                shutil.copy(os.path.join(TOP, "examples", name + ".choreo"), os.path.join(room, name + "\x1b[31m"))
            os.mkdir(os.path.join(room, "\x1b[31m"))
            with open(os.path.join(room, "log"), "w") as file:
                file.write("time,drone,x,y,z\n1,a\x1b[31m,0,0,0\n1,solo,0,0,1\n")
            for words, status, said in (
                    (["bridge", "crossing\x1b[31m"], 5, "why crossing\\x1b[31m explains the refusal"),
                    (["flown", "solo\x1b[31m", "log"], 1, "left out: a\\x1b[31m\n"),
                    (["legs", "--out", "\x1b[31m", "solo\x1b[31m"], 0, "; \\x1b[31m/up.choreo\n"),
                    (["fly", "--simulate", "--yes", "--log", "log\x1b[31m", "solo\x1b[31m"], 0,
                     "flown solo\\x1b[31m log\\x1b[31m judges them")):
                done = subprocess.run([*common.AS_BUILT, *words], cwd=room, stdin=subprocess.DEVNULL,
                                      stdout=subprocess.PIPE, stderr=subprocess.PIPE, timeout=300)
                self.assertEqual((done.returncode, b"\x1b" in done.stdout + done.stderr), (status, False), (words, done.stderr))
                self.assertIn(said, done.stdout.decode(), words)

    @wants_program
    def test_a_link_that_leaves(self):
        # The file of --link is its user's own code; a status of 0 is of an upload that was done, and of nothing else.
        with tempfile.TemporaryDirectory() as room:
            path = os.path.join(room, "link.py")
            for body, said in (("__init__(self, *_): raise SystemExit(0)", "ended the upload"),
                               ("send(self, *_): raise SystemExit", "ended the upload"),
                               ("__init__(self, *_): raise KeyError", "no link: KeyError"),
                               ("__init__(self, *_): raise SystemExit('words')", "words")):
                with open(path, "w") as file:
                    file.write("from hemtoghai.flying import links\nclass Link(links.Link):\n    def %s\n" % body)
                done = subprocess.run([*common.AS_BUILT, "bridge", "--link", path, "examples/crossing_cured.choreo"],
                                      cwd=TOP, stdout=subprocess.PIPE, stderr=subprocess.PIPE, timeout=300)
                self.assertEqual((done.returncode, done.stdout), (70, b""), (body, done.stderr))
                self.assertIn(said, done.stderr.decode())

    def test_beside_a_module_of_the_same_name(self):
        # `python3 -m hemtoghai` takes Python's own modules, and not what lies in the folder in which it is typed.
        with tempfile.TemporaryDirectory() as room:
            # `python3 -m` itself takes `re` from there in 3.9, before anything of the package runs.
            for name in ("argparse", "json", "tempfile", "struct", *["re"] * (sys.version_info >= (3, 10))):
                with open(os.path.join(room, name + ".py"), "w") as file:
                    file.write("import os\nos._exit(66)\n")
            done = subprocess.run([sys.executable, "-B", "-m", "hemtoghai", "summary", os.path.join(TOP, SHOW)], cwd=room,
                                  env={**os.environ, "PYTHONPATH": os.path.join(TOP, "python")}, stdout=subprocess.PIPE,
                                  stderr=subprocess.PIPE, timeout=300)
            self.assertEqual((done.returncode, done.stdout[:9]), (0, b"2 drones,"), done.stderr)

    @wants_program
    def test_no_such_judge(self):
        done = subprocess.run([*common.AS_BUILT, "check", "--json", SHOW], cwd=TOP, env={**os.environ, "HEMTOGHAI_BY": "evil"},
                              stdout=subprocess.PIPE, stderr=subprocess.PIPE, timeout=300)
        why, found = "HEMTOGHAI_BY is library or process, and not 'evil'", json.loads(done.stdout)
        self.assertEqual((done.returncode, found["status"], found["ok"], found["proved"], found["error"], done.stderr),
                         (70, 70, False, False, why, b"show: %s\n" % why.encode()))

    def test_early_interrupt(self):
        # Ctrl-C while the command is still being imported: no traceback, and the status of the signal.
        code = ("import builtins, os, signal, sys\nreal = builtins.__import__\n"
                "def load(name, *more, **named):\n    if name.startswith('hemtoghai.%s'):\n        os.kill(os.getpid(), signal.SIGINT)\n"
                "    return real(name, *more, **named)\nbuiltins.__import__ = load\nsys.argv = ['show', 'summary', 'examples/solo.choreo']\n"
                "exec(open('show').read(), {'__name__': '__main__', '__file__': os.path.abspath('show')})\n")
        for module, wanted in (("__main__", -signal.SIGINT), ("commands", 130)):
            done = subprocess.run([sys.executable, "-IS", "-c", code % module], cwd=TOP, stdout=subprocess.PIPE,
                                  stderr=subprocess.PIPE, timeout=300)
            self.assertEqual((done.returncode, done.stderr), (wanted, b""), module)

    def test_old_python(self):
        with open(os.path.join(TOP, "show"), encoding="utf-8") as file:
            text = file.read()
        ast.parse(text, feature_version=(3, 4))  # an older one reads it
        self.assertLess(text.index("sys.version_info"), text.index("import _signal"))  # which Python 2 hasn't
        code = "import sys\nsys.version_info = (3, 7, 16)\n" + text
        done = subprocess.run([sys.executable, "-c", code], stdout=subprocess.PIPE, stderr=subprocess.PIPE, timeout=60)
        self.assertEqual((done.returncode, done.stdout, done.stderr),
                         (70, b"", b"show: Python 3.9 or later is needed, and this is 3.7\n"))

    def test_old_python_and_the_module(self):
        with open(os.path.join(TOP, "python", "hemtoghai", "__init__.py"), encoding="utf-8") as file:
            text = file.read()
        ast.parse(text, feature_version=(3, 6))
        for words, status, said in ((["-m"], 70, "hemtoghai: %s\n"), ([""], 1, "ImportError: %s\n")):
            code = "import sys\nsys.version_info = (3, 8, 18)\nsys.argv = %r\n%s" % (words, text)
            done = subprocess.run([sys.executable, "-c", code], stdout=subprocess.PIPE, stderr=subprocess.PIPE, timeout=60)
            self.assertEqual((done.returncode, done.stdout), (status, b""))
            self.assertTrue(done.stderr.decode().endswith(said % "Python 3.9 or later is needed, and this is 3.8"), done.stderr)

    @wants_program
    def test_children_ignored(self):
        # The status is the program's too where the parent ignored SIGCHLD, which stays so in what it starts.
        for words in (["check", SHOW], ["why", SHOW], ["check", "--json", SHOW]):
            done = subprocess.run([*common.AS_BUILT, *words], cwd=TOP, stdout=subprocess.PIPE, stderr=subprocess.PIPE, timeout=300,
                                  preexec_fn=lambda: signal.signal(signal.SIGCHLD, signal.SIG_IGN))
            self.assertEqual((done.returncode, b"error 5 pair a b" in done.stdout), (5, True), (words, done.stderr))

    def test_endless(self):
        for words, wanted in ENDLESS:
            status, said, told = shell("./show " + " ".join(words), most=MEMORY)
            self.assertEqual((status, "" if said.startswith("check: ok ") else said), (wanted, ""), (words, told))
            self.assertNotIn("Traceback", told)

    def test_missing_and_odd_files(self):
        for words in (["why", "docs"], ["deal", "none/none"], ["export csv", "docs", "out"], ["import", "none.csv"],
                      ["summary", "'" + "a" * 5000 + "'"], ["without", "", "a"], ["picture", "none"]):
            status, said, told = shell("./show " + " ".join(word or "''" for word in words))
            self.assertEqual((status, said, told.count("\n")), (70, "", 1), (words, told))

    @wants_program
    def test_folders(self):
        # In the place of a file that is read or written; the line has no number of the system's, and no Python.
        cured = "examples/crossing_cured.choreo"
        for words in (["fly --simulate --log docs", cured], ["fly --simulate --pads docs", cured], ["legs --dry", cured, "docs"],
                      ["fly --simulate --script docs", cured], ["fly --radio docs", cured], ["bridge --radio docs", cured],
                      ["export skyc", cured, "docs"], ["fly --simulate --pads none/none", cured]):
            status, said, told = shell("./show " + " ".join(words))
            self.assertEqual((status, told.count("\n")), (70, 1), (words, told))
            self.assertRegex(told, "docs: Is a directory|docs is a folder|none/none: No such file", words)
            self.assertNotIn("Errno", said + told)


class Swapped(unittest.TestCase):
    """A copy of the package beside a program that accepts everything, and beside a record."""

    def setUp(self):
        folder = tempfile.TemporaryDirectory()
        self.addCleanup(folder.cleanup)
        self.place = folder.name
        for name in ("python", "docs", "examples"):
            shutil.copytree(os.path.join(TOP, name), os.path.join(self.place, name),
                            ignore=shutil.ignore_patterns("__pycache__"))
        shutil.copy(os.path.join(TOP, "show"), self.place)
        self.out = os.path.join(self.place, "crates", "show_cli", "out")
        os.makedirs(self.out)
        self.program = os.path.join(self.out, "show_cli")
        with open(self.program, "w") as file:
            file.write("#!/bin/sh\necho ok drones 2 cues 1 duration_ms 3000\n")
        os.chmod(self.program, 0o755)

    def record(self, path, **more):
        """Writes a record, or a manifest."""
        with open(os.path.join(self.place, path), "w") as file:
            json.dump(more, file)

    def test_by_its_record(self):
        record = "crates/show_cli/out/show_cli.built"
        self.record(record, sha256="0" * 64)
        self.is_refused("the program isn't the one of show_cli.built")
        with open(os.path.join(self.place, record), "w") as file:
            file.write("{ damaged")
        self.is_refused("the program isn't the one of show_cli.built")
        # The one of the record is asked.
        with open(self.program, "rb") as file:
            digest = hashlib.sha256(file.read()).hexdigest()
        self.record(record, sha256=digest)
        self.assertIn("APART", shell("./show import --judge examples/relay.csv --waypoints", self.place)[1])

    def test_by_the_manifest(self):
        names = {os.path.relpath(os.path.join(folder, name), self.place): ""
                 for folder, _, files in os.walk(os.path.join(self.place, "python")) for name in files}
        self.record("MANIFEST.json", sha256="0" * 64, files=names)
        self.is_refused("the program isn't the one of MANIFEST.json")

    def is_refused(self, line):
        """Says that no tool believes the program."""
        status, said, told = shell("./show import --judge examples/relay.csv --waypoints", self.place)
        self.assertEqual((status, "APART" in said, line in told), (70, False, True), told)
        status, said, told = shell("./show why " + SHOW, self.place)
        self.assertEqual((status, "check: ok" in said, line in said), (70, False, True), said + told)
        for words in ("bridge " + SHOW, "export skyc %s out" % SHOW, "fly --simulate --yes " + SHOW):
            status, said, told = shell("./show " + words, self.place)
            self.assertEqual((status, "check: ok" in said + told, line in told), (70, False, True), said + told)
        status, said, told = shell("./show without examples/crossing_cured.choreo a", self.place)
        self.assertEqual((status, "has no verdict: " in told, line in told), (70, True, True), told)


if __name__ == "__main__":
    unittest.main()

"""What commands write: whole files or none, none over what they read, and none over others without --force."""
import glob
import os
import resource
import signal
import subprocess
import sys
import tempfile
import unittest
from unittest import mock

import common
from common import TOP, wants_program
from hemtoghai import outputs

CROSSING, CURED = (common.example(name)[0] for name in ("crossing", "crossing_cured"))
OLD = b"an old file\n"
# Each with the files that it writes; IN is a show or its plan, OUT the place for what is written.
WRITES = [(["why", "--cured", "OUT", "IN"], CROSSING, ["OUT"]),
          (["legs", "--out", "OUT", "IN"], CURED, ["OUT/up.choreo", "OUT/down.choreo"]),
          (["export", "skyc", "PLAN", "OUT"], CURED, ["OUT"]),
          (["export", "csv", "PLAN", "OUT"], CURED, ["OUT/a.csv", "OUT/b.csv"]),
          (["bridge", "--memory", "OUT", "IN"], CURED, ["OUT/a.memory", "OUT/b.memory"]),
          (["fly", "--simulate", "--yes", "--only", "look", "--log", "OUT", "IN"], CURED, ["OUT"])]


def forced(words):
    at = 2 if words[0] == "export" else 1
    return [*words[:at], "--force", *words[at:]]


@wants_program
class Commands(common.Folder, unittest.TestCase):
    def setUp(self):
        folder = tempfile.TemporaryDirectory()
        self.addCleanup(folder.cleanup)
        self.place = folder.name

    def lay_out(self, show):
        """Writes a show, and its plan."""
        self.write("in", show)
        self.write("plan", subprocess.run([common.PROGRAM, "compile"], input=show, stdout=subprocess.PIPE).stdout)

    def run_tool(self, words, show, most=None):
        """The status and what a command said, which may write so many bytes to a file."""
        self.lay_out(show)
        for folder in {os.path.dirname(word) for word in words if "OUT/" in word}:
            os.makedirs(self.there(folder), exist_ok=True)
        done = subprocess.run([os.path.join(TOP, "show"), *map(self.there, words)], cwd=self.place, stdin=subprocess.DEVNULL,
                              stdout=subprocess.PIPE, stderr=subprocess.PIPE, timeout=300, preexec_fn=(
                                  lambda: resource.setrlimit(resource.RLIMIT_FSIZE, (most, most))) if most else None)
        self.assertNotIn(b"Traceback", done.stderr)
        return done.returncode, (done.stdout + done.stderr).decode()

    def there(self, word):
        return word.replace("OUT", self.path("out")).replace("IN", self.path("in")).replace("PLAN", self.path("plan"))

    def read(self, name):
        with open(self.there(name), "rb") as file:
            return file.read()

    def found(self):
        """All files of the folder, hidden ones among them."""
        return sorted(os.path.relpath(os.path.join(folder, name), self.place)
                      for folder, _, names in os.walk(self.place) for name in names)

    def clear(self):
        for name in self.found():
            os.remove(self.path(name))
        for folder in glob.glob(self.path("out")):
            os.rmdir(folder)

    def test_what_is_there(self):
        for words, show, written in WRITES:
            if words[0] == "legs":
                os.mkdir(self.path("out"))
            status, said = self.run_tool(words, show)
            self.assertIn(status, (0, 5), (words, said))
            whole = [self.read(name) for name in written]
            for name in written:
                for other in written:
                    os.remove(self.there(other))
                self.write(self.there(name), OLD)
                status, said = self.run_tool(words, show)
                self.assertEqual((status, self.read(name)), (70, OLD), words)
                self.assertIn("%s is there already: --force overwrites it, or give another path" % self.there(name), said)
                for other in written:
                    self.write(self.there(other), OLD)
            status, said = self.run_tool(forced(words), show)
            self.assertIn(status, (0, 5), (words, said))
            if words[0] != "fly":
                self.assertEqual([self.read(name) for name in written], whole, words)
            self.clear()

    def test_what_is_read(self):
        plan = subprocess.run([common.PROGRAM, "compile"], input=CURED, stdout=subprocess.PIPE).stdout
        for words, name, data in (
                (["why", "--cured", "IN", "IN"], "IN", CURED), (["export", "skyc", "IN", "IN"], "IN", CURED),
                (["export", "csv", "OUT/a.csv", "OUT"], "OUT/a.csv", plan),
                (["legs", "--out", "OUT", "OUT/up.choreo"], "OUT/up.choreo", CURED),
                (["legs", "--out", "OUT", "IN", "OUT/down.choreo"], "OUT/down.choreo", b"a 0 0 0\nb 1000000 0 0\n"),
                (["fly", "--simulate", "--log", "IN", "IN"], "IN", CURED),
                (["fly", "--simulate", "--pads", "OUT/a", "--log", "OUT/a", "IN"], "OUT/a", b"a 0 0 0\nb 1000000 0 0\n"),
                (["bridge", "--memory", "OUT", "OUT/a.memory"], "OUT/a.memory", CURED)):
            for given in (words, forced(words)):
                self.write(self.there(name), data)
                status, said = self.run_tool(given, CURED)
                self.assertEqual((status, self.read(name)), (70, data), (given, said))
                self.assertIn("%s is what is read: give another path" % self.there(name), said, given)
            self.clear()
        self.write("up.choreo", CURED)  # the shortest way to lose a show
        status, said = self.run_tool(["legs", self.path("up.choreo")], CURED)
        self.assertEqual((status, self.read(self.path("up.choreo"))), (70, CURED), said)

    def test_what_comes_while_it_works(self):
        # Looked at before the work too, so that is left out here: what came since then stays, without --force.
        for words, show, written in WRITES:
            if words[0] == "fly":  # its log is begun before the work
                continue
            self.lay_out(show)
            for name in written:
                self.write(self.there(name), OLD)
            for given, wanted in ((words, 70), (forced(words), 0)):
                code = ("import sys\nsys.path[:0] = [%r]\nfrom hemtoghai import __main__, outputs, streams\n"
                        "outputs.refuse = lambda *given: None\n"
                        "streams.run(lambda: __main__.main(sys.argv[1:]), sys.argv[1])\n" % common.PYTHON)
                done = subprocess.run([sys.executable, "-IS", "-c", code, *map(self.there, given)], cwd=self.place,
                                      stdin=subprocess.DEVNULL, stdout=subprocess.PIPE, stderr=subprocess.PIPE, timeout=300)
                said = done.stderr.decode()
                self.assertIn(done.returncode, (wanted, wanted or 5), (given, said))
                self.assertEqual(self.there(written[0]) + " is there already: --force overwrites it" in said, wanted == 70)
                self.assertEqual({self.read(name) == OLD for name in written}, {wanted == 70}, given)
            self.clear()

    def test_a_link_to_what_is_read(self):
        self.write("in", CURED)
        os.link(self.path("in"), self.path("out"))
        status, said = self.run_tool(["export", "skyc", "--force", "IN", "OUT"], CURED)
        self.assertEqual((status, self.read("IN")), (70, CURED), said)

    def test_no_room(self):
        # A limit for files ends a write as a full disk does. What is there already stays, and no half file.
        for words, show, written in WRITES:
            if words[0] in ("legs", "fly"):  # the program is asked about each leg, by a file as long; a log grows
                continue
            long = show + b"# " + b"x" * 6000 + b"\n" if words[0] == "why" else show
            # The program is asked about the show of why, by a file as long; the cured one is longer by two cues.
            most = {"why": len(long) + 40, "export": 200, "bridge": 4000}[words[0]]
            status, said = self.run_tool(words, long, most)
            self.assertEqual(status, 70, (words, said))
            self.assertIn("%s: File too large\n" % self.there(written[0]), said)
            self.assertEqual(self.found(), ["in", "plan"], words)
            self.assertFalse(os.path.exists(self.path("out")), words)
            for name in written:
                self.write(self.there(name), OLD)
            status, said = self.run_tool(forced(words), long, most)
            self.assertEqual((status, {self.read(name) for name in written}), (70, {OLD}), (words, said))
            self.assertEqual(len(self.found()), 2 + len(written), self.found())
            self.clear()


class Files(common.Folder, unittest.TestCase):
    def setUp(self):
        folder = tempfile.TemporaryDirectory()
        self.addCleanup(folder.cleanup)
        self.place = folder.name

    def test_mode_and_links(self):
        self.write("a", OLD, 0o640)
        os.symlink("a", self.path("b"))
        outputs.write_all({self.path("b"): b"new"})
        self.assertTrue(os.path.islink(self.path("b")))
        with open(self.path("a"), "rb") as file:
            self.assertEqual((file.read(), os.stat(self.path("a")).st_mode & 0o777), (b"new", 0o640))
        before = os.umask(0o027)
        try:
            outputs.write_all({self.path("c"): b""})
        finally:
            os.umask(before)
        self.assertEqual(os.stat(self.path("c")).st_mode & 0o777, 0o640)

    def test_devices_and_folders(self):
        outputs.write_all({os.devnull: b"x"})
        self.assertIsNone(outputs.fault_of(os.devnull, False, []))
        for force in (False, True):
            self.assertIn("is a folder: give the path of a file", outputs.fault_of(self.place, force, []))
        for path in ("", "none/a"):
            with self.assertRaises(SystemExit):
                outputs.write_all({self.path(path): b"x"})
        self.assertEqual(os.listdir(self.place), [])

    def test_all_or_none(self):
        self.write("a", OLD)
        with self.assertRaises(SystemExit):
            outputs.write_below(self.path("new/deep"), {"b": b"x", "more/b": b"x", "n" * 300: b"x"})
        with self.assertRaises(SystemExit):
            outputs.write_all({self.path("a"): b"x", self.path("none/c"): b"x"})
        self.assertEqual(os.listdir(self.place), ["a"])
        with self.assertRaises(SystemExit):
            outputs.write_below(self.path("a"), {"b": b"x"})
        with open(self.path("a"), "rb") as file:
            self.assertEqual(file.read(), OLD)
        outputs.write_below(self.path("new/deep"), {"b": b"x", "more/still/b": b"y"})
        with open(self.path("new/deep/more/still/b"), "rb") as file:
            self.assertEqual(file.read(), b"y")

    def test_links(self):
        # What was there goes, be it a file, a link to another or one to nothing; a folder doesn't.
        self.write("a", OLD)
        for name, target in (("b", "a"), ("c", "nothing")):
            os.symlink(target, self.path(name))
        for name in ("a", "b", "c", "d"):
            outputs.link_all({self.path(name): "lib.so.1"})
            self.assertEqual(os.readlink(self.path(name)), "lib.so.1")
        os.mkdir(self.path("e"))
        for name in ("e", "none/f"):
            with self.assertRaises(SystemExit) as ended:
                outputs.link_all({self.path(name): "lib.so.1"})
            self.assertEqual(ended.exception.code, 70)
        self.assertEqual(sorted(os.listdir(self.place)), ["a", "b", "c", "d", "e"])

    def test_what_came_meanwhile(self):
        # Looked at before the work, a file may have come since: it stays, and of several files none is written.
        self.write("b", OLD)
        with self.assertRaises(SystemExit) as ended:
            outputs.write_all({self.path("a"): b"new", self.path("b"): b"new"}, False)
        self.assertEqual((ended.exception.code, os.listdir(self.place)), (70, ["b"]))
        with open(self.path("b"), "rb") as file:
            self.assertEqual(file.read(), OLD)
        outputs.write_all({self.path("b"): b"new", self.path("a"): b"new"}, True)
        self.assertEqual(sorted(os.listdir(self.place)), ["a", "b"])

    def test_no_files_without_a_name(self):
        # On a system without them, or a disk on which a file has one name, the same is written.
        def no_link(*_, **named):
            raise PermissionError(1, "not permitted")
        for link in (os.link, no_link):
            with mock.patch.object(outputs, "unnamed", return_value=None), mock.patch.object(os, "link", link):
                outputs.write_all({self.path("a"): b"first"}, False)
                outputs.write_all({self.path("a"): b"second"}, True)
                with self.assertRaises(SystemExit):
                    outputs.write_all({self.path("a"): b"third"}, False)
            with open(self.path("a"), "rb") as file:
                self.assertEqual((file.read(), os.listdir(self.place)), (b"second", ["a"]))
            os.remove(self.path("a"))


class Moments(common.Folder, unittest.TestCase):
    """A process that is ended at each of its steps through outputs.py."""
    OLD, NEW = {"a": b"old a", "b": b"old b"}, {"a": b"new a" * 5000, "b": b"new b" * 5000, "c": b"new c" * 5000}

    def ended_at(self, moment, number):
        """How a process ended that writes the new files and sends itself a signal at a step; whether it came so far."""
        process = os.fork()
        if process == 0:
            steps = [0]

            def step(frame, event, _):
                if frame.f_code.co_filename == outputs.__file__:
                    steps[0] += 1
                    if steps[0] == moment:
                        os.kill(os.getpid(), number)
                    return step
            try:
                for other in (signal.SIGTERM, signal.SIGHUP):
                    signal.signal(other, signal.SIG_DFL)
                signal.signal(signal.SIGINT, signal.default_int_handler)
                sys.settrace(step)
                outputs.write_all({self.path(name): data for name, data in self.NEW.items()})
                sys.settrace(None)
            except KeyboardInterrupt:
                os._exit(130)
            os._exit(0 if steps[0] < moment else 1)
        return os.waitstatus_to_exitcode(os.waitpid(process, 0)[1])

    def is_new(self, name):
        if not os.path.exists(self.path(name)):
            return False
        with open(self.path(name), "rb") as file:
            return file.read() == self.NEW[name]

    def test_each(self):
        # In memory where that is there: some thousand files are waited for until they are on their disk.
        with tempfile.TemporaryDirectory(dir="/dev/shm" if os.path.isdir("/dev/shm") else None) as folder:
            self.place = folder
            has_unnamed = outputs.unnamed(folder)
            for number in (signal.SIGKILL, signal.SIGTERM, signal.SIGINT, signal.SIGHUP):
                moment, kept, status = 0, 0, 1
                while status != 0:
                    moment += 1
                    for name in os.listdir(folder):
                        os.remove(self.path(name))
                    for name, data in self.OLD.items():
                        self.write(name, data)
                    status = self.ended_at(moment, number)
                    self.assertIn(status, (0, 1, 130, -number), moment)
                    for name in os.listdir(folder):
                        with open(self.path(name), "rb") as file:
                            data = file.read()
                        if name in self.NEW:
                            self.assertIn(data, (self.OLD.get(name), self.NEW[name]), (number, moment, name))
                            kept += data == self.OLD.get(name)
                        elif has_unnamed is not None:  # a whole file, and only where nothing can be done before the end
                            self.assertEqual((number, data in self.NEW.values()), (signal.SIGKILL, True), (moment, name))
                    self.assertLessEqual({*self.OLD}, {*os.listdir(folder)}, (number, moment))
                    if number != signal.SIGKILL:  # all of them, or none
                        self.assertEqual(len({self.is_new(name) for name in self.NEW}), 1, (number, moment))
                self.assertGreater(moment, 60)
                self.assertGreater(kept, 60)


if __name__ == "__main__":
    unittest.main()
